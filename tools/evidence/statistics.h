/* Two questions to each value of a run, over many runs under two keys: does its Hamming weight follow the key, and are its parts both shares of something? */
#include "emulator.h"

void statistics_open(size_t values);
void observe(size_t value, int key, int place, Value v);

/* Welch's t of the weights under the two keys; infinite where each is constant and they differ. */
double welch(size_t value, int runs);

/* Whether the weight differs from run to run. */
int varies(size_t value, int runs);

/* Joins of a value's parts: of its two halves by exclusive or (join 0), of neighbouring 16-bit parts modulo q (join 1 and on). */
enum { JOINS = 8 };
typedef enum { NO_SHARES, FIXED, BOTH_SHARES } Joined;

/* BOTH_SHARES: under each key the join is the same in all runs while the parts differ from run to run, and it isn't the same under both keys.
 * FIXED: it is the same whatever the key, as that of a word beside itself or of a number beside its negative. */
Joined joined(size_t value, int join);
