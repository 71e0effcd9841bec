/* One function of this program, instruction by instruction in Unicorn, and every value that an instruction writes to a register or stores. */
#include <stddef.h>
#include <stdint.h>

/* Where a value stands: 16 general registers, the flags, 16 vectors, memory. */
enum { FLAGS = 16, VECTORS = 17, MEMORY = 33, PLACES = 34, REGISTERS = MEMORY };

typedef struct {
    uint64_t low, high;
} Value;

typedef void Seen(int place, Value v);

void emulator_open(void);

/* Runs f once, with all registers compared after every instruction: the path, and what each instruction writes. */
void emulator_survey(void (*f)(void));

/* Runs f and hands out the values in order, which are as many at every run. Ends the program where the path differs from the first one. */
void emulator_run(void (*f)(void), Seen *seen);

size_t path_length(void);
uint64_t path_address(size_t i);
uint64_t path_places(size_t i); /* a bit for each place that instruction i writes */
const char *place_name(int place);
const char *instruction_text(uint64_t address);

/* Entries to and returns from the functions at these addresses along the first run, told by their numbers. */
typedef struct {
    int after, mark;
    size_t at;
} Event;
void emulator_mark(const uint64_t *addresses, size_t n);
size_t events(const Event **list);
