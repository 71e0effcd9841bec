/* A key, its split, a ciphertext that it accepts, and a strip, in buffers of this program, and the two masked calls and refreshing on them.
 * The parameter set is the compiler's to be told: KYBER (0 or 1), RANK, CT_BYTES, STRIP_WORDS, STRIP_COEFFS (`defines` in tools/models/parameters.py). */
#include <stdlib.h>
#include <string.h>
#include "tifolanzo.h"

#if KYBER
#define CALL(name) tifo_kyber_##name
#else
#define CALL(name) tifo_##name
#endif

enum { LIMIT = 1000000 };
enum { Q = 3329, COEFFS = 256 * RANK, EK_BYTES = 384 * RANK + 32, PUB_BYTES = EK_BYTES + 32, DK_BYTES = 384 * RANK + PUB_BYTES + 32 };
static uint8_t d[32] = {1}, z[32] = {2}, m[32] = {3}, ek[EK_BYTES], dk[DK_BYTES], ct[CT_BYTES], k[32], pub[PUB_BYTES];
static uint16_t mask_coeffs[COEFFS], s0[COEFFS], s1[COEFFS], coeffs[STRIP_COEFFS];
static uint64_t mask_words[4], z0[4], z1[4], words[STRIP_WORDS], k0[4], k1[4], step, value, seed;
static uint32_t answer, limit, count;

static inline uint64_t next_word(void) {
    seed += 0x9e3779b97f4a7c15u;
    uint64_t y = (seed ^ seed >> 30) * 0xbf58476d1ce4e5b9u;
    y = (y ^ y >> 27) * 0x94d049bb133111ebu;
    return y ^ y >> 31;
}

static inline void draw_words(uint64_t *to, int n) {
    for (int i = 0; i < n; i++) to[i] = next_word();
}

static inline void draw_coeffs(uint16_t *to, int n) {
    for (int i = 0; i < n; i++) to[i] = next_word() % Q;
}

static inline void make_pair(void) {
    if (CALL(keygen)(RANK, d, 32, z, 32, ek, EK_BYTES, dk, DK_BYTES) != 0) exit(2);
}

static inline void encapsulate(void) {
    if (CALL(encaps)(RANK, ek, EK_BYTES, m, 32, ct, CT_BYTES, k, 32) != 0) exit(2);
}

static inline void make_key(void) {
    make_pair();
    encapsulate();
}

static inline void split(const uint8_t *key) {
    if (tifo_import(RANK, key, DK_BYTES, mask_coeffs, COEFFS, mask_words, 4, LIMIT, s0, COEFFS, s1, COEFFS, z0, 4, z1, 4, pub, PUB_BYTES,
                    &limit, &count) != 0) exit(2);
}

static inline void prepare(void) {
    draw_coeffs(mask_coeffs, COEFFS);
    draw_words(mask_words, 4);
    draw_words(words, STRIP_WORDS);
    draw_coeffs(coeffs, STRIP_COEFFS);
    make_key();
    split(dk);
}

static inline void decaps(void) {
    answer = CALL(decaps)(RANK, s0, COEFFS, s1, COEFFS, z0, 4, z1, 4, pub, PUB_BYTES, limit, &count, ct, CT_BYTES, words, STRIP_WORDS,
                          coeffs, STRIP_COEFFS, k0, 4, k1, 4);
}

static inline void refresh(void) {
    answer = tifo_refresh(RANK, mask_coeffs, COEFFS, mask_words, 4, s0, COEFFS, s1, COEFFS, z0, 4, z1, 4, &count);
}

static inline void trace(void) {
    answer = CALL(trace)(RANK, s0, COEFFS, s1, COEFFS, z0, 4, z1, 4, pub, PUB_BYTES, ct, CT_BYTES, words, STRIP_WORDS, coeffs, STRIP_COEFFS,
                         step, &value);
}
