/* Our hashes against the C version in keccak_c.c, in one run: each pair is timed in turns, and the medians are compared.
   With an argument, ours or c, it runs one permutation and nothing else, for callgrind. */
#include <string.h>
#include "../include/tifolanzo.h"
#include "keccak_c.h"
#include "timing.h"

void bench_keccak_p(uint64_t *s);

enum { BYTES = 4096 };

static uint64_t state[25];
static uint8_t input[BYTES], output[BYTES];

static void our_permutation(void) { for (int i = 0; i < 64; i++) bench_keccak_p(state); }
static void c_permutation(void) { for (int i = 0; i < 64; i++) c_keccak_p(state); }
static void our_sha3_512(void) { tifo_sha3_512(input, BYTES, output, 64); }
static void c_sha3_512(void) { c_sponge(72, 0x06, input, BYTES, output, 64); }
static void our_shake128(void) { tifo_shake128(input, 32, output, BYTES); }
static void c_shake128(void) { c_sponge(168, 0x1f, input, 32, output, BYTES); }

/* the two must agree before their times mean anything */
static void agree(void) {
    uint64_t s[25], t[25];
    uint8_t a[BYTES], b[BYTES];
    for (int i = 0; i < 25; i++) s[i] = t[i] = i * 0x0123456789abcdefu;
    bench_keccak_p(s);
    c_keccak_p(t);
    tifo_shake128(input, 333, a, BYTES);
    c_sponge(168, 0x1f, input, 333, b, BYTES);
    if (memcmp(s, t, sizeof s) || memcmp(a, b, BYTES)) {
        puts("ours and C differ");
        exit(1);
    }
}

int main(int argc, char **argv) {
    for (int i = 0; i < BYTES; i++) input[i] = i % 251;
    if (argc == 2) {
        if (strcmp(argv[1], "ours") == 0) bench_keccak_p(state);
        else c_keccak_p(state);
        return 0;
    }
    agree();
    compare("one permutation", "ours", our_permutation, "C", c_permutation, 64);
    compare("SHA3-512 absorbing 4,096 bytes", "ours", our_sha3_512, "C", c_sha3_512, 1);
    compare("SHAKE128 squeezing 4,096 bytes", "ours", our_shake128, "C", c_shake128, 1);
    return 0;
}
