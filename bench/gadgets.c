/* One call of one gadget, for callgrind: adder, compress, sampler or fold; its depth, width or number of words; the
   entry to keep (0: none); and whether what is lent is taken or refused by the last test, a coefficient's range or the
   number of masks. */
#include <stdint.h>
#include <stdlib.h>
#include <string.h>

uint64_t bench_adder(size_t d, const uint64_t *x, const uint64_t *y, const uint64_t *masks, size_t masks_len,
                     uint64_t left);
uint64_t bench_compress(size_t d, const uint16_t *x0, size_t n0, const uint16_t *x1, size_t n1, const uint64_t *masks,
                        size_t masks_len, uint64_t left);
uint64_t bench_sampler(size_t eta, uint64_t b0, uint64_t b1, const uint16_t *masks, size_t masks_len,
                       uint64_t left);
uint64_t bench_fold(const uint64_t *w0, size_t n0, const uint64_t *w1, size_t n1, const uint64_t *masks,
                    size_t masks_len, uint64_t left);

enum { WORDS = 196, COEFFS = 6 };
static uint64_t x[WORDS], y[WORDS], masks[WORDS + 5];
static uint16_t f[64], g[64], coeffs[COEFFS];
static volatile uint64_t kept;

int main(int argc, char **argv) {
    for (int i = 0; i < WORDS; i++) x[i] = (i + 1) * 0x9e3779b97f4a7c15u, y[i] = (i + 7) * 0xbf58476d1ce4e5b9u;
    for (int i = 0; i < WORDS + 5; i++) masks[i] = (i + 3) * 0x94d049bb133111ebu;
    for (int i = 0; i < 64; i++) f[i] = x[i] % 3329, g[i] = y[i] % 3329;
    for (int i = 0; i < COEFFS; i++) coeffs[i] = 1300 * i % 3329;
    if (argc != 5) return 2;
    size_t size = strtoull(argv[2], 0, 10);
    uint64_t left = strtoull(argv[3], 0, 10);
    int refused = strcmp(argv[4], "refused") == 0;
    if (size > WORDS) return 2;
    if (refused) g[63] = coeffs[COEFFS - 1] = 3329;
    if (strcmp(argv[1], "adder") == 0) kept = bench_adder(size, x, y, masks, 3 * size + 38 - refused, left);
    if (strcmp(argv[1], "compress") == 0) kept = bench_compress(size, f, 64, g, 64, masks, 3 * size + 38, left);
    if (strcmp(argv[1], "sampler") == 0) kept = bench_sampler(size, x[0], y[0], coeffs, COEFFS, left);
    if (strcmp(argv[1], "fold") == 0) kept = bench_fold(x, size, y, size, masks, size + 5 - refused, left);
    return 0;
}
