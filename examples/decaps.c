/* Makes a key, imports it split for two uses, encapsulates, decapsulates on the shares, and compares the two secrets; refreshes the shares when
 * they are used up; then looks at one step of the run. */
#include <stdio.h>
#include <stdlib.h>
#include <string.h>
#include <sys/random.h>
#include "../include/tifolanzo.h"

/* ML-KEM-768. For ML-KEM-512 the numbers behind the rank are 768, 9588, 6400, 155928, and for ML-KEM-1024 1568, 15192, 9472, 242052.
 * Kyber round 3 has calls of its own, tifo_kyber_keygen and so on, with the same import, and other STRIP_WORDS and STEPS:
 * 6588, 116638 for Kyber512, 6950, 124930 for Kyber768, 8592, 155614 for Kyber1024. */
enum { RANK = TIFO_ML_KEM_768, CT_BYTES = 1088, STRIP_WORDS = 11750, STRIP_COEFFS = 7424, STEPS = 187794 };
enum { COEFFS = 256 * RANK, EK_BYTES = 384 * RANK + 32, PUB_BYTES = EK_BYTES + 32, DK_BYTES = 384 * RANK + PUB_BYTES + 32 };
static uint8_t d[32], z[32], m[32], ek[EK_BYTES], dk[DK_BYTES], ct[CT_BYTES], k[32], opened[32], pub[PUB_BYTES];
static uint16_t mask_coeffs[COEFFS], s0[COEFFS], s1[COEFFS], coeffs[STRIP_COEFFS];
static uint64_t mask_words[4], z0[4], z1[4], words[STRIP_WORDS], k0[4], k1[4];
static uint32_t limit, count; /* kept with the split key */

static void fill(void *out, size_t n) {
    for (uint8_t *at = out; n > 0;) {
        ssize_t got = getrandom(at, n, 0);
        if (got <= 0) {
            perror("getrandom");
            exit(1);
        }
        at += got;
        n -= (size_t)got;
    }
}

/* Uniform below 3329: of 12 random bits, what isn't below is drawn again. */
static void fill_coeffs(uint16_t *out, size_t n) {
    for (size_t i = 0; i < n;) {
        uint16_t draws[256];
        fill(draws, sizeof draws);
        for (size_t j = 0; j < 256 && i < n; j++)
            if ((draws[j] & 4095) < 3329) out[i++] = draws[j] & 4095;
    }
}

static void carried_out(const char *call, uint32_t answer) {
    if (answer == 0) return;
    fprintf(stderr, "%s: refused %u\n", call, answer);
    exit(1);
}

static void new_strip(void) {
    fill(words, sizeof words);
    fill_coeffs(coeffs, STRIP_COEFFS);
}

static void new_masks(void) {
    fill_coeffs(mask_coeffs, COEFFS);
    fill(mask_words, sizeof mask_words);
}

static uint32_t decaps(void) {
    new_strip();
    return tifo_decaps(RANK, s0, COEFFS, s1, COEFFS, z0, 4, z1, 4, pub, PUB_BYTES, limit, &count, ct, CT_BYTES, words, STRIP_WORDS,
                       coeffs, STRIP_COEFFS, k0, 4, k1, 4);
}

static void decapsulate(void) {
    carried_out("tifo_decaps", decaps());
    /* Joined here only to compare. */
    for (size_t i = 0; i < 32; i++) opened[i] = (uint8_t)((k0[i / 8] ^ k1[i / 8]) >> (8 * (i % 8)));
}

static uint32_t trace(uint64_t step, uint64_t *value) {
    new_strip();
    return tifo_trace(RANK, s0, COEFFS, s1, COEFFS, z0, 4, z1, 4, pub, PUB_BYTES, ct, CT_BYTES, words, STRIP_WORDS, coeffs, STRIP_COEFFS,
                      step, value);
}

static void expect(int holds, const char *what) {
    printf("%s%s\n", holds ? "" : "WRONG: not ", what);
    if (!holds) exit(1);
}

int main(void) {
    fill(d, 32);
    fill(z, 32);
    fill(m, 32);
    carried_out("tifo_keygen", tifo_keygen(RANK, d, 32, z, 32, ek, EK_BYTES, dk, DK_BYTES));
    carried_out("tifo_encaps", tifo_encaps(RANK, ek, EK_BYTES, m, 32, ct, CT_BYTES, k, 32));
    new_masks();
    carried_out("tifo_import", tifo_import(RANK, dk, DK_BYTES, mask_coeffs, COEFFS, mask_words, 4, 2, s0, COEFFS, s1, COEFFS, z0, 4, z1, 4,
                                           pub, PUB_BYTES, &limit, &count));
    decapsulate();
    expect(memcmp(opened, k, 32) == 0, "decapsulation opens the secret of encapsulation");
    ct[0] ^= 1;
    decapsulate();
    expect(memcmp(opened, k, 32) != 0, "a changed ciphertext opens another secret");
    expect(decaps() == 11, "a third use is refused");
    new_masks();
    carried_out("tifo_refresh", tifo_refresh(RANK, mask_coeffs, COEFFS, mask_words, 4, s0, COEFFS, s1, COEFFS, z0, 4, z1, 4, &count));
    ct[0] ^= 1;
    decapsulate();
    expect(memcmp(opened, k, 32) == 0, "with fresh shares decapsulation opens the secret again");
    uint64_t value = 0;
    carried_out("tifo_trace", trace(STEPS - 1, &value));
    printf("trace of the last step, %d: %016llx\n", STEPS - 1, (unsigned long long)value);
    printf("trace of step %d: refused %u\n", STEPS, trace(STEPS, &value));
    return 0;
}
