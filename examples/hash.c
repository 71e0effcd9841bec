/* Hashes its argument, or "abc", with the four functions of FIPS 202, and shows a refusal. */
#include <stdio.h>
#include <string.h>
#include "../include/tifolanzo.h"

static void show(const char *name, const uint8_t *out, size_t n) {
    printf("%-8s ", name);
    for (size_t i = 0; i < n; i++) printf("%02x", out[i]);
    printf("\n");
}

int main(int argc, char **argv) {
    const char *text = argc > 1 ? argv[1] : "abc";
    const uint8_t *in = (const uint8_t *)text;
    size_t n = strlen(text);
    uint8_t out[64];
    if (tifo_sha3_256(in, n, out, 32) == 0) show("sha3-256", out, 32);
    if (tifo_sha3_512(in, n, out, 64) == 0) show("sha3-512", out, 64);
    if (tifo_shake128(in, n, out, 32) == 0) show("shake128", out, 32);
    if (tifo_shake256(in, n, out, 64) == 0) show("shake256", out, 64);
    printf("sha3-256 into 31 bytes: refused %u\n", tifo_sha3_256(in, n, out, 31));
    return 0;
}
