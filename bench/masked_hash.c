/* The permutation on two shares against the plain one, in one run: with no entry asked for, and with one.
   With an argument, masked, traced or plain, it runs one permutation and nothing else, for callgrind. */
#include <stdint.h>
#include <string.h>
#include "timing.h"

void bench_keccak_p(uint64_t *s);
uint64_t bench_masked_keccak_p(uint64_t *s, uint64_t *t, const uint64_t *masks, size_t masks_len, uint64_t left);

enum { MASKS = 600, MIDDLE = 3912 };

static uint64_t state[25], share[25], masks[MASKS];

static void plain(void) { for (int i = 0; i < 64; i++) bench_keccak_p(state); }
static void masked(void) { for (int i = 0; i < 64; i++) bench_masked_keccak_p(state, share, masks, MASKS, 0); }
static void traced(void) { for (int i = 0; i < 64; i++) bench_masked_keccak_p(state, share, masks, MASKS, MIDDLE); }

/* the shares must join to the plain state before times mean anything */
static void agree(void) {
    uint64_t s[25], t[25], u[25];
    for (int i = 0; i < 25; i++) {
        u[i] = i * 0x0123456789abcdefu;
        t[i] = i * 0x00ff00ff00ff00ffu;
        s[i] = u[i] ^ t[i];
    }
    bench_keccak_p(u);
    bench_masked_keccak_p(s, t, masks, MASKS, 0);
    for (int i = 0; i < 25; i++) s[i] ^= t[i];
    if (memcmp(s, u, sizeof s)) {
        puts("the shares do not join to the plain permutation");
        exit(1);
    }
}

int main(int argc, char **argv) {
    for (int i = 0; i < MASKS; i++) masks[i] = (i + 1) * 0x9e3779b97f4a7c15u;
    if (argc == 2) {
        if (strcmp(argv[1], "masked") == 0) bench_masked_keccak_p(state, share, masks, MASKS, 0);
        else if (strcmp(argv[1], "traced") == 0) bench_masked_keccak_p(state, share, masks, MASKS, MIDDLE);
        else bench_keccak_p(state);
        return 0;
    }
    agree();
    compare("one permutation", "masked", masked, "plain", plain, 64);
    compare("one permutation, one entry kept", "masked", traced, "plain", plain, 64);
    return 0;
}
