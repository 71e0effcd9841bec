/* Refreshing against a copy of the same bytes, both shares of the secret and of z, in one run.
 * Told once, it refreshes once and does nothing else, for callgrind; told stack, it prints the stack. */
#include <stdio.h>
#include "masked_run.h"
#include "stack.h"
#include "timing.h"

enum { TIMES = 256 };
static uint16_t copy0[COEFFS], copy1[COEFFS];
static uint64_t copy_z0[4], copy_z1[4];

static void copy(void) {
    memcpy(copy0, s0, sizeof s0);
    memcpy(copy1, s1, sizeof s1);
    memcpy(copy_z0, z0, sizeof z0);
    memcpy(copy_z1, z1, sizeof z1);
    __asm__ volatile("" : : : "memory");
}

static void refresh_often(void) { for (int i = 0; i < TIMES; i++) refresh(); }
static void copy_often(void) { for (int i = 0; i < TIMES; i++) copy(); }

/* the key must be the one that was copied, under other shares, before times mean anything */
static void agree(void) {
    int same = 1, moved = 0;
    copy();
    refresh();
    for (int i = 0; i < COEFFS; i++) {
        same &= (s0[i] + s1[i]) % Q == (copy0[i] + copy1[i]) % Q;
        moved |= s0[i] != copy0[i];
    }
    for (int i = 0; i < 4; i++) same &= (z0[i] ^ z1[i]) == (copy_z0[i] ^ copy_z1[i]);
    if (answer != 0 || !same || !moved) {
        puts("the fresh shares do not join to the key");
        exit(1);
    }
}

int main(int argc, char **argv) {
    prepare();
    if (argc > 1 && strcmp(argv[1], "once") == 0) refresh();
    else if (argc > 1) printf("stack: %zu bytes\n", stack_of(refresh));
    else {
        agree();
        compare("refreshing", "ours", refresh_often, "copy", copy_often, TIMES);
    }
    return answer;
}
