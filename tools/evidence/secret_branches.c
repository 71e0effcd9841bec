/* Masked decapsulation, a trace and refreshing, with both shares of the secret and of z marked undefined, for valgrind's memcheck:
 * secret_branches [branch | index] */
#include <valgrind/memcheck.h>
#include "masked_run.h"

static volatile int sink;

/* The two controls: a jump and an address that depend on a share. */
static __attribute__((noinline)) void planted_branch(void) {
    if (s0[5] & 1) __asm__ volatile("");
    else sink = 1;
}

static __attribute__((noinline)) void planted_index(void) {
    static const volatile int table[8];
    sink = table[z1[2] & 7];
}

static void hide(void) {
    prepare();
    VALGRIND_MAKE_MEM_UNDEFINED(s0, sizeof s0);
    VALGRIND_MAKE_MEM_UNDEFINED(s1, sizeof s1);
    VALGRIND_MAKE_MEM_UNDEFINED(z0, sizeof z0);
    VALGRIND_MAKE_MEM_UNDEFINED(z1, sizeof z1);
}

static void carry_out(void (*call)(void)) {
    call();
    VALGRIND_MAKE_MEM_DEFINED(&answer, sizeof answer);
    if (answer != 0) exit(2);
}

int main(int argc, char **argv) {
    hide();
    if (argc > 1 && strcmp(argv[1], "branch") == 0) planted_branch();
    if (argc > 1 && strcmp(argv[1], "index") == 0) planted_index();
    step = 100000;
    carry_out(decaps);
    hide();
    carry_out(trace);
    hide();
    carry_out(refresh);
    return 0;
}
