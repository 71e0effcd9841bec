/* How much stack a function takes: it runs on a painted stack of its own. */
#include <stddef.h>
#include <stdint.h>
#include <string.h>
#include <ucontext.h>

static void nothing(void) {
}

/* With what the call of f itself takes. */
static size_t painted_over(void (*f)(void)) {
    enum { SIZE = 1 << 20, PAINT = 0xa5 };
    static uint8_t stack[SIZE];
    static ucontext_t here, there;
    memset(stack, PAINT, SIZE);
    getcontext(&there);
    there.uc_stack.ss_sp = stack;
    there.uc_stack.ss_size = SIZE;
    there.uc_link = &here;
    makecontext(&there, f, 0);
    swapcontext(&here, &there);
    size_t low = 0;
    while (low < SIZE && stack[low] == PAINT) low++;
    return SIZE - low;
}

/* In bytes. */
static size_t stack_of(void (*f)(void)) {
    return painted_over(f) - painted_over(nothing);
}
