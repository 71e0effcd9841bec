/* One key made, one encapsulation and one import, for callgrind, which counts one of the calls.
 * Told stack, it prints the stack of each: all have run by then, so that nothing of the C library is looked up. */
#include <stdio.h>
#include "masked_run.h"
#include "stack.h"

static void import(void) {
    split(dk);
}

static void print_stack(void) {
    printf("stack: key making %zu bytes", stack_of(make_pair));
    printf(", encapsulation %zu, import %zu\n", stack_of(encapsulate), stack_of(import));
}

int main(int argc, char **argv) {
    make_key();
    import();
    if (argc > 1 && strcmp(argv[1], "stack") == 0) print_stack();
    return 0;
}
