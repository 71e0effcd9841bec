/* Masked decapsulation of a true ciphertext, for callgrind and for its stack: decaps, trace STEP or stack. */
#include <stdio.h>
#include "masked_run.h"
#include "stack.h"

int main(int argc, char **argv) {
    if (argc < 2) return 2;
    prepare();
    if (strcmp(argv[1], "stack") == 0) {
        printf("stack: decapsulation %zu bytes, trace %zu\n", stack_of(decaps), stack_of(trace));
        return answer;
    }
    if (argc > 2) step = strtoull(argv[2], 0, 10);
    strcmp(argv[1], "trace") == 0 ? trace() : decaps();
    for (int i = 0; i < 4; i++)
        if (strcmp(argv[1], "decaps") == 0 && memcmp(&(uint64_t){k0[i] ^ k1[i]}, k + 8 * i, 8) != 0) return 3;
    return answer;
}
