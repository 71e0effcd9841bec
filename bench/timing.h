/* Two functions timed in turns, in one run, by the medians of their times. */
#include <stdio.h>
#include <stdlib.h>
#include <time.h>

enum { TURNS = 201 };

static double microseconds(void (*f)(void)) {
    struct timespec a, b;
    clock_gettime(CLOCK_MONOTONIC, &a);
    f();
    clock_gettime(CLOCK_MONOTONIC, &b);
    return (b.tv_sec - a.tv_sec) * 1e6 + (b.tv_nsec - a.tv_nsec) / 1e3;
}

static int by_size(const void *a, const void *b) {
    double x = *(const double *)a, y = *(const double *)b;
    return (x > y) - (x < y);
}

/* each function does its work so many times in one call */
static void compare(const char *name, const char *first, void (*f)(void), const char *second, void (*g)(void), int times) {
    double a[TURNS], b[TURNS];
    for (int i = 0; i < TURNS; i++) {
        a[i] = microseconds(f);
        b[i] = microseconds(g);
    }
    qsort(a, TURNS, sizeof *a, by_size);
    qsort(b, TURNS, sizeof *b, by_size);
    double x = a[TURNS / 2] / times, y = b[TURNS / 2] / times;
    printf("%-34s %s %8.3f us   %s %8.3f us   ratio %.2f\n", name, first, x, second, y, x / y);
}
