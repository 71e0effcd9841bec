#include "statistics.h"
#include <math.h>
#include <stdlib.h>

enum { Q = 3329 };

static struct Sums {
    uint32_t weight[2], square[2];
} *sums;
static struct Parts {
    Value first[2];                /* of the first run under each key */
    uint8_t same[2], differing[2]; /* joins that were the same in all runs; joins whose parts differed in some */
    uint8_t seen[2], vector;
} *parts;

void statistics_open(size_t values) {
    sums = calloc(values, sizeof *sums);
    parts = calloc(values, sizeof *parts);
    if (!sums || !parts) exit(2);
}

static uint64_t sixteen(Value v, int i) {
    return (i < 4 ? v.low >> 16 * i : v.high >> 16 * (i - 4)) & 0xffff;
}

static uint64_t first_part(Value v, int join, int vector) {
    if (join > 0) return sixteen(v, join - 1);
    return vector ? v.low : v.low & 0xffffffff;
}

static uint64_t join_of(Value v, int join, int vector) {
    if (join > 0) return (sixteen(v, join - 1) + sixteen(v, join)) % Q;
    return vector ? v.low ^ v.high : (v.low ^ v.low >> 32) & 0xffffffff;
}

static void observe_parts(struct Parts *p, int key, int place, Value v) {
    if (!p->seen[key]) {
        p->seen[key] = 1;
        p->vector = place == MEMORY ? v.high != 0 : place >= VECTORS;
        p->first[key] = v;
        p->same[key] = place == FLAGS ? 0 : p->vector ? 0xff : 0x0f;
        return;
    }
    for (unsigned left = p->same[key]; left; left &= left - 1) {
        int join = __builtin_ctz(left);
        uint8_t bit = 1 << join;
        if (join_of(v, join, p->vector) != join_of(p->first[key], join, p->vector)) p->same[key] &= ~bit;
        if (first_part(v, join, p->vector) != first_part(p->first[key], join, p->vector)) p->differing[key] |= bit;
    }
}

void observe(size_t value, int key, int place, Value v) {
    uint32_t weight = __builtin_popcountll(v.low) + __builtin_popcountll(v.high);
    sums[value].weight[key] += weight;
    sums[value].square[key] += weight * weight;
    observe_parts(&parts[value], key, place, v);
}

static double variance(size_t value, int key, double n) {
    double sum = sums[value].weight[key];
    return (sums[value].square[key] - sum * sum / n) / (n - 1);
}

int varies(size_t value, int runs) {
    return variance(value, 0, runs) + variance(value, 1, runs) > 1e-9;
}

double welch(size_t value, int runs) {
    double n = runs, apart = (sums[value].weight[0] - (double)sums[value].weight[1]) / n;
    double error = (variance(value, 0, n) + variance(value, 1, n)) / n;
    if (error > 1e-9 / n) return fabs(apart) / sqrt(error);
    return apart == 0 ? 0 : INFINITY;
}

Joined joined(size_t value, int join) {
    const struct Parts *p = &parts[value];
    int a = p->same[0] & p->differing[0] & 1 << join, b = p->same[1] & p->differing[1] & 1 << join;
    if (!a || !b) return NO_SHARES;
    int same = join_of(p->first[0], join, p->vector) == join_of(p->first[1], join, p->vector);
    return same ? FIXED : BOTH_SHARES;
}
