/* Masked decapsulation, or the trace of a step, in the emulator under two keys with one public part, of which the first accepts the ciphertext.
 *
 * usage: campaign RUNS SEED STEP CONTROL MARK..
 * RUNS under each key; STEP -1 for decapsulation; CONTROL zero-shares, both-shares, branch or another word; MARK: addresses of functions whose calls mark the stages.
 * First shares and strip are random in each run. The results go to standard output as JSON, progress to standard error. tools/campaign runs it.
 */
#include <emmintrin.h>
#include <math.h>
#include <stdio.h>
#include <time.h>
#include <unistd.h>
#include "masked_run.h"
#include "statistics.h"

enum { BINS = 600, SHOWN = 20 };
static const double SUSPECT = 4.5, LEAK = 8;

static uint8_t keys[2][DK_BYTES], secrets[2][32];
static void (*call)(void) = decaps;
static int zero_shares, both_shares, branch, runs, key_now;
static size_t value_now, values, suspects, leaks, varying, pairs_above, pairs_leaking, shares_held, fixed_joins;
static float bins[BINS];
static struct Found {
    double t;
    size_t at;
    int place;
} largest[SHOWN], held[SHOWN];

/* The rejection secret: SHAKE256 of z and the ciphertext, in round 3 of z and the ciphertext's hash. */
static void reject(const uint8_t *z_of_key, uint8_t *secret) {
    uint8_t input[32 + CT_BYTES], hash[32];
    tifo_sha3_256(ct, CT_BYTES, hash, 32);
    memcpy(input, z_of_key, 32);
    memcpy(input + 32, KYBER ? hash : ct, KYBER ? 32 : CT_BYTES);
    tifo_shake256(input, KYBER ? 64 : 32 + CT_BYTES, secret, 32);
}

/* The second key: other secret coefficients below q and another z beside the same public key and hash. */
static void make_keys(void) {
    uint8_t *z_of_second = keys[1] + DK_BYTES - 32;
    make_key();
    memcpy(keys[0], dk, DK_BYTES);
    memcpy(keys[1], dk, DK_BYTES);
    for (int i = 0; i < COEFFS; i += 2) {
        uint32_t pair = next_word() % Q | next_word() % Q << 12;
        memcpy(keys[1] + i / 2 * 3, &pair, 3);
    }
    for (int i = 0; i < 32; i++) z_of_second[i] = next_word();
    memcpy(secrets[0], k, 32);
    reject(z_of_second, secrets[1]);
}

static void draw(int key) {
    draw_coeffs(mask_coeffs, COEFFS);
    draw_words(mask_words, 4);
    draw_words(words, STRIP_WORDS);
    draw_coeffs(coeffs, STRIP_COEFFS);
    if (zero_shares) memset(mask_coeffs, 0, sizeof mask_coeffs), memset(mask_words, 0, sizeof mask_words);
    split(keys[key]);
}

/* The control for the second question: two shares of a coefficient in one register, and two of a word in one vector. */
static __attribute__((noinline)) void hold_both_shares(void) {
    uint32_t coefficient = s0[5] | (uint32_t)s1[5] << 16;
    __m128i word = _mm_set_epi64x(z1[2], z0[2]);
    __asm__ volatile("" : : "r"(coefficient), "x"(word));
}

/* The control for the path: a jump that depends on a share. */
static __attribute__((noinline)) void planted_branch(void) {
    if (s0[5] & 1) __asm__ volatile("nop");
}

static void call_all(void) {
    if (both_shares) hold_both_shares();
    if (branch) planted_branch();
    call();
}

static void fail(const char *why) {
    fprintf(stderr, "campaign: %s\n", why);
    exit(2);
}

/* What the emulator left is what the processor gives, and the secret is the key's. */
static void compare_results(int key) {
    uint64_t left[9];
    memcpy(left, k0, 32), memcpy(left + 4, k1, 32), left[8] = value;
    memset(k0, 0, 32), memset(k1, 0, 32), value = 0;
    if (answer != 0) fail("the call was refused");
    call();
    if (memcmp(left, k0, 32) || memcmp(left + 4, k1, 32) || left[8] != value) fail("the emulator's result isn't the processor's");
    for (int i = 0; i < 4; i++) k0[i] ^= k1[i];
    if (call == decaps && memcmp(k0, secrets[key], 32)) fail("the shares don't join to the secret");
}

static void take(int place, Value v) {
    observe(value_now++, key_now, place, v);
}

static void show_progress(int done, double start) {
    static int last = -1;
    struct timespec t;
    clock_gettime(CLOCK_MONOTONIC, &t);
    int part = isatty(2) ? done : 10 * done / (2 * runs);
    if (part == last) return;
    last = part;
    double left = (t.tv_sec + t.tv_nsec / 1e9 - start) / done * (2 * runs - done);
    fprintf(stderr, "%s%d of %d runs, %.0f s left %s", isatty(2) ? "\r" : "", done, 2 * runs, left, isatty(2) && done < 2 * runs ? "" : "\n");
}

static void run_all(void) {
    struct timespec t;
    for (int key = 0; key < 2; key++) draw(key), emulator_survey(call_all), compare_results(key);
    for (size_t i = 0; i < path_length(); i++) values += __builtin_popcountll(path_places(i));
    statistics_open(values);
    clock_gettime(CLOCK_MONOTONIC, &t);
    for (int i = 0; i < 2 * runs; i++) {
        key_now = i % 2;
        value_now = 0;
        draw(key_now);
        emulator_run(call_all, take);
        compare_results(key_now);
        show_progress(i + 1, t.tv_sec + t.tv_nsec / 1e9);
    }
}

/* Keeps the largest, in order, one for each instruction and place: f goes up from where its like stands, or from the end. */
static void keep(struct Found *list, struct Found f) {
    int i = 0;
    if (f.t <= list[SHOWN - 1].t) return;
    while (i < SHOWN - 1 && (list[i].place != f.place || path_address(list[i].at) != path_address(f.at))) i++;
    if (f.t <= list[i].t) return;
    for (; i > 0 && list[i - 1].t < f.t; i--) list[i] = list[i - 1];
    list[i] = f;
}

static void judge_value(size_t v, size_t at, int place, double t) {
    size_t bin = at * BINS / path_length();
    varying += varies(v, runs);
    suspects += t > SUSPECT;
    leaks += t > LEAK;
    if (t > bins[bin]) bins[bin] = t;
    keep(largest, (struct Found){t, at, place});
    for (int join = 0; join < JOINS; join++) {
        Joined j = joined(v, join);
        fixed_joins += j == FIXED;
        if (j == BOTH_SHARES && shares_held++ < SHOWN) held[shares_held - 1] = (struct Found){join, at, place};
    }
}

/* Each value once, and each register after each instruction, with the t of the value that it holds. */
static void judge(void) {
    double holds[PLACES] = {0};
    for (size_t at = 0, v = 0; at < path_length(); at++) {
        for (uint64_t left = path_places(at); left; left &= left - 1, v++) {
            int place = __builtin_ctzll(left);
            judge_value(v, at, place, holds[place] = welch(v, runs));
        }
        for (int p = 0; p < REGISTERS; p++) {
            pairs_above += holds[p] > SUSPECT;
            pairs_leaking += holds[p] > LEAK;
        }
    }
}

static void print_found(const char *name, const struct Found *list, size_t n) {
    printf(", \"%s\": [", name);
    for (size_t i = 0; i < n && i < SHOWN; i++) {
        uint64_t address = path_address(list[i].at);
        printf("%s{\"t\": %g, \"at\": %zu, \"address\": %llu, \"register\": \"%s\", \"text\": \"%s\"}", i ? ", " : "", fmin(list[i].t, 1e6), list[i].at,
               (unsigned long long)address, place_name(list[i].place), instruction_text(address));
    }
    printf("]");
}

static void print_results(void) {
    const Event *list;
    size_t n = events(&list);
    printf("{\"runs\": %d, \"instructions\": %zu, \"values\": %zu, \"varying\": %zu", runs, path_length(), values, varying);
    printf(", \"suspects\": %zu, \"leaks\": %zu", suspects, leaks);
    printf(", \"pairs\": %zu, \"pairs_above\": %zu, \"pairs_leaking\": %zu", path_length() * REGISTERS, pairs_above, pairs_leaking);
    printf(", \"both_shares\": %zu, \"fixed_joins\": %zu, \"bins\": [", shares_held, fixed_joins);
    for (int i = 0; i < BINS; i++) printf("%s%.3f", i ? ", " : "", fmin(bins[i], 1e6));
    printf("], \"events\": [");
    for (size_t i = 0; i < n; i++) printf("%s[%d, %d, %zu]", i ? ", " : "", list[i].after, list[i].mark, list[i].at);
    printf("]");
    print_found("largest", largest, SHOWN);
    print_found("held", held, shares_held);
    printf("}\n");
}

int main(int argc, char **argv) {
    uint64_t marks[8];
    if (argc < 5 || argc > 13) return 2;
    runs = atoi(argv[1]);
    seed = strtoull(argv[2], 0, 10);
    if (argv[3][0] != '-') call = trace, step = strtoull(argv[3], 0, 10);
    zero_shares = strcmp(argv[4], "zero-shares") == 0;
    both_shares = strcmp(argv[4], "both-shares") == 0;
    branch = strcmp(argv[4], "branch") == 0;
    for (int i = 5; i < argc; i++) marks[i - 5] = strtoull(argv[i], 0, 0);
    if (runs < 2) fail("two runs or more");
    make_keys();
    emulator_open();
    emulator_mark(marks, argc - 5);
    run_all();
    judge();
    print_results();
    return 0;
}
