/* What member and union cost: the check of a set's bytes, the whole question, which judges the rules where they stand, a
 * union of the set with itself, and a basic set decoded into a struct first; of rules without and with their own
 * numbers. Least of many rounds. */
#define _POSIX_C_SOURCE 200809L
#include "../../host/layout.h"
#include <stdint.h>
#include <stdio.h>
#include <stdlib.h>
#include <string.h>
#include <time.h>

uint32_t probe_check(size_t, const uint8_t *, size_t);
uint64_t probe_member(size_t, const uint8_t *, size_t, int32_t, int32_t, int32_t, int32_t, int32_t, int32_t, int32_t, int32_t);
size_t probe_union(size_t, const uint8_t *, size_t, const uint8_t *, size_t, uint8_t *, size_t);
size_t probe_tests(size_t, const uint8_t *, size_t, size_t);

enum { AXES = 5, SETS = 5, DIVISIONS = 2, RULES = 13, ROUNDS = 3000, CALLS = 100 };

static double now(void)
{
    struct timespec t;
    clock_gettime(CLOCK_MONOTONIC, &t);
    return (double)t.tv_sec * 1e9 + (double)t.tv_nsec;
}

static uint8_t *basic_set(uint8_t *s, uint8_t rule_code)
{
    const command *division = command_of(DIVISION_CODE), *rule = command_of(rule_code);
    *s++ = OPENING_CODE;
    for (int d = 0; d < DIVISIONS; d++, s += division->bytes) {
        s[0] = division->code;
        s[1] = 10;
        for (int i = 0; i < AXES; i++) s[axes_place(division) + 2 * (size_t)i] = (uint8_t)(rand() % 5);
    }
    for (int c = 0; c < RULES; c++, s += rule->bytes) {
        s[0] = rule->code;
        s[1] = (uint8_t)(c + 1); /* its number, or the constant's first byte */
        s[rule->constant] = (uint8_t)rand();
        for (int i = 0; i < AXES; i++) s[axes_place(rule) + 2 * (size_t)i] = (uint8_t)(rand() % 5);
        for (int i = 0; i < DIVISIONS; i++) s[divisions_place(rule) + 2 * (size_t)i] = (uint8_t)(rand() % 3);
    }
    return s;
}

#define LEAST(best, call) \
    do { \
        double from = now(); \
        for (int i = 0; i < CALLS; i++) sum += (call); \
        double each = (now() - from) / CALLS; \
        if (each < best) best = each; \
    } while (0)

/* of a set whose rules have this command */
static uint64_t measure(uint8_t rule_code)
{
    static uint8_t set[SETS * LONGEST_BASIC_SET], result[2 * sizeof set];
    memset(set, 0, sizeof set);
    srand(1);
    uint8_t *end = basic_set(set, rule_code);
    size_t one = (size_t)(end - set), all;
    for (int b = 1; b < SETS; b++) end = basic_set(end, rule_code);
    all = (size_t)(end - set);
    double check = 1e9, member = 1e9, joined = 1e9, alone = 1e9, decoded = 1e9;
    uint64_t sum = 0;
    if (probe_check(AXES, set, all) != 0) return 0; /* a library from before request 6 */
    for (int r = 0; r < ROUNDS; r++) {
        LEAST(check, probe_check(AXES, set, all));
        LEAST(member, probe_member(AXES, set, all, -3, 4, -7, 2, 9, 0, 0, 0));
        LEAST(joined, probe_union(AXES, set, all, set, all, result, 2 * all));
        LEAST(alone, probe_check(AXES, set, one));
        LEAST(decoded, probe_tests(AXES, set, one, 0));
    }
    printf("%d basic sets, rules by %02x, %zu bytes: check %.0f ns, ", SETS, rule_code, all, check);
    printf("member %.0f ns (%d basic sets judged from their bytes: %.0f ns)\n", member, SETS, member - check);
    printf("union with itself: %.0f ns (beside the check of both: %.0f ns)\n", joined, joined - 2 * check);
    printf("one basic set, %zu bytes: check %.0f ns; check, decode and a tableau of 9 KB set to 0: %.0f ns\n", one, alone, decoded);
    return sum;
}

int main(void)
{
    uint64_t sum = measure(INEQUALITY_CODE);
    sum += measure(NUMBERED_INEQUALITY_CODE);
    return sum == 0;
}
