/* Two threads at once: each repeats the same calls on tables of its own, and every answer is that of the first round. */
#include <pthread.h>
#include <stdio.h>
#include <string.h>

#include "pitsets.h"
#include "writing.h"

enum { ROUNDS = 2000 };

/* 0 ≤ x ≤ 2186, and the points with floor(x / 10) = 218 (document 01, "Worked on the board") */
static table range, tenth;

static void write_sets(void)
{
    const int16_t up[8] = {1}, down[8] = {-1}, none[8] = {0};
    basic_set(&range);
    at_least_0(&range, 0, up, 0);
    at_least_0(&range, 2186, down, 0);
    basic_set(&tenth);
    division(&tenth, 10, 0, up);
    exactly_0(&tenth, -218, none, 1);
}

/* of the difference: in, out, in, out */
static const int32_t fleet[4] = {2179, 2180, 0, -1};

/* 2150 to 2179 are left of 2150 to 2213, 64 values, each of which is tested */
static int counted(const uint8_t *set, size_t length, int round)
{
    const int32_t low = 2150, high = 2213;
    uint32_t counts[PITSETS_COUNTS], tested = 0;
    memset(counts, round & 0xFF, sizeof counts);
    int64_t whole = pitsets_counts_in(1, set, length, &low, &high, 1, 64, counts, PITSETS_COUNTS, &tested);
    if (whole != 30 || tested != 64) return 0;
    for (int i = 0; i < PITSETS_COUNTS; i++)
        if (counts[i] != (i < 30)) return 0;
    return pitsets_count_in(1, set, length, &low, &high, 63, &tested) == PITSETS_SPENT && tested == 63;
}

/* of 2170 to 2185 those from 2180 on are not left, which is what the call leaves */
static int ranged(const uint8_t *set, size_t length, int round)
{
    const int32_t low[8] = {2170}, high[8] = {2185};
    uint8_t outside[200];
    int64_t in[8], out[8];
    size_t size = 0;
    memset(outside, round & 0xFF, sizeof outside);
    memset(in, round & 0xFF, sizeof in);
    memset(out, round & 0xFF, sizeof out);
    int64_t said = pitsets_range(1, set, length, low, high, 1, 11, outside, sizeof outside, &size, in, out);
    if (said != PITSETS_DEPENDS || size != 135 || outside[size]) return 0;
    return in[0] == 2170 && out[0] == 2180 && !in[7] && !out[7];
}

/* over the points with floor(x / 10) = 218, the least 2 x − 5000 is −640 and the greatest −622 */
static int weighed(int round)
{
    const int32_t axes[8] = {2}, divisions[8] = {0};
    pitsets_fraction v;
    memset(&v, round & 0xFF, sizeof v);
    int64_t r = pitsets_least(1, tenth.bytes, tenth.length, 1, -5000, axes, divisions, &v);
    if (r != PITSETS_VALUE || pitsets_double(&v) != -640 || v.denominator.low != 1 || v.denominator.high) return 0;
    r = pitsets_greatest(1, tenth.bytes, tenth.length, 1, -5000, axes, divisions, &v);
    return r == PITSETS_VALUE && pitsets_double(&v) == -622 && v.denominator.low == 1 && !v.denominator.high;
}

/* 0 ≤ x ≤ 2186, a mark, x ≥ 2187, and back */
static int planned(pitsets_state *plan)
{
    const int32_t up[8] = {1}, down[8] = {-1}, none[8] = {0};
    if (pitsets_state_start(plan, 1, NULL, 0) != PITSETS_STATE_POINT) return 0;
    if (pitsets_state_add(plan, false, 0, up, none) != PITSETS_STATE_POINT) return 0;
    if (pitsets_state_add(plan, false, 2186, down, none) != PITSETS_STATE_POINT) return 0;
    if (pitsets_state_mark(plan, 15) != PITSETS_STATE_POINT) return 0;
    if (pitsets_state_add(plan, false, -2187, up, none) != PITSETS_STATE_EMPTY) return 0;
    return pitsets_state_back(plan, 15) == PITSETS_STATE_POINT && pitsets_state_back(plan, 0) == -PITSETS_NAME;
}

/* what a thread has of its own */
typedef struct {
    pitsets_state plan;
    int failed;
} own;

/* the range without the tenth */
static int64_t less(uint8_t *result, size_t length)
{
    return pitsets_difference(1, range.bytes, range.length, tenth.bytes, tenth.length, result, length);
}

static void *work(void *given)
{
    own *mine = given;
    int *failed = &mine->failed;
    uint8_t first[200], again[200];
    int64_t length = less(first, sizeof first);
    if (length != 135) *failed = 1;
    for (int i = 0; i < ROUNDS; i++) {
        memset(again, i & 0xFF, sizeof again);
        if (less(again, sizeof again) != length) *failed = 1;
        if (memcmp(first, again, sizeof first)) *failed = 1;
        if (pitsets_member(1, first, (size_t)length, 2179, 0, 0, 0, 0, 0, 0, 0) != 1) *failed = 1;
        if (pitsets_member(1, first, (size_t)length, 2180, 0, 0, 0, 0, 0, 0, 0) != 0) *failed = 1;
        uint64_t mask = (uint64_t)i;
        if (pitsets_fleet(1, first, (size_t)length, fleet, 4, &mask) != 2 || mask != 5) *failed = 1;
        if (!counted(first, (size_t)length, i) || !ranged(first, (size_t)length, i)) *failed = 1;
        if (!weighed(i) || !planned(&mine->plan)) *failed = 1;
    }
    return NULL;
}

int main(void)
{
    static own each[2];
    pthread_t t[2];
    write_sets();
    for (int i = 0; i < 2; i++)
        if (pthread_create(&t[i], NULL, work, &each[i])) return 2;
    for (int i = 0; i < 2; i++) pthread_join(t[i], NULL);
    int failed = each[0].failed || each[1].failed;
    puts(failed ? "threads differ" : "threads agree");
    return failed;
}
