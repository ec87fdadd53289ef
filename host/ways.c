/* How many ways? For each half hour of a shift, how many loads may run: a permit set, closures taken away, the rest counted.
 * Axes: half hour 0 to 23, road 1 to 3, payload in tonnes. Build and run: make -C host ways && host/ways */
#include <inttypes.h>
#include <stdio.h>

#include "pitsets.h"
#include "writing.h"

enum { AXES = 3, HALF_HOURS = 24, HALF_HOUR = 1, PAYLOAD = 3, LIMIT = 100000 };
static const int32_t LOW[AXES] = {0, 1, 0}, HIGH[AXES] = {HALF_HOURS - 1, 3, 240};
static const int16_t LATER[8] = {1}, EARLIER[8] = {-1}, ROAD[8] = {0, 1}, NO_ROAD[8] = {0, -1};
static const int16_t TONNES[8] = {0, 0, 1}, LESS[8] = {0, 0, -1};

/* roads `from` to `to` for loads of so many tonnes */
static void roads(table *t, int32_t from, int32_t to, int32_t least, int32_t most)
{
    basic_set(t);
    at_least_0(t, -from, ROAD, 0);
    at_least_0(t, to, NO_ROAD, 0);
    at_least_0(t, -least, TONNES, 0);
    at_least_0(t, most, LESS, 0);
}

/* roads 1 and 2 up to 180 tonnes, roads 2 and 3 from 150 to 240: on road 2 a load of 150 to 180 is permitted twice, and
 * counts once */
static void permit(table *t)
{
    roads(t, 1, 2, 0, 180);
    roads(t, 2, 3, 150, 240);
}

/* road 2 in the half hours 6 to 8, and from the half hour 12 on whatever is over 240 − 10·(half hour − 12) tonnes */
static void closures(table *t)
{
    const int16_t tiring[8] = {10, 0, 1};
    roads(t, 2, 2, 0, 240);
    at_least_0(t, -6, LATER, 0);
    at_least_0(t, 8, EARLIER, 0);
    basic_set(t);
    at_least_0(t, -12, LATER, 0);
    at_least_0(t, -361, tiring, 0);
}

static int refused(const char *what, int64_t result)
{
    printf("%s: %s\n", what, pitsets_reason(result));
    return 1;
}

int main(void)
{
    static table permitted, closed;
    static uint8_t rest[LONGEST_SET];
    uint32_t counts[PITSETS_COUNTS], tested;
    permit(&permitted);
    closures(&closed);
    int64_t r = pitsets_difference(AXES, permitted.bytes, permitted.length, closed.bytes, closed.length, rest, sizeof rest);
    if (r < 0) return refused("what may run", r);
    size_t length = (size_t)r;

    int64_t ways = pitsets_counts_in(AXES, rest, length, LOW, HIGH, HALF_HOUR, LIMIT, counts, PITSETS_COUNTS, &tested);
    if (ways < 0) return refused("by half hour", ways);
    for (int i = 0; i < HALF_HOURS; i++) printf("half hour %2d: %3" PRIu32 " loads\n", i, counts[i]);
    printf("the shift: %" PRId64 " loads, %" PRIu32 " prefixes tested\n", ways, tested);

    /* a window that shuts before it opens has no load; a limit that is not enough gives none either; 241 values are too
     * many to count by */
    const int32_t late[AXES] = {20, 1, 0}, early[AXES] = {19, 3, 240};
    ways = pitsets_count_in(AXES, rest, length, late, early, LIMIT, &tested);
    printf("half hours 20 to 19: %" PRId64 " loads\n", ways);
    refused("with 1000 prefixes", pitsets_count_in(AXES, rest, length, LOW, HIGH, 1000, &tested));
    ways = pitsets_counts_in(AXES, rest, length, LOW, HIGH, PAYLOAD, LIMIT, counts, PITSETS_COUNTS, &tested);
    refused("by tonnes", ways);
    return 0;
}
