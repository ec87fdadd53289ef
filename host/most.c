/* The weigh check: the most that the rules allow on each road in each half hour of a shift, to hold a scale against.
 * Axes: half hour 0 to 23, road 1 to 3, payload in tonnes. Build and run: make -C host most && host/most */
#include <inttypes.h>
#include <stdio.h>

#include "pitsets.h"
#include "writing.h"

enum { AXES = 3, HALF_HOURS = 24, ROADS = 3, EMPTY_TRUCK = 165 };
static const int16_t LATER[8] = {1}, EARLIER[8] = {-1}, ROAD[8] = {0, 1}, NO_ROAD[8] = {0, -1};
static const int16_t TONNES[8] = {0, 0, 1}, LESS[8] = {0, 0, -1};
static const int32_t PAYLOAD[8] = {0, 0, 1}, NO_DIVISIONS[8] = {0};

/* roads `from` to `to` in the half hours of the shift */
static void roads(table *t, int32_t from, int32_t to)
{
    basic_set(t);
    at_least_0(t, 0, LATER, 0);
    at_least_0(t, HALF_HOURS - 1, EARLIER, 0);
    at_least_0(t, -from, ROAD, 0);
    at_least_0(t, to, NO_ROAD, 0);
}

/* roads 1 and 2 up to 180 tonnes; roads 2 and 3 from 150 to 240, as long as the tyres are cool: 2·payload + 15·(half
 * hour) is at most 660 */
static void permit(table *t)
{
    const int16_t cool[8] = {-15, 0, -2};
    roads(t, 1, 2);
    at_least_0(t, 0, TONNES, 0);
    at_least_0(t, 180, LESS, 0);
    roads(t, 2, 3);
    at_least_0(t, -150, TONNES, 0);
    at_least_0(t, 240, LESS, 0);
    at_least_0(t, 660, cool, 0);
}

/* road 2 in the half hours 6 to 8 */
static void closure(table *t)
{
    roads(t, 2, 2);
    at_least_0(t, -6, LATER, 0);
    at_least_0(t, 8, EARLIER, 0);
}

/* one road in one half hour */
static void slot(table *t, int32_t road, int32_t half_hour)
{
    t->length = 0;
    basic_set(t);
    at_least_0(t, -half_hour, LATER, 0);
    at_least_0(t, half_hour, EARLIER, 0);
    at_least_0(t, -road, ROAD, 0);
    at_least_0(t, road, NO_ROAD, 0);
}

/* the most payload of a set, over all its basic sets; PITSETS_EMPTY where none has a point */
static int64_t most(const uint8_t *set, size_t length, pitsets_fraction *best)
{
    int64_t said = PITSETS_EMPTY;
    for (size_t k = 1; k <= PITSETS_BASIC_SETS; k++) {
        pitsets_fraction value;
        int64_t r = pitsets_greatest(AXES, set, length, k, 0, PAYLOAD, NO_DIVISIONS, &value);
        if (r == PITSETS_EMPTY) continue;
        if (r != PITSETS_VALUE) return r;
        if (said == PITSETS_EMPTY || pitsets_double(&value) > pitsets_double(best)) *best = value;
        said = r;
    }
    return said;
}

/* a result and its value; weights here are numbers of one word */
static void print(int64_t said, const pitsets_fraction *value)
{
    static const char *const words[] = {[PITSETS_EMPTY] = "none", [PITSETS_UNBOUNDED] = "no bound",
                                        [PITSETS_WIDE] = "too wide", [PITSETS_LONG] = "too long"};
    if (said < 0) printf("refused %" PRId64 ", %s", -said, pitsets_reason(said));
    else if (said != PITSETS_VALUE) printf("%s", words[said]);
    else if (value->denominator.low == 1) printf("%" PRId64, (int64_t)value->numerator.low);
    else printf("%" PRId64 "/%" PRIu64, (int64_t)value->numerator.low, value->denominator.low);
}

static void half_hour(int32_t h, const uint8_t *allowed, size_t length)
{
    static table at;
    static uint8_t there[LONGEST_SET];
    printf("half hour %2" PRId32 ":", h);
    for (int32_t road = 1; road <= ROADS; road++) {
        pitsets_fraction value = {{0, 0}, {0, 0}};
        slot(&at, road, h);
        int64_t r = pitsets_intersection(AXES, allowed, length, at.bytes, at.length, there, sizeof there);
        printf("%s road %" PRId32 " ", road == 1 ? "" : ",", road);
        print(r < 0 ? r : most(there, (size_t)r, &value), &value);
    }
    puts("");
}

int main(void)
{
    static table permitted, closed, open_ended;
    static uint8_t allowed[LONGEST_SET];
    pitsets_fraction value;
    permit(&permitted);
    closure(&closed);
    int64_t length = pitsets_difference(AXES, permitted.bytes, permitted.length, closed.bytes, closed.length, allowed,
                                        sizeof allowed);
    if (length < 0) {
        printf("refused %" PRId64 ", %s\n", -length, pitsets_reason(length));
        return 1;
    }
    puts("most tonnes");
    for (int32_t h = 0; h < HALF_HOURS; h++) half_hour(h, allowed, (size_t)length);

    /* what the scale may show for a truck under the permit's second basic set, the empty truck with its payload */
    int64_t r = pitsets_least(AXES, permitted.bytes, permitted.length, 2, EMPTY_TRUCK, PAYLOAD, NO_DIVISIONS, &value);
    printf("on the scale, roads 2 and 3: from ");
    print(r, &value);
    r = pitsets_greatest(AXES, permitted.bytes, permitted.length, 2, EMPTY_TRUCK, PAYLOAD, NO_DIVISIONS, &value);
    printf(" to ");
    print(r, &value);

    /* no third basic set; roads without a rule for payloads; an expression of an axis that is not there */
    const int32_t fourth[8] = {0, 0, 1, 1};
    roads(&open_ended, 1, 3);
    printf("\nunder a third basic set: ");
    print(pitsets_greatest(AXES, permitted.bytes, permitted.length, 3, 0, PAYLOAD, NO_DIVISIONS, &value), &value);
    printf("\nwithout a rule for payloads: ");
    print(pitsets_greatest(AXES, open_ended.bytes, open_ended.length, 1, 0, PAYLOAD, NO_DIVISIONS, &value), &value);
    printf("\nof a fourth axis: ");
    print(pitsets_greatest(AXES, permitted.bytes, permitted.length, 1, 0, fourth, NO_DIVISIONS, &value), &value);
    puts("");
    return 0;
}
