/* May it run, whatever it weighs? A truck scale gives a load only between two weights, and the weighing takes some
 * minutes. Axes: load in tenths of a tonne, minute of the shift. Build and run: make -C host ranges && host/ranges */
#include <inttypes.h>
#include <stdio.h>

#include "pitsets.h"
#include "writing.h"

enum { AXES = 2, LIMIT = 100000 };

/* the first and the last load and minute; zeros on the axes that are not there */
typedef struct { int32_t low[8], high[8]; } reading;

/* up to 232.0 tonnes at first, and 1.0 less with each half hour: load + 10·floor(minute / 30) is at most 2320 */
static void write_permit(table *t)
{
    const int16_t load[8] = {1}, less[8] = {-1}, minute[8] = {0, 1};
    basic_set(t);
    division(t, 30, 0, minute);
    at_least_0(t, 0, load, 0);
    at_least_0(t, 2320, less, -10);
}

static void print_tonnes(int64_t tenths) { printf("%" PRId64 ".%" PRId64, tenths / 10, tenths % 10); }

static void print_point(const int64_t point[8], const char *what)
{
    printf("  ");
    print_tonnes(point[0]);
    printf(" t at minute %" PRId64 " %s\n", point[1], what);
}

/* how many points of the reading are in the difference that the call has left in the table */
static void print_left(const reading *r, const uint8_t *left, size_t length)
{
    uint32_t tested;
    int64_t points = pitsets_count_in(AXES, left, length, r->low, r->high, LIMIT, &tested);
    int64_t all = (int64_t)(r->high[0] - r->low[0] + 1) * (r->high[1] - r->low[1] + 1);
    printf("  %" PRId64 " of %" PRId64 " loads and minutes must wait\n", points, all);
}

static void weigh(const table *permit, const reading *r, uint32_t limit)
{
    static const char *const words[] = {[PITSETS_SURE] = "sure to run", [PITSETS_NEVER] = "must wait",
                                        [PITSETS_DEPENDS] = "depends",
                                        [PITSETS_SPENT_INSIDE] = "not found out: no load that may run so far",
                                        [PITSETS_SPENT_OUTSIDE] = "not found out: no load that must wait so far"};
    static uint8_t left[LONGEST_SET];
    size_t length;
    int64_t inside[8], outside[8];
    int64_t said = pitsets_range(AXES, permit->bytes, permit->length, r->low, r->high, limit, limit, left, sizeof left,
                                 &length, inside, outside);
    print_tonnes(r->low[0]);
    printf(" to ");
    print_tonnes(r->high[0]);
    printf(" t, minutes %" PRId32 " to %" PRId32 ": ", r->low[1], r->high[1]);
    if (said < 0) printf("refused %" PRId64 ", %s\n", -said, pitsets_reason(said));
    else puts(words[said]);
    if (said != PITSETS_DEPENDS) return;
    print_point(inside, "may run");
    print_point(outside, "must wait");
    print_left(r, left, length);
}

int main(void)
{
    static table permit;
    write_permit(&permit);

    /* the same reading in the half hours 16, 17 and 18, up to 216.0, 215.0 and 214.0 tonnes, and from 17 to 18 */
    weigh(&permit, &(reading){{2148, 495}, {2156, 497}}, LIMIT);
    weigh(&permit, &(reading){{2148, 525}, {2156, 527}}, LIMIT);
    weigh(&permit, &(reading){{2148, 555}, {2156, 557}}, LIMIT);
    weigh(&permit, &(reading){{2148, 538}, {2156, 541}}, LIMIT);

    /* that every point of the first one may run takes more than 5 prefixes; a reading the wrong way round */
    weigh(&permit, &(reading){{2148, 495}, {2156, 497}}, 5);
    weigh(&permit, &(reading){{2156, 495}, {2148, 497}}, LIMIT);
    return 0;
}
