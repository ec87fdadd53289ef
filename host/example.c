/* May this truck run? A permit set, and which trucks of a fleet it lets run; a ramp closes, which is taken away, and
 * the fleet is asked again; then single trucks. Rules have their numbers in the rulebook, which what is left keeps.
 * Axes: payload in tonnes, road, minute of the shift. Build and run: make -C host example && host/example */
#include <inttypes.h>
#include <stdio.h>

#include "pitsets.h"
#include "writing.h"

enum { AXES = 3 };

static int ask(const char *who, const uint8_t *set, size_t length, const int32_t point[AXES])
{
    int64_t answer = pitsets_member_at(AXES, set, length, point);
    if (answer < 0) {
        printf("%s: refused %" PRId64 ", %s\n", who, -answer, pitsets_reason(answer));
        return 1;
    }
    printf("%s: %s\n", who, answer ? "may run" : "must wait");
    return 0;
}

/* which trucks of a fleet may run, by one call */
static int look(const char *when, const uint8_t *set, size_t length, const int32_t *trucks, size_t count)
{
    uint64_t mask;
    int64_t running = pitsets_fleet(AXES, set, length, trucks, AXES * count, &mask);
    if (running < 0) {
        printf("%s: refused %" PRId64 ", %s\n", when, -running, pitsets_reason(running));
        return 1;
    }
    printf("%s: %" PRId64 " of %zu may run, trucks", when, running, count);
    for (size_t i = 0; i < count; i++)
        if (mask >> i & 1) printf(" %zu", i + 1);
    puts("");
    return 0;
}

/* the numbers of the rules of each basic set */
static void print_numbers(const uint8_t *set, size_t length)
{
    int k = 0;
    const uint8_t *end = set + length;
    for (const command *c; (c = whole_command(set, end)); set += c->bytes) {
        if (c->kind == OPENING) printf("%s  basic set %d, rules", k ? "\n" : "", k + 1);
        else if (c->kind != DIVISION && head_number(c, set)) printf(" %" PRIu32, head_number(c, set));
        k += c->kind == OPENING;
    }
    puts("");
}

/* 0 to 240 tonnes, which is rule 12, roads 1 to 9, which is rule 31 */
static void write_permit(table *t)
{
    const int16_t tonnes[8] = {1}, less[8] = {-1}, road[8] = {0, 1}, no_road[8] = {0, -1};
    basic_set(t);
    at_least_0(t, 0, tonnes, 0);
    rule(t, false, 12, 240, less, 0);
    rule(t, false, 31, -1, road, 0);
    rule(t, false, 31, 9, no_road, 0);
}

/* by rule 407 road 4 is closed in the half hours 6 to 8 of the shift */
static void write_closure(table *t)
{
    const int16_t road[8] = {0, 1}, no_road[8] = {0, -1}, minute[8] = {0, 0, 1}, none[8] = {0};
    basic_set(t);
    division(t, 30, 0, minute);
    rule(t, false, 407, -4, road, 0);
    rule(t, false, 407, 4, no_road, 0);
    rule(t, false, 407, -6, none, 1);
    rule(t, false, 407, 8, none, -1);
}

int main(void)
{
    static table permit, closure;
    static uint8_t allowed[LONGEST_SET];
    write_permit(&permit);
    write_closure(&closure);

    /* five trucks, and a sixth whose minute is out of range */
    const int32_t fleet[] = {180, 4, 120, 180, 4, 200, 240, 7, 200, 241, 7, 200, 0, 1, 0, 180, 4, 2000000};
    int failed = look("before the closure", permit.bytes, permit.length, fleet, 5);

    int64_t length = pitsets_difference(AXES, permit.bytes, permit.length, closure.bytes, closure.length, allowed, sizeof allowed);
    if (length < 0) {
        printf("refused %" PRId64 ", %s\n", -length, pitsets_reason(length));
        return 1;
    }
    printf("allowed: %" PRId64 " bytes\n", length);
    print_numbers(allowed, (size_t)length);
    failed |= look("road 4 closed in the half hours 6 to 8", allowed, (size_t)length, fleet, 5);
    look("with a truck at minute 2000000", allowed, (size_t)length, fleet, 6);

    const int32_t early[AXES] = {180, 4, 120}, late[AXES] = {180, 4, 200}, far[AXES] = {180, 4, 2000000};
    failed |= ask("truck at minute 120 on road 4", allowed, (size_t)length, early);
    failed |= ask("truck at minute 200 on road 4", allowed, (size_t)length, late);
    ask("truck at minute 2000000", allowed, (size_t)length, far);

    /* a refusal names its reason, and the result table is all 0 */
    length = pitsets_difference(AXES, permit.bytes, permit.length - 1, closure.bytes, closure.length, allowed, sizeof allowed);
    printf("a permit cut off: refused %" PRId64 ", %s\n", -length, pitsets_reason(length));
    return failed;
}
