/* Stepping back: a shift's permit, built rule by rule, is marked; closures are tried on it and taken back.
 * Axes: payload in tonnes, road, minute of the shift; its division is the half hour, floor(minute / 30).
 * Build and run: make -C host states && host/states */
#include <inttypes.h>
#include <stdio.h>

#include "pitsets.h"

enum { AXES = 3 };
enum { PERMIT, EARLY, LATE }; /* names of marks */

/* constant + tonnes·x1 + road·x2 + minute·x3 + half_hour·floor(x3 / 30) */
typedef struct {
    int32_t constant, tonnes, road, minute, half_hour;
} expression;

static int64_t add(pitsets_state *plan, bool equality, expression e)
{
    const int32_t axes[8] = {e.tonnes, e.road, e.minute}, divisions[8] = {e.half_hour};
    return pitsets_state_add(plan, equality, e.constant, axes, divisions);
}

static int64_t at_least_0(pitsets_state *plan, expression e) { return add(plan, false, e); }

static void say(const char *what, int64_t said)
{
    static const char *const words[] = {"no state", "point", "empty", "wide: not found out", "long: not found out"};
    if (said < 0) printf("%s: refused %" PRId64 ", %s\n", what, -said, pitsets_reason(said));
    else printf("%s: %s\n", what, words[said]);
}

/* 0 to 240 tonnes, roads 1 to 9, a shift of 720 minutes, and cool tyres: 2·payload + 15·(half hour) is at most 660 */
static void permit(pitsets_state *plan)
{
    say("tonnes from 0", at_least_0(plan, (expression){.tonnes = 1}));
    say("tonnes to 240", at_least_0(plan, (expression){240, .tonnes = -1}));
    say("roads from 1", at_least_0(plan, (expression){-1, .road = 1}));
    say("roads to 9", at_least_0(plan, (expression){9, .road = -1}));
    say("minutes from 0", at_least_0(plan, (expression){.minute = 1}));
    say("minutes to 719", at_least_0(plan, (expression){719, .minute = -1}));
    say("cool tyres", at_least_0(plan, (expression){660, .tonnes = -2, .half_hour = -15}));
}

/* three closures of which each is tried on the permit and taken back */
static void closures(pitsets_state *plan)
{
    puts("\nfirst closure, until half hour 9");
    say("from half hour 9", at_least_0(plan, (expression){-9, .half_hour = 1}));
    say("mark early", pitsets_state_mark(plan, EARLY));
    say("on road 4", add(plan, true, (expression){-4, .road = 1}));
    say("mark late", pitsets_state_mark(plan, LATE));
    say("back to early", pitsets_state_back(plan, EARLY));
    say("back to late, which that forgot", pitsets_state_back(plan, LATE));
    say("back to permit", pitsets_state_back(plan, PERMIT));

    /* by half hour 18 the tyres carry 195 tonnes; what is added once it is empty is not looked at */
    puts("\nsecond closure, until half hour 18");
    say("from half hour 18", at_least_0(plan, (expression){-18, .half_hour = 1}));
    say("any load", at_least_0(plan, (expression){.tonnes = 1}));
    say("back to permit", pitsets_state_back(plan, PERMIT));

    /* 4 1/2 is a point with fractions, and no road: the rule is taken as given */
    puts("\nthird closure, all but the road between 4 and 5");
    say("twice the road is 9", add(plan, true, (expression){-9, .road = 2}));
    say("back to permit", pitsets_state_back(plan, PERMIT));
}

int main(void)
{
    static pitsets_state plan, copy;
    const pitsets_division half_hour = {30, 0, {0, 0, 1}};
    say("a rule before a start", at_least_0(&plan, (expression){.tonnes = 1}));
    say("start, 3 axes and half hours", pitsets_state_start(&plan, AXES, &half_hour, 1));
    permit(&plan);
    say("a load from 200 tonnes", at_least_0(&plan, (expression){-200, .tonnes = 1}));
    say("mark permit", pitsets_state_mark(&plan, PERMIT));
    closures(&plan);

    /* a copy has the state and its marks, and goes on by itself */
    puts("\na copy of the plan");
    copy = plan;
    say("from minute 720 in the copy", at_least_0(&copy, (expression){-720, .minute = 1}));
    say("from minute 510 in the plan", at_least_0(&plan, (expression){-510, .minute = 1}));
    say("to minute 510 in the plan", at_least_0(&plan, (expression){510, .minute = -1}));
    say("back to permit in the copy", pitsets_state_back(&copy, PERMIT));

    puts("\nrefused");
    const int32_t fourth[8] = {0, 0, 0, 1}, none[8] = {0};
    say("a rule of a fourth axis", pitsets_state_add(&plan, false, 0, fourth, none));
    say("mark 16", pitsets_state_mark(&plan, 16));
    say("start without axes", pitsets_state_start(&plan, 0, NULL, 0));
    say("and the plan is as it was", pitsets_state_mark(&plan, PERMIT));
    return 0;
}
