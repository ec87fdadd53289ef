/* workload FAMILY SEED CASES FILE: makes cases from a seed; the same arguments give the same file.
 *
 *   dispatch  5 axes: payload in 100 kg, road, grade in 0.1 %, truck class, minute of the shift; divisions for tonnes, half-hour slots,
 *             hours and road zones. A of 1 to 10 permits, B of 1 to 6, C and D of 1 to 6 closures, E of basic sets of A with further
 *             constraints, in half of the cases one of them a little outside
 *   slots     3 axes: half-hour slot of the day, truck, load in 10 t. Alternating slots and trucks: equalities modulo 2
 *             and 3 over divisions, many times 2, 3 or 6, a few at a half slot, which no whole number meets; windows
 *             that end at half slots. A of 1 to 5 permits, B of 1 to 3, closures C of 1 to 3, D of 1 to 2, E as above
 *   weeks     5 axes: second of the plan, truck, load in 100 kg, week, turn of a belt's counter. Windows repeat in
 *             hours of a week of 604,800 s and in blocks of a counter that begins anew at 10^9. A of 1 to 5 permits,
 *             B of 1 to 3, closures C of 1 to 2, D of 1, E as above. More than half of the candidates are wide at 64
 *   limit     8 axes, 8 divisions, up to 32 constraints a basic set: near document 01's limits
 *   big       4 axes, coefficients to 32,767, constants to 1,000,000,000; closures without bounds of their own
 *   tiny      1 to 3 axes and small numbers in a box of 15 values an axis, of which every point is checked
 */
#include "sets.h"
#include <stdio.h>
#include <stdlib.h>
#include <string.h>

enum { FARTHEST = 1048576 }; /* the largest coordinate */

/* splitmix64 */
static uint64_t state;
static uint64_t draw(void)
{
    uint64_t z = (state += 0x9e3779b97f4a7c15u);
    z = (z ^ (z >> 30)) * 0xbf58476d1ce4e5b9u;
    z = (z ^ (z >> 27)) * 0x94d049bb133111ebu;
    return z ^ (z >> 31);
}
static int from(int low, int high) { return low + (int)(draw() % (uint64_t)((int64_t)high - low + 1)); }
static int chance(int percent) { return from(0, 99) < percent; }

static constraint *add(basic_set *b, int equality, int64_t constant)
{
    static constraint spare;
    constraint *c = b->cons == CONSTRAINTS ? &spare : &b->con[b->cons++];
    memset(c, 0, sizeof *c);
    c->equality = equality;
    c->constant = (int32_t)constant;
    return c;
}

static void lower(basic_set *b, int v, int low) { add(b, 0, -(int64_t)low)->coefficient[v] = 1; }
static void upper(basic_set *b, int v, int high) { add(b, 0, high)->coefficient[v] = -1; }
static void equal(basic_set *b, int v, int value) { add(b, 1, -(int64_t)value)->coefficient[v] = 1; }

/* constant + p·v + q·w ≥ 0 or = 0 */
static void pair(basic_set *b, int equality, int64_t constant, int v, int p, int w, int q)
{
    constraint *c = add(b, equality, constant);
    c->coefficient[v] = (int16_t)p;
    c->coefficient[w] = (int16_t)q;
}

/* the place of a division among the coefficients */
static int placed(basic_set *b, const division *q)
{
    for (int i = 0; i < b->divs; i++)
        if (!memcmp(&b->div[i], q, sizeof *q)) return AXES + i;
    b->div[b->divs] = *q;
    return AXES + b->divs++;
}

/* floor((axis + c) / d) */
static int divided(basic_set *b, int axis, int d, int c)
{
    division q = {d, c, {0}};
    q.axis[axis] = 1;
    return placed(b, &q);
}

enum { PAYLOAD, ROAD, GRADE, CLASS, MINUTE };

/* constraints on class, grade and load until there are `target` */
static void permit_rest(basic_set *b, int target)
{
    if (b->cons < target) {
        int c = from(0, 5);
        lower(b, CLASS, c);
        if (b->cons < target) upper(b, CLASS, from(c, 7));
    }
    if (b->cons < target) lower(b, GRADE, -from(20, 120));
    if (b->cons < target) upper(b, GRADE, from(20, 120));
    for (int sign = -1; sign <= 1; sign += 2) /* heavy loads on flat roads only, uphill and downhill */
        if (b->cons < target) {
            int most = from(1800, 2600);
            pair(b, 0, most, PAYLOAD, -1, GRADE, sign * from(4, 12));
        }
    if (b->cons < target) { /* heavier trucks start later */
        int start = from(-40, 40);
        pair(b, 0, start, MINUTE, 1, CLASS, -from(2, 10));
    }
}

static void permit(basic_set *b, int first_road, int last_road, int target)
{
    memset(b, 0, sizeof *b);
    int alternate = chance(30), by_class = chance(60), zoned = chance(20), slotted = chance(35), full = chance(6);
    int tonnes = by_class || full ? divided(b, PAYLOAD, 10, 0) : 0;
    int slot = alternate || slotted ? divided(b, MINUTE, 30, 0) : 0;
    int hour = alternate ? divided(b, MINUTE, 60, 0) : 0;
    int zone = zoned ? divided(b, ROAD, 8, 0) : 0;
    int start = from(0, 20) * 30, end = start + from(2, 14) * 30 - 1;
    if (end > 719) end = 719;
    lower(b, PAYLOAD, 0);
    upper(b, PAYLOAD, chance(50) ? 2186 : from(600, 2186));
    if (chance(25)) equal(b, ROAD, from(first_road, last_road));
    else {
        lower(b, ROAD, first_road);
        upper(b, ROAD, last_road);
    }
    lower(b, slotted ? slot : MINUTE, slotted ? start / 30 : start);
    upper(b, slotted ? slot : MINUTE, slotted ? end / 30 : end);
    if (by_class) { /* the tonnes allowed grow with the class */
        int most = from(40, 120);
        pair(b, 0, most, tonnes, -1, CLASS, from(10, 28));
    }
    if (alternate) pair(b, 1, -chance(50), slot, 1, hour, -2);
    if (full) pair(b, 1, 0, PAYLOAD, 1, tonnes, -10);
    if (zoned) upper(b, zone, last_road / 8);
    permit_rest(b, target);
}

static void closure(basic_set *b)
{
    memset(b, 0, sizeof *b);
    int alternate = chance(25), slotted = chance(30), heavy = chance(35);
    int tonnes = heavy ? divided(b, PAYLOAD, 10, 0) : 0;
    int slot = alternate || slotted ? divided(b, MINUTE, 30, 0) : 0;
    int hour = alternate ? divided(b, MINUTE, 60, 0) : 0;
    int first = from(0, 60), last = first + from(0, 8);
    if (chance(40)) equal(b, ROAD, first);
    else {
        lower(b, ROAD, first);
        upper(b, ROAD, last);
    }
    int start = from(0, 23), end = start + from(0, 8);
    if (slotted) {
        lower(b, slot, start);
        upper(b, slot, end);
    } else if (chance(85)) {
        lower(b, MINUTE, start * 30 + from(0, 10));
        upper(b, MINUTE, end * 30 + from(0, 29));
    }
    if (alternate) pair(b, 1, -chance(50), slot, 1, hour, -2);
    if (heavy) lower(b, tonnes, from(60, 200));
    if (chance(30)) lower(b, CLASS, from(1, 6));
    if (chance(15)) {
        int least = from(400, 1500);
        pair(b, 0, -least, PAYLOAD, 1, GRADE, from(2, 8));
    }
}

/* basic sets of a with further constraints; in half of the cases a bound of one of them moves out by 1 */
static void inside(const set *a, set *e)
{
    e->count = a->count < 4 ? a->count : from(1, 4);
    for (int i = 0; i < e->count; i++) {
        basic_set *b = &e->basic[i];
        *b = a->basic[i];
        upper(b, PAYLOAD, from(300, 2000));
        lower(b, CLASS, from(0, 3));
        if (chance(50)) {
            int most = from(1500, 2400);
            pair(b, 0, most, PAYLOAD, -1, GRADE, -from(2, 6));
        }
    }
    if (!chance(50)) return;
    basic_set *b = &e->basic[from(0, e->count - 1)];
    for (constraint *c = b->con; c < b->con + b->cons; c++)
        if (!c->equality && (c->coefficient[MINUTE] == -1 || c->coefficient[ROAD] == -1)) {
            c->constant += 1;
            break;
        }
}

static void dispatch(set *s)
{
    for (int k = A; k <= B; k++) {
        int count = from(1, k == A ? 10 : 6);
        for (int i = 0; i < count; i++) {
            int roads = 64 / count, first = i * roads, last = first + roads - 1 + from(0, roads / 2 + 2);
            if (chance(25)) {
                first = from(0, 50);
                last = first + from(2, 30);
            }
            permit(&s[k].basic[s[k].count++], first, last > 63 ? 63 : last, from(5, 15));
        }
    }
    for (int k = C; k <= D; k++) {
        int count = from(1, 6);
        for (int i = 0; i < count; i++) closure(&s[k].basic[s[k].count++]);
    }
    inside(&s[A], &s[E]);
}

enum { SLOT, TRUCK, LOAD };

/* the last rule counted in halves, thirds or sixths; `between`: its constant is no multiple of the common divisor */
static void finer(basic_set *b, int between)
{
    static const int PARTS[] = {2, 3, 6};
    constraint *c = &b->con[b->cons - 1];
    int g = PARTS[from(0, 2)];
    for (int j = 0; j < AXES + DIVISIONS; j++) c->coefficient[j] = (int16_t)(g * c->coefficient[j]);
    c->constant = g * c->constant + (between ? from(1, g - 1) : 0);
}

/* bounds, two in five of them finer, mostly between two whole numbers: 2·slot − 7 ≥ 0 for slot − 4 ≥ 0 */
static void window(basic_set *b, int v, int low, int high)
{
    lower(b, v, low);
    if (chance(40)) finer(b, chance(75));
    upper(b, v, high);
    if (chance(40)) finer(b, chance(75));
}

/* every second or third slot or truck, or turns by slot + truck; of the finer ones `percent` hold at no whole number */
static void alternate(basic_set *b, int percent)
{
    int m = from(2, 3), kind = from(0, 3);
    division q = {m, 0, {kind != 2, kind > 1}};
    int place = placed(b, &q);
    constraint *c = add(b, 1, -from(0, m - 1));
    c->coefficient[SLOT] = q.axis[SLOT];
    c->coefficient[TRUCK] = q.axis[TRUCK];
    c->coefficient[place] = (int16_t)-m;
    if (chance(60)) finer(b, chance(percent));
}

/* truck t starts in slot p·t + start */
static void convoy(basic_set *b, int percent)
{
    int p = from(1, 2), start = from(0, 12);
    pair(b, 1, -start, SLOT, 1, TRUCK, -p);
    if (chance(70)) finer(b, chance(percent));
}

static void slots_permit(basic_set *b, int first_truck, int last_truck)
{
    int start = from(0, 24), end = start + from(8, 24), most = from(12, 30);
    window(b, TRUCK, first_truck, last_truck);
    window(b, SLOT, start, end > 47 ? 47 : end);
    window(b, LOAD, 0, from(8, 22));
    if (chance(70)) alternate(b, 10);
    if (chance(15)) convoy(b, 10);
    if (chance(40)) pair(b, 0, most, LOAD, -2, TRUCK, 1); /* higher numbers are larger trucks */
}

/* some trucks, some slots or a single one (a blast), every second or third, heavy loads */
static void slots_closure(basic_set *b)
{
    int first = from(0, 20), last = first + from(0, 6), start = from(0, 40), end = start + from(1, 12);
    int least = from(4, 18), blast = chance(15), early = chance(50);
    if (early && chance(60)) alternate(b, 15);
    if (chance(60)) window(b, TRUCK, first, last);
    if (blast) {
        equal(b, SLOT, start);
        finer(b, chance(30));
    } else if (chance(70)) window(b, SLOT, start, end);
    if (!early && !blast && chance(60)) alternate(b, 15);
    if (chance(10)) convoy(b, 15);
    if (b->cons && !chance(30)) return;
    lower(b, LOAD, least);
    if (chance(40)) finer(b, chance(75));
}

/* basic sets of a with further rules; in half of the cases a bound of one of them moves out by 1 */
static void slots_inside(const set *a, set *e)
{
    e->count = from(1, a->count);
    for (int i = 0; i < e->count; i++) {
        e->basic[i] = a->basic[i];
        upper(&e->basic[i], LOAD, from(4, 16));
        if (chance(50)) alternate(&e->basic[i], 10);
    }
    constraint *c = &e->basic[from(0, e->count - 1)].con[from(0, 3)];
    if (chance(50)) c->constant += abs(c->coefficient[SLOT] + c->coefficient[TRUCK]);
}

static void slots(set *s)
{
    for (int k = A; k <= D; k++) {
        s[k].count = from(1, k == A ? 5 : k == D ? 2 : 3);
        int trucks = 24 / s[k].count;
        for (int i = 0; i < s[k].count; i++) {
            int last = (i + 1) * trucks - 1 + from(0, 2);
            if (k <= B) slots_permit(&s[k].basic[i], i * trucks, last > 23 ? 23 : last);
            else slots_closure(&s[k].basic[i]);
        }
    }
    slots_inside(&s[A], &s[E]);
}

enum { SECOND, WEEK = LOAD + 1, TURN };
/* A divisor has 16 bits, so a period takes two steps: 3,600 · 168 = 604,800 seconds, 32,000 · 31,250 = 10^9 units. */
enum { HOUR = 3600, HOURS = 168, BLOCK = 32000, BLOCKS = 31250 };
/* of a case: pits, whose weeks begin at a second of their own; belts, whose counters run with the time and the loads */
enum { PITS = 2, BELTS = 2 };
static division hour_of[PITS], block_of[BELTS];

static void pits_and_belts(void)
{
    memset(hour_of, 0, sizeof hour_of);
    memset(block_of, 0, sizeof block_of);
    for (int i = 0; i < PITS; i++) {
        hour_of[i].divisor = HOUR;
        hour_of[i].constant = from(0, HOUR * HOURS - 1);
        hour_of[i].axis[SECOND] = 1;
    }
    for (int i = 0; i < BELTS; i++) {
        block_of[i].divisor = BLOCK;
        block_of[i].constant = from(-1000000000, 1000000000);
        block_of[i].axis[SECOND] = (int16_t)from(900, 9000);
        block_of[i].axis[LOAD] = (int16_t)from(0, 400);
    }
}

/* from step `start` to step `end` of every period: start ≤ q − period·turn ≤ end */
static void recurring(basic_set *b, int q, int turn, int period, int start, int end)
{
    pair(b, 0, -start, q, 1, turn, -period);
    pair(b, 0, end, q, -1, turn, period);
}

/* some hours of every week of a pit; the place of the hour */
static int weekly(basic_set *b, int shortest, int longest)
{
    int hour = placed(b, &hour_of[from(0, PITS - 1)]), hours = from(shortest, longest);
    int start = from(0, HOURS - hours);
    recurring(b, hour, WEEK, HOURS, start, start + hours - 1);
    return hour;
}

/* some blocks of every turn of a belt's counter */
static void by_counter(basic_set *b, int shortest, int longest)
{
    int block = placed(b, &block_of[from(0, BELTS - 1)]), blocks = from(shortest, longest);
    int start = from(0, BLOCKS - blocks);
    recurring(b, block, TURN, BLOCKS, start, start + blocks - 1);
}

static void weeks_permit(basic_set *b, int first_truck, int last_truck)
{
    lower(b, TRUCK, first_truck);
    upper(b, TRUCK, last_truck);
    lower(b, LOAD, 0);
    upper(b, LOAD, chance(50) ? 2186 : from(900, 2186));
    if (chance(80)) {
        int hour = weekly(b, 40, 140);
        if (chance(40)) { /* in every hour a truck comes so many seconds after the one before it */
            constraint *c = add(b, 0, b->div[hour - AXES].constant);
            c->coefficient[SECOND] = 1;
            c->coefficient[hour] = -HOUR;
            c->coefficient[TRUCK] = (int16_t)-from(7, 60);
        }
        if (chance(30)) { /* lighter towards the end of the week */
            constraint *c = add(b, 0, from(1500, 2400));
            c->coefficient[LOAD] = -1;
            c->coefficient[hour] = (int16_t)-from(3, 9);
            c->coefficient[WEEK] = (int16_t)(-HOURS * c->coefficient[hour]);
        }
    }
    if (b->cons == 4 || chance(40)) by_counter(b, 9000, 28000);
}

/* maintenance: some hours of the week or blocks of a counter, of some trucks or all, heavy loads, a single week */
static void weeks_closure(basic_set *b)
{
    int first = from(0, 56), last = first + from(0, 12), least = from(400, 1800);
    if (chance(60)) {
        lower(b, TRUCK, first);
        upper(b, TRUCK, last);
    }
    if (chance(65)) weekly(b, 2, 30);
    else by_counter(b, 500, 8000);
    if (chance(20)) equal(b, WEEK, from(-1, 1));
    if (chance(30)) lower(b, LOAD, least);
}

/* basic sets of a with further rules; in half of the cases a bound of one of them moves out by 1 */
static void weeks_inside(const set *a, set *e)
{
    e->count = a->count < 2 ? 1 : from(1, 2);
    for (int i = 0; i < e->count; i++) {
        e->basic[i] = a->basic[i];
        upper(&e->basic[i], LOAD, from(300, 1800));
        if (chance(40)) by_counter(&e->basic[i], 4000, 20000);
    }
    basic_set *b = &e->basic[from(0, e->count - 1)];
    if (chance(50)) b->con[chance(50) ? 1 : 5].constant += 1; /* the last truck, or the end of the first window */
}

static void weeks(set *s)
{
    static const int MOST[] = {[A] = 5, [B] = 3, [C] = 2, [D] = 1};
    pits_and_belts();
    for (int k = A; k <= D; k++) {
        s[k].count = from(1, MOST[k]);
        int trucks = 64 / s[k].count;
        for (int i = 0; i < s[k].count; i++) {
            int last = (i + 1) * trucks - 1 + from(0, 6);
            if (k <= B) weeks_permit(&s[k].basic[i], i * trucks, last > 63 ? 63 : last);
            else weeks_closure(&s[k].basic[i]);
        }
    }
    weeks_inside(&s[A], &s[E]);
}

static const int PERIOD[DIVISIONS] = {10, 30, 60, 7, 12, 24, 5, 9};

/* constraints around a centre, so that sets meet */
static void crowded(basic_set *b, int target, int divs, const int *axis, int boxed)
{
    int32_t centre[AXES + DIVISIONS];
    for (int j = 0; j < divs; j++) divided(b, axis[j], PERIOD[j], 0);
    for (int j = 0; j < AXES; j++) centre[j] = from(200, 800);
    for (int j = 0; j < DIVISIONS; j++) centre[AXES + j] = centre[axis[j]] / PERIOD[j];
    for (int j = 0; j < AXES && boxed; j++) {
        lower(b, j, 0);
        upper(b, j, 1000);
    }
    while (b->cons < target) {
        int kind = from(0, 9), v = chance(60) ? from(0, AXES - 1) : AXES + from(0, divs - 1);
        if (kind < 3) lower(b, v, centre[v] - from(1, 1 + centre[v] / 2));
        else if (kind < 6) upper(b, v, centre[v] + from(1, 1 + centre[v] / 2));
        else {
            int u = from(0, AXES - 1), p = from(-9, 9), q = from(-9, 9);
            if (u == v || !p || !q) continue;
            pair(b, 0, -(int64_t)p * centre[v] - (int64_t)q * centre[u] + from(0, 600), v, p, u, q);
        }
    }
}

static void limit(set *s)
{
    int axis[DIVISIONS];
    for (int i = 0; i < DIVISIONS; i++) axis[i] = from(0, AXES - 1);
    for (int k = 0; k < SETS; k++) {
        int count = k == A ? from(2, 6) : k == E ? 1 : from(1, 2);
        int target = k == A ? from(20, 32) : k == B ? from(6, 12) : from(2, 5);
        for (int i = 0; i < count; i++) {
            basic_set *b = &s[k].basic[s[k].count++];
            int divs = k == A ? DIVISIONS : from(2, 6);
            if (k != E) crowded(b, target, divs, axis, k == A);
        }
    }
    s[E].basic[0] = s[A].basic[0];
    upper(&s[E].basic[0], 0, 300);
    lower(&s[E].basic[0], 1, 20);
}

/* constraints that hold at a centre, and bounds of every axis where `boxed` says so */
static void large(basic_set *b, int boxed)
{
    int32_t centre[6];
    for (int j = 0; j < 4; j++) centre[j] = from(-1000000, 1000000);
    divided(b, 0, 32749, 12345);
    divided(b, 1, 997, -678);
    centre[4] = (int32_t)floor_division(centre[0] + 12345, 32749);
    centre[5] = (int32_t)floor_division(centre[1] - 678, 997);
    for (int j = 0; j < 4 && boxed; j++) {
        lower(b, j, -FARTHEST);
        upper(b, j, FARTHEST);
    }
    int target = b->cons + (boxed ? from(2, 5) : from(1, 2));
    while (b->cons < target) {
        int64_t sum = 0;
        int16_t a[6];
        for (int j = 0; j < 6; j++) {
            a[j] = (int16_t)from(-32767, 32767);
            if (chance(50)) a[j] = (int16_t)from(-300, 300);
            sum += (int64_t)a[j] * centre[j];
        }
        int64_t constant = -sum + from(0, 100000000);
        if (constant > 1000000000 || constant < -1000000000) continue;
        constraint *c = add(b, 0, constant);
        for (int j = 0; j < 6; j++) c->coefficient[j < 4 ? j : AXES + j - 4] = a[j];
    }
}

static void big(set *s)
{
    for (int k = A; k < E; k++) {
        s[k].count = from(1, 2);
        for (int i = 0; i < s[k].count; i++) large(&s[k].basic[i], k <= B);
    }
    s[E].count = 1;
    s[E].basic[0] = s[A].basic[0];
    upper(&s[E].basic[0], 0, 500000);
}

static void small(basic_set *b, int n, int divs, const int *period, const int *offset, const int *axis)
{
    int own = from(0, divs), cons = from(0, 4);
    for (int j = 0; j < own; j++) {
        divided(b, axis[j], period[j], offset[j]);
        if (!chance(30)) continue;
        int coefficient = from(-3, 3);
        b->div[b->divs - 1].axis[from(0, n - 1)] = (int16_t)coefficient;
    }
    for (int j = 0; j < cons; j++) {
        int constant = from(-9, 12);
        constraint *c = add(b, chance(15), constant);
        for (int v = 0; v < n; v++)
            if (chance(60)) c->coefficient[v] = (int16_t)from(-4, 4);
        for (int v = 0; v < b->divs; v++)
            if (chance(60)) c->coefficient[AXES + v] = (int16_t)from(-4, 4);
    }
}

static void tiny(set *s)
{
    int n = s->n, divs = from(0, 2), period[2], offset[2], axis[2];
    for (int i = 0; i < 2; i++) period[i] = from(2, 5);
    for (int i = 0; i < 2; i++) offset[i] = from(-3, 3);
    for (int i = 0; i < 2; i++) axis[i] = from(0, n - 1);
    for (int k = 0; k < SETS; k++) {
        s[k].count = from(0, 3);
        if (k == A && !s[k].count) s[k].count = 1;
        for (int i = 0; i < s[k].count; i++) small(&s[k].basic[i], n, divs, period, offset, axis);
    }
}

/* moves x towards or over the edge of one bound of b, a constraint of one axis or of one division of one axis */
static void to_edge(const basic_set *b, const constraint *c, int n, const int32_t *low, const int32_t *high, int32_t *x)
{
    int place = -1, places = 0, scale = 1, axis;
    for (int j = 0; j < AXES + DIVISIONS; j++)
        if (c->coefficient[j]) {
            place = j;
            places++;
        }
    if (places != 1) return;
    axis = place;
    if (place >= AXES) {
        const division *d = &b->div[place - AXES];
        scale = d->divisor;
        axis = -1;
        for (int j = 0; j < AXES; j++)
            if (d->axis[j]) axis = j;
    }
    if (axis < 0) return;
    int a = c->coefficient[place];
    int64_t edge = -(int64_t)c->constant / a * scale;
    if (edge < low[axis] || edge > high[axis]) return;
    int off = chance(25) ? from(-1, 1) : from(0, 40);
    if (!basic_member(n, b, x)) x[axis] = (int32_t)(c->equality ? edge : edge + (a > 0 ? off : scale - 1 - off));
    if (x[axis] < low[axis]) x[axis] = low[axis];
    if (x[axis] > high[axis]) x[axis] = high[axis];
}

/* the week and the turn that x is in, by b's divisions */
static void in_turn(const basic_set *b, int32_t *x)
{
    for (const division *d = b->div; d < b->div + b->divs; d++) {
        int64_t sum = d->constant + (int64_t)d->axis[SECOND] * x[SECOND] + (int64_t)d->axis[LOAD] * x[LOAD];
        int64_t steps = floor_division(sum, d->divisor);
        if (d->divisor == HOUR) x[WEEK] = (int32_t)floor_division(steps, HOURS);
        else x[TURN] = (int32_t)floor_division(steps, BLOCKS);
    }
}

/* to the second of the same week at which b's window of hours opens or has shut, or one beside it */
static void to_window(const basic_set *b, int32_t *x)
{
    for (const constraint *c = b->con; c < b->con + b->cons; c++)
        for (int i = 0; i < b->divs; i++) {
            int64_t sign = c->coefficient[AXES + i];
            int window = b->div[i].divisor == HOUR && sign * sign == 1 && c->coefficient[WEEK] == -HOURS * sign;
            if (!window) continue;
            int64_t hour = -sign * c->constant + (sign < 0) + HOURS * (int64_t)x[WEEK];
            int64_t second = hour * HOUR - b->div[i].constant + from(-1, 1);
            if (second < -FARTHEST || second > FARTHEST) continue;
            x[SECOND] = (int32_t)second;
            if (chance(50)) return;
        }
}

/* another second, until b holds x; a third of the points then go to an edge of its window */
static void weeks_place(const basic_set *b, int32_t *x)
{
    enum { TRIES = 200 };
    in_turn(b, x);
    for (int tries = 0; tries < TRIES && !basic_member(TURN + 1, b, x); tries++) {
        x[SECOND] = from(-FARTHEST, FARTHEST);
        in_turn(b, x);
    }
    if (chance(33)) to_window(b, x);
}

#define EACH(x) {x, x, x, x, x, x, x, x}
typedef struct {
    const char *name;
    int n;
    void (*fill)(set *);
    int32_t low[AXES], high[AXES];
    void (*place)(const basic_set *, int32_t *); /* NULL, or moves a point to where the basic set can hold it */
} family;
static const family FAMILIES[] = {
    {"dispatch", 5, dispatch, {0, 0, -120, 0, 0}, {2186, 63, 120, 7, 719}, NULL},
    {"slots", 3, slots, {0}, {47, 23, 22}, NULL},
    {"weeks", 5, weeks, {-FARTHEST, 0, 0, -2, -12}, {FARTHEST, 63, 2186, 2, 12}, weeks_place},
    {"limit", 8, limit, {0}, EACH(1000), NULL},
    {"big", 4, big, EACH(-FARTHEST), EACH(FARTHEST), NULL},
    {"tiny", 0, tiny, EACH(-7), EACH(7), NULL}, /* 1 to 3 axes */
};

/* a third of the points uniform, the others moved into a basic set of A or C, with `place` of E too, or just over its
 * edges */
static void point(const set *s, int n, uint32_t number, const family *of, int32_t *x)
{
    const set *t = &s[number % 3 == 1 ? A : of->place && number % 2 ? E : C];
    for (int j = 0; j < n; j++) x[j] = from(of->low[j], of->high[j]);
    if (number % 3 == 0 || !t->count) return;
    const basic_set *b = &t->basic[from(0, t->count - 1)];
    for (const constraint *c = b->con; c < b->con + b->cons; c++) to_edge(b, c, n, of->low, of->high, x);
    if (of->place) of->place(b, x);
}

static const family *family_of(const char *name)
{
    for (size_t i = 0; i < sizeof FAMILIES / sizeof *FAMILIES; i++)
        if (!strcmp(name, FAMILIES[i].name)) return &FAMILIES[i];
    return NULL;
}

static void write_case(const family *of, FILE *f)
{
    static set s[SETS];
    static uint8_t bytes[LONGEST_SET];
    int32_t low[AXES] = {0}, high[AXES] = {0};
    uint32_t points = 256;
    int n = of->n ? of->n : from(1, 3);
    memset(s, 0, sizeof s);
    for (int k = 0; k < SETS; k++) s[k].n = n;
    memcpy(low, of->low, (size_t)n * sizeof *low);
    memcpy(high, of->high, (size_t)n * sizeof *high);
    of->fill(s);
    uint8_t head[2] = {(uint8_t)n, n < 4};
    fwrite(head, 1, 2, f);
    for (int k = 0; k < SETS; k++) {
        uint32_t length = (uint32_t)set_encode(&s[k], bytes);
        fwrite(&length, 4, 1, f);
        fwrite(bytes, 1, length, f);
    }
    fwrite(low, sizeof low, 1, f);
    fwrite(high, sizeof high, 1, f);
    fwrite(&points, 4, 1, f);
    for (uint32_t i = 0; i < points; i++) {
        int32_t x[AXES] = {0};
        point(s, n, i, of, x);
        fwrite(x, sizeof x, 1, f);
    }
}

int main(int argc, char **argv)
{
    const family *of = argc == 5 ? family_of(argv[1]) : NULL;
    if (!of) {
        fputs("workload dispatch|slots|weeks|limit|big|tiny SEED CASES FILE\n", stderr);
        return 2;
    }
    char name[16] = {0};
    strncpy(name, of->name, sizeof name - 1);
    state = strtoull(argv[2], NULL, 10) * 0x1000193u + 77;
    uint32_t cases = (uint32_t)strtoul(argv[3], NULL, 10);
    FILE *f = fopen(argv[4], "wb");
    if (!f) {
        perror(argv[4]);
        return 2;
    }
    fwrite(name, sizeof name, 1, f);
    fwrite(&cases, 4, 1, f);
    for (uint32_t i = 0; i < cases; i++) write_case(of, f);
    return fclose(f) ? 2 : 0;
}
