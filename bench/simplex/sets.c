#include "sets.h"
#include <stdio.h>
#include <stdlib.h>
#include <string.h>

static uint64_t state;

static uint64_t next(void)
{
    uint64_t z = (state += 0x9e3779b97f4a7c15u);
    z = (z ^ (z >> 30)) * 0xbf58476d1ce4e5b9u;
    z = (z ^ (z >> 27)) * 0x94d049bb133111ebu;
    return z ^ (z >> 31);
}

static int from_to(int low, int high) { return low + (int)(next() % (uint64_t)(high - low + 1)); }
static int chance(int percent) { return from_to(0, 99) < percent; }

/* ---- dispatch */

enum { PAYLOAD, ROAD, GRADE, CLASS, MINUTE, BOARD }; /* 100 kg, number, 0.1 %, number, of the shift; how many */

static constraint *add(basic_set *b, int equality, int constant)
{
    constraint *c = &b->constraints[b->cons++];
    memset(c, 0, sizeof *c);
    c->equality = (uint8_t)equality;
    c->constant = constant;
    return c;
}

static void least(basic_set *b, int axis, int x) { add(b, 0, -x)->axes[axis] = 1; }
static void most(basic_set *b, int axis, int x) { add(b, 0, x)->axes[axis] = -1; }
static void least_of(basic_set *b, size_t q, int x) { add(b, 0, -x)->divisions[q] = 1; }
static void most_of(basic_set *b, size_t q, int x) { add(b, 0, x)->divisions[q] = -1; }

/* the division of one axis; one that is there already is that one */
static size_t division_of(basic_set *b, int axis, unsigned d)
{
    for (size_t i = 0; i < b->divs; i++)
        if (b->divisions[i].divisor == d && b->divisions[i].axes[axis] == 1) return i;
    division *q = &b->divisions[b->divs];
    memset(q, 0, sizeof *q);
    q->divisor = d;
    q->axes[axis] = 1;
    return b->divs++;
}

static void two(basic_set *b, int constant, int x, int a, int y, int c)
{
    constraint *r = add(b, 0, constant);
    r->axes[x] = (int16_t)a;
    r->axes[y] = (int16_t)c;
}

/* every second slot of half an hour, of an hour */
static void alternate(basic_set *b)
{
    size_t slot = division_of(b, MINUTE, 30), hour = division_of(b, MINUTE, 60);
    constraint *r = add(b, 1, -from_to(0, 1));
    r->divisions[slot] = 1;
    r->divisions[hour] = -2;
}

/* what a truck may do: loads, roads, minutes, and up to `rules` constraints on class and grade */
static void permit(basic_set *b, size_t rules)
{
    int road = from_to(0, 50), start = from_to(0, 20), end = start + from_to(1, 13), grade = from_to(20, 120);
    least(b, PAYLOAD, 0);
    most(b, PAYLOAD, chance(50) ? 2186 : from_to(600, 2186));
    if (chance(25)) add(b, 1, -road)->axes[ROAD] = 1;
    else { least(b, ROAD, road); most(b, ROAD, road + from_to(2, 30)); }
    if (chance(35)) { size_t q = division_of(b, MINUTE, 30); least_of(b, q, start); most_of(b, q, end); }
    else { least(b, MINUTE, start * 30); most(b, MINUTE, end * 30 + 29); }
    if (chance(60)) { size_t q = division_of(b, PAYLOAD, 10); constraint *r = add(b, 0, from_to(40, 120)); r->divisions[q] = -1; r->axes[CLASS] = (int16_t)from_to(10, 28); }
    if (chance(30)) alternate(b);
    if (chance(20)) most_of(b, division_of(b, ROAD, 8), road / 8 + 4);
    if (b->cons < rules) { int c = from_to(0, 5); least(b, CLASS, c); most(b, CLASS, from_to(c, 7)); }
    if (b->cons < rules) least(b, GRADE, -grade);
    if (b->cons < rules) most(b, GRADE, grade);
    if (b->cons < rules) two(b, from_to(1800, 2600), PAYLOAD, -1, GRADE, -from_to(4, 12));
    if (b->cons < rules) two(b, from_to(1800, 2600), PAYLOAD, -1, GRADE, from_to(4, 12));
    if (b->cons < rules) two(b, from_to(-40, 40), MINUTE, 1, CLASS, -from_to(2, 10));
}

/* a road closed for some minutes */
static void closure(basic_set *b)
{
    int road = from_to(0, 60), start = from_to(0, 23), end = start + from_to(0, 8);
    if (chance(40)) add(b, 1, -road)->axes[ROAD] = 1;
    else { least(b, ROAD, road); most(b, ROAD, road + from_to(0, 8)); }
    if (chance(30)) { size_t q = division_of(b, MINUTE, 30); least_of(b, q, start); most_of(b, q, end); }
    else if (chance(85)) { least(b, MINUTE, start * 30 + from_to(0, 10)); most(b, MINUTE, end * 30 + from_to(0, 29)); }
    if (chance(25)) alternate(b);
    if (chance(35)) least_of(b, division_of(b, PAYLOAD, 10), from_to(60, 200));
    if (chance(30)) least(b, CLASS, from_to(1, 6));
    if (chance(15)) two(b, -from_to(400, 1500), PAYLOAD, 1, GRADE, from_to(2, 8));
}

/* the opposite of the last constraint in its place: of an equality the first or the second */
static void oppose(basic_set *b)
{
    constraint *c = &b->constraints[b->cons - 1];
    int sign = c->equality && chance(50) ? 1 : -1;
    c->equality = 0;
    c->constant = sign * c->constant - 1;
    for (int i = 0; i < 8; i++) {
        c->axes[i] = (int16_t)(sign * c->axes[i]);
        c->divisions[i] = (int16_t)(sign * c->divisions[i]);
    }
}

/* the candidates of a cut: the permit, the closures' constraints before one of them, and its opposite */
void dispatch(workload *w, uint64_t seed)
{
    state = seed;
    w->axes = BOARD;
    for (w->count = 0; w->count < SETS; w->count++) {
        basic_set *b = &w->set[w->count];
        memset(b, 0, sizeof *b);
        permit(b, (size_t)from_to(5, 15));
        size_t before = b->cons;
        for (int closures = from_to(1, 2); closures > 0; closures--) closure(b);
        b->cons = (size_t)from_to((int)before + 1, (int)b->cons);
        oppose(b);
    }
}

/* ---- weeks: hours of a week of 604,800 s, blocks of a belt's counter that begins anew at 10^9 */

enum { LOAD, TRUCK, SECOND, WEEK, TURN, CALENDAR }; /* 100 kg, number, of the plan, number, of the counter; how many */
/* a divisor has 16 bits, so a period takes two steps: 3,600 · 168 = 604,800, 32,000 · 31,250 = 10^9 */
enum { HOUR = 3600, HOURS = 168, BLOCK = 32000, BLOCKS = 31250 };

/* `steps` of the period from `start` on; the step is a division of the second, the period's number an axis */
static void recurring(basic_set *b, division q, int turn, int period, int start, int steps)
{
    size_t place = 0;
    while (place < b->divs && memcmp(&b->divisions[place], &q, sizeof q)) place++;
    if (place == b->divs) b->divisions[b->divs++] = q;
    for (int sign = 1; sign >= -1; sign -= 2) {
        constraint *r = add(b, 0, sign > 0 ? -start : start + steps - 1);
        r->divisions[place] = (int16_t)sign;
        r->axes[turn] = (int16_t)(-sign * period);
    }
}

/* a window of so many of 100 parts of a pit's week or of a belt's counter; there are two of each */
static void maintenance(basic_set *b, int percent)
{
    static const int32_t BEGINS[] = {61234, 414000}, STARTS[] = {-123456789, 876543210};
    static const int16_t RATE[] = {5987, 2311};
    int which = from_to(0, 1), hours = HOURS * percent / 100, blocks = BLOCKS * percent / 100;
    division q = {HOUR, BEGINS[which], {0}};
    q.axes[SECOND] = 1;
    if (chance(60)) {
        recurring(b, q, WEEK, HOURS, from_to(0, HOURS - hours), hours);
        return;
    }
    q.divisor = BLOCK;
    q.constant = STARTS[which];
    q.axes[SECOND] = RATE[which];
    q.axes[LOAD] = 250;
    recurring(b, q, TURN, BLOCKS, from_to(0, BLOCKS - blocks), blocks);
}

/* the candidates of a cut as above */
void weeks(workload *w, uint64_t seed)
{
    state = seed;
    w->axes = CALENDAR;
    for (w->count = 0; w->count < SETS; w->count++) {
        basic_set *b = &w->set[w->count];
        memset(b, 0, sizeof *b);
        int truck = from_to(0, 50);
        least(b, LOAD, 0);
        most(b, LOAD, from_to(900, 2186));
        least(b, TRUCK, truck);
        most(b, TRUCK, truck + from_to(3, 13));
        for (int windows = from_to(1, 2); windows > 0; windows--) maintenance(b, from_to(25, 85));
        size_t before = b->cons;
        for (int closures = from_to(1, 2); closures > 0; closures--) {
            if (chance(50)) least(b, TRUCK, from_to(0, 60));
            maintenance(b, from_to(2, 20));
        }
        b->cons = (size_t)from_to((int)before + 1, (int)b->cons);
        oppose(b);
    }
}

/* ---- constraints at random */

static void coefficients(int16_t *a, size_t n, int most, int percent)
{
    for (size_t i = 0; i < n; i++) a[i] = (int16_t)(chance(percent) ? from_to(-most, most) : 0);
}

static void random_sets(workload *w, uint64_t seed, size_t axes, size_t divs, size_t cons, int most, int percent)
{
    state = seed;
    w->axes = axes;
    for (w->count = 0; w->count < SETS / 4; w->count++) {
        basic_set *b = &w->set[w->count];
        memset(b, 0, sizeof *b);
        b->divs = divs;
        for (size_t i = 0; i < divs; i++) {
            b->divisions[i].divisor = (uint32_t)from_to(1, 6);
            b->divisions[i].constant = from_to(-30, 30);
            coefficients(b->divisions[i].axes, axes, most, percent);
        }
        for (size_t i = 0; i < cons; i++) {
            constraint *c = add(b, chance(5), from_to(-15 * most, 15 * most));
            coefficients(c->axes, axes, most, percent);
            coefficients(c->divisions, divs, most, percent);
        }
    }
}

void full(workload *w, uint64_t seed, int most, int percent) { random_sets(w, seed, 8, 8, 48, most, percent); }
void small(workload *w, uint64_t seed, int rows, int columns, int most, int percent) { random_sets(w, seed, (size_t)columns - 2, 2, (size_t)rows - 4, most, percent); }

/* ---- the same pivots at 64 bits and at 128 */

static ended tested(const basic_set *b)
{
    static row rows[ROWS];
    static size_t place[VARIABLES];
    static uint8_t kinds[VARIABLES];
    return plain_test(b, rows, place, kinds);
}

/* A further rule, the last, of the column of the first pivot. Its constant is the only one that is beyond ±(2^31 − 1),
 * so that the test is carried before the first pivot. 0: no column does. */
static int put_far(basic_set *b, size_t axes)
{
    if (b->cons == CONSTRAINTS) b->cons--;
    constraint *c = add(b, 0, INT32_MIN);
    for (size_t j = 0; j < axes + b->divs; j++) {
        int16_t *entry = j < axes ? &c->axes[j] : &c->divisions[j - axes];
        *entry = 1;
        ended e = tested(b);
        if (e.carried && e.narrow == 0) return 1;
        *entry = 0;
    }
    return 0;
}

void large(workload *w, uint64_t seed, size_t rows, size_t columns, int most)
{
    size_t divs = columns > AXES ? columns - AXES : 2, kept = 0;
    random_sets(w, seed, columns - divs, divs, rows - 2 * divs, most, 100);
    for (size_t i = 0; i < w->count; i++) {
        basic_set *b = &w->set[kept];
        *b = w->set[i];
        for (size_t k = 0; k < b->cons; k++) b->constraints[k].constant = from_to(-1000000000, 1000000000);
        kept += (size_t)put_far(b, w->axes);
    }
    w->count = kept;
}

/* each rule times its own factor: signs and pivots stay, numbers grow by up to the square of the factors' product */
static void scale(basic_set *b)
{
    static const int FACTORS[] = {2, 3, 5, 7, 11};
    for (size_t i = 0; i < b->cons; i++) {
        constraint *c = &b->constraints[i];
        int f = 1;
        for (int k = 0; k < 5; k++) f *= i >> k & 1 ? FACTORS[k] : 1;
        c->constant *= f;
        for (int j = 0; j < 8; j++) {
            c->axes[j] = (int16_t)(f * c->axes[j]);
            c->divisions[j] = (int16_t)(f * c->divisions[j]);
        }
    }
}

void twins(const workload *w, int scaled, workload *near, workload *far)
{
    near->axes = far->axes = w->axes;
    near->count = 0;
    for (size_t i = 0; i < w->count; i++) {
        basic_set *n = &near->set[near->count], *f = &far->set[near->count];
        *f = w->set[i];
        if (!put_far(f, w->axes)) continue;
        *n = *f;
        n->constraints[n->cons - 1].constant = -1;
        if (scaled) {
            f->cons--;
            scale(f);
            f->cons++;
        }
        ended a = tested(n), b = tested(f);
        near->count += !a.carried && b.carried && b.narrow == 0 && a.pivots == b.pivots;
    }
    far->count = near->count;
}

/* ---- the hard sets: a heading '# axes N ..', then lines `div` d c axes, `ge` or `eq` c axes divisions */

static void numbers(int16_t *a, size_t n) { for (size_t i = 0; i < n; i++) { char *w = strtok(NULL, " \n"); a[i] = (int16_t)(w ? atoi(w) : 0); } }

static void line_of(basic_set *b, size_t axes, const char *word)
{
    if (!strcmp(word, "div")) {
        division *d = &b->divisions[b->divs++];
        d->divisor = (uint32_t)atoi(strtok(NULL, " \n"));
        d->constant = atoi(strtok(NULL, " \n"));
        numbers(d->axes, axes);
    } else {
        constraint *c = add(b, !strcmp(word, "eq"), atoi(strtok(NULL, " \n")));
        numbers(c->axes, axes);
        numbers(c->divisions, b->divs);
    }
}

int hard(workload *w, const char *path)
{
    char line[512];
    FILE *f = fopen(path, "r");
    w->axes = 0;
    w->count = 0;
    if (!f) return 0;
    size_t axes = 0;
    while (fgets(line, sizeof line, f)) {
        if (sscanf(line, "# axes %zu", &axes) == 1) {
            if (w->count == SETS) break;
            if (axes > w->axes) w->axes = axes;
            memset(&w->set[w->count++], 0, sizeof(basic_set));
        } else if (line[0] != '#' && line[0] != '\n' && w->count > 0) {
            line_of(&w->set[w->count - 1], axes, strtok(line, " \n"));
        }
    }
    fclose(f);
    return 1;
}

/* ---- bytes */

static uint8_t *put(uint8_t *p, uint32_t x, int bytes) { for (; bytes > 0; bytes--, x >>= 8) *p++ = (uint8_t)x; return p; }
static uint8_t *put_all(uint8_t *p, const int16_t *a) { for (int i = 0; i < 8; i++) p = put(p, (uint16_t)a[i], 2); return p; }

size_t encode(const basic_set *b, uint8_t *out)
{
    uint8_t *p = put(out, OPENING_CODE, 1);
    for (size_t i = 0; i < b->divs; i++) {
        const division *d = &b->divisions[i];
        p = put_all(put(put(put(p, DIVISION_CODE, 1), d->divisor, 2), (uint32_t)d->constant, 4), d->axes);
    }
    for (size_t i = 0; i < b->cons; i++) {
        const constraint *c = &b->constraints[i];
        p = put(put(p, c->equality ? EQUALITY_CODE : INEQUALITY_CODE, 1), (uint32_t)c->constant, 4);
        p = put_all(put_all(p, c->axes), c->divisions);
    }
    return (size_t)(p - out);
}
