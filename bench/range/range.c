/* range WORKLOAD CASES ROUNDS: boxes about points of a workload of bench/peers, and whether every point of each is in
 * the set A of its case, or none, or it depends, with the first point of each kind: by one call of the engine, by its
 * difference and its search called one by one, and by the library that this is linked with (bench/peers/column.h).
 * That is asked no more than it takes: whether the box is a subset of the set; where it is not, for the lexicographic
 * minimum of the box with the set; and where there is one, for that of the box without the set. The engine is given
 * bytes, the library its own form of box and set, made before. The three take turns, and of each box the least round
 * counts. Every answer is held against the points of the box, one by one by the definition: a wrong one of the engine
 * ends the program, those of the library are counted. Their boxes, and those that the engine refuses, are left out of
 * the times. Prints a row: family, boxes, how many of each answer and refused, microseconds of the three as the median
 * over the boxes, how many times longer the library takes than the one call, the same of the sums, the library's wrong
 * answers. */
#define _POSIX_C_SOURCE 200809L
#include "column.h"
#include "pitsets.h"
#include <stdio.h>
#include <stdlib.h>
#include <string.h>
#include <time.h>

#define EIGHT int32_t, int32_t, int32_t, int32_t, int32_t, int32_t, int32_t, int32_t
#define ARGS(x) x[0], x[1], x[2], x[3], x[4], x[5], x[6], x[7]
uint64_t probe_search(size_t, const uint8_t *, size_t, uint32_t, EIGHT, EIGHT);
enum { AT, NONE, SPENT }; /* what it says */

/* boxes of a case: as many readings of one axis, between weights so far apart, as blocks of all axes */
enum { BOXES = 8, WEIGHTS = 8, ENOUGH_NS = 20000, LIMIT = 1000000 };
enum { ONE_CALL, ONE_BY_ONE, LIBRARY, WAYS };
enum { REFUSED = 0 }; /* beside the numbers of pitsets_range */

/* what was said, by the numbers of pitsets_range, and the first points of PITSETS_DEPENDS */
typedef struct { int64_t said, inside[AXES], outside[AXES]; } told;

typedef struct {
    const workcase *c;
    int32_t low[AXES], high[AXES];
    uint8_t bytes[LONGEST_BASIC_SET];
    size_t length;
    void *box, *set;
    told by[WAYS];
    int wrong; /* the library */
} question;

static uint8_t table[LONGEST_SET];

static double now(void)
{
    struct timespec t;
    clock_gettime(CLOCK_THREAD_CPUTIME_ID, &t);
    return (double)t.tv_sec * 1e9 + (double)t.tv_nsec;
}

static void by_one_call(question *q)
{
    told *t = &q->by[ONE_CALL];
    size_t length;
    t->said = pitsets_range((size_t)q->c->n, q->c->bytes[A], q->c->length[A], q->low, q->high, LIMIT, LIMIT, table,
                            sizeof table, &length, t->inside, t->outside);
}

/* the points would come with the searches: they are not asked for once more */
static void one_by_one(question *q)
{
    const workcase *c = q->c;
    size_t n = (size_t)c->n;
    int64_t length = pitsets_difference(n, q->bytes, q->length, c->bytes[A], c->length[A], table, sizeof table);
    uint64_t inside = probe_search(n, c->bytes[A], c->length[A], LIMIT, ARGS(q->low), ARGS(q->high));
    uint64_t outside = length < 0 ? NONE : probe_search(n, table, (size_t)length, LIMIT, ARGS(q->low), ARGS(q->high));
    if (length < 0) q->by[ONE_BY_ONE].said = length;
    else if (inside == SPENT) q->by[ONE_BY_ONE].said = PITSETS_SPENT_INSIDE;
    else if (outside == SPENT) q->by[ONE_BY_ONE].said = PITSETS_SPENT_OUTSIDE;
    else q->by[ONE_BY_ONE].said = inside == NONE ? PITSETS_NEVER : outside == NONE ? PITSETS_SURE : PITSETS_DEPENDS;
}

/* whether the set of an operation has a point, and the first one */
static int first_of(int operation, const question *q, int64_t point[AXES])
{
    int refusal;
    int32_t x[AXES] = {0};
    void *s = COLUMN.operate(operation, q->box, q->set, &refusal);
    int found = COLUMN.first(s, q->c->n, q->low, q->high, x);
    COLUMN.drop(s);
    for (int i = 0; i < AXES; i++) point[i] = found == 1 ? x[i] : 0;
    return found == 1;
}

static void by_library(question *q)
{
    told *t = &q->by[LIBRARY];
    if (COLUMN.subset(q->box, q->set) == 1) t->said = PITSETS_SURE;
    else if (!first_of(INTERSECTION, q, t->inside)) t->said = PITSETS_NEVER;
    else t->said = first_of(DIFFERENCE, q, t->outside) ? PITSETS_DEPENDS : PITSETS_SURE;
}

static void (*const WAY[WAYS])(question *) = {by_one_call, one_by_one, by_library};

/* nanoseconds of one answer, from as many as take long enough */
static double reading(int way, question *q)
{
    double start = now(), ns;
    int runs = 0;
    do {
        WAY[way](q);
        runs++;
        ns = now() - start;
    } while (ns < ENOUGH_NS);
    return ns / runs;
}

/* the next point of the box in dictionary order; 0 behind the last */
static int next(const question *q, int32_t x[AXES])
{
    int j = q->c->n - 1;
    for (; j >= 0 && x[j] == q->high[j]; j--) x[j] = q->low[j];
    if (j >= 0) x[j]++;
    return j >= 0;
}

static void keep(const int32_t x[AXES], int64_t point[AXES])
{
    for (int i = 0; i < AXES; i++) point[i] = x[i];
}

/* by the definition, point by point */
static told truth(const question *q)
{
    told t = {0, {0}, {0}};
    int in = 0, out = 0;
    int32_t x[AXES];
    memcpy(x, q->low, sizeof x);
    do {
        int member = set_member(q->c->decoded[A], x);
        if (member && !in++) keep(x, t.inside);
        if (!member && !out++) keep(x, t.outside);
    } while (next(q, x) && !(in && out));
    t.said = !out ? PITSETS_SURE : !in ? PITSETS_NEVER : PITSETS_DEPENDS;
    return t;
}

static int right(const told *t, const told *is, int points)
{
    if (t->said != is->said) return 0;
    if (!points || is->said != PITSETS_DEPENDS) return 1;
    return !memcmp(t->inside, is->inside, sizeof t->inside) && !memcmp(t->outside, is->outside, sizeof t->outside);
}

/* what is right, or REFUSED; the engine has to be right */
static int64_t judged(question *q, const char *family)
{
    told is = truth(q), *call = &q->by[ONE_CALL], *calls = &q->by[ONE_BY_ONE];
    for (int way = 0; way < WAYS; way++) WAY[way](q);
    if (call->said < 0 && call->said == calls->said) return REFUSED;
    if (!right(call, &is, 1) || !right(calls, &is, 0)) {
        fprintf(stderr, "%s: the engine says %lld and %lld, should be %lld\n", family, (long long)call->said,
                (long long)calls->said, (long long)is.said);
        exit(1);
    }
    q->wrong = !right(&q->by[LIBRARY], &is, 1);
    return is.said;
}

/* the axis with the longest side */
static int longest(const workcase *c)
{
    int axis = 0;
    for (int j = 1; j < c->n; j++)
        if (c->high[j] - c->low[j] > c->high[axis] - c->low[axis]) axis = j;
    return axis;
}

/* so many steps on both sides of a point on an axis, within the box of the case */
static void widen(question *q, int axis, int steps)
{
    q->low[axis] -= steps;
    q->high[axis] += steps;
    if (q->low[axis] < q->c->low[axis]) q->low[axis] = q->c->low[axis];
    if (q->high[axis] > q->c->high[axis]) q->high[axis] = q->c->high[axis];
}

/* point number i of the workload that is in the set, or is not; its first point where there are fewer */
static const int32_t *centre(const workcase *c, int member, int i)
{
    for (int p = 0; p < c->points; p++)
        if (set_member(c->decoded[A], c->point[p]) == member && i-- == 0) return c->point[p];
    return c->point[0];
}

/* the box in the bytes of a set and in the library's form */
static void lay_out(question *q)
{
    static set s;
    memset(&s, 0, sizeof s);
    s.n = q->c->n;
    s.count = 1;
    s.basic[0].cons = 2 * s.n;
    for (int j = 0; j < s.n; j++) {
        constraint *r = &s.basic[0].con[2 * j];
        r[0].constant = -q->low[j];
        r[0].coefficient[j] = 1;
        r[1].constant = q->high[j];
        r[1].coefficient[j] = -1;
    }
    q->length = set_encode(&s, q->bytes);
    q->box = COLUMN.load(&s, q->bytes, q->length);
}

/* every other box is a reading of the longest axis, the others are blocks of 3 values on each of up to 5 axes; half of
 * them are about points of the set */
static int questions(const workload *w, int cases, question *to)
{
    int count = 0;
    for (const workcase *c = w->at; c < w->at + cases; c++) {
        void *set = COLUMN.load(c->decoded[A], c->bytes[A], c->length[A]);
        for (int i = 0; i < BOXES; i++) {
            question *q = &to[count++];
            q->c = c;
            q->set = set;
            const int32_t *x = centre(c, i / 2 % 2, i / 4);
            memcpy(q->low, x, sizeof q->low);
            memcpy(q->high, x, sizeof q->high);
            if (i % 2 == 0) widen(q, longest(c), WEIGHTS / 2);
            for (int j = 0; j < c->n && j < 5 && i % 2; j++) widen(q, j, 1);
            lay_out(q);
        }
    }
    return count;
}

static int ascending(const void *x, const void *y)
{
    double a = *(const double *)x, b = *(const double *)y;
    return (a > b) - (a < b);
}

/* the least of so many rounds, the ways in turns */
static void measure(question *q, int rounds, double *ns[WAYS], int at)
{
    for (int r = 0; r < rounds; r++)
        for (int way = 0; way < WAYS; way++) {
            double one = reading(way, q);
            if (r == 0 || one < ns[way][at]) ns[way][at] = one;
        }
}

int main(int argc, char **argv)
{
    workload w;
    int said[PITSETS_DEPENDS + 1] = {0}, timed = 0, wrong = 0;
    double *ns[WAYS], sum[WAYS] = {0}, median[WAYS] = {0};
    if (argc != 4) return 2;
    workload_read(&w, argv[1]);
    COLUMN.init();
    int cases = atoi(argv[2]) < w.cases ? atoi(argv[2]) : w.cases, rounds = atoi(argv[3]);
    question *asked = calloc((size_t)cases * BOXES, sizeof *asked);
    for (int way = 0; way < WAYS; way++) ns[way] = calloc((size_t)cases * BOXES, sizeof **ns);
    int count = questions(&w, cases, asked);
    for (question *q = asked; q < asked + count; q++) {
        int64_t is = judged(q, w.family);
        said[is]++;
        wrong += q->wrong;
        if (is != REFUSED && !q->wrong) measure(q, rounds, ns, timed++);
    }
    for (int way = 0; way < WAYS && timed; way++) {
        for (int i = 0; i < timed; i++) sum[way] += ns[way][i];
        qsort(ns[way], (size_t)timed, sizeof **ns, ascending);
        median[way] = ns[way][timed / 2];
    }
    printf("| %s | %d | %d, %d, %d, %d ", w.family, count, said[PITSETS_SURE], said[PITSETS_NEVER],
           said[PITSETS_DEPENDS], said[REFUSED]);
    printf("| %.2f | %.2f | %s: %.2f | %.2f | %.2f | %d |\n", median[ONE_CALL] / 1e3, median[ONE_BY_ONE] / 1e3,
           COLUMN.name, median[LIBRARY] / 1e3, median[LIBRARY] / median[ONE_CALL], sum[LIBRARY] / sum[ONE_CALL], wrong);
    return 0;
}
