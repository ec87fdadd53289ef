/* fleet WORKLOAD CASES ROUNDS: the points of a workload of bench/peers asked of its sets A: 64 by one call, by a
 * call of member each, and as prepared points of the prepared set of the peer that this is linked with
 * (column_isl.c there). The three take turns, and of each case the least round counts. Every answer must be that of
 * the definition. Prints a row: family, cases, nanoseconds a point of each way as the median of the cases, and how
 * many times longer than the first the others take. */
#define _POSIX_C_SOURCE 200809L
#include "column.h"
#include "pitsets.h"
#include <stdio.h>
#include <stdlib.h>
#include <string.h>
#include <time.h>

enum { FLEET = 64, ENOUGH_NS = 20000 };
enum { ONE_CALL, EACH, PREPARED, WAYS };

typedef struct {
    const workcase *c;
    int32_t *list;     /* n coordinates to a point */
    void *set, **point; /* the peer's */
    unsigned char *in; /* what was answered */
} asked;

static double now(void)
{
    struct timespec t;
    clock_gettime(CLOCK_THREAD_CPUTIME_ID, &t);
    return (double)t.tv_sec * 1e9 + (double)t.tv_nsec;
}

static void by_one_call(const asked *a)
{
    const workcase *c = a->c;
    size_t n = (size_t)c->n;
    for (int i = 0; i < c->points; i += FLEET) {
        int count = c->points - i < FLEET ? c->points - i : FLEET;
        uint64_t mask;
        if (pitsets_fleet(n, c->bytes[A], c->length[A], a->list + n * (size_t)i, n * (size_t)count, &mask) < 0) exit(1);
        for (int j = 0; j < count; j++) a->in[i + j] = mask >> j & 1;
    }
}

static void by_each(const asked *a)
{
    const workcase *c = a->c;
    for (int i = 0; i < c->points; i++)
        a->in[i] = (unsigned char)pitsets_member_at((size_t)c->n, c->bytes[A], c->length[A], c->point[i]);
}

static void by_prepared(const asked *a)
{
    for (int i = 0; i < a->c->points; i++) a->in[i] = (unsigned char)COLUMN.prepared(a->set, a->point[i]);
}

static void (*const WAY[WAYS])(const asked *) = {by_one_call, by_each, by_prepared};

/* nanoseconds of all points once, from as many runs as take long enough */
static double reading(int way, const asked *a)
{
    double start = now(), ns;
    int runs = 0;
    do {
        WAY[way](a);
        runs++;
        ns = now() - start;
    } while (ns < ENOUGH_NS);
    return ns / runs;
}

static void agreed(int way, const asked *a)
{
    memset(a->in, 2, (size_t)a->c->points);
    WAY[way](a);
    for (int i = 0; i < a->c->points; i++)
        if (a->in[i] != set_member(a->c->decoded[A], a->c->point[i])) {
            fprintf(stderr, "wrong at point %d of a case, way %d\n", i, way);
            exit(1);
        }
}

static asked prepare(const workcase *c)
{
    size_t n = (size_t)c->n, points = (size_t)c->points;
    asked a = {c, malloc(n * points * sizeof *a.list), COLUMN.load(c->decoded[A], c->bytes[A], c->length[A]),
               malloc(points * sizeof *a.point), malloc(points)};
    if (!a.list || !a.point || !a.in) exit(2);
    for (size_t i = 0; i < points; i++) {
        memcpy(a.list + n * i, c->point[i], n * sizeof *a.list);
        a.point[i] = COLUMN.point(a.set, c->n, c->point[i]);
    }
    return a;
}

static int ascending(const void *x, const void *y)
{
    double a = *(const double *)x, b = *(const double *)y;
    return (a > b) - (a < b);
}

int main(int argc, char **argv)
{
    workload w;
    if (argc != 4) return 2;
    workload_read(&w, argv[1]);
    int cases = atoi(argv[2]) < w.cases ? atoi(argv[2]) : w.cases, rounds = atoi(argv[3]);
    double *ns[WAYS], median[WAYS];
    COLUMN.init();
    for (int way = 0; way < WAYS; way++) ns[way] = calloc((size_t)cases, sizeof *ns[way]);
    for (int k = 0; k < cases; k++) {
        asked a = prepare(&w.at[k]);
        for (int way = 0; way < WAYS; way++) agreed(way, &a);
        for (int r = 0; r < rounds; r++)
            for (int way = 0; way < WAYS; way++) {
                double one = reading(way, &a) / a.c->points;
                if (r == 0 || one < ns[way][k]) ns[way][k] = one;
            }
    }
    for (int way = 0; way < WAYS; way++) {
        qsort(ns[way], (size_t)cases, sizeof *ns[way], ascending);
        median[way] = ns[way][cases / 2];
    }
    printf("| %s | %d | %.0f | %.0f | %s: %.0f | %.2f | %.2f |\n", w.family, cases, median[ONE_CALL], median[EACH],
           COLUMN.name, median[PREPARED], median[EACH] / median[ONE_CALL], median[PREPARED] / median[ONE_CALL]);
    return 0;
}
