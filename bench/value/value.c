/* value WORKLOAD CASES ROUNDS: over each basic set of the sets A of a workload of bench/peers the greatest and the
 * least value of an axis or a division and of a random expression, by the engine and by the library that this is linked
 * with (optimum.h). The two take turns, and of each question the least round counts. The engine is given the set's
 * bytes, which it checks and decodes in every call; the library its own form of the basic set, made before. Both must
 * tell the same, where the engine does not say wide or long. Prints a row: family, questions, how many of each answer,
 * microseconds of both as the median of the questions that both answer, how many times longer the library takes, and
 * the same of the sums. */
#define _POSIX_C_SOURCE 200809L
#include "optimum.h"
#include "pitsets.h"
#include <stdio.h>
#include <stdlib.h>
#include <string.h>
#include <time.h>

enum { ENOUGH_NS = 20000, EXPRESSIONS = 4, MOST = 20000 };
enum { ENGINE, LIBRARY, WAYS };

typedef struct {
    const workcase *c;
    size_t k; /* the basic set's number */
    expression e;
    int greatest;
    pitsets_fraction value;
    int64_t said;
    void *library;
} question;

static double now(void)
{
    struct timespec t;
    clock_gettime(CLOCK_THREAD_CPUTIME_ID, &t);
    return (double)t.tv_sec * 1e9 + (double)t.tv_nsec;
}

static uint64_t state = 1;

static int from(int low, int high)
{
    state = state * 6364136223846793005u + 1442695040888963407u;
    return low + (int)((state >> 33) % (uint64_t)(high - low + 1));
}

/* one axis or division alone, or every other coefficient not 0 */
static expression random_expression(int n, const basic_set *b, int alone)
{
    expression e = {.constant = from(-1000, 1000)};
    int place = from(0, n + b->divs - 1);
    if (alone) {
        *(place < n ? &e.axis[place] : &e.division[place - n]) = 1;
        return e;
    }
    for (int i = 0; i < n; i++) e.axis[i] = from(0, 1) ? from(-9, 9) : 0;
    for (int j = 0; j < b->divs; j++) e.division[j] = from(0, 1) ? from(-9, 9) : 0;
    return e;
}

static void by_engine(question *q)
{
    const workcase *c = q->c;
    q->said = (q->greatest ? pitsets_greatest : pitsets_least)(
        (size_t)c->n, c->bytes[A], c->length[A], q->k, q->e.constant, q->e.axis, q->e.division, &q->value);
}

static void by_library(question *q) { SOLVER.ask(q->library, q->greatest); }

static void (*const WAY[WAYS])(question *) = {by_engine, by_library};

/* nanoseconds of one answer, from as many as take long enough */
static double reading(int way, question *q)
{
    double start = now(), ns;
    int runs = 0;
    do {
        WAY[way](q);
        runs++;
        ns = now() - start;
    } while (ns < ENOUGH_NS);
    return ns / runs;
}

/* a number of 128 bits in decimal, at the end of the room for it */
static const char *decimal(pitsets_wide w, char room[48])
{
    unsigned __int128 size = (unsigned __int128)(uint64_t)w.high << 64 | w.low;
    char *p = room + 47;
    if (w.high < 0) size = -size;
    *p = 0;
    do *--p = (char)('0' + (int)(size % 10));
    while (size /= 10);
    if (w.high < 0) *--p = '-';
    return p;
}

static const char *told(const question *q, char room[120])
{
    char numerator[48], denominator[48];
    switch (q->said) {
    case PITSETS_VALUE:
        snprintf(room, 120, "%s/%s", decimal(q->value.numerator, numerator),
                 decimal(q->value.denominator, denominator));
        return room;
    case PITSETS_EMPTY: return "empty";
    case PITSETS_UNBOUNDED: return "unbounded";
    case PITSETS_WIDE: return "wide";
    case PITSETS_LONG: return "long";
    default: return "refused";
    }
}

static void agreed(question *q, const char *family)
{
    char room[120];
    for (int way = 0; way < WAYS; way++) WAY[way](q);
    const char *engine = told(q, room), *library = SOLVER.told(q->library);
    if (q->said == PITSETS_WIDE || q->said == PITSETS_LONG || !strcmp(engine, library)) return;
    fprintf(stderr, "%s, basic set %zu, %s: %s, by %s %s\n", family, q->k, q->greatest ? "greatest" : "least", engine,
            SOLVER.name, library);
    exit(1);
}

static int questions(const workload *w, int cases, question *to)
{
    int count = 0;
    for (const workcase *c = w->at; c < w->at + cases; c++)
        for (int k = 0; k < c->decoded[A]->count; k++)
            for (int i = 0; i < EXPRESSIONS && count < MOST; i++) {
                const basic_set *b = &c->decoded[A]->basic[k];
                question *q = &to[count++];
                expression e = random_expression(c->n, b, i < EXPRESSIONS / 2);
                *q = (question){.c = c, .k = (size_t)k + 1, .e = e, .greatest = i % 2 == 0};
                q->library = SOLVER.prepare(c->n, b, &q->e);
            }
    return count;
}

static int ascending(const void *x, const void *y)
{
    double a = *(const double *)x, b = *(const double *)y;
    return (a > b) - (a < b);
}

int main(int argc, char **argv)
{
    static question asked[MOST];
    static double ns[WAYS][MOST];
    workload w;
    int said[PITSETS_LONG + 1] = {0}, answered = 0;
    double sum[WAYS] = {0, 0}, median[WAYS] = {0, 0};
    if (argc != 4) return 2;
    workload_read(&w, argv[1]);
    SOLVER.init();
    int rounds = atoi(argv[3]), count = questions(&w, atoi(argv[2]) < w.cases ? atoi(argv[2]) : w.cases, asked);
    for (question *q = asked; q < asked + count; q++) {
        agreed(q, w.family);
        said[q->said]++;
        if (q->said == PITSETS_WIDE || q->said == PITSETS_LONG) continue;
        for (int r = 0; r < rounds; r++)
            for (int way = 0; way < WAYS; way++) {
                double one = reading(way, q);
                if (r == 0 || one < ns[way][answered]) ns[way][answered] = one;
            }
        answered++;
    }
    for (int way = 0; way < WAYS && answered; way++) {
        for (int i = 0; i < answered; i++) sum[way] += ns[way][i];
        qsort(ns[way], (size_t)answered, sizeof **ns, ascending);
        median[way] = ns[way][answered / 2];
    }
    printf("| %s | %d | %d, %d, %d, %d, %d | %.2f | %s: %.2f | %.2f | %.2f |\n", w.family, count, said[PITSETS_VALUE],
           said[PITSETS_EMPTY], said[PITSETS_UNBOUNDED], said[PITSETS_WIDE], said[PITSETS_LONG], median[ENGINE] / 1e3,
           SOLVER.name, median[LIBRARY] / 1e3, median[LIBRARY] / median[ENGINE], sum[LIBRARY] / sum[ENGINE]);
    return 0;
}
