/* states WORKLOAD CASES ROUNDS grow|try: each basic set of the sets A of a workload of bench/peers built rule by rule, as
 * far as it says point, and the rule behind where that says empty.
 *   grow   started and built, rule by rule: by the calls on a state; by a test of the grown set's bytes after each rule,
 *          as a caller without states would; by the library that this is linked with (growing.h). Microseconds a rule.
 *   try    the last rule tried on the state before it and taken back: added and gone back from, by the engine and by the
 *          library; by a test of the grown set, which needs no way back; and a mark and a going back alone.
 * The ways take turns, and of each basic set the least round counts. All must agree on whether a point is left, where
 * the engine does not say wide or long. Prints a row with the medians over the basic sets. */
#define _POSIX_C_SOURCE 200809L
#include "growing.h"
#include "pitsets.h"
#include <stdio.h>
#include <stdlib.h>
#include <string.h>
#include <time.h>

uint64_t probe_test(size_t, const uint8_t *, size_t, size_t);

enum { ENOUGH_NS = 20000, MOST = 5000 };
enum { DROPPED = 1, LONG = 2 }; /* of a test: 0 is point, 3 wide */

/* a rule in the form of pitsets_state_add */
typedef struct { bool equality; int32_t constant, axes[8], divisions[8]; } rule;

typedef struct {
    size_t n, rules; /* how many rules are added, the last of which may say empty */
    int64_t said;    /* to the last of them */
    int stopped;     /* at a rule that is wide or long */
    const basic_set *b;
    uint8_t bytes[LONGEST_BASIC_SET];
    size_t end[1 + CONSTRAINTS]; /* how many of the bytes are those of the set with its first 0, 1, .. rules */
    pitsets_division divisions[DIVISIONS];
    rule rule[CONSTRAINTS];
    void *library;
} grown;

static pitsets_state plan;

static double now(void)
{
    struct timespec t;
    clock_gettime(CLOCK_THREAD_CPUTIME_ID, &t);
    return (double)t.tv_sec * 1e9 + (double)t.tv_nsec;
}

static int64_t start(const grown *g) { return pitsets_state_start(&plan, g->n, g->divisions, (size_t)g->b->divs); }

static int64_t add(const grown *g, size_t i)
{
    const rule *r = &g->rule[i];
    return pitsets_state_add(&plan, r->equality, r->constant, r->axes, r->divisions);
}

/* the test of the set with its first `rules` rules */
static uint64_t tested(const grown *g, size_t rules) { return probe_test(g->n, g->bytes, g->end[rules], 1); }

static void grow_state(grown *g)
{
    start(g);
    for (size_t i = 0; i < g->rules; i++) add(g, i);
}

static void grow_test(grown *g)
{
    for (size_t i = 0; i < g->rules; i++) tested(g, i + 1);
}

static void grow_library(grown *g)
{
    LIBRARY.start(g->library);
    for (size_t i = 0; i < g->rules; i++) LIBRARY.add(g->library, (int)i);
}

static void try_state(grown *g)
{
    add(g, g->rules - 1);
    pitsets_state_back(&plan, 0);
}

static void try_test(grown *g) { tested(g, g->rules); }

static void try_library(grown *g)
{
    LIBRARY.mark(g->library);
    LIBRARY.add(g->library, (int)g->rules - 1);
    LIBRARY.back(g->library);
}

static void mark_state(grown *g)
{
    (void)g;
    pitsets_state_mark(&plan, 0);
}

static void back_state(grown *g)
{
    (void)g;
    pitsets_state_back(&plan, 0);
}

typedef void way(grown *);
enum { STATE, TEST, OTHER, MARKING, GOING_BACK, WAYS };
static way *const GROW[WAYS] = {grow_state, grow_test, grow_library};
static way *const TRY[WAYS] = {try_state, try_test, try_library, mark_state, back_state};

/* the state and the library's set before the last rule, marked */
static void ready(grown *g)
{
    start(g);
    for (size_t i = 0; i + 1 < g->rules; i++) add(g, i);
    pitsets_state_mark(&plan, 0);
    if (!LIBRARY.name) return;
    LIBRARY.start(g->library);
    for (size_t i = 0; i + 1 < g->rules; i++) LIBRARY.add(g->library, (int)i);
}

/* nanoseconds of one run, from as many as take long enough; the clock is as dear as a going back, and read once */
static double reading(way *w, grown *g)
{
    for (int runs = 1;; runs *= 2) {
        double begun = now();
        for (int i = 0; i < runs; i++) w(g);
        double ns = now() - begun;
        if (ns >= ENOUGH_NS) return ns / runs;
    }
}

static void disagree(const char *family, size_t rule, int64_t said, const char *who)
{
    fprintf(stderr, "%s, rule %zu: the state says %lld, %s otherwise\n", family, rule + 1, (long long)said, who);
    exit(1);
}

/* how far the set is built, and that all agree */
static void build(grown *g, const char *family)
{
    if (start(g) != PITSETS_STATE_POINT) return;
    if (LIBRARY.name) LIBRARY.start(g->library);
    for (size_t i = 0; i < (size_t)g->b->cons; i++) {
        int64_t said = add(g, i);
        g->stopped = said != PITSETS_STATE_POINT && said != PITSETS_STATE_EMPTY;
        if (g->stopped) return;
        g->rules = i + 1;
        g->said = said;
        uint64_t fresh = tested(g, i + 1);
        if (fresh < LONG && (fresh == DROPPED) != (said == PITSETS_STATE_EMPTY)) disagree(family, i, said, "a test");
        int left = LIBRARY.name ? LIBRARY.add(g->library, (int)i) : said == PITSETS_STATE_POINT;
        if (left != (said == PITSETS_STATE_POINT)) disagree(family, i, said, LIBRARY.name);
        if (said == PITSETS_STATE_EMPTY) return;
    }
}

/* the bytes, and how many of them each number of rules has */
static void write_bytes(grown *g, int n, const basic_set *b)
{
    static set one;
    one.n = n;
    one.count = 1;
    one.basic[0] = *b;
    const uint8_t *end = g->bytes + set_encode(&one, g->bytes);
    size_t rules = 0;
    for (const uint8_t *p = g->bytes; p < end; p += command_of(*p)->bytes) {
        command_kind kind = command_of(*p)->kind;
        if (kind == EQUALITY || kind == INEQUALITY) g->end[rules++] = (size_t)(p - g->bytes);
    }
    g->end[rules] = (size_t)(end - g->bytes);
}

static void take(grown *g, int n, const basic_set *b)
{
    write_bytes(g, n, b);
    g->n = (size_t)n;
    g->b = b;
    for (int j = 0; j < b->divs; j++) {
        g->divisions[j].divisor = b->div[j].divisor;
        g->divisions[j].constant = b->div[j].constant;
        for (int i = 0; i < AXES; i++) g->divisions[j].axes[i] = b->div[j].axis[i];
    }
    for (int j = 0; j < b->cons; j++) {
        g->rule[j].equality = b->con[j].equality != 0;
        g->rule[j].constant = b->con[j].constant;
        for (int i = 0; i < AXES; i++) g->rule[j].axes[i] = b->con[j].coefficient[i];
        for (int i = 0; i < DIVISIONS; i++) g->rule[j].divisions[i] = b->con[j].coefficient[AXES + i];
    }
    if (LIBRARY.name) g->library = LIBRARY.prepare(n, b);
}

static int ascending(const void *x, const void *y)
{
    double a = *(const double *)x, b = *(const double *)y;
    return (a > b) - (a < b);
}

static double median(double *ns, int count)
{
    qsort(ns, (size_t)count, sizeof *ns, ascending);
    return count ? ns[count / 2] : 0;
}

/* what a run of each way takes, a rule's part of it where the set is built */
static void measure(grown *g, int rounds, bool growing, double *ns[WAYS], int at)
{
    way *const *ways = growing ? GROW : TRY;
    if (!growing) ready(g);
    for (int r = 0; r < rounds; r++)
        for (int w = 0; w < WAYS; w++) {
            if (!ways[w] || (w == OTHER && !LIBRARY.name)) continue;
            double one = reading(ways[w], g) / (growing ? (double)g->rules : 1);
            if (r == 0 || one < ns[w][at]) ns[w][at] = one;
        }
}

static void print_row(const char *family, bool growing, const int counts[3], double rules, const double median[WAYS])
{
    const char *name = LIBRARY.name ? LIBRARY.name : "–";
    printf("| %s | %d | %.1f | %d, %d | ", family, counts[0], rules, counts[1], counts[2]);
    if (!growing) printf("%.2f | %.2f | ", median[MARKING] / 1e3, median[GOING_BACK] / 1e3);
    printf("%.2f | %.2f | %.2f | ", median[STATE] / 1e3, median[TEST] / 1e3, median[TEST] / median[STATE]);
    if (LIBRARY.name) printf("%s: %.2f | %.2f |\n", name, median[OTHER] / 1e3, median[OTHER] / median[STATE]);
    else puts("– | – |");
}

int main(int argc, char **argv)
{
    static grown g;
    static double room[WAYS][MOST];
    double *ns[WAYS], medians[WAYS], rules = 0;
    int counts[3] = {0, 0, 0}; /* basic sets, of them empty at their last rule, stopped at a rule wide or long */
    workload w;
    if (argc != 5) return 2;
    bool growing = !strcmp(argv[4], "grow");
    workload_read(&w, argv[1]);
    for (int i = 0; i < WAYS; i++) ns[i] = room[i];
    int cases = atoi(argv[2]) < w.cases ? atoi(argv[2]) : w.cases, rounds = atoi(argv[3]);
    for (const workcase *c = w.at; c < w.at + cases; c++)
        for (int k = 0; k < c->decoded[A]->count && counts[0] < MOST; k++) {
            memset(&g, 0, sizeof g);
            take(&g, c->n, &c->decoded[A]->basic[k]);
            build(&g, w.family);
            counts[2] += g.stopped;
            if (g.rules) {
                measure(&g, rounds, growing, ns, counts[0]++);
                counts[1] += g.said == PITSETS_STATE_EMPTY;
                rules += (double)g.rules;
            }
            if (LIBRARY.name) LIBRARY.drop(g.library);
        }
    for (int i = 0; i < WAYS; i++) medians[i] = median(ns[i], counts[0]);
    print_row(w.family, growing, counts, rules / (counts[0] ? counts[0] : 1), medians);
    return 0;
}
