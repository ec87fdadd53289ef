/* The exchange before request 4 of document 02 and after it: the test for fractions by the static library of crate
 * probe at two commits, and by plain C that builds the touched rows or every row, on the same basic sets. All run in
 * turns, and of each set's rounds the least time counts. A test is the first table and the run, without decoding.
 * Answers and pivots must agree. */
#define _POSIX_C_SOURCE 200809L
#include "../simplex/rounds.h"
#include "../simplex/sets.h"

typedef size_t tests_call(size_t axes, const uint8_t *set, size_t length, size_t times);
typedef uint64_t test_call(size_t axes, const uint8_t *set, size_t length, size_t k);
tests_call before_probe_tests, after_probe_tests;
test_call before_probe_test, after_probe_test;
size_t after_probe_built(size_t axes, const uint8_t *set, size_t length, size_t k);

/* ---- one basic set, tested so many times: the pivots of all */

typedef struct { const basic_set *set; size_t axes, length; uint8_t bytes[LONGEST_BASIC_SET]; } job;

static size_t before(const job *j, size_t times) { return before_probe_tests(j->axes, j->bytes, j->length, times); }
static size_t after(const job *j, size_t times) { return after_probe_tests(j->axes, j->bytes, j->length, times); }

static size_t in_plain_c(plain *test, const job *j, size_t times)
{
    static row rows[ROWS];
    static size_t place[VARIABLES];
    static uint8_t kinds[VARIABLES];
    size_t pivots = 0;
    for (; times > 0; times--) pivots += test(j->set, rows, place, kinds).pivots;
    return pivots;
}

static size_t touched_rows(const job *j, size_t times) { return in_plain_c(plain_test, j, times); }
static size_t every_row(const job *j, size_t times) { return in_plain_c(plain_every_row, j, times); }

enum { BEFORE, AFTER, TOUCHED, EVERY, BUILDS };
static size_t (*const BUILD[BUILDS])(const job *, size_t) = {before, after, touched_rows, every_row};

/* ---- their times */

/* of all the sets of a workload; there: the rows that a tableau has, pivot by pivot */
typedef struct { double time[BUILDS], pivots, built, there, rows, columns; } sums;

static double timed(int build, const job *j, size_t times, size_t pivots)
{
    double start = now();
    size_t made = BUILD[build](j, times);
    double time = now() - start;
    agree(made == times * pivots, "the pivots");
    return time;
}

/* Adds the least times of one set; another build begins in each round. A call without tests is what a build costs
 * beside them. */
static void measure(const job *j, size_t pivots, sums *s)
{
    double none[BUILDS], all[BUILDS];
    size_t times = pivots < MANY ? TIMES : FEW;
    for (int b = 0; b < BUILDS; b++) none[b] = all[b] = 1e18;
    for (int i = 0; i < ROUNDS; i++) {
        for (int turn = 0; turn < BUILDS; turn++) {
            int b = (i + turn) % BUILDS;
            none[b] = least(none[b], timed(b, j, 0, pivots));
            all[b] = least(all[b], timed(b, j, times, pivots));
        }
    }
    for (int b = 0; b < BUILDS; b++) s->time[b] += (all[b] - none[b]) / (double)times;
}

static void add(const basic_set *set, size_t axes, sums *s)
{
    static job j;
    size_t rows = 2 * set->divs + set->cons;
    j.set = set;
    j.axes = axes;
    j.length = encode(set, j.bytes);
    agree(before_probe_test(axes, j.bytes, j.length, 1) == after_probe_test(axes, j.bytes, j.length, 1), "the answers");
    size_t pivots = after(&j, 1);
    measure(&j, pivots, s);
    s->pivots += (double)pivots;
    s->built += (double)after_probe_built(axes, j.bytes, j.length, 1);
    s->there += (double)(pivots * rows);
    s->rows += (double)rows;
    s->columns += (double)(set->divs + axes);
}

static void compare(const char *name, const workload *w)
{
    sums s = {0};
    for (size_t i = 0; i < w->count; i++) add(&w->set[i], w->axes, &s);
    double n = (double)w->count, p = s.pivots > 0 ? s.pivots : 1;
    printf("| %s | %.1f × %.1f | %.2f | %.1f / %.1f |", name, s.rows / n, s.columns / n, s.pivots / n, s.built / p, s.there / p);
    printf(" %.0f | %.0f | %.3f |", s.time[BEFORE] / p, s.time[AFTER] / p, s.time[AFTER] / s.time[BEFORE]);
    printf(" %.0f | %.0f |\n", s.time[TOUCHED] / p, s.time[EVERY] / p);
    fflush(stdout);
}

int main(int argc, char **argv)
{
    static workload w;
    puts("| Basic sets | rows × columns | pivots a test | rows built a pivot / rows there | before: ns a pivot | after |"
         " ratio | plain C, touched rows: ns a pivot | every row |");
    puts("|---|---|---|---|---|---|---|---|---|");
    dispatch(&w, 1);
    compare("dispatch candidates", &w);
    small(&w, 2, 20, 6, 4, 70);
    compare("20 × 6, coefficients within 4", &w);
    small(&w, 3, 20, 8, 4, 70);
    compare("20 × 8, within 4", &w);
    full(&w, 5, 4, 70);
    compare("64 × 16, within 4", &w);
    full(&w, 6, 1, 25);
    compare("64 × 16, within 1, sparse", &w);
    if (argc > 1 && hard(&w, argv[1])) compare("the hard sets", &w);
    return 0;
}
