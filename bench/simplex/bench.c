/* The test for fractions: crates simplex and carrying, through the static library of crate probe, against plain C of
 * the same steps, on the same basic sets. Both run in turns, and of each set's rounds the least time counts. A test is
 * the first table and the run, without decoding. Answers and pivots must agree. */
#define _POSIX_C_SOURCE 200809L
#include "rounds.h"
#include "sets.h"

size_t probe_tests(size_t axes, const uint8_t *set, size_t length, size_t times);
uint64_t probe_test(size_t axes, const uint8_t *set, size_t length, size_t k);

/* of all the sets of a workload; narrow: the pivots at 64 bits, before: those of the tests that are then carried */
typedef struct { double ours, plain, pivots, narrow, carried, before, rows, columns; } sums;

static ended plain_tests(const basic_set *b, size_t times)
{
    static row rows[ROWS];
    static size_t place[VARIABLES];
    static uint8_t kinds[VARIABLES];
    ended e = plain_test(b, rows, place, kinds);
    size_t pivots = e.pivots;
    for (; times > 1; times--) pivots += plain_test(b, rows, place, kinds).pivots;
    e.pivots = pivots;
    return e;
}

/* Adds the least times of one set. A call without tests is what ours costs beside them. */
static void measure(size_t axes, const basic_set *b, sums *s)
{
    static uint8_t bytes[LONGEST_BASIC_SET];
    size_t length = encode(b, bytes);
    double none = 1e18, all = 1e18, other = 1e18;
    ended e = plain_tests(b, 1);
    size_t times = e.pivots < MANY ? TIMES : FEW;
    agree(probe_test(axes, bytes, length, 1) == (uint64_t)e.answer, "the answers");
    for (int i = 0; i < ROUNDS; i++) {
        double a = now();
        probe_tests(axes, bytes, length, 0);
        none = least(none, now() - a);
        a = now();
        size_t pivots = probe_tests(axes, bytes, length, times);
        all = least(all, now() - a);
        a = now();
        agree(plain_tests(b, times).pivots == pivots, "the pivots");
        other = least(other, now() - a);
    }
    s->ours += (all - none) / (double)times;
    s->plain += other / (double)times;
    s->pivots += (double)e.pivots;
    s->narrow += (double)e.narrow;
    s->carried += e.carried;
    s->before += e.carried ? (double)e.narrow : 0;
    s->rows += (double)(2 * b->divs + b->cons);
    s->columns += (double)(b->divs + axes);
}

static sums measure_all(const workload *w)
{
    sums s = {0};
    for (size_t i = 0; i < w->count; i++) measure(w->axes, &w->set[i], &s);
    return s;
}

/* ---- tests, each at the sizes that it needs */

static void compare(const char *name, const workload *w)
{
    sums s = measure_all(w);
    double n = (double)w->count, p = s.pivots > 0 ? s.pivots : 1;
    printf("| %s | %.1f × %.1f | %.0f %%", name, s.rows / n, s.columns / n, 100 * s.carried / n);
    if (s.carried > 0) printf(", at pivot %.1f", s.before / s.carried);
    printf(" | %.2f | %.2f |", s.narrow / n, (s.pivots - s.narrow) / n);
    printf(" %.0f | %.0f | %.0f | %.0f | %.2f |\n", s.ours / n, s.ours / p, s.plain / n, s.plain / p, s.ours / s.plain);
    fflush(stdout);
}

static void tests(const char *hard_sets)
{
    static workload w;
    puts("| Basic sets | rows × columns | carried | pivots a test at 64 bits | at 128 | ns a test | ns a pivot |"
         " plain C: ns a test | ns a pivot | ratio |");
    puts("|---|---|---|---|---|---|---|---|---|---|");
    dispatch(&w, 1);
    compare("dispatch candidates", &w);
    weeks(&w, 8);
    compare("weeks candidates", &w);
    small(&w, 2, 20, 6, 4, 70);
    compare("20 × 6, coefficients within 4", &w);
    small(&w, 3, 20, 8, 4, 70);
    compare("20 × 8, within 4", &w);
    small(&w, 4, 20, 7, 1, 40);
    compare("20 × 7, within 1, sparse", &w);
    full(&w, 5, 4, 70);
    compare("64 × 16, within 4", &w);
    full(&w, 6, 1, 25);
    compare("64 × 16, within 1, sparse", &w);
    if (hard_sets && hard(&w, hard_sets)) compare("the hard sets", &w);
}

/* ---- a pivot at 64 bits and at 128, by tests that make all their pivots at 64 or are carried before the first */

static void cells(const sums *s)
{
    if (s->pivots > 0) printf(" %.0f | %.0f | %.2f |", s->ours / s->pivots, s->plain / s->pivots, s->ours / s->plain);
    else printf(" – | – | – |");
}

static void sizes(const char *name, const workload *near, const workload *far)
{
    sums a = measure_all(near), b = measure_all(far);
    if (far->count == 0) return;
    printf("| %s | %zu | %.1f × %.1f | %.2f |", name, far->count, b.rows / (double)far->count,
        b.columns / (double)far->count, b.pivots / (double)far->count);
    cells(&a);
    cells(&b);
    if (near->count > 0) printf(" %.2f | %.2f |\n", b.ours / a.ours, b.plain / a.plain);
    else puts(" – | – |");
    fflush(stdout);
}

static void twin_sizes(const char *name, const workload *w, int scaled)
{
    static workload near, far;
    twins(w, scaled, &near, &far);
    sizes(name, &near, &far);
}

static void pivots(const char *hard_sets)
{
    static workload w, none;
    puts("\n| Basic sets | sets | rows × columns | pivots a test | at 64 bits: ns a pivot | plain C | ratio |"
         " at 128 bits: ns a pivot | plain C | ratio | 128 over 64 | plain C |");
    puts("|---|---|---|---|---|---|---|---|---|---|---|---|");
    dispatch(&w, 1);
    twin_sizes("dispatch candidates", &w, 0);
    small(&w, 3, 20, 8, 4, 70);
    twin_sizes("20 × 8, within 4", &w, 0);
    twin_sizes("the same, rules scaled", &w, 1);
    full(&w, 6, 1, 25);
    twin_sizes("64 × 16, within 1, sparse", &w, 0);
    twin_sizes("the same, rules scaled", &w, 1);
    if (hard_sets && hard(&w, hard_sets)) {
        twin_sizes("the hard sets", &w, 0);
        twin_sizes("the same, rules scaled", &w, 1);
    }
    large(&w, 9, 20, 8, 100);
    sizes("20 × 8, within 100, constants to 10^9", &none, &w);
    large(&w, 10, 20, 8, 32767);
    sizes("20 × 8, within 32,767", &none, &w);
    large(&w, 11, 64, 16, 100);
    sizes("64 × 16, within 100", &none, &w);
    large(&w, 12, 64, 16, 32767);
    sizes("64 × 16, within 32,767", &none, &w);
}

int main(int argc, char **argv)
{
    const char *hard_sets = argc > 1 ? argv[1] : NULL;
    tests(hard_sets);
    pivots(hard_sets);
    return 0;
}
