/* The engine's public calls behind the line mode of tools/second: one call a line, one answer a line, so that `compare calls` can hold
 * both against each other. Of a part the library gives the bytes here: they are looked for at basic set k, or, of a holder, at the first basic
 * set with these bytes, which holds every point that a later one with the same bytes does. */
#define _POSIX_C_SOURCE 200809L
#include <inttypes.h>
#include <stdio.h>
#include <stdlib.h>
#include <string.h>

#include "line.h"
#include "walking.h"

typedef struct { uint8_t *bytes; size_t length; } table;

#define EIGHT int32_t, int32_t, int32_t, int32_t, int32_t, int32_t, int32_t, int32_t
#define ARGS(x) x[0], x[1], x[2], x[3], x[4], x[5], x[6], x[7]
uint32_t probe_check(size_t, const uint8_t *, size_t);
size_t probe_part(size_t, const uint8_t *, size_t, size_t, uint8_t *, size_t);
uint64_t probe_member(size_t, const uint8_t *, size_t, EIGHT);
uint64_t probe_fleet(size_t, const uint8_t *, size_t, const int32_t *, size_t, uint64_t *);
size_t probe_holder(size_t, const uint8_t *, size_t, const uint8_t *, size_t, EIGHT, uint8_t *, size_t);
uint64_t probe_test(size_t, const uint8_t *, size_t, size_t);
size_t probe_pivots(size_t, const uint8_t *, size_t, size_t);
size_t probe_built(size_t, const uint8_t *, size_t, size_t);
uint64_t probe_search(size_t, const uint8_t *, size_t, uint32_t, EIGHT, EIGHT);
uint32_t probe_tally(size_t, const uint8_t *, size_t, uint32_t, EIGHT, EIGHT);
int64_t probe_coordinate(size_t, const uint8_t *, size_t, uint32_t, EIGHT, EIGHT, size_t);
uint64_t probe_count(size_t, const uint8_t *, size_t, uint32_t, EIGHT, EIGHT, uint32_t *, uint32_t *);
uint64_t probe_counts(size_t, const uint8_t *, size_t, uint32_t, size_t, EIGHT, EIGHT, uint32_t *, size_t, uint32_t *,
                      uint32_t *);
uint64_t probe_greatest(size_t, const uint8_t *, size_t, size_t, int32_t, const int32_t *, const int32_t *, uint64_t *);
uint64_t probe_least(size_t, const uint8_t *, size_t, size_t, int32_t, const int32_t *, const int32_t *, uint64_t *);
size_t probe_union(size_t, const uint8_t *, size_t, const uint8_t *, size_t, uint8_t *, size_t);
size_t probe_intersection(size_t, const uint8_t *, size_t, const uint8_t *, size_t, uint8_t *, size_t);
size_t probe_difference(size_t, const uint8_t *, size_t, const uint8_t *, size_t, uint8_t *, size_t);
size_t probe_complement(size_t, const uint8_t *, size_t, uint8_t *, size_t);
uint64_t probe_range(size_t, const uint8_t *, size_t, uint32_t, uint32_t, const int32_t *, const int32_t *, uint8_t *,
                     size_t, size_t *, int64_t *, int64_t *);

static table bytes(char **rest)
{
    char *w = word(rest);
    table t;
    t.length = strcmp(w, "-") ? strlen(w) / 2 : 0;
    t.bytes = malloc(t.length + 1);
    if (!t.bytes) exit(2);
    for (size_t i = 0; i < t.length; i++) t.bytes[i] = (uint8_t)(digit(w[2 * i]) * 16 + digit(w[2 * i + 1]));
    return t;
}

static void eight(char **rest, int32_t x[8])
{
    for (int i = 0; i < 8; i++) x[i] = (int32_t)strtol(word(rest), NULL, 10);
}

/* the place behind the basic set at a place; bytes that are no command are passed over: a set with a part has none */
static size_t behind(const table *t, size_t at)
{
    const command *c;
    do at += (c = command_of(t->bytes[at])) ? c->bytes : 1;
    while (at < t->length && t->bytes[at] != OPENING_CODE);
    return at;
}

static int stands(const table *t, size_t at, const uint8_t *part, size_t length)
{
    size_t end = behind(t, at);
    return end <= t->length && end - at == length && !memcmp(t->bytes + at, part, length);
}

/* the place of the first basic set of t that has these bytes, of basic set k alone where k is not 0; -1: none */
static long place(const table *t, size_t k, const uint8_t *part, size_t length)
{
    size_t i = 1;
    for (size_t at = 0; at < t->length; at = behind(t, at), i++)
        if ((k == 0 || i == k) && stands(t, at, part, length)) return (long)at;
    return -1;
}

static void check(char **rest)
{
    size_t n = number(rest);
    table t = bytes(rest);
    printf("%" PRIu32 "\n", probe_check(n, t.bytes, t.length));
    free(t.bytes);
}

static void part(char **rest)
{
    static uint8_t out[LONGEST_BASIC_SET];
    size_t n = number(rest);
    table t = bytes(rest);
    size_t k = number(rest), length = probe_part(n, t.bytes, t.length, k, out, sizeof out);
    long at = length ? place(&t, k, out, length) : 0;
    printf("%ld %zu\n", at, length);
    free(t.bytes);
}

static void refused_or(uint64_t r, const char *const *words) { if (r >= 100) printf("refused %" PRIu64 "\n", r - 100); else puts(words[r]); }

static void member(char **rest)
{
    static const char *const words[] = {"out", "in"};
    int32_t x[8];
    size_t n = number(rest);
    table t = bytes(rest);
    eight(rest, x);
    refused_or(probe_member(n, t.bytes, t.length, ARGS(x)), words);
    free(t.bytes);
}

static void holder(char **rest)
{
    static uint8_t out[LONGEST_BASIC_SET];
    int32_t x[8];
    size_t n = number(rest);
    table a = bytes(rest), b = bytes(rest);
    eight(rest, x);
    size_t length = probe_holder(n, a.bytes, a.length, b.bytes, b.length, ARGS(x), out, sizeof out);
    long at = length ? place(&a, 0, out, length) : 0;
    if (at >= 0) printf("first %ld %zu\n", at, length);
    else printf("second %ld %zu\n", place(&b, 0, out, length), length);
    free(a.bytes);
    free(b.bytes);
}

/* the coordinates are the rest of the line */
static void fleet(char **rest)
{
    size_t n = number(rest), count = 0;
    table t = bytes(rest);
    int32_t *list = malloc((strlen(*rest) / 2 + 1) * sizeof *list);
    uint64_t mask = ~(uint64_t)0;
    if (!list) exit(2);
    for (char *w; (w = word_or_end(rest)); ) list[count++] = (int32_t)strtol(w, NULL, 10);
    uint64_t r = probe_fleet(n, t.bytes, t.length, list, count, &mask);
    if (r >= 100 && mask) puts("a mask after a refusal");
    else if (r >= 100) printf("refused %" PRIu64 "\n", r - 100);
    else printf("%" PRIu64 " %" PRIu64 "\n", mask, r);
    free(list);
    free(t.bytes);
}

static void test(char **rest)
{
    static const char *const words[] = {"point", "dropped", "long", "wide"};
    size_t n = number(rest);
    table t = bytes(rest);
    size_t k = number(rest);
    uint64_t r = probe_test(n, t.bytes, t.length, k);
    size_t pivots = probe_pivots(n, t.bytes, t.length, k), built = probe_built(n, t.bytes, t.length, k);
    if (r >= 4 && (pivots || built)) puts("counts without a test");
    else if (r >= 100) printf("refused %" PRIu64 "\n", r - 100);
    else if (r == 4) puts("none");
    else printf("%s %zu %zu\n", words[r], pivots, built);
    free(t.bytes);
}

static void search(char **rest)
{
    int32_t l[8], h[8];
    size_t n = number(rest);
    table t = bytes(rest);
    uint32_t limit = (uint32_t)strtoul(word(rest), NULL, 10);
    eight(rest, l);
    eight(rest, h);
    uint64_t r = probe_search(n, t.bytes, t.length, limit, ARGS(l), ARGS(h));
    if (r >= 100) { printf("refused %" PRIu64 "\n", r - 100); free(t.bytes); return; }
    printf(r == 0 ? "at" : r == 1 ? "none" : "spent");
    for (size_t i = 0; r == 0 && i < n; i++) printf(" %" PRId64, probe_coordinate(n, t.bytes, t.length, limit, ARGS(l), ARGS(h), i));
    printf(" %" PRIu32 "\n", probe_tally(n, t.bytes, t.length, limit, ARGS(l), ARGS(h)));
    free(t.bytes);
}

/* A count's question and its answer: its table, and behind it what no call writes. */
enum { PLACES = 64, BEHIND = 4, UNWRITTEN = 0x5a5a5a5a };
typedef struct { size_t n, axis; table set; uint32_t limit; int32_t l[8], h[8]; } counting;
typedef struct { uint64_t r; uint32_t whole, tested, each[PLACES + BEHIND]; } counted;

static counting asked(char **rest, int chosen)
{
    counting q = {.n = number(rest), .set = bytes(rest)};
    q.limit = (uint32_t)number(rest);
    if (chosen) q.axis = number(rest);
    eight(rest, q.l);
    eight(rest, q.h);
    return q;
}

static counted whole_of(const counting *q)
{
    counted c = {.whole = UNWRITTEN, .tested = UNWRITTEN};
    c.r = probe_count(q->n, q->set.bytes, q->set.length, q->limit, ARGS(q->l), ARGS(q->h), &c.whole, &c.tested);
    return c;
}

static counted counts_of(const counting *q, size_t places)
{
    counted c = {.whole = UNWRITTEN, .tested = UNWRITTEN};
    for (size_t i = 0; i < PLACES + BEHIND; i++) c.each[i] = UNWRITTEN;
    c.r = probe_counts(q->n, q->set.bytes, q->set.length, q->limit, q->axis, ARGS(q->l), ARGS(q->h), c.each, places,
                       &c.whole, &c.tested);
    return c;
}

/* 0 from one place of the table to its end, and nothing written behind it */
static int zeros(const counted *c, size_t from, size_t places)
{
    for (size_t i = from; i < places; i++)
        if (c->each[i]) return 0;
    for (size_t i = places; i < PLACES + BEHIND; i++)
        if (c->each[i] != UNWRITTEN) return 0;
    return 1;
}

/* In a table with a place for each value the answer is the same; with one place less it is 11, last of all refusals. */
static int sized(const counting *q, const counted *c, size_t values)
{
    size_t fewer = values ? values - 1 : 0;
    counted fits = counts_of(q, values), less = counts_of(q, fewer);
    if (fits.r != c->r || fits.whole != c->whole || fits.tested != c->tested) return 0;
    if (memcmp(fits.each, c->each, values * sizeof *c->each) || !zeros(&fits, values, values)) return 0;
    return less.r == (c->r < 100 && values ? 111 : c->r) && !less.whole && !less.tested && zeros(&less, 0, fewer);
}

static void print_count(const counted *c, size_t values)
{
    if (c->r >= 100) printf(c->whole || c->tested ? "numbers with a refusal\n" : "refused %" PRIu64 "\n", c->r - 100);
    else if (c->r == 2) printf(c->whole ? "a number and spent\n" : "spent %" PRIu32 "\n", c->tested);
    else {
        printf("count %" PRIu32, c->whole);
        for (size_t i = 0; i < values; i++) printf(" %" PRIu32, c->each[i]);
        printf(" %" PRIu32 "\n", c->tested);
    }
}

static void count(char **rest)
{
    counting q = asked(rest, 0);
    counted c = whole_of(&q);
    print_count(&c, 0);
    free(q.set.bytes);
}

static void counts(char **rest)
{
    counting q = asked(rest, 1);
    counted c = counts_of(&q, PLACES);
    size_t i = q.axis - 1, values = c.r < 100 && q.l[i] <= q.h[i] ? (size_t)(q.h[i] - q.l[i]) + 1 : 0;
    if (!zeros(&c, c.r ? 0 : values, PLACES)) puts("no 0 past the counts, or written behind them");
    else if (!sized(&q, &c, values)) puts("another answer in a table of another size");
    else print_count(&c, values);
    free(q.set.bytes);
}

/* a number of 128 bits by its words, the lower one first */
static void print_wide(const uint64_t *words)
{
    char digits[40], *p = digits + sizeof digits;
    unsigned __int128 number = (unsigned __int128)words[1] << 64 | words[0];
    int below = words[1] >> 63;
    if (below) number = -number;
    *--p = 0;
    do *--p = (char)('0' + (int)(number % 10));
    while (number /= 10);
    printf(below ? " -%s" : " %s", p);
}

/* The value's four words lie between two that no call writes. */
static void value(char **rest, uint64_t (*call)(size_t, const uint8_t *, size_t, size_t, int32_t, const int32_t *,
                                                const int32_t *, uint64_t *))
{
    static const char *const words[] = {"value", "empty", "unbounded", "wide", "long"};
    uint64_t v[6];
    int32_t axes[8], divisions[8];
    size_t n = number(rest);
    table t = bytes(rest);
    size_t k = number(rest);
    int32_t constant = (int32_t)strtol(word(rest), NULL, 10);
    eight(rest, axes);
    eight(rest, divisions);
    for (int i = 0; i < 6; i++) v[i] = UNWRITTEN;
    uint64_t r = call(n, t.bytes, t.length, k, constant, axes, divisions, v + 1);
    if (v[0] != UNWRITTEN || v[5] != UNWRITTEN) puts("wrote beside the value");
    else if (r && (v[1] || v[2] || v[3] || v[4])) puts("numbers without a value");
    else if (r) refused_or(r, words);
    else {
        printf("value");
        print_wide(v + 1);
        print_wide(v + 3);
        puts("");
    }
    free(t.bytes);
}

/* The result's table and a guard behind it, full of what no call writes: every byte of the table must come from the call, none of the guard. */
enum { GUARD = 64, OLD = 0xa5 };

static table lent(size_t room)
{
    table t = {malloc(room + GUARD), room};
    if (!t.bytes) exit(2);
    memset(t.bytes, OLD, room + GUARD);
    return t;
}

static int kept(const table *t)
{
    for (size_t i = 0; i < GUARD; i++)
        if (t->bytes[t->length + i] != OLD) return 0;
    return 1;
}

static void print_bytes(const table *t)
{
    for (size_t i = 0; i < t->length; i++) printf("%02x", t->bytes[i]);
    puts(t->length ? "" : "-");
}

static void answer(size_t r, table t)
{
    if (!kept(&t)) puts("wrote behind the table");
    else {
        if (r > SIZE_MAX - 100) printf("refused %zu ", SIZE_MAX - r);
        else printf("gives %zu ", r);
        print_bytes(&t);
    }
    free(t.bytes);
}

static void of_two(char **rest, size_t (*call)(size_t, const uint8_t *, size_t, const uint8_t *, size_t, uint8_t *, size_t))
{
    size_t n = number(rest);
    table t = lent(number(rest)), a = bytes(rest), b = bytes(rest);
    answer(call(n, a.bytes, a.length, b.bytes, b.length, t.bytes, t.length), t);
    free(a.bytes);
    free(b.bytes);
}

static void complement(char **rest)
{
    size_t n = number(rest);
    table t = lent(number(rest)), a = bytes(rest);
    answer(probe_complement(n, a.bytes, a.length, t.bytes, t.length), t);
    free(a.bytes);
}

/* what the call of a range says and writes */
enum { SURE, NEVER, DEPENDS, SPENT_INSIDE, SPENT_OUTSIDE };
typedef struct { uint64_t r; size_t size; table table; int64_t inside[8], outside[8]; } ranged;

/* n coordinates; those of the other places are 0 */
static int is_point(const int64_t *x, size_t n)
{
    for (size_t i = n; i < 8; i++)
        if (x[i]) return 0;
    return 1;
}

static void print_point(const int64_t *x, size_t n)
{
    for (size_t i = 0; i < n; i++) printf(" %" PRId64, x[i]);
}

static void print_range(const ranged *t, size_t axes)
{
    static const char *const words[] = {"sure", "never", "depends", "spent 1", "spent 2"};
    size_t n = t->r == DEPENDS ? axes : 0;
    if (!kept(&t->table)) puts("wrote behind the table");
    else if (!is_point(t->inside, n) || !is_point(t->outside, n)) puts("a coordinate where there is no point");
    else if (t->r >= 100 && t->size) puts("a length with a refusal");
    else if (t->r > SPENT_OUTSIDE && t->r < 100) puts("bad result");
    else {
        if (t->r >= 100) printf("refused %" PRIu64 " ", t->r - 100);
        else printf("%s", words[t->r]);
        print_point(t->inside, n);
        if (n) printf(" /");
        print_point(t->outside, n);
        if (t->r < 100) printf(" | %zu ", t->size);
        print_bytes(&t->table);
    }
}

static void range(char **rest)
{
    size_t n = number(rest);
    ranged t = {.size = UNWRITTEN, .table = lent(number(rest))};
    table a = bytes(rest);
    uint32_t within = (uint32_t)number(rest), beyond = (uint32_t)number(rest);
    int32_t l[8], h[8];
    eight(rest, l);
    eight(rest, h);
    memset(t.inside, OLD, sizeof t.inside);
    memset(t.outside, OLD, sizeof t.outside);
    t.r = probe_range(n, a.bytes, a.length, within, beyond, l, h, t.table.bytes, t.table.length, &t.size, t.inside,
                      t.outside);
    print_range(&t, n);
    free(t.table.bytes);
    free(a.bytes);
}

int main(void)
{
    char *line = NULL;
    size_t size = 0;
    while (getline(&line, &size, stdin) > 0) {
        char *rest, *w = strtok_r(line, " \n", &rest);
        if (!w) puts("bad line");
        else if (!strcmp(w, "check")) check(&rest);
        else if (!strcmp(w, "part")) part(&rest);
        else if (!strcmp(w, "member")) member(&rest);
        else if (!strcmp(w, "holder")) holder(&rest);
        else if (!strcmp(w, "fleet")) fleet(&rest);
        else if (!strcmp(w, "test")) test(&rest);
        else if (!strcmp(w, "search")) search(&rest);
        else if (!strcmp(w, "count")) count(&rest);
        else if (!strcmp(w, "counts")) counts(&rest);
        else if (!strcmp(w, "greatest")) value(&rest, probe_greatest);
        else if (!strcmp(w, "least")) value(&rest, probe_least);
        else if (!strcmp(w, "states")) states(&rest);
        else if (!strcmp(w, "union")) of_two(&rest, probe_union);
        else if (!strcmp(w, "intersection")) of_two(&rest, probe_intersection);
        else if (!strcmp(w, "difference")) of_two(&rest, probe_difference);
        else if (!strcmp(w, "complement")) complement(&rest);
        else if (!strcmp(w, "range")) range(&rest);
        else puts("bad line");
    }
    free(line);
    return 0;
}
