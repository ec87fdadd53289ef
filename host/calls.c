/* The library behind the line mode of tools/second: one call a line, one answer a line, so that `compare calls` can
 * hold both against each other. Every table of bytes lies at an odd address between guard bytes, a table of numbers at
 * one aligned as its numbers are and no better; a guard that changed is told and ends the program. */
#define _POSIX_C_SOURCE 200809L
#include <inttypes.h>
#include <stdio.h>
#include <stdlib.h>
#include <string.h>

#include "line.h"
#include "pitsets.h"
#include "walking.h"

enum { GUARD = 64, SLACK = 8, MARK = 0xA5 };

typedef struct {
    uint8_t *memory, *bytes;
    size_t length;
} table;

static void *must(void *p)
{
    if (!p) {
        fputs("out of memory\n", stderr);
        exit(2);
    }
    return p;
}

/* length bytes with guards on both sides, so far past an address of every alignment */
static table lend_past(size_t length, size_t past)
{
    table t;
    t.memory = must(malloc(length + 2 * GUARD + SLACK));
    memset(t.memory, MARK, length + 2 * GUARD + SLACK);
    t.bytes = t.memory + GUARD + past;
    t.length = length;
    return t;
}

static table lend(size_t length) { return lend_past(length, 1); }

static void give_back(table *t)
{
    for (uint8_t *p = t->memory; p < t->bytes; p++)
        if (*p != MARK) { puts("guard before a table changed"); exit(2); }
    for (uint8_t *p = t->bytes + t->length; p < t->memory + t->length + 2 * GUARD + SLACK; p++)
        if (*p != MARK) { puts("guard after a table changed"); exit(2); }
    free(t->memory);
}

static table bytes(char **rest)
{
    char *w = word(rest);
    size_t length = strcmp(w, "-") ? strlen(w) / 2 : 0;
    table t = lend(length);
    for (size_t i = 0; i < length; i++) t.bytes[i] = (uint8_t)(digit(w[2 * i]) * 16 + digit(w[2 * i + 1]));
    return t;
}

/* eight numbers of the line */
static table eight(char **rest)
{
    table t = lend_past(8 * sizeof(int32_t), sizeof(int32_t));
    for (int i = 0; i < 8; i++) ((int32_t *)t.bytes)[i] = (int32_t)strtol(word(rest), NULL, 10);
    return t;
}

/* that a call left what it was given as it was */
static void untouched(const table *t, const table *copy)
{
    if (memcmp(t->bytes, copy->bytes, t->length)) {
        puts("a given table changed");
        exit(2);
    }
}

static table copy_of(const table *t)
{
    table c = lend(t->length);
    memcpy(c.bytes, t->bytes, t->length);
    return c;
}

static void member(char **rest)
{
    size_t n = number(rest);
    table set = bytes(rest), copy = copy_of(&set);
    int32_t x[8];
    for (int i = 0; i < 8; i++) x[i] = (int32_t)strtol(word(rest), NULL, 10);
    int64_t r = pitsets_member(n, set.bytes, set.length, x[0], x[1], x[2], x[3], x[4], x[5], x[6], x[7]);
    if (r < 0) printf("refused %" PRId64 "\n", -r);
    else puts(r == 1 ? "in" : r == 0 ? "out" : "bad result");
    untouched(&set, &copy);
    give_back(&set);
    give_back(&copy);
}

/* what a count is asked, and what it says: the result, the prefixes tested, the table of counts */
typedef struct { size_t n, axis; table set, copy; uint32_t limit; int32_t l[8], h[8]; } counting;
typedef struct { int64_t r; uint32_t tested; table counts; } counted;

#define ARGS(x) x[0], x[1], x[2], x[3], x[4], x[5], x[6], x[7]

static counting asked(char **rest, int chosen)
{
    counting q = {.n = number(rest), .set = bytes(rest)};
    q.copy = copy_of(&q.set);
    q.limit = (uint32_t)strtoul(word(rest), NULL, 10);
    if (chosen) q.axis = number(rest);
    for (int i = 0; i < 8; i++) q.l[i] = (int32_t)strtol(word(rest), NULL, 10);
    for (int i = 0; i < 8; i++) q.h[i] = (int32_t)strtol(word(rest), NULL, 10);
    return q;
}

static void done(counting *q)
{
    untouched(&q->set, &q->copy);
    give_back(&q->set);
    give_back(&q->copy);
}

/* where the absent lows and highs are 0, the call for n of each says the same */
static int in_box(const counting *q, const counted *c)
{
    uint32_t tested = 1;
    for (size_t i = q->n; i < 8; i++)
        if (q->l[i] || q->h[i]) return 1;
    int64_t r = pitsets_count_in(q->n, q->set.bytes, q->set.length, q->l, q->h, q->limit, &tested);
    return r == c->r && tested == c->tested;
}

static counted counts_of(const counting *q, size_t places)
{
    counted c = {.tested = 1, .counts = lend_past(places * sizeof(uint32_t), sizeof(uint32_t))};
    c.r = pitsets_counts(q->n, q->set.bytes, q->set.length, ARGS(q->l), ARGS(q->h), q->axis, q->limit,
                         (uint32_t *)c.counts.bytes, places, &c.tested);
    return c;
}

static void print_count(const counted *c, size_t values)
{
    const uint32_t *each = (const uint32_t *)c->counts.bytes;
    if (c->r == PITSETS_SPENT) printf("spent %" PRIu32 "\n", c->tested);
    else if (c->r < 0) printf(c->tested ? "prefixes tested\n" : "refused %" PRId64 "\n", -c->r);
    else {
        printf("count %" PRId64, c->r);
        for (size_t i = 0; i < values; i++) printf(" %" PRIu32, each[i]);
        printf(" %" PRIu32 "\n", c->tested);
    }
}

static void count(char **rest)
{
    counting q = asked(rest, 0);
    counted c = {.tested = 1};
    c.r = pitsets_count(q.n, q.set.bytes, q.set.length, ARGS(q.l), ARGS(q.h), q.limit, &c.tested);
    if (!in_box(&q, &c)) puts("another answer for n lows and highs");
    else print_count(&c, 0);
    done(&q);
}

/* 0 from one place of the table on */
static int zeros(const counted *c, size_t from)
{
    const uint32_t *each = (const uint32_t *)c->counts.bytes;
    for (size_t i = from; i < c->counts.length / sizeof *each; i++)
        if (each[i]) return 0;
    return 1;
}

/* In a table with a place for each value the answer is the same; with one place less it is 11, last of all refusals. */
static int sized(const counting *q, const counted *c, size_t values)
{
    counted fits = counts_of(q, values), less = counts_of(q, values ? values - 1 : 0);
    int good = fits.r == c->r && fits.tested == c->tested;
    good = good && !memcmp(fits.counts.bytes, c->counts.bytes, fits.counts.length);
    good = good && less.r == (values ? -PITSETS_TABLE : c->r) && !less.tested && zeros(&less, 0);
    give_back(&fits.counts);
    give_back(&less.counts);
    return good;
}

static void counts(char **rest)
{
    counting q = asked(rest, 1);
    counted c = counts_of(&q, PITSETS_COUNTS);
    int told = c.r >= 0 || c.r == PITSETS_SPENT;
    size_t i = q.axis - 1, values = told && q.l[i] <= q.h[i] ? (size_t)(q.h[i] - q.l[i]) + 1 : 0;
    if (!zeros(&c, c.r < 0 ? 0 : values)) puts("no 0 past the counts");
    else if (!sized(&q, &c, values)) puts("another answer in a table of another size");
    else print_count(&c, values);
    give_back(&c.counts);
    done(&q);
}

/* the rest of the line as coordinates, copied to a table of just that length, so that a reader past its end is seen */
static void fleet(char **rest)
{
    size_t n = number(rest), numbers = 0;
    table set = bytes(rest), copy = copy_of(&set);
    int32_t *read = must(malloc((strlen(*rest) / 2 + 1) * sizeof *read));
    for (char *w; (w = word_or_end(rest)); ) read[numbers++] = (int32_t)strtol(w, NULL, 10);
    int32_t *points = must(malloc(numbers * sizeof *points + 1));
    memcpy(points, read, numbers * sizeof *points);
    uint64_t mask[3] = {MARK, MARK, MARK};
    int64_t r = pitsets_fleet(n, set.bytes, set.length, points, numbers, mask + 1);
    if (mask[0] != MARK || mask[2] != MARK) puts("a number beside the mask changed");
    else if (memcmp(points, read, numbers * sizeof *points)) puts("the points changed");
    else if (r < 0 && mask[1]) puts("a mask after a refusal");
    else if (r < 0) printf("refused %" PRId64 "\n", -r);
    else printf("%" PRIu64 " %" PRId64 "\n", mask[1], r);
    untouched(&set, &copy);
    give_back(&set);
    give_back(&copy);
    free(points);
    free(read);
}

/* a number of 128 bits */
typedef __int128 wide;
typedef unsigned __int128 unsigned_wide;

static wide wide_of(pitsets_wide w) { return (wide)((unsigned_wide)(uint64_t)w.high << 64 | w.low); }

static void print_wide(wide w)
{
    char digits[40], *p = digits + sizeof digits;
    unsigned_wide size = w < 0 ? -(unsigned_wide)w : (unsigned_wide)w;
    *--p = 0;
    do *--p = (char)('0' + (int)(size % 10));
    while (size /= 10);
    printf(w < 0 ? " -%s" : " %s", p);
}

/* the fraction as a double is that of its numbers, but for a few roundings */
static int near(const pitsets_fraction *f)
{
    double there = (double)wide_of(f->numerator) / (double)wide_of(f->denominator);
    double off = pitsets_double(f) - there, most = there * 2e-15;
    return most < 0 ? most <= off && off <= -most : -most <= off && off <= most;
}

static void print_extreme(int64_t r, const pitsets_fraction *f)
{
    static const char *const words[] = {[PITSETS_EMPTY] = "empty", [PITSETS_UNBOUNDED] = "unbounded",
                                        [PITSETS_WIDE] = "wide", [PITSETS_LONG] = "long"};
    wide numerator = wide_of(f->numerator), denominator = wide_of(f->denominator);
    if (r != PITSETS_VALUE && (numerator || denominator)) puts("numbers without a value");
    else if (r < 0) printf("refused %" PRId64 "\n", -r);
    else if (r < PITSETS_VALUE || r > PITSETS_LONG) puts("bad result");
    else if (r != PITSETS_VALUE) puts(words[r]);
    else if (!near(f)) puts("another number as a double");
    else {
        printf("value");
        print_wide(numerator);
        print_wide(denominator);
        puts("");
    }
}

typedef int64_t extreme(size_t, const uint8_t *, size_t, size_t, int32_t, const int32_t *, const int32_t *,
                        pitsets_fraction *);

static void value(char **rest, extreme *call)
{
    size_t n = number(rest);
    table set = bytes(rest), copy = copy_of(&set);
    size_t k = number(rest);
    int32_t constant = (int32_t)strtol(word(rest), NULL, 10);
    table axes = eight(rest), divisions = eight(rest), ca = copy_of(&axes), cd = copy_of(&divisions);
    table out = lend_past(sizeof(pitsets_fraction), sizeof(uint64_t));
    pitsets_fraction *f = (pitsets_fraction *)out.bytes;
    int64_t r = call(n, set.bytes, set.length, k, constant, (int32_t *)axes.bytes, (int32_t *)divisions.bytes, f);
    print_extreme(r, f);
    untouched(&set, &copy);
    untouched(&axes, &ca);
    untouched(&divisions, &cd);
    table *all[] = {&set, &copy, &axes, &divisions, &ca, &cd, &out};
    for (size_t i = 0; i < sizeof all / sizeof *all; i++) give_back(all[i]);
}

typedef int64_t operation(size_t, const uint8_t *, size_t, const uint8_t *, size_t, uint8_t *, size_t);

static void print_bytes(const table *out)
{
    for (size_t i = 0; i < out->length; i++) printf("%02x", out->bytes[i]);
    puts(out->length ? "" : "-");
}

static void print_table(int64_t r, const table *out)
{
    printf(r < 0 ? "refused %" PRId64 " " : "gives %" PRId64 " ", r < 0 ? -r : r);
    print_bytes(out);
}

static void two(char **rest, operation *op)
{
    size_t n = number(rest), room = number(rest);
    table a = bytes(rest), b = bytes(rest), ca = copy_of(&a), cb = copy_of(&b), out = lend(room);
    print_table(op(n, a.bytes, a.length, b.bytes, b.length, out.bytes, out.length), &out);
    untouched(&a, &ca);
    untouched(&b, &cb);
    give_back(&a);
    give_back(&b);
    give_back(&ca);
    give_back(&cb);
    give_back(&out);
}

static void one(char **rest)
{
    size_t n = number(rest), room = number(rest);
    table a = bytes(rest), ca = copy_of(&a), out = lend(room);
    print_table(pitsets_complement(n, a.bytes, a.length, out.bytes, out.length), &out);
    untouched(&a, &ca);
    give_back(&a);
    give_back(&ca);
    give_back(&out);
}

/* what the call of a range is given, and what it writes */
typedef struct {
    size_t n;
    table set, low, high, result, length, inside, outside;
} ranging;

static size_t size_of(const table *length) { return *(const size_t *)length->bytes; }

/* n coordinates; those of the other places are 0 */
static int is_point(const table *point, size_t n)
{
    const int64_t *x = (const int64_t *)point->bytes;
    for (size_t i = n; i < 8; i++)
        if (x[i]) return 0;
    return 1;
}

static void print_point(const table *point, size_t n)
{
    for (size_t i = 0; i < n; i++) printf(" %" PRId64, ((const int64_t *)point->bytes)[i]);
}

static void print_range(int64_t r, const ranging *q)
{
    static const char *const words[] = {[PITSETS_SURE] = "sure", [PITSETS_NEVER] = "never",
                                        [PITSETS_DEPENDS] = "depends", [PITSETS_SPENT_INSIDE] = "spent 1",
                                        [PITSETS_SPENT_OUTSIDE] = "spent 2"};
    size_t n = r == PITSETS_DEPENDS ? q->n : 0;
    if (!is_point(&q->inside, n) || !is_point(&q->outside, n)) puts("a coordinate where there is no point");
    else if (r < 0 && size_of(&q->length)) puts("a length after a refusal");
    else if (r < 0) print_table(r, &q->result);
    else if (r < PITSETS_SURE || r > PITSETS_SPENT_OUTSIDE) puts("bad result");
    else {
        printf("%s", words[r]);
        print_point(&q->inside, n);
        if (n) printf(" /");
        print_point(&q->outside, n);
        printf(" | %zu ", size_of(&q->length));
        print_bytes(&q->result);
    }
}

static void range(char **rest)
{
    size_t n = number(rest);
    table result = lend(number(rest));
    ranging q = {.n = n, .result = result, .set = bytes(rest)};
    uint32_t inside_limit = (uint32_t)number(rest), outside_limit = (uint32_t)number(rest);
    q.low = eight(rest);
    q.high = eight(rest);
    q.length = lend_past(sizeof(size_t), sizeof(size_t));
    q.inside = lend_past(8 * sizeof(int64_t), sizeof(int64_t));
    q.outside = lend_past(8 * sizeof(int64_t), sizeof(int64_t));
    table set = copy_of(&q.set), low = copy_of(&q.low), high = copy_of(&q.high);
    int64_t r = pitsets_range(q.n, q.set.bytes, q.set.length, (int32_t *)q.low.bytes, (int32_t *)q.high.bytes,
                              inside_limit, outside_limit, q.result.bytes, q.result.length, (size_t *)q.length.bytes,
                              (int64_t *)q.inside.bytes, (int64_t *)q.outside.bytes);
    print_range(r, &q);
    untouched(&q.set, &set);
    untouched(&q.low, &low);
    untouched(&q.high, &high);
    table *all[] = {&q.set, &q.low, &q.high, &q.result, &q.length, &q.inside, &q.outside, &set, &low, &high};
    for (size_t i = 0; i < sizeof all / sizeof *all; i++) give_back(all[i]);
}

int main(void)
{
    char *line = NULL;
    size_t size = 0;
    while (getline(&line, &size, stdin) > 0) {
        char *rest, *w = strtok_r(line, " \n", &rest);
        if (!w) puts("bad line");
        else if (!strcmp(w, "member")) member(&rest);
        else if (!strcmp(w, "fleet")) fleet(&rest);
        else if (!strcmp(w, "count")) count(&rest);
        else if (!strcmp(w, "counts")) counts(&rest);
        else if (!strcmp(w, "range")) range(&rest);
        else if (!strcmp(w, "greatest")) value(&rest, pitsets_greatest);
        else if (!strcmp(w, "least")) value(&rest, pitsets_least);
        else if (!strcmp(w, "states")) states(&rest);
        else if (!strcmp(w, "union")) two(&rest, pitsets_union);
        else if (!strcmp(w, "intersection")) two(&rest, pitsets_intersection);
        else if (!strcmp(w, "difference")) two(&rest, pitsets_difference);
        else if (!strcmp(w, "complement")) one(&rest);
        else puts("bad line");
    }
    free(line);
    return 0;
}
