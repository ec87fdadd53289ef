/* The engine, through its static libraries: sets stay bytes, results go to lent tables that are used in turn. A union's table has the length
 * of its result, which the caller knows; the others have that of the longest result there can be. The search is crate probe's. */
#include "column.h"
#include "pitsets.h"
#include <stdlib.h>
#include <string.h>

#define EIGHT int32_t, int32_t, int32_t, int32_t, int32_t, int32_t, int32_t, int32_t
#define ARGS(x) x[0], x[1], x[2], x[3], x[4], x[5], x[6], x[7]
uint64_t probe_search(size_t, const uint8_t *, size_t, uint32_t, EIGHT, EIGHT);
int64_t probe_coordinate(size_t, const uint8_t *, size_t, uint32_t, EIGHT, EIGHT, size_t);

enum { TABLES = 4, LIMIT = 1000000 };
typedef struct { size_t n, length; uint8_t *bytes; } handle;

/* twice the longest: two sets may be too many for a union, which is then refused */
static uint8_t tables[TABLES][2 * LONGEST_SET];
static handle results[TABLES];

static const char *version(void) { return "this repository's static library"; }
static void init(void) {}

static void *load(const set *s, const uint8_t *bytes, size_t length)
{
    handle *h = malloc(sizeof *h + length);
    h->n = (size_t)s->n;
    h->length = length;
    h->bytes = (uint8_t *)(h + 1);
    memcpy(h->bytes, bytes, length);
    return h;
}

static void drop(void *a)
{
    handle *h = a;
    if (h < results || h >= results + TABLES) free(h);
}

static int64_t call(int operation, const handle *a, const handle *b, uint8_t *table)
{
    switch (operation) {
    case UNION: return pitsets_union(a->n, a->bytes, a->length, b->bytes, b->length, table, a->length + b->length);
    case INTERSECTION: return pitsets_intersection(a->n, a->bytes, a->length, b->bytes, b->length, table, LONGEST_SET);
    case DIFFERENCE: return pitsets_difference(a->n, a->bytes, a->length, b->bytes, b->length, table, LONGEST_SET);
    default: return pitsets_complement(a->n, a->bytes, a->length, table, LONGEST_SET);
    }
}

static void *operate(int operation, void *a, void *b, int *refusal)
{
    static int turn;
    turn = (turn + 1) % TABLES;
    int64_t r = call(operation, a, b, tables[turn]);
    if (r < 0) {
        *refusal = (int)-r;
        return NULL;
    }
    results[turn] = (handle){((handle *)a)->n, (size_t)r, tables[turn]};
    return &results[turn];
}

static int empty(void *a, void *b)
{
    int64_t r = call(DIFFERENCE, a, b, tables[0]);
    return r < 0 ? (int)r : r ? 2 : 1;
}

static int member(void *a, int n, const int32_t *x)
{
    handle *h = a;
    return (int)pitsets_member((size_t)n, h->bytes, h->length, ARGS(x));
}

static int first(void *a, int n, const int32_t *low, const int32_t *high, int32_t *x)
{
    handle *h = a;
    (void)x;
    uint64_t r = probe_search((size_t)n, h->bytes, h->length, LIMIT, ARGS(low), ARGS(high));
    return r == 0 ? 1 : r == 1 ? 0 : -(int)r;
}

static void first_at(void *a, int n, const int32_t *low, const int32_t *high, int32_t *x)
{
    handle *h = a;
    for (int i = 0; i < n; i++)
        x[i] = (int32_t)probe_coordinate((size_t)n, h->bytes, h->length, LIMIT, ARGS(low), ARGS(high), (size_t)i);
}

static const set *decoded(void *a)
{
    static set s;
    handle *h = a;
    return set_decode(&s, (int)h->n, h->bytes, h->length) ? NULL : &s;
}

static void size(void *a, int *basic_sets, int *constraints)
{
    const set *s = decoded(a);
    *basic_sets = s ? s->count : -1;
    *constraints = 0;
    for (int i = 0; i < *basic_sets; i++) *constraints += s->basic[i].cons;
}

column COLUMN = {NAME, version, init, load, drop, operate, empty, empty, member, NULL, NULL, 1, first, first_at, size, decoded};
