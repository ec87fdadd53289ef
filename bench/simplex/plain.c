#include "plain.h"
#include <string.h>

/* Rows with an entry in the column. With EVERY_ROW the others too, but for those beyond the bound: step 4 has not seen
 * them, and their products may not fit. */
#ifdef EVERY_ROW
#define PLAIN_TEST plain_every_row
#define IS_BUILT(r, w, j) ((r)[(j) + 2] != 0 || AT(small)(r, w))
#else
#define PLAIN_TEST plain_test
#define IS_BUILT(r, w, j) ((r)[(j) + 2] != 0)
#endif

enum { PIVOTS = 200 };

typedef __int128 wide;
typedef unsigned __int128 wide_natural;

/* ---- the first table */

static void first_row(int64_t *r, size_t k, int64_t constant, int64_t sign, const int16_t *axes)
{
    memset(r, 0, sizeof(row));
    r[0] = 1;
    r[1] = constant;
    for (size_t i = 0; i < AXES; i++) r[k + 2 + i] = sign * axes[i];
}

static void fill(const basic_set *b, row *rows, size_t *place, uint8_t *kinds)
{
    size_t k = b->divs, n = 8 + 3 * k + b->cons;
    for (size_t v = 0; v < n; v++) {
        place[v] = v < 8 ? 64 + k + v : v < 8 + k ? 64 + v - 8 : v - 8 - k;
        kinds[v] = v < 8 + k ? 0 : 1;
    }
    for (size_t i = 0; i < k; i++) {
        const division *d = &b->divisions[i];
        first_row(rows[2 * i], k, d->constant, 1, d->axes);
        rows[2 * i][i + 2] = -(int64_t)d->divisor;
        first_row(rows[2 * i + 1], k, (int64_t)d->divisor - 1 - d->constant, -1, d->axes);
        rows[2 * i + 1][i + 2] = d->divisor;
    }
    for (size_t i = 0; i < b->cons; i++) {
        const constraint *c = &b->constraints[i];
        int64_t *r = rows[2 * k + i];
        first_row(r, k, c->constant, 1, c->axes);
        for (size_t j = 0; j < k; j++) r[2 + j] = c->divisions[j];
        kinds[8 + 3 * k + i] = c->equality ? 2 : 1;
    }
}

/* ---- the steps at both sizes */

static uint64_t gcd_64(uint64_t a, uint64_t b)
{
    while (b != 0) {
        uint64_t r = a % b;
        a = b;
        b = r;
    }
    return a;
}

static wide_natural gcd_128(wide_natural a, wide_natural b)
{
    while (b >> 64 != 0) {
        wide_natural r = a % b;
        a = b;
        b = r;
    }
    return b == 0 ? a : gcd_64((uint64_t)b, (uint64_t)(a % b));
}

#define AT(name) name##_64
#define NUMBER int64_t
#define NATURAL uint64_t
#define PRODUCT(a, b) ((a) * (b))
#define BOUND INT32_MAX
#include "steps.h"

/* what step 4 has let pass has 64 bits, so a product is that of two words */
#define AT(name) name##_128
#define NUMBER wide
#define NATURAL wide_natural
#define PRODUCT(a, b) ((wide)(int64_t)(a) * (int64_t)(b))
#define BOUND INT64_MAX
#include "steps.h"

/* a function of its own, so that a test without wide has no such table */
__attribute__((noinline))
static answer carry(const basic_set *b, row *rows, size_t *place, const uint8_t *kinds, size_t *pivots)
{
    wide carried[ROWS][NUMBERS];
    size_t m = 2 * b->divs + b->cons, w = b->divs + AXES + 2;
    for (size_t k = 0; k < m; k++)
        for (size_t i = 0; i < w; i++) carried[k][i] = rows[k][i];
    return run_128(b, carried, place, kinds, pivots);
}

ended PLAIN_TEST(const basic_set *b, row *rows, size_t *place, uint8_t *kinds)
{
    ended e = {POINT, 0, 0, 0};
    fill(b, rows, place, kinds);
    e.answer = run_64(b, rows, place, kinds, &e.pivots);
    e.narrow = e.pivots;
    e.carried = e.answer == WIDE;
    if (e.carried) e.answer = carry(b, rows, place, kinds, &e.pivots);
    return e;
}
