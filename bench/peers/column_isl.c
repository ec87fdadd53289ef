/* isl. Built twice: over Debian's library (GMP) and over the same release with 32-bit small integers (isl32). */
#include "column.h"
#include <isl/aff.h>
#include <isl/constraint.h>
#include <isl/ctx.h>
#include <isl/local_space.h>
#include <isl/options.h>
#include <isl/point.h>
#include <isl/set.h>
#include <isl/space.h>
#include <isl/val.h>
#include <isl/version.h>

/* exported by the library, absent from its public headers */
extern isl_bool isl_set_contains_point(isl_set *s, isl_point *p);

static isl_ctx *context;

static const char *version(void) { return isl_version(); }

static void init(void)
{
    context = isl_ctx_alloc();
    isl_options_set_on_error(context, ISL_ON_ERROR_CONTINUE);
}

static isl_aff *affine(isl_local_space *space, int n, int32_t constant, const int16_t *coefficient)
{
    isl_aff *a = isl_aff_zero_on_domain(isl_local_space_copy(space));
    a = isl_aff_set_constant_si(a, constant);
    for (int k = 0; k < n; k++)
        if (coefficient[k]) a = isl_aff_set_coefficient_si(a, isl_dim_in, k, coefficient[k]);
    return a;
}

static isl_basic_set *basic(isl_space *space, int n, const basic_set *b)
{
    isl_local_space *local = isl_local_space_from_space(isl_space_copy(space));
    isl_basic_set *s = isl_basic_set_universe(isl_space_copy(space));
    isl_aff *floors[DIVISIONS];
    for (int j = 0; j < b->divs; j++)
        floors[j] = isl_aff_floor(isl_aff_scale_down_ui(affine(local, n, b->div[j].constant, b->div[j].axis), (unsigned)b->div[j].divisor));
    for (int j = 0; j < b->cons; j++) {
        const constraint *c = &b->con[j];
        isl_aff *a = affine(local, n, c->constant, c->coefficient);
        for (int k = 0; k < b->divs; k++)
            if (c->coefficient[AXES + k])
                a = isl_aff_add(a, isl_aff_scale_val(isl_aff_copy(floors[k]), isl_val_int_from_si(context, c->coefficient[AXES + k])));
        isl_constraint *r = c->equality ? isl_equality_from_aff(a) : isl_inequality_from_aff(a);
        s = isl_basic_set_intersect(s, isl_basic_set_from_constraint(r));
    }
    for (int j = 0; j < b->divs; j++) isl_aff_free(floors[j]);
    isl_local_space_free(local);
    return s;
}

static void *load(const set *s, const uint8_t *bytes, size_t length)
{
    (void)bytes;
    (void)length;
    isl_space *space = isl_space_set_alloc(context, 0, (unsigned)s->n);
    isl_set *r = isl_set_empty(isl_space_copy(space));
    for (int i = 0; i < s->count; i++) r = isl_set_union(r, isl_set_from_basic_set(basic(space, s->n, &s->basic[i])));
    isl_space_free(space);
    return r;
}

static void drop(void *a) { isl_set_free(a); }

static void *operate(int operation, void *a, void *b, int *refusal)
{
    isl_set *x = isl_set_copy(a);
    (void)refusal;
    switch (operation) {
    case UNION: return isl_set_union(x, isl_set_copy(b));
    case INTERSECTION: return isl_set_intersect(x, isl_set_copy(b));
    case DIFFERENCE: return isl_set_subtract(x, isl_set_copy(b));
    default: return isl_set_complement(x);
    }
}

static int answer(isl_bool b) { return b == isl_bool_error ? -1 : b == isl_bool_true; }

static int empty(void *a, void *b)
{
    isl_set *d = isl_set_subtract(isl_set_copy(a), isl_set_copy(b));
    int r = answer(isl_set_is_empty(d));
    isl_set_free(d);
    return r;
}

static int subset(void *a, void *b) { return answer(isl_set_is_subset(a, b)); }

static void *point(void *a, int n, const int32_t *x)
{
    isl_point *p = isl_point_zero(isl_set_get_space(a));
    for (int i = 0; i < n; i++) p = isl_point_set_coordinate_val(p, isl_dim_set, i, isl_val_int_from_si(context, x[i]));
    return p;
}

static int prepared(void *a, void *p) { return answer(isl_set_contains_point(a, p)); }

static int member(void *a, int n, const int32_t *x)
{
    isl_point *p = point(a, n, x);
    int r = prepared(a, p);
    isl_point_free(p);
    return r;
}

static int first(void *a, int n, const int32_t *low, const int32_t *high, int32_t *x)
{
    (void)low;
    (void)high;
    isl_set *m = isl_set_lexmin(isl_set_copy(a));
    int none = answer(isl_set_is_empty(m));
    if (none) {
        isl_set_free(m);
        return none < 0 ? -1 : 0;
    }
    isl_point *p = isl_set_sample_point(m);
    for (int i = 0; i < n; i++) {
        isl_val *v = isl_point_get_coordinate_val(p, isl_dim_set, i);
        x[i] = (int32_t)isl_val_get_num_si(v);
        isl_val_free(v);
    }
    isl_point_free(p);
    return 1;
}

static isl_stat count(isl_basic_set *b, void *to)
{
    int *sums = to;
    sums[0]++;
    sums[1] += isl_basic_set_n_constraint(b);
    isl_basic_set_free(b);
    return isl_stat_ok;
}

static void size(void *a, int *basic_sets, int *constraints)
{
    int sums[2] = {0, 0};
    isl_set_foreach_basic_set(a, count, sums);
    *basic_sets = sums[0];
    *constraints = sums[1];
}

column COLUMN = {NAME, version, init, load, drop, operate, empty, subset, member, point, prepared, 0, first, NULL, size, NULL};
