/* isl: isl_basic_set_max_lp_val and isl_basic_set_min_lp_val. The divisions are axes of a rational basic set, so that
 * the rules stay as they are: of an integer one isl would round them. Built over Debian's library and over isl32. */
#include "optimum.h"
#include <isl/aff.h>
#include <isl/constraint.h>
#include <isl/ctx.h>
#include <isl/local_space.h>
#include <isl/lp.h>
#include <isl/options.h>
#include <isl/set.h>
#include <isl/space.h>
#include <isl/val.h>
#include <stdio.h>
#include <stdlib.h>

/* exported by the library, absent from its public headers */
extern isl_basic_set *isl_basic_set_set_rational(isl_basic_set *s);

typedef struct { isl_basic_set *set; isl_aff *of; isl_val *optimum; char *text; } question;

static isl_ctx *context;

static void init(void)
{
    context = isl_ctx_alloc();
    isl_options_set_on_error(context, ISL_ON_ERROR_ABORT);
}

static isl_aff *affine(isl_local_space *space, int64_t constant)
{
    isl_aff *zero = isl_aff_zero_on_domain(isl_local_space_copy(space));
    return isl_aff_set_constant_val(zero, isl_val_int_from_si(context, constant));
}

static isl_aff *with(isl_aff *a, int place, int64_t coefficient)
{
    return coefficient ? isl_aff_set_coefficient_si(a, isl_dim_in, place, (int)coefficient) : a;
}

/* sign·(axes·x + constant − divisor·q) + more ≥ 0: one bound of a division */
static isl_constraint *bound(isl_local_space *space, int n, int j, const division *d, int sign, int64_t more)
{
    isl_aff *a = affine(space, sign * (int64_t)d->constant + more);
    for (int i = 0; i < n; i++) a = with(a, i, sign * d->axis[i]);
    return isl_inequality_from_aff(with(a, n + j, -sign * (int64_t)d->divisor));
}

static void *prepare(int n, const basic_set *b, const expression *e)
{
    question *q = calloc(1, sizeof *q);
    isl_space *space = isl_space_set_alloc(context, 0, (unsigned)(n + b->divs));
    isl_local_space *local = isl_local_space_from_space(isl_space_copy(space));
    q->set = isl_basic_set_set_rational(isl_basic_set_universe(space));
    for (int j = 0; j < b->divs; j++) {
        q->set = isl_basic_set_add_constraint(q->set, bound(local, n, j, &b->div[j], 1, 0));
        q->set = isl_basic_set_add_constraint(q->set, bound(local, n, j, &b->div[j], -1, b->div[j].divisor - 1));
    }
    for (const constraint *c = b->con; c < b->con + b->cons; c++) {
        isl_aff *a = affine(local, c->constant);
        for (int i = 0; i < n; i++) a = with(a, i, c->coefficient[i]);
        for (int j = 0; j < b->divs; j++) a = with(a, n + j, c->coefficient[AXES + j]);
        isl_constraint *r = c->equality ? isl_equality_from_aff(a) : isl_inequality_from_aff(a);
        q->set = isl_basic_set_add_constraint(q->set, r);
    }
    if (isl_basic_set_is_rational(q->set) != 1 && !isl_basic_set_is_empty(q->set)) abort();
    q->of = affine(local, e->constant);
    for (int i = 0; i < n; i++) q->of = with(q->of, i, e->axis[i]);
    for (int j = 0; j < b->divs; j++) q->of = with(q->of, n + j, e->division[j]);
    isl_local_space_free(local);
    return q;
}

static void ask(void *asked, int greatest)
{
    question *q = asked;
    isl_val_free(q->optimum);
    q->optimum = greatest ? isl_basic_set_max_lp_val(q->set, q->of) : isl_basic_set_min_lp_val(q->set, q->of);
}

static const char *told(void *asked)
{
    question *q = asked;
    free(q->text);
    q->text = NULL;
    if (isl_val_is_nan(q->optimum)) return "empty";
    if (isl_val_is_infty(q->optimum) || isl_val_is_neginfty(q->optimum)) return "unbounded";
    char *shown = isl_val_to_str(q->optimum);
    size_t room = 400;
    q->text = malloc(room);
    snprintf(q->text, room, isl_val_is_int(q->optimum) ? "%s/1" : "%s", shown);
    free(shown);
    return q->text;
}

static void drop(void *asked)
{
    question *q = asked;
    isl_basic_set_free(q->set);
    isl_aff_free(q->of);
    isl_val_free(q->optimum);
    free(q->text);
    free(q);
}

solver SOLVER = {NAME, init, prepare, drop, ask, told};
