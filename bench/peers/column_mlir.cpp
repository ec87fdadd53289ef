// MLIR's Presburger library: FPL as it went upstream.
#include "column.h"
#include "llvm/Config/llvm-config.h"
#include "mlir/Analysis/Presburger/PresburgerRelation.h"

using namespace mlir::presburger;
using llvm::DynamicAPInt;
using llvm::SmallVector;
using Point = SmallVector<DynamicAPInt, 8>;

static PresburgerSet *of(void *a) { return static_cast<PresburgerSet *>(a); }

static const char *version() { return "MLIR Presburger, LLVM " LLVM_VERSION_STRING; }
static void init() {}

static IntegerPolyhedron basic(const PresburgerSpace &space, int n, const basic_set *b)
{
    IntegerPolyhedron p(space);
    for (int j = 0; j < b->divs; j++) {
        SmallVector<int64_t, 24> v(n + j + 1, 0);
        for (int k = 0; k < n; k++) v[k] = b->div[j].axis[k];
        v[n + j] = b->div[j].constant;
        p.addLocalFloorDiv(v, b->div[j].divisor);
    }
    for (int j = 0; j < b->cons; j++) {
        SmallVector<int64_t, 24> v(n + b->divs + 1, 0);
        for (int k = 0; k < n; k++) v[k] = b->con[j].coefficient[k];
        for (int k = 0; k < b->divs; k++) v[n + k] = b->con[j].coefficient[AXES + k];
        v[n + b->divs] = b->con[j].constant;
        if (b->con[j].equality) p.addEquality(v);
        else p.addInequality(v);
    }
    return p;
}

static void *load(const set *s, const uint8_t *, size_t)
{
    PresburgerSpace space = PresburgerSpace::getSetSpace(s->n);
    PresburgerSet *r = new PresburgerSet(PresburgerSet::getEmpty(space));
    for (int i = 0; i < s->count; i++) r->unionInPlace(basic(space, s->n, &s->basic[i]));
    return r;
}

static void drop(void *a) { delete of(a); }

static void *operate(int operation, void *a, void *b, int *)
{
    switch (operation) {
    case UNION: return new PresburgerSet(of(a)->unionSet(*of(b)));
    case INTERSECTION: return new PresburgerSet(of(a)->intersect(*of(b)));
    case DIFFERENCE: return new PresburgerSet(of(a)->subtract(*of(b)));
    default: return new PresburgerSet(of(a)->complement());
    }
}

static int empty(void *a, void *b) { return of(a)->subtract(*of(b)).isIntegerEmpty(); }
static int subset(void *a, void *b) { return of(a)->isSubsetOf(*of(b)); }

static void *point(void *, int n, const int32_t *x) { return new Point(x, x + n); }
static int prepared(void *a, void *p) { return of(a)->containsPoint(*static_cast<Point *>(p)); }
static int member(void *a, int n, const int32_t *x) { return of(a)->containsPoint(Point(x, x + n)); }

static int first(void *a, int n, const int32_t *, const int32_t *, int32_t *x)
{
    bool found = false;
    Point best;
    for (const IntegerRelation &d : of(a)->getAllDisjuncts()) {
        auto m = d.findIntegerLexMin();
        if (m.isEmpty()) continue;
        if (m.isUnbounded()) return -1;
        Point v(m->begin(), m->begin() + n);
        if (found && !std::lexicographical_compare(v.begin(), v.end(), best.begin(), best.end())) continue;
        best = v;
        found = true;
    }
    if (!found) return 0;
    for (int i = 0; i < n; i++) x[i] = (int32_t)int64_t(best[i]);
    return 1;
}

static void size(void *a, int *basic_sets, int *constraints)
{
    *basic_sets = of(a)->getNumDisjuncts();
    *constraints = 0;
    for (const IntegerRelation &d : of(a)->getAllDisjuncts()) *constraints += d.getNumConstraints();
}

column COLUMN = {NAME, version, init, load, drop, operate, empty, subset, member, point, prepared, 0, first, nullptr, size, nullptr};
