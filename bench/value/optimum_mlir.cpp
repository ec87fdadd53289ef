// MLIR's Presburger library: a Simplex of the polyhedron, divisions among its variables, and its computeOptimum.
#include "optimum.h"
#include "mlir/Analysis/Presburger/IntegerRelation.h"
#include "mlir/Analysis/Presburger/Simplex.h"
#include "llvm/Support/raw_ostream.h"
#include <string>

using namespace mlir::presburger;
using llvm::DynamicAPInt;
using llvm::SmallVector;

namespace {
struct Question {
    IntegerPolyhedron set;
    SmallVector<DynamicAPInt, 24> of;
    MaybeOptimum<Fraction> optimum;
    std::string text;
};
} // namespace

static void init() {}

static void *prepare(int n, const basic_set *b, const expression *e)
{
    Question *q = new Question{IntegerPolyhedron(PresburgerSpace::getSetSpace(n)), {}, {}, {}};
    for (int j = 0; j < b->divs; j++) {
        SmallVector<int64_t, 24> v(n + j + 1, 0);
        for (int k = 0; k < n; k++) v[k] = b->div[j].axis[k];
        v[n + j] = b->div[j].constant;
        q->set.addLocalFloorDiv(v, b->div[j].divisor);
    }
    for (const constraint *c = b->con; c < b->con + b->cons; c++) {
        SmallVector<int64_t, 24> v(n + b->divs + 1, 0);
        for (int k = 0; k < n; k++) v[k] = c->coefficient[k];
        for (int k = 0; k < b->divs; k++) v[n + k] = c->coefficient[AXES + k];
        v[n + b->divs] = c->constant;
        if (c->equality) q->set.addEquality(v);
        else q->set.addInequality(v);
    }
    for (int k = 0; k < n; k++) q->of.emplace_back(e->axis[k]);
    for (int k = 0; k < b->divs; k++) q->of.emplace_back(e->division[k]);
    q->of.emplace_back(e->constant);
    return q;
}

static void ask(void *asked, int greatest)
{
    Question *q = static_cast<Question *>(asked);
    Simplex simplex(q->set);
    // a set found empty while its rules were added has no optimum to compute
    if (simplex.isEmpty()) q->optimum = MaybeOptimum<Fraction>(OptimumKind::Empty);
    else q->optimum = simplex.computeOptimum(greatest ? Simplex::Direction::Up : Simplex::Direction::Down, q->of);
}

static const char *told(void *asked)
{
    Question *q = static_cast<Question *>(asked);
    if (q->optimum.isEmpty()) return "empty";
    if (q->optimum.isUnbounded()) return "unbounded";
    const Fraction &f = q->optimum.getBoundedOptimum();
    DynamicAPInt g = gcd(abs(f.num), f.den);
    q->text.clear();
    llvm::raw_string_ostream out(q->text);
    out << f.num / g << "/" << f.den / g;
    out.flush();
    return q->text.c_str();
}

static void drop(void *asked) { delete static_cast<Question *>(asked); }

solver SOLVER = {NAME, init, prepare, drop, ask, told};
