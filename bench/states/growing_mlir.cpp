// MLIR's Presburger library: its Simplex, to which rules are added one by one, with its snapshots and rollback.
#include "growing.h"
#include "mlir/Analysis/Presburger/Simplex.h"
#include <memory>

using namespace mlir::presburger;
using llvm::DynamicAPInt;
using llvm::SmallVector;

namespace {
using Numbers = SmallVector<DynamicAPInt, 24>;

struct Rule {
    bool equality;
    Numbers numbers;
};

struct Grown {
    unsigned axes;
    SmallVector<std::pair<Numbers, DynamicAPInt>, 8> divisions;
    SmallVector<Rule, 48> rules;
    std::unique_ptr<Simplex> simplex;
    unsigned snapshot;
};
} // namespace

static Grown *of(void *grown) { return static_cast<Grown *>(grown); }

static void *prepare(int n, const basic_set *b)
{
    Grown *g = new Grown{(unsigned)n, {}, {}, nullptr, 0};
    for (int j = 0; j < b->divs; j++) {
        Numbers v(n + j + 1);
        for (int k = 0; k < n; k++) v[k] = b->div[j].axis[k];
        v[n + j] = b->div[j].constant;
        g->divisions.push_back({v, DynamicAPInt(b->div[j].divisor)});
    }
    for (const constraint *c = b->con; c < b->con + b->cons; c++) {
        Numbers v(n + b->divs + 1);
        for (int k = 0; k < n; k++) v[k] = c->coefficient[k];
        for (int k = 0; k < b->divs; k++) v[n + k] = c->coefficient[AXES + k];
        v[n + b->divs] = c->constant;
        g->rules.push_back({c->equality != 0, v});
    }
    return g;
}

static void drop(void *grown) { delete of(grown); }

static void start(void *grown)
{
    Grown *g = of(grown);
    g->simplex = std::make_unique<Simplex>(g->axes);
    for (const auto &d : g->divisions) g->simplex->addDivisionVariable(d.first, d.second);
}

static int add(void *grown, int rule)
{
    Grown *g = of(grown);
    const Rule &r = g->rules[rule];
    if (r.equality) g->simplex->addEquality(r.numbers);
    else g->simplex->addInequality(r.numbers);
    return !g->simplex->isEmpty();
}

static void mark(void *grown) { of(grown)->snapshot = of(grown)->simplex->getSnapshot(); }
static void back(void *grown) { of(grown)->simplex->rollback(of(grown)->snapshot); }

extern const library LIBRARY = {NAME, prepare, drop, start, add, mark, back};
