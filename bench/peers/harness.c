/* One column over a workload; each case runs in a process of its own, with a limit on its processor time.
 *
 *   COLUMN version
 *   COLUMN check FILE CASES SECONDS OPERATION..    results and answers against membership by the definition
 *   COLUMN time FILE OPERATION CASES READINGS SECONDS
 *   COLUMN count FILE OPERATION CASE,..     these cases once, warm, for callgrind --toggle-collect=measured
 *
 * A line of `time`:  column,family,operation,case,status,ns,answer,basic sets,constraints   (ns: the median of the warm readings)
 * A line of `check`: column,family,operation,case,status,points,wrong,errors,answer
 * status: ok, refused N, given up, time, crash
 */
#define _GNU_SOURCE
#include "column.h"
#include <signal.h>
#include <stdio.h>
#include <stdlib.h>
#include <string.h>
#include <sys/resource.h>
#include <sys/wait.h>
#include <time.h>
#include <unistd.h>

enum { DO_UNION, DO_INTERSECTION, DO_DIFFERENCE, DO_COMPLEMENT, DO_CHAIN, DO_EMPTY, DO_SUBSET, DO_FIRST, DO_MEMBER, DO_PREPARED, OPERATIONS };
static const char *const NAMES[OPERATIONS] = {"union", "intersection", "difference", "complement", "chain",
                                              "empty", "subset",       "first",      "member",     "prepared"};
/* a reading takes READING_NS at least, the readings of a case ENOUGH_NS and one more at most */
enum { READINGS = 64, REPEATS = 256, READING_NS = 50000, ENOUGH_NS = 1000000000 };

typedef struct { void *of[SETS], *searched, **point; } loaded;
typedef struct { void *result; long answer; int refusal; int32_t at[AXES]; } outcome;

static void *chain(const loaded *l, int *refusal)
{
    void *p = COLUMN.operate(INTERSECTION, l->of[A], l->of[B], refusal), *q, *r;
    if (!p) return NULL;
    q = COLUMN.operate(DIFFERENCE, p, l->of[C], refusal);
    COLUMN.drop(p);
    if (!q) return NULL;
    r = COLUMN.operate(DIFFERENCE, q, l->of[D], refusal);
    COLUMN.drop(q);
    return r;
}

static void perform(int operation, const loaded *l, const workcase *c, outcome *o)
{
    o->result = NULL;
    o->answer = 0;
    switch (operation) {
    case DO_UNION: o->result = COLUMN.operate(UNION, l->of[A], l->of[C], &o->refusal); break;
    case DO_INTERSECTION: o->result = COLUMN.operate(INTERSECTION, l->of[A], l->of[B], &o->refusal); break;
    case DO_DIFFERENCE: o->result = COLUMN.operate(DIFFERENCE, l->of[A], l->of[C], &o->refusal); break;
    case DO_COMPLEMENT: o->result = COLUMN.operate(COMPLEMENT, l->of[C], NULL, &o->refusal); break;
    case DO_CHAIN: o->result = chain(l, &o->refusal); break;
    case DO_EMPTY: o->answer = COLUMN.empty(l->of[E], l->of[A]); break;
    case DO_SUBSET: o->answer = COLUMN.subset(l->of[E], l->of[A]); break;
    case DO_FIRST: o->answer = COLUMN.first(l->searched, c->n, c->low, c->high, o->at); break;
    case DO_MEMBER:
        for (int i = 0; i < c->points; i++) o->answer += COLUMN.member(l->of[A], c->n, c->point[i]);
        break;
    case DO_PREPARED:
        for (int i = 0; i < c->points; i++) o->answer += COLUMN.prepared(l->of[A], l->point[i]);
        break;
    }
}

/* what is timed; callgrind collects inside this function only */
__attribute__((noinline)) void measured(int operation, const loaded *l, const workcase *c, outcome *o) { perform(operation, l, c, o); }

static void *load_box(const workcase *c)
{
    static set s;
    static uint8_t bytes[LONGEST_SET];
    memset(&s, 0, sizeof s);
    s.n = c->n;
    s.count = 1;
    for (int j = 0; j < c->n; j++) {
        constraint *r = &s.basic[0].con[2 * j];
        r[0].constant = -c->low[j];
        r[0].coefficient[j] = 1;
        r[1].constant = c->high[j];
        r[1].coefficient[j] = -1;
    }
    s.basic[0].cons = 2 * c->n;
    return COLUMN.load(&s, bytes, set_encode(&s, bytes));
}

/* the sets of a case in the column's form, and for the search A \ C, within the box where the call takes no box; 0 or a refusal */
static int load(loaded *l, const workcase *c, int operation)
{
    int refusal = 0;
    for (int k = 0; k < SETS; k++) l->of[k] = COLUMN.load(c->decoded[k], c->bytes[k], c->length[k]);
    if (operation == DO_FIRST) {
        void *a = COLUMN.boxed ? l->of[A] : COLUMN.operate(INTERSECTION, l->of[A], load_box(c), &refusal);
        if (a) l->searched = COLUMN.operate(DIFFERENCE, a, l->of[C], &refusal);
        if (!a || !l->searched) return refusal ? refusal : -1;
    }
    if (operation == DO_PREPARED) {
        l->point = malloc((size_t)c->points * sizeof *l->point);
        for (int i = 0; i < c->points; i++) l->point[i] = COLUMN.point(l->of[A], c->n, c->point[i]);
    }
    return 0;
}

static int is_set(int operation) { return operation <= DO_CHAIN; }

/* "ok" or why not */
static const char *status(int operation, int unloaded, const outcome *o)
{
    static char text[32];
    int refusal = unloaded ? unloaded : is_set(operation) && !o->result ? o->refusal ? o->refusal : -1 : 0;
    if (!unloaded && !is_set(operation) && o->answer < 0) return "given up";
    if (!refusal) return "ok";
    snprintf(text, sizeof text, "refused %d", refusal);
    return text;
}

/* a first point as one number, so that columns can be compared */
static void name_point(const loaded *l, const workcase *c, outcome *o)
{
    if (o->answer != 1) return;
    if (COLUMN.first_at) COLUMN.first_at(l->searched, c->n, c->low, c->high, o->at);
    uint32_t h = 7;
    for (int i = 0; i < c->n; i++) h = h * 1000003u + (uint32_t)o->at[i];
    o->answer = (long)h + 2;
}

/* processor time of this thread: the machine may be shared */
static int64_t now(void)
{
    struct timespec t;
    clock_gettime(CLOCK_THREAD_CPUTIME_ID, &t);
    return t.tv_sec * 1000000000ll + t.tv_nsec;
}

static int ascending(const void *a, const void *b)
{
    int64_t x = *(const int64_t *)a, y = *(const int64_t *)b;
    return (x > y) - (x < y);
}

/* one reading: so many calls, whose results are dropped when the clock has been read */
static int64_t reading(int operation, const loaded *l, const workcase *c, int repeats)
{
    static outcome o[REPEATS];
    int64_t start = now();
    for (int k = 0; k < repeats; k++) measured(operation, l, c, &o[k]);
    int64_t ns = now() - start;
    for (int k = 0; k < repeats; k++)
        if (o[k].result) COLUMN.drop(o[k].result);
    return ns / repeats;
}

static int64_t median(int operation, const loaded *l, const workcase *c, int readings)
{
    int64_t ns[READINGS], one = reading(operation, l, c, 1);
    int repeats = one < READING_NS ? (int)(READING_NS / (one + 1)) + 1 : 1;
    if (repeats > REPEATS) repeats = REPEATS;
    if (readings > READINGS) readings = READINGS;
    int taken = 0;
    for (int64_t spent = one; taken == 0 || (taken < readings && spent < ENOUGH_NS); taken++) {
        ns[taken] = reading(operation, l, c, repeats);
        spent += ns[taken] * repeats;
    }
    qsort(ns, (size_t)taken, sizeof *ns, ascending);
    return ns[taken / 2];
}

static void time_case(const char *label, int operation, const workcase *c, int readings)
{
    loaded l = {0};
    outcome o = {0};
    int basic_sets = 0, constraints = 0;
    int64_t ns = 0;
    int unloaded = load(&l, c, operation);
    if (!unloaded) perform(operation, &l, c, &o);
    const char *s = status(operation, unloaded, &o);
    if (o.result) COLUMN.size(o.result, &basic_sets, &constraints);
    if (operation == DO_FIRST) name_point(&l, c, &o);
    if (!strcmp(s, "ok")) ns = median(operation, &l, c, readings);
    printf("%s,%s,%lld,%ld,%d,%d\n", label, s, (long long)ns, o.answer, basic_sets, constraints);
}

/* the points that a case is checked at, and the sets that hold each by the definition, as bits */
typedef struct { int32_t x[AXES]; unsigned in; } judged;
static judged *judge;
static size_t judges;

static void note(const workcase *c, const int32_t *x)
{
    static size_t room;
    if (judges == room) judge = realloc(judge, (room = 2 * room + 1024) * sizeof *judge);
    judged *j = &judge[judges++];
    memcpy(j->x, x, sizeof j->x);
    j->in = 0;
    for (int k = 0; k < SETS; k++) j->in |= (unsigned)set_member(c->decoded[k], x) << k;
}

/* every point of a box */
static void note_box(const workcase *c, const int32_t *low, const int32_t *high)
{
    int32_t x[AXES];
    int j;
    memcpy(x, low, sizeof x);
    do {
        note(c, x);
        for (j = c->n - 1; j >= 0 && x[j] == high[j]; j--) x[j] = low[j];
        if (j >= 0) x[j]++;
    } while (j >= 0);
}

/* the whole box of a small case; else the given points and every point of a small box at a few of them, which lie near edges */
static void note_case(const workcase *c)
{
    judges = 0;
    if (c->whole) {
        note_box(c, c->low, c->high);
        return;
    }
    for (int i = 0; i < c->points; i++) note(c, c->point[i]);
    for (int i = 0; i < 6; i++) {
        int32_t low[AXES] = {0}, high[AXES] = {0};
        for (int j = 0; j < c->n; j++) {
            int32_t x = c->point[i][j];
            low[j] = c->n <= 5 && x > c->low[j] ? x - 1 : x;
            high[j] = x < c->high[j] ? x + 1 : x;
        }
        note_box(c, low, high);
    }
}

/* whether the point is in the operation's result */
static int truth(int operation, unsigned in)
{
    int a = in >> A & 1, b = in >> B & 1, c = in >> C & 1, d = in >> D & 1, e = in >> E & 1;
    switch (operation) {
    case DO_UNION: return a | c;
    case DO_INTERSECTION: return a & b;
    case DO_DIFFERENCE: case DO_FIRST: return a & !c;
    case DO_COMPLEMENT: return !c;
    case DO_CHAIN: return a & b & !c & !d;
    default: return e & !a;
    }
}

static int before(int n, const int32_t *x, const int32_t *y)
{
    for (int j = 0; j < n; j++)
        if (x[j] != y[j]) return x[j] < y[j];
    return 0;
}

/* a result or an answer that is refuted at a judged point; `bytes` is the set that the result's bytes are */
static int wrong(int operation, const workcase *c, const outcome *o, const set *bytes, const judged *j, long *errors)
{
    int t = truth(operation, j->in), m;
    switch (operation) {
    case DO_EMPTY: case DO_SUBSET: return t && o->answer == 1;
    case DO_FIRST: return t && (o->answer == 0 || before(c->n, j->x, o->at));
    }
    m = COLUMN.member(o->result, c->n, j->x);
    *errors += m < 0;
    return (m >= 0 && m != t) || (bytes && set_member(bytes, j->x) != t);
}

/* the first point itself must be in A \ C and in the box */
static int strays(const workcase *c, const outcome *o)
{
    for (int j = 0; j < c->n; j++)
        if (o->at[j] < c->low[j] || o->at[j] > c->high[j]) return 1;
    return !set_member(c->decoded[A], o->at) || set_member(c->decoded[C], o->at);
}

static void check_case(const char *label, int operation, const workcase *c)
{
    loaded l = {0};
    outcome o = {0};
    long faults = 0, errors = 0;
    int unloaded = load(&l, c, operation);
    if (!unloaded) perform(operation, &l, c, &o);
    const char *s = status(operation, unloaded, &o);
    if (operation == DO_FIRST) {
        name_point(&l, c, &o);
        if (o.answer > 1) faults += strays(c, &o);
    }
    const set *bytes = COLUMN.decoded && o.result ? COLUMN.decoded(o.result) : NULL;
    faults += COLUMN.decoded && o.result && !bytes;
    if (!strcmp(s, "ok"))
        for (size_t i = 0; i < judges; i++) faults += wrong(operation, c, &o, bytes, &judge[i], &errors);
    printf("%s,%s,%zu,%ld,%ld,%ld\n", label, s, judges, faults, errors, o.answer);
}

/* times, or checks where readings is 0, in a process of its own */
static void guarded(const workload *w, int operation, int i, int readings, int seconds)
{
    char label[128];
    int status = 0;
    snprintf(label, sizeof label, "%s,%s,%s,%d", COLUMN.name, w->family, NAMES[operation], i);
    fflush(stdout);
    pid_t child = fork();
    if (child == 0) {
        struct rlimit limit = {(rlim_t)seconds, (rlim_t)seconds + 1};
        setrlimit(RLIMIT_CPU, &limit);
        COLUMN.init();
        if (readings) time_case(label, operation, &w->at[i], readings);
        else check_case(label, operation, &w->at[i]);
        fflush(stdout);
        _exit(0);
    }
    waitpid(child, &status, 0);
    if (WIFSIGNALED(status)) printf("%s,%s,0,0,0,0\n", label, WTERMSIG(status) == SIGXCPU ? "time" : "crash");
    else if (WEXITSTATUS(status)) printf("%s,crash,0,0,0,0\n", label);
}

static int operation_of(const char *name)
{
    for (int i = 0; i < OPERATIONS; i++)
        if (!strcmp(name, NAMES[i])) return i;
    fprintf(stderr, "no operation %s\n", name);
    exit(2);
}

static void count(const workload *w, int operation, char *cases)
{
    COLUMN.init();
    for (char *t = strtok(cases, ","); t; t = strtok(NULL, ",")) {
        loaded l = {0};
        outcome o = {0};
        const workcase *c = &w->at[atoi(t)];
        if (load(&l, c, operation)) continue;
        perform(operation, &l, c, &o);
        measured(operation, &l, c, &o);
    }
}

int main(int argc, char **argv)
{
    workload w;
    if (argc == 2 && !strcmp(argv[1], "version")) return printf("%s: %s\n", COLUMN.name, COLUMN.version()) < 0;
    if (argc < 5) {
        fputs("version | check FILE CASES SECONDS OPERATION.. | time FILE OPERATION CASES READINGS SECONDS | count FILE OPERATION CASE,..\n", stderr);
        return 2;
    }
    workload_read(&w, argv[2]);
    if (!strcmp(argv[1], "check"))
        for (int i = 0; i < atoi(argv[3]) && i < w.cases; i++) {
            note_case(&w.at[i]);
            for (int k = 5; k < argc; k++) guarded(&w, operation_of(argv[k]), i, 0, atoi(argv[4]));
        }
    else if (!strcmp(argv[1], "count")) count(&w, operation_of(argv[3]), argv[4]);
    else if (argc == 7 && (COLUMN.prepared || operation_of(argv[3]) != DO_PREPARED))
        for (int i = 0; i < atoi(argv[4]) && i < w.cases; i++) guarded(&w, operation_of(argv[3]), i, atoi(argv[5]), atoi(argv[6]));
    return 0;
}
