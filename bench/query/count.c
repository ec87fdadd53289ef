/* count ROUNDS: a search call a line, as tools/second's line mode has it. For each a line: of the engine's search, of
 * its count of that box, and of its counts there by the last axis that may be chosen, each the word of the answer, the
 * number of points, the tally and the CPU seconds. The three take turns, short ones are repeated, and the least of the
 * rounds counts. */
#define _POSIX_C_SOURCE 200809L
#include "asked.h"

uint64_t probe_search(size_t, const uint8_t *, size_t, uint32_t, EIGHT, EIGHT);
uint32_t probe_tally(size_t, const uint8_t *, size_t, uint32_t, EIGHT, EIGHT);
uint64_t probe_count(size_t, const uint8_t *, size_t, uint32_t, EIGHT, EIGHT, uint32_t *, uint32_t *);
uint64_t probe_counts(size_t, const uint8_t *, size_t, uint32_t, size_t, EIGHT, EIGHT, uint32_t *, size_t, uint32_t *,
                      uint32_t *);

enum { SEARCH, COUNT, COUNTS, CALLS, PLACES = 64 };
typedef struct { uint64_t answer; uint32_t whole, tested; double seconds; } told;

/* the last axis with no more values than may be chosen, from 1; 0 where there is none */
static size_t chosen(const asked *a)
{
    size_t axis = a->n;
    while (axis && a->side[1][axis - 1] - a->side[0][axis - 1] >= PLACES) axis--;
    return axis;
}

static void ask(const asked *a, int call, size_t axis, told *t)
{
    uint32_t each[PLACES];
    const int32_t *l = a->side[0], *h = a->side[1];
    if (call == SEARCH)
        t->answer = probe_search(a->n, a->set, a->length, a->limit, ARGS(l), ARGS(h));
    else if (call == COUNT)
        t->answer = probe_count(a->n, a->set, a->length, a->limit, ARGS(l), ARGS(h), &t->whole, &t->tested);
    else
        t->answer = probe_counts(a->n, a->set, a->length, a->limit, axis, ARGS(l), ARGS(h), each, PLACES, &t->whole,
                                 &t->tested);
}

/* the least seconds of one call, over this round and those before */
static void took(const asked *a, int call, size_t axis, told *t)
{
    double start = seconds(), all;
    int calls = 0;
    do {
        ask(a, call, axis, t);
        calls++;
        all = seconds() - start;
    } while (all < ENOUGH);
    if (t->seconds == 0 || all / calls < t->seconds) t->seconds = all / calls;
}

int main(int argc, char **argv)
{
    static const char *const FOUND[] = {"at", "none", "spent"}, *const COUNTED[] = {"count", "", "spent"};
    static asked a;
    char *line = NULL;
    size_t size = 0;
    int rounds = argc > 1 ? atoi(argv[1]) : 1;
    while (getline(&line, &size, stdin) > 0) {
        told t[CALLS] = {{0, 0, 0, 0}};
        read_call(line, &a);
        size_t axis = chosen(&a);
        for (int r = 0; r < rounds; r++)
            for (int call = SEARCH; call < CALLS; call++) took(&a, call, axis, &t[call]);
        t[SEARCH].tested = probe_tally(a.n, a.set, a.length, a.limit, ARGS(a.side[0]), ARGS(a.side[1]));
        for (int call = SEARCH; call < CALLS; call++) {
            const told *c = &t[call];
            const char *word = c->answer > 2 ? "refused" : (call == SEARCH ? FOUND : COUNTED)[c->answer];
            printf("%s %u %u %.9f%c", word, c->whole, c->tested, c->seconds, call == COUNTS ? '\n' : ' ');
        }
    }
    free(line);
    return 0;
}
