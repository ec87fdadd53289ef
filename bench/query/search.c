/* search [once]: a search call a line, as tools/second's line mode has it; for each the word of its answer, the tally and the
 * CPU seconds of the engine's search, a short one repeated. `once`: one search a line is timed, for callgrind. */
#define _POSIX_C_SOURCE 200809L
#include "asked.h"

uint64_t probe_search(size_t, const uint8_t *, size_t, uint32_t, EIGHT, EIGHT);
uint32_t probe_tally(size_t, const uint8_t *, size_t, uint32_t, EIGHT, EIGHT);

/* what is timed; callgrind collects inside this function only */
__attribute__((noinline)) uint64_t timed(const asked *a)
{
    return probe_search(a->n, a->set, a->length, a->limit, ARGS(a->side[0]), ARGS(a->side[1]));
}

/* the seconds of one search, and its answer */
static double took(const asked *a, int once, uint64_t *answer)
{
    double start = seconds(), all;
    int calls = 0;
    do {
        *answer = timed(a);
        calls++;
        all = seconds() - start;
    } while (all < ENOUGH && !once);
    return all / calls;
}

int main(int argc, char **argv)
{
    static const char *const WORDS[] = {"at", "none", "spent"};
    static asked a;
    char *line = NULL;
    size_t size = 0;
    int once = argc > 1 && !strcmp(argv[1], "once");
    while (getline(&line, &size, stdin) > 0) {
        read_call(line, &a);
        uint32_t tally = probe_tally(a.n, a.set, a.length, a.limit, ARGS(a.side[0]), ARGS(a.side[1]));
        uint64_t answer;
        double one = took(&a, once, &answer);
        printf("%s %u %.9f\n", answer <= 2 ? WORDS[answer] : "refused", tally, one);
    }
    free(line);
    return 0;
}
