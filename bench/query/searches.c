/* searches WORKLOAD CASES: the first-point searches of a workload of bench/peers, one a line as tools/second's line mode has
 * it: A \ C in the box, without the cases whose difference is refused. */
#include "sets.h"
#include <stdio.h>
#include <stdlib.h>

size_t probe_difference(size_t, const uint8_t *, size_t, const uint8_t *, size_t, uint8_t *, size_t);

enum { LIMIT = 1000000 };

static void print_search(const workcase *c, const uint8_t *searched, size_t length)
{
    printf("search %d ", c->n);
    for (size_t i = 0; i < length; i++) printf("%02x", searched[i]);
    printf(length ? " %d" : "- %d", LIMIT);
    for (int j = 0; j < AXES; j++) printf(" %d", c->low[j]);
    for (int j = 0; j < AXES; j++) printf(" %d", c->high[j]);
    puts("");
}

int main(int argc, char **argv)
{
    static uint8_t table[LONGEST_SET];
    workload w;
    if (argc != 3) return 2;
    workload_read(&w, argv[1]);
    int cases = atoi(argv[2]);
    for (workcase *c = w.at; c < w.at + (cases < w.cases ? cases : w.cases); c++) {
        size_t n = (size_t)c->n;
        size_t length = probe_difference(n, c->bytes[A], c->length[A], c->bytes[C], c->length[C], table, sizeof table);
        if (length <= sizeof table) print_search(c, table, length);
    }
    return 0;
}
