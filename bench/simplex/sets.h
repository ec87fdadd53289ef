/* Basic sets to test, made from a seed or read from a file. */
#ifndef SETS_H
#define SETS_H
#include "../../host/layout.h"
#include "plain.h"

enum { SETS = 400 };
typedef struct { size_t axes, count; basic_set set[SETS]; } workload;

/* Candidates of road closures cut from permits, as the dispatch software has them: five axes, 1 to 4 divisions. */
void dispatch(workload *w, uint64_t seed);
/* The same of maintenance windows in hours of the week and in blocks of a counter, periods of 604,800 and of 10^9. */
void weeks(workload *w, uint64_t seed);
/* 8 axes, 8 divisions and 48 constraints: tableaus of 64 x 16. Coefficients within ±most at so many places of 100. */
void full(workload *w, uint64_t seed, int most, int percent);
/* The same with rows rows over columns columns, two of them divisions. */
void small(workload *w, uint64_t seed, int rows, int columns, int most, int percent);
/* The same with constants to 10^9: tests that are carried to 128 bits before their first pivot. */
void large(workload *w, uint64_t seed, size_t rows, size_t columns, int most);
/* Twins of w's sets: near makes all its pivots at 64 bits, far the same pivots at 128; `scaled`: with larger numbers.
 * Sets of which there are none are left out. */
void twins(const workload *w, int scaled, workload *near, workload *far);
/* The sets of tools/generate/data/hard-sets.txt, as its lines say them. 0 where the file cannot be read. */
int hard(workload *w, const char *path);
/* Its bytes (document 01, "Bytes of a set"); their number, at most LONGEST_BASIC_SET. */
size_t encode(const basic_set *b, uint8_t *out);

#endif
