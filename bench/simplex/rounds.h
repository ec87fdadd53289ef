/* What the benchmarks of the test for fractions share: rounds, the clock, a check. */
#ifndef ROUNDS_H
#define ROUNDS_H
#include <stdio.h>
#include <stdlib.h>
#include <time.h>

/* rounds, tests of a round, and those of a test of many pivots, which the clock can tell alone */
enum { ROUNDS = 25, TIMES = 20, MANY = 30, FEW = 2 };

static double now(void)
{
    struct timespec t;
    clock_gettime(CLOCK_MONOTONIC, &t);
    return (double)t.tv_sec * 1e9 + (double)t.tv_nsec;
}

static double least(double x, double y) { return x < y ? x : y; }

static void agree(int same, const char *what)
{
    if (same) return;
    printf("%s differ\n", what);
    exit(1);
}

#endif
