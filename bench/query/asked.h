/* A search or a count as tools/second's line mode has it, `WORD N SET LIMIT L1..L8 H1..H8`, and the clock. */
#ifndef ASKED_H
#define ASKED_H
#include "../../host/layout.h"
#include <stdint.h>
#include <stdio.h>
#include <stdlib.h>
#include <string.h>
#include <time.h>

#define EIGHT int32_t, int32_t, int32_t, int32_t, int32_t, int32_t, int32_t, int32_t
#define ARGS(x) x[0], x[1], x[2], x[3], x[4], x[5], x[6], x[7]

typedef struct { size_t n, length; uint32_t limit; int32_t side[2][8]; uint8_t set[LONGEST_SET]; } asked;

/* a call is repeated until so many seconds have passed */
static const double ENOUGH = 0.001;

static inline double seconds(void)
{
    struct timespec t;
    clock_gettime(CLOCK_PROCESS_CPUTIME_ID, &t);
    return (double)t.tv_sec + 1e-9 * (double)t.tv_nsec;
}

static inline int digit(char c) { return c <= '9' ? c - '0' : c - 'a' + 10; }

static inline void read_call(char *line, asked *a)
{
    char *rest;
    strtok_r(line, " \n", &rest);
    a->n = strtoull(strtok_r(NULL, " \n", &rest), NULL, 10);
    a->length = 0;
    for (const char *w = strtok_r(NULL, " \n", &rest); *w && *w != '-' && a->length < sizeof a->set; w += 2)
        a->set[a->length++] = (uint8_t)(digit(w[0]) * 16 + digit(w[1]));
    a->limit = (uint32_t)strtoul(strtok_r(NULL, " \n", &rest), NULL, 10);
    for (int i = 0; i < 16; i++) a->side[i / 8][i % 8] = (int32_t)strtol(strtok_r(NULL, " \n", &rest), NULL, 10);
}

#endif
