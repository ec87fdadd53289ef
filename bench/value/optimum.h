/* What a library must offer to stand beside the engine's greatest and least: the optimum of an expression over the
 * points with fractions of a basic set. */
#ifndef OPTIMUM_H
#define OPTIMUM_H
#include "sets.h"

#ifdef __cplusplus
extern "C" {
#endif

typedef struct { int32_t constant, axis[AXES], division[DIVISIONS]; } expression;

/* a handle is a question in the library's own form */
typedef struct {
    const char *name;
    void (*init)(void);
    void *(*prepare)(int n, const basic_set *b, const expression *e);
    void (*drop)(void *question);
    void (*ask)(void *question, int greatest); /* what is timed */
    /* of what was asked last: "P/Q" in lowest terms, Q positive, "empty" or "unbounded" */
    const char *(*told)(void *question);
} solver;

extern solver SOLVER;

#ifdef __cplusplus
}
#endif
#endif
