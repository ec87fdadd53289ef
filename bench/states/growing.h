/* What a library must offer to stand beside the engine's states: a set that grows rule by rule and can be taken back. */
#ifndef GROWING_H
#define GROWING_H
#include "sets.h"

#ifdef __cplusplus
extern "C" {
#endif

/* name NULL: no library takes part */
typedef struct {
    const char *name;
    void *(*prepare)(int n, const basic_set *b); /* the rules in the library's own form, before the timing */
    void (*drop)(void *grown);
    void (*start)(void *grown);                  /* anew: the divisions and no rule */
    int (*add)(void *grown, int rule);           /* rule number `rule`, from 0: whether a point with fractions is left */
    void (*mark)(void *grown);
    void (*back)(void *grown);                   /* to the last mark */
} library;

extern const library LIBRARY;

#ifdef __cplusplus
}
#endif
#endif
