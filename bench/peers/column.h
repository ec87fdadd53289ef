/* What a library must offer to be one column of the comparison. A handle is the library's own form of a set. */
#ifndef COLUMN_H
#define COLUMN_H
#include "sets.h"

#ifdef __cplusplus
extern "C" {
#endif

enum { UNION, INTERSECTION, DIFFERENCE, COMPLEMENT };

typedef struct {
    const char *name;
    const char *(*version)(void);
    void (*init)(void);
    void *(*load)(const set *s, const uint8_t *bytes, size_t length);
    void (*drop)(void *a);
    /* a new handle, or NULL and the number of the refusal; b is not looked at for COMPLEMENT */
    void *(*operate)(int operation, void *a, void *b, int *refusal);
    /* is a \ b empty: 1 yes, 0 no, 2 not shown to be, negative refused. `subset`: the same by the library's own call for a ⊆ b */
    int (*empty)(void *a, void *b);
    int (*subset)(void *a, void *b);
    /* 1 in, 0 out, negative an error; `prepared` with a point in the library's own form */
    int (*member)(void *a, int n, const int32_t *x);
    void *(*point)(void *a, int n, const int32_t *x);
    int (*prepared)(void *a, void *point);
    /* the first point of a, in the box where `boxed` says that the call takes one: 1 at x, 0 none, negative given up.
     * `first_at` writes x where `first` does not */
    int boxed;
    int (*first)(void *a, int n, const int32_t *low, const int32_t *high, int32_t *x);
    void (*first_at)(void *a, int n, const int32_t *low, const int32_t *high, int32_t *x);
    void (*size)(void *a, int *basic_sets, int *constraints);
    /* where handles are bytes: the set in them, for the judge */
    const set *(*decoded)(void *a);
} column;

extern column COLUMN;

#ifdef __cplusplus
}
#endif
#endif
