/* Sets in document 01's bytes and decoded, membership by its definition (the judge of every column), and workload files. */
#ifndef SETS_H
#define SETS_H
#include "../../host/layout.h"

#ifdef __cplusplus
extern "C" {
#endif

enum { AXES = 8, DIVISIONS = 8, CONSTRAINTS = 48, BASIC_SETS = 32 };

typedef struct { int32_t divisor, constant; int16_t axis[AXES]; } division;
typedef struct { int equality; int32_t constant; int16_t coefficient[AXES + DIVISIONS]; } constraint;
typedef struct { int divs, cons; division div[DIVISIONS]; constraint con[CONSTRAINTS]; } basic_set;
typedef struct { int n, count; basic_set basic[BASIC_SETS]; } set;

/* 0, or -1 where the bytes are no set */
int set_decode(set *s, int n, const uint8_t *p, size_t length);
/* the length, which LONGEST_SET bytes always hold */
size_t set_encode(const set *s, uint8_t *p);
int basic_member(int n, const basic_set *b, const int32_t *x);
int set_member(const set *s, const int32_t *x);
int64_t floor_division(int64_t a, int64_t d);

/* A and B permits, C and D closures, E a set that mostly lies inside A. */
enum { A, B, C, D, E, SETS };
typedef struct {
    int n;
    int whole; /* the box is small: every point of it is checked */
    uint8_t *bytes[SETS];
    size_t length[SETS];
    set *decoded[SETS];
    int32_t low[AXES], high[AXES];
    int points;
    int32_t (*point)[AXES];
} workcase;
typedef struct { char family[16]; int cases; workcase *at; } workload;

void workload_read(workload *w, const char *path);

#ifdef __cplusplus
}
#endif
#endif
