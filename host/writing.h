/* Sets written as documents 01 ("Bytes of a set") and 02 lay them out, for the examples: little-endian numbers. */
#ifndef WRITING_H
#define WRITING_H

#include <stdbool.h>
#include <stddef.h>
#include <stdint.h>

#include "layout.h"

typedef struct {
    uint8_t bytes[LONGEST_SET];
    size_t length;
} table;

static inline void put(table *t, uint32_t value, int bytes)
{
    for (int i = 0; i < bytes; i++) t->bytes[t->length++] = (uint8_t)(value >> (8 * i));
}

static inline void basic_set(table *t) { put(t, OPENING_CODE, 1); }

/* floor((axes·x + constant) / divisor) */
static inline void division(table *t, uint16_t divisor, int32_t constant, const int16_t axes[8])
{
    put(t, DIVISION_CODE, 1);
    put(t, divisor, 2);
    put(t, (uint32_t)constant, 4);
    for (int i = 0; i < 8; i++) put(t, (uint16_t)axes[i], 2);
}

/* constant + axes·x + q·(the first division) is 0 where `equality` is true, else 0 or more; `number` is the rule's own
 * in the rulebook, 0 for none */
static inline void rule(table *t, bool equality, uint16_t number, int32_t constant, const int16_t axes[8], int16_t q)
{
    if (number) {
        put(t, equality ? NUMBERED_EQUALITY_CODE : NUMBERED_INEQUALITY_CODE, 1);
        put(t, number, 2);
    } else put(t, equality ? EQUALITY_CODE : INEQUALITY_CODE, 1);
    put(t, (uint32_t)constant, 4);
    for (int i = 0; i < 8; i++) put(t, (uint16_t)axes[i], 2);
    put(t, (uint16_t)q, 2);
    for (int i = 1; i < 8; i++) put(t, 0, 2);
}

/* without a number, it is 0 */
static inline void exactly_0(table *t, int32_t constant, const int16_t axes[8], int16_t q)
{
    rule(t, true, 0, constant, axes, q);
}

/* without a number, it is 0 or more */
static inline void at_least_0(table *t, int32_t constant, const int16_t axes[8], int16_t q)
{
    rule(t, false, 0, constant, axes, q);
}

#endif
