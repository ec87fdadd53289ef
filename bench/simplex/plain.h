/* The test for fractions in plain C, of the same steps on the same representation as crates simplex and carrying: at
 * 64 bits, and where step 4 says wide with the tableau as it is at 128, from that very pivot on. */
#ifndef PLAIN_H
#define PLAIN_H
#include <stddef.h>
#include <stdint.h>

enum { AXES = 8, DIVISIONS = 8, CONSTRAINTS = 48 };
enum { ROWS = 2 * DIVISIONS + CONSTRAINTS, VARIABLES = AXES + DIVISIONS + ROWS, NUMBERS = 2 + AXES + DIVISIONS };

typedef int64_t row[NUMBERS]; /* denominator, constant, the entries of 16 columns */
typedef struct { uint32_t divisor; int32_t constant; int16_t axes[AXES]; } division;
typedef struct { uint8_t equality; int32_t constant; int16_t axes[AXES], divisions[DIVISIONS]; } constraint;
typedef struct { division divisions[DIVISIONS]; constraint constraints[CONSTRAINTS]; size_t divs, cons; } basic_set;

/* as crate probe numbers them */
typedef enum { POINT, DROPPED, LONG, WIDE } answer;
/* the pivots of both sizes, and those of them made at 64 bits; `carried`: the test went on at 128 */
typedef struct { answer answer; size_t pivots, narrow; int carried; } ended;

/* The tables have 64 rows, 80 places and 80 kinds. */
typedef ended plain(const basic_set *b, row *rows, size_t *place, uint8_t *kinds);
plain plain_test;
/* The same answer by the same pivots, but an exchange builds every row: plain.c with -DEVERY_ROW. */
plain plain_every_row;

#endif
