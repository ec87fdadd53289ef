/* Integer rule sets for the pit board: membership of a point and of a whole fleet, union, intersection, difference and
 * complement of sets, how many points of a box are in a set, whether all or none of them are, the greatest and the
 * least value of an expression, and states of a plan, to which rules are added one by one and which a planner can go
 * back to.
 *
 * A set is bytes in a table of yours (layout: document 01, "Bytes of a set"). n is the number of axes, 1 to 8. A rule may
 * have its own number, 1 to 65,535, as the rulebook has it (document 02, request 6): commands 16 and 17 are 13 and 14
 * with the number in two bytes after the command byte, low byte first, 39 bytes in all; a rule of 13 or 14 has none.
 * Numbers alter neither which points are in a set nor any other answer but the bytes of results.
 * Every function
 *   - is total: any n, any bytes, any lengths; malformed input is refused by its number;
 *   - returns minus the number of a refusal (enum pitsets_refusal), so a negative result is a refusal, or of a count
 *     PITSETS_SPENT, and nothing else;
 *   - reads the given sets and never changes them;
 *   - allocates nothing, and keeps nothing between calls but the state of a plan, which is in a buffer of yours
 *     (pitsets_state) and nowhere else;
 *   - may be called from any number of threads at once, as long as no thread writes to a table that another call uses at
 *     the same time, and no two calls use one pitsets_state at the same time, since each may write to it;
 *   - needs less than PITSETS_STACK bytes of stack (measured on the deepest calls known, not proved).
 * A table is a pointer and a length in bytes, and may begin at any address; a table of counts is a pointer and how many
 * numbers it has, and is aligned as uint32_t is, as is `tested`. No pointer may be NULL, also where the length is 0.
 * A result table, a table of counts, `tested` and `value` may overlap neither what a call is given nor each other.
 */
#ifndef PITSETS_H
#define PITSETS_H

#include <stdbool.h>
#include <stddef.h>
#include <stdint.h>

#ifdef __cplusplus
extern "C" {
#endif

/* Stack that a call may need, in bytes. */
#define PITSETS_STACK (1024 * 1024)

/* The most points of a fleet. */
#define PITSETS_FLEET 64

/* The numbers of document 01, "Refused", and of document 02. These functions give 1 to 13 and 16 to 19; 14 and 15 are the
 * script program's. A set's own are 2 to 9 and 17: they are given for its bytes. */
enum pitsets_refusal {
    PITSETS_AXES = 1,          /* n is not 1 to 8 */
    PITSETS_COMMAND = 2,       /* unknown command byte in a set */
    PITSETS_CUT_OFF = 3,       /* the bytes end inside a command */
    PITSETS_NO_BASIC_SET = 4,  /* a division or rule before any 11 */
    PITSETS_LATE_DIVISION = 5, /* a division after a rule */
    PITSETS_DIVISOR = 6,       /* a divisor of 0 or over 32,767 */
    PITSETS_RANGE = 7,         /* another number outside its range */
    PITSETS_ABSENT = 8,        /* a coefficient of an absent axis or division is not 0 */
    PITSETS_TOO_MANY = 9,      /* over 32 basic sets, 8 divisions or 48 rules in what is given */
    PITSETS_OVERFLOW = 10,     /* a join over 8 divisions, a candidate or a state over 48 rules, or a 33rd basic set in the result */
    PITSETS_TABLE = 11,        /* the result is longer than its table, or there are more counts than places */
    PITSETS_POINT = 12,        /* a coordinate of a point or a box out of range, an absent axis that is not 0, or, of a
                                  range, a low over its high */
    PITSETS_LIMIT = 13,        /* a limit of a count or of a range is not 1 to 1,000,000 */
    PITSETS_FLEET_LIST = 16,   /* more than 64 points, or no whole number of points */
    PITSETS_NUMBER = 17,       /* a rule of command 16 or 17 with number 0 */
    PITSETS_NAME = 18,         /* the name of a mark is over 15 or, in going back, no mark has it */
    PITSETS_AXIS = 19          /* the chosen axis is not 1 to n, or its side has over 64 values */
};

/* The result of a count whose limit was not enough. No refusal has it. */
#define PITSETS_SPENT (-1000)

/* As many places as pitsets_counts may need. */
#define PITSETS_COUNTS 64

/* The most basic sets of a set. */
#define PITSETS_BASIC_SETS 32

/* A number of 128 bits: high * 2^64 + low. */
typedef struct {
    uint64_t low;
    int64_t high;
} pitsets_wide;

typedef struct {
    pitsets_wide numerator, denominator;
} pitsets_fraction;

/* What pitsets_greatest and pitsets_least say where they do not refuse. */
enum pitsets_extreme {
    PITSETS_VALUE = 1,     /* there is one, in *value */
    PITSETS_EMPTY = 2,     /* no such basic set, or no point with fractions in it */
    PITSETS_UNBOUNDED = 3, /* the values pass every number */
    PITSETS_WIDE = 4,      /* not found out: a number on the way was over 2^63 − 1 */
    PITSETS_LONG = 5       /* not found out: 200 pivots were not enough */
};

/* A few words for a refusal number or PITSETS_SPENT, for a log line; for any other number "no such refusal". */
static inline const char *pitsets_reason(int64_t number)
{
    switch (number < 0 ? -number : number) {
    case PITSETS_AXES: return "number of axes not 1 to 8";
    case PITSETS_COMMAND: return "unknown command";
    case PITSETS_CUT_OFF: return "bytes end in a command";
    case PITSETS_NO_BASIC_SET: return "division or rule before any basic set";
    case PITSETS_LATE_DIVISION: return "division after a rule";
    case PITSETS_DIVISOR: return "divisor 0 or over 32767";
    case PITSETS_RANGE: return "number outside its range";
    case PITSETS_ABSENT: return "absent axis or division not 0";
    case PITSETS_TOO_MANY: return "over 32 basic sets, 8 divisions or 48 rules";
    case PITSETS_OVERFLOW: return "join, candidate, state or result over its limit";
    case PITSETS_TABLE: return "result longer than its table";
    case PITSETS_POINT: return "coordinate out of range, absent axis not 0 or low over high";
    case PITSETS_LIMIT: return "limit not 1 to 1000000";
    case PITSETS_FLEET_LIST: return "more than 64 points or no whole number of points";
    case PITSETS_NUMBER: return "rule number 0 in a command 16 or 17";
    case PITSETS_NAME: return "name over 15 or no such mark";
    case PITSETS_AXIS: return "chosen axis not 1 to n, or over 64 values";
    case -PITSETS_SPENT: return "limit spent";
    default: return "no such refusal";
    }
}

/* 1 where the point (x1, .., xn) is in the set, 0 where it is not; coordinates −1,048,576 to 1,048,576, those over n are 0.
 * Refusals: 1, the set's own, 12. */
int64_t pitsets_member(size_t n, const uint8_t *set, size_t set_length, int32_t x1, int32_t x2, int32_t x3, int32_t x4,
                       int32_t x5, int32_t x6, int32_t x7, int32_t x8);

/* A whole fleet at one look: which of up to PITSETS_FLEET points are in the set, in one pass over it. `points` has
 * n coordinates to a point, point after point and none for absent axes; `numbers` is how many there are in all.
 * Point i, from 1, has bit i - 1 of *mask, point 1 the lowest: 1 where pitsets_member gives 1 for it, 0 where it
 * gives 0. Bits past the last point are 0. Returns how many points are in the set, which is how many bits are 1;
 * without points 0, and mask 0. After a refusal *mask is 0. `points` and `mask` are aligned as int32_t and uint64_t
 * are; *mask is no part of the set or of the points. Refusals: 1, the set's own, 16, 12 (one bad coordinate
 * refuses the list). */
int64_t pitsets_fleet(size_t n, const uint8_t *set, size_t set_length, const int32_t *points, size_t numbers,
                      uint64_t *mask);

/* The operations write the result to `result` and return its length. Past the result the table is filled with 0; after a refusal it is
 * all 0. Refusals: 1, the first set's own, the second set's own, 10, 11.
 * Intersection, difference and complement write each rule divided by the common divisor of its coefficients where that is over 1, an
 * inequality's constant rounded down. A basic set with an equality whose constant that does not divide (2x - 1 = 0) holds no integer point: it
 * gives nothing in an intersection, and as a basic set of the first set nothing in a difference. Union, and a difference whose second set
 * has no basic sets, keep their rules as given.
 * Every rule of a result has the number of the rule that it comes from, as it is, divided, or the opposite of it: each of the two opposites
 * of an equality has that of the equality. A number takes two bytes, so a table may be too short (11) for a result that would fit without. */
int64_t pitsets_union(size_t n, const uint8_t *first, size_t first_length, const uint8_t *second, size_t second_length,
                      uint8_t *result, size_t result_length);
int64_t pitsets_intersection(size_t n, const uint8_t *first, size_t first_length, const uint8_t *second, size_t second_length,
                             uint8_t *result, size_t result_length);
/* The points of the first set that are not in the second. */
int64_t pitsets_difference(size_t n, const uint8_t *first, size_t first_length, const uint8_t *second, size_t second_length,
                           uint8_t *result, size_t result_length);
/* All integer points that are not in the set. Refusals: 1, the set's own, 10, 11. */
int64_t pitsets_complement(size_t n, const uint8_t *set, size_t set_length, uint8_t *result, size_t result_length);

/* How many points of the box from (l1, .., ln) to (h1, .., hn) are in the set, each counted once, in however many basic
 * sets it lies; 0 where a low is over its high. Lows and highs are −1,048,576 to 1,048,576, those over n are 0.
 * The box is walked as document 01's search walks it, past each point to the end: `limit`, 1 to 1,000,000, is how many
 * prefixes of coordinates may be tested, and *tested gets how many were, 0 after a refusal. Where the limit is not enough
 * the result is PITSETS_SPENT. Refusals: 1, the set's own, 12, 13. */
int64_t pitsets_count(size_t n, const uint8_t *set, size_t set_length, int32_t l1, int32_t l2, int32_t l3, int32_t l4,
                      int32_t l5, int32_t l6, int32_t l7, int32_t l8, int32_t h1, int32_t h2, int32_t h3, int32_t h4,
                      int32_t h5, int32_t h6, int32_t h7, int32_t h8, uint32_t limit, uint32_t *tested);
/* The same, and in `counts` how many of these points have each value of axis `axis`, 1 to n, from its low upward: they
 * add up to the result. Past them the table is filled with 0; after a refusal or PITSETS_SPENT it is all 0.
 * counts_length is in numbers, not in bytes; PITSETS_COUNTS are always enough.
 * Refusals: 1, the set's own, 12, 19, 13, 11. */
int64_t pitsets_counts(size_t n, const uint8_t *set, size_t set_length, int32_t l1, int32_t l2, int32_t l3, int32_t l4,
                       int32_t l5, int32_t l6, int32_t l7, int32_t l8, int32_t h1, int32_t h2, int32_t h3, int32_t h4,
                       int32_t h5, int32_t h6, int32_t h7, int32_t h8, size_t axis, uint32_t limit, uint32_t *counts,
                       size_t counts_length, uint32_t *tested);

/* What pitsets_range says where it does not refuse. */
enum pitsets_reading {
    PITSETS_SURE = 1,         /* every point of the box is in the set */
    PITSETS_NEVER = 2,        /* no point of the box is */
    PITSETS_DEPENDS = 3,      /* some are, some are not: the first of each kind is in `inside` and `outside` */
    PITSETS_SPENT_INSIDE = 4, /* not found out: inside_limit was not enough for the points in the set */
    PITSETS_SPENT_OUTSIDE = 5 /* not found out: outside_limit was not enough for the points outside it */
};

/* A scale reading between two weights: whether the points (x1, .., xn) with low[0] ≤ x1 ≤ high[0] and so on, a box, are
 * all in the set, or none of them, or it depends. Lows and highs are −1,048,576 to 1,048,576, no low is over its high,
 * those over n are 0. `low`, `high`, `inside` and `outside` have eight numbers each, also where n is less.
 * PITSETS_DEPENDS: `inside` is the first point of the box that is in the set, `outside` the first that is not, first in
 * dictionary order, x1 before x2. After any other result, and on absent axes, their numbers are 0.
 * The set is searched for its first point in the box as document 01's search does it; then what of the box is outside
 * the set, the difference of the two, is written to `result` and searched so too. inside_limit and outside_limit, 1 to
 * 1,000,000, are how many prefixes of coordinates either search may test. Where one is not enough the result says so,
 * also where the other search alone would tell the answer, and says PITSETS_SPENT_INSIDE where neither is.
 * The difference is the first *length bytes of `result`, a set for other calls, also where a search ran out. Past it
 * the table is filled with 0; after a refusal it is all 0, and *length is 0. The box has two rules for each axis, without
 * a number, which count to the 48 of a candidate (10); what is cut is written as pitsets_difference writes it.
 * `low` and `high` are aligned as int32_t is, `inside` and `outside` as int64_t, `length` as size_t. Nothing that the
 * call writes may overlap anything else of it. Refusals: 1, the set's own, 12 (a low over its high too, which a count
 * takes), 13 (either limit), 10, 11. */
int64_t pitsets_range(size_t n, const uint8_t *set, size_t set_length, const int32_t low[8], const int32_t high[8],
                      uint32_t inside_limit, uint32_t outside_limit, uint8_t *result, size_t result_length,
                      size_t *length, int64_t inside[8], int64_t outside[8]);

/* The greatest and the least value of constant + axes[0]·x1 + .. + axes[7]·x8 + divisions[0]·q1 + .. + divisions[7]·q8
 * over the points with fractions of basic set number k of the set, from 1: whatever fractions x and q meet its rules
 * and the bounds of its divisions q. So no integer point of the basic set has a value beyond it, and none need have it.
 * PITSETS_VALUE: *value is the fraction, in lowest terms and its denominator positive; 0 is 0/1. After any other result
 * all its numbers are 0. Where the set has no basic set k the result is PITSETS_EMPTY, whatever the expression is.
 * The constant is any number, coefficients are −32,767 to 32,767, those of absent axes and divisions 0. `axes` and
 * `divisions` are aligned as int32_t is, `value` as uint64_t. Refusals: 1, the set's own, the expression's 7, 8. */
int64_t pitsets_greatest(size_t n, const uint8_t *set, size_t set_length, size_t k, int32_t constant,
                         const int32_t axes[8], const int32_t divisions[8], pitsets_fraction *value);
int64_t pitsets_least(size_t n, const uint8_t *set, size_t set_length, size_t k, int32_t constant,
                      const int32_t axes[8], const int32_t divisions[8], pitsets_fraction *value);

/* A number of 128 bits as a double, rounded. */
static inline double pitsets_wide_double(pitsets_wide number)
{
    uint64_t low = number.low, high = (uint64_t)number.high;
    if (number.high < 0) {
        high = ~high + (low == 0);
        low = ~low + 1;
    }
    double size = (double)high * 18446744073709551616.0 + (double)low;
    return number.high < 0 ? -size : size;
}

/* A value as a double, rounded; only of a value, whose denominator is not 0. */
static inline double pitsets_double(const pitsets_fraction *value)
{
    return pitsets_wide_double(value->numerator) / pitsets_wide_double(value->denominator);
}

/* The state of a plan: one basic set in the making, to which rules are added one by one, how far the test for fractions
 * has come with it, and up to 16 marks to go back to, under names 0 to 15.
 *
 *     static pitsets_state plan;                          zeros: no state yet
 *     const int32_t up[8] = {1}, down[8] = {-1}, none[8] = {0};
 *     pitsets_state_start(&plan, 2, NULL, 0);             two axes, no rule: point
 *     pitsets_state_add(&plan, false, 240, down, none);   240 − x1 ≥ 0: point
 *     pitsets_state_mark(&plan, 0);                       still point
 *     pitsets_state_add(&plan, false, -300, up, none);    x1 − 300 ≥ 0: empty
 *     pitsets_state_back(&plan, 0);                       point, and x1 goes up to 240 again
 *
 * Every call says how the state stands then (enum pitsets_said). That is of points with fractions: of whatever fractions
 * x and q meet the rules and the bounds of the divisions q. Rules are taken as given and not tightened, so 2·x1 − 1 = 0
 * is point, by x1 = 1/2, though no whole x1 meets it. A state has no use for a rule's own number, and is given none.
 *   PITSETS_STATE_POINT   some such point meets all rules; a whole one need not.
 *   PITSETS_STATE_EMPTY   none does, and so no whole one.
 *   PITSETS_STATE_WIDE, PITSETS_STATE_LONG   not found out: the rules may leave a point or none.
 * Once empty, wide or long, the state says so, whatever is added, until it goes back to a mark or is started anew. Rules
 * added meanwhile are checked and count among the 48, and are not looked at: it may say wide where they leave no point.
 * So on wide or long go back, and add the rules in another order, or simpler ones.
 *
 * A refused call, and one on a buffer without a state, leaves every byte of the buffer as it was. The same calls on
 * equal buffers leave equal buffers. All is in the buffer, and nothing in it is an address: it may be copied as a whole
 * (memcpy, assignment, a file), and the copies go on each by itself. Its members are the library's. Any bytes may be in
 * it: a call comes to an end and stays within it, but what it says is true only of a buffer that these calls alone have
 * written to since a start that was not refused, and of its copies.
 * PITSETS_STATE_BYTES is its size, for a board that gets memory in its own way; it is much for a stack. */
#define PITSETS_STATE_BYTES 326392
#define PITSETS_STATE_ALIGN 8

typedef struct {
    uint64_t rows[17 * 64][36];
    size_t place[17 * 80];
    size_t heads[17 * 5 + 16];
    uint8_t kinds[17 * 80];
} pitsets_state;

/* The most rules of a state, and how many names there are for marks. */
#define PITSETS_STATE_RULES 48
#define PITSETS_STATE_NAMES 16

enum pitsets_said {
    PITSETS_STATE_NONE = 0,  /* no state in the buffer: it was not started */
    PITSETS_STATE_POINT = 1, /* some point with fractions meets the rules and the divisions' bounds */
    PITSETS_STATE_EMPTY = 2, /* none does */
    PITSETS_STATE_WIDE = 3,  /* not found out: a number on the way was over 2^63 − 1 */
    PITSETS_STATE_LONG = 4   /* not found out: 200 pivots were not enough for one addition */
};

/* floor((constant + axes[0]·x1 + .. + axes[7]·x8) / divisor): the divisor is 1 to 32,767, the constant −1,000,000,000 to
 * 1,000,000,000, coefficients are −32,767 to 32,767, those of absent axes 0. */
typedef struct {
    int32_t divisor, constant, axes[8];
} pitsets_division;

/* What the calls below hand the four parts of the buffer to. */
int64_t pitsets_state_start_in(size_t n, const int32_t *divisions, size_t divisions_length, uint64_t (*rows)[36],
                               size_t rows_length, size_t *place, size_t place_length, uint8_t *kinds,
                               size_t kinds_length, size_t *heads, size_t heads_length);
int64_t pitsets_state_add_in(bool equality, int32_t constant, const int32_t axes[8], const int32_t divisions[8],
                             uint64_t (*rows)[36], size_t rows_length, size_t *place, size_t place_length,
                             uint8_t *kinds, size_t kinds_length, size_t *heads, size_t heads_length);
int64_t pitsets_state_mark_in(size_t name, uint64_t (*rows)[36], size_t rows_length, size_t *place, size_t place_length,
                              uint8_t *kinds, size_t kinds_length, size_t *heads, size_t heads_length);
int64_t pitsets_state_back_in(size_t name, uint64_t (*rows)[36], size_t rows_length, size_t *place, size_t place_length,
                              uint8_t *kinds, size_t kinds_length, size_t *heads, size_t heads_length);

#define PITSETS_STATE_PARTS(s) \
    (s)->rows, sizeof (s)->rows / sizeof *(s)->rows, (s)->place, sizeof (s)->place / sizeof *(s)->place, \
    (s)->kinds, sizeof (s)->kinds, (s)->heads, sizeof (s)->heads / sizeof *(s)->heads

/* Starts anew, whatever is in the buffer: n axes, `count` divisions, no rules, no marks. `divisions` may be NULL where
 * count is 0. Refusals: 1; then of each division as it comes 9 (it is the ninth), 6, 7, 8. */
static inline int64_t pitsets_state_start(pitsets_state *state, size_t n, const pitsets_division *divisions, size_t count)
{
    static const pitsets_division none = {0, 0, {0}};
    const int32_t *numbers = (const int32_t *)(count ? divisions : &none);
    return pitsets_state_start_in(n, numbers, count * (sizeof *divisions / sizeof *numbers), PITSETS_STATE_PARTS(state));
}

/* Adds one rule: constant + axes[0]·x1 + .. + axes[7]·x8 + divisions[0]·q1 + .. + divisions[7]·q8 = 0 where `equality`
 * is true, else ≥ 0. The test goes on from where the state stands, with 200 pivots for this rule. The constant is any
 * number, an equality's not −2,147,483,648; coefficients are −32,767 to 32,767, those of absent axes and divisions 0.
 * `axes` and `divisions` have eight numbers each, also where fewer are there. PITSETS_STATE_NONE comes before all
 * refusals: 7, 8, 10 (a 49th rule, whatever the state says). */
static inline int64_t pitsets_state_add(pitsets_state *state, bool equality, int32_t constant, const int32_t axes[8],
                                        const int32_t divisions[8])
{
    return pitsets_state_add_in(equality, constant, axes, divisions, PITSETS_STATE_PARTS(state));
}

/* Marks the state under a name, 0 to 15, and says how it stands, which may be empty, wide or long. A name in use moves:
 * its old mark is gone, and it counts as marked now. Refusal: 18, before PITSETS_STATE_NONE. */
static inline int64_t pitsets_state_mark(pitsets_state *state, size_t name)
{
    return pitsets_state_mark_in(name, PITSETS_STATE_PARTS(state));
}

/* Goes back: the state is in every number the one that was marked, and whatever rule is added next is answered as it
 * was, or would have been, then. The mark stays; the marks made after it, by the last marking of each name, are
 * forgotten. Says how the state stood. Refusal: 18, before all else, also for a mark that is forgotten. */
static inline int64_t pitsets_state_back(pitsets_state *state, size_t name)
{
    return pitsets_state_back_in(name, PITSETS_STATE_PARTS(state));
}

#undef PITSETS_STATE_PARTS

/* n coordinates as eight, those of absent axes 0. */
static inline void pitsets_eight(size_t n, const int32_t *given, int32_t eight[8])
{
    for (size_t i = 0; i < 8; i++) eight[i] = i < n ? given[i] : 0;
}

/* pitsets_member for a point given as its n coordinates. */
static inline int64_t pitsets_member_at(size_t n, const uint8_t *set, size_t set_length, const int32_t *point)
{
    int32_t x[8];
    pitsets_eight(n, point, x);
    return pitsets_member(n, set, set_length, x[0], x[1], x[2], x[3], x[4], x[5], x[6], x[7]);
}

/* pitsets_count for a box given as its n lows and its n highs. */
static inline int64_t pitsets_count_in(size_t n, const uint8_t *set, size_t set_length, const int32_t *low,
                                       const int32_t *high, uint32_t limit, uint32_t *tested)
{
    int32_t l[8], h[8];
    pitsets_eight(n, low, l);
    pitsets_eight(n, high, h);
    return pitsets_count(n, set, set_length, l[0], l[1], l[2], l[3], l[4], l[5], l[6], l[7], h[0], h[1], h[2], h[3],
                         h[4], h[5], h[6], h[7], limit, tested);
}

/* pitsets_counts for such a box. */
static inline int64_t pitsets_counts_in(size_t n, const uint8_t *set, size_t set_length, const int32_t *low,
                                        const int32_t *high, size_t axis, uint32_t limit, uint32_t *counts,
                                        size_t counts_length, uint32_t *tested)
{
    int32_t l[8], h[8];
    pitsets_eight(n, low, l);
    pitsets_eight(n, high, h);
    return pitsets_counts(n, set, set_length, l[0], l[1], l[2], l[3], l[4], l[5], l[6], l[7], h[0], h[1], h[2], h[3],
                          h[4], h[5], h[6], h[7], axis, limit, counts, counts_length, tested);
}

#ifdef __cplusplus
}
#endif

#endif
