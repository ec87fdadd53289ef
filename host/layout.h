/* Document 01, "Bytes of a set", with the commands that document 02 has added, for the C programs of host/, tests/ and
 * bench/: a set's commands, the places of their numbers, and how many bytes there can be. */
#ifndef LAYOUT_H
#define LAYOUT_H

#include <stddef.h>
#include <stdint.h>

enum {
    OPENING_CODE = 0x11,
    DIVISION_CODE = 0x12,
    EQUALITY_CODE = 0x13,
    INEQUALITY_CODE = 0x14,
    NUMBERED_EQUALITY_CODE = 0x16,
    NUMBERED_INEQUALITY_CODE = 0x17
};

typedef enum { OPENING, DIVISION, EQUALITY, INEQUALITY } command_kind;

/* `constant`: the place of the constant, counted from the code. Between the two stands a division's divisor or a rule's
 * own number, behind the constant's 4 bytes 8 axis coefficients and, of a rule, 8 division coefficients, of 2 bytes
 * each. */
typedef struct {
    uint8_t code;
    command_kind kind;
    size_t constant, bytes;
} command;

static const command COMMANDS[] = {
    {OPENING_CODE, OPENING, 1, 1},
    {DIVISION_CODE, DIVISION, 3, 23},
    {EQUALITY_CODE, EQUALITY, 1, 37},
    {INEQUALITY_CODE, INEQUALITY, 1, 37},
    {NUMBERED_EQUALITY_CODE, EQUALITY, 3, 39},
    {NUMBERED_INEQUALITY_CODE, INEQUALITY, 3, 39},
};

/* the command with this code; NULL: a set has none */
static inline const command *command_of(uint8_t code)
{
    for (size_t i = 0; i < sizeof COMMANDS / sizeof *COMMANDS; i++)
        if (COMMANDS[i].code == code) return &COMMANDS[i];
    return NULL;
}

/* the command that the bytes from p to before end begin with; NULL: none, or it is cut off */
static inline const command *whole_command(const uint8_t *p, const uint8_t *end)
{
    const command *c = p < end ? command_of(*p) : NULL;
    return c && c->bytes <= (size_t)(end - p) ? c : NULL;
}

static inline size_t axes_place(const command *c) { return c->constant + 4; }
static inline size_t divisions_place(const command *c) { return axes_place(c) + 2 * 8; }

/* the number before the constant, a divisor or a rule's own; 0 where there is none */
static inline uint32_t head_number(const command *c, const uint8_t *p)
{
    uint32_t number = 0;
    for (size_t i = c->constant - 1; i > 0; i--) number = number << 8 | p[i];
    return number;
}

/* The most bytes of a division, a rule, a basic set and a set: `15` of document 02 (request 1), which is to come, has a
 * divisor of 4 bytes, `16` and `17` have a number of 2 bytes before the constant. A basic set has up to 8 divisions and
 * 48 rules, 2,073 bytes; a set has up to 32 of these, 66,336 bytes. */
enum {
    LONGEST_DIVISION = 25,
    LONGEST_RULE = 39,
    LONGEST_BASIC_SET = 1 + 8 * LONGEST_DIVISION + 48 * LONGEST_RULE,
    LONGEST_SET = 32 * LONGEST_BASIC_SET
};

#endif
