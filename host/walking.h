/* `states STEP ; STEP ..` of the line mode, for calls.c and tests/probe.c: a walk over one pitsets_state, step by step,
 * and what include/pitsets.h says of the buffer:
 *   - a call that is refused or finds no state leaves every byte: a second buffer, which gets the other calls alone, has
 *     the bytes of the first after every step, and says the same;
 *   - a start needs nothing of what is in the buffer: a third one, full of other bytes, says the same from a start on;
 *   - going back restores every number: the additions made since the mark, made again on a copy, say what they said and
 *     lead to the same bytes of the state;
 *   - nothing is written beside the buffer.
 * What is broken is told and ends the program. */
#ifndef WALKING_H
#define WALKING_H

#include <inttypes.h>

#include "layout.h"
#include "line.h"
#include "pitsets.h"

enum { EDGE = 9, DIRTY = 0xA5 };
enum step_kind { START, ADD, MARK_AS, BACK_TO };

typedef struct {
    bool equality;
    int32_t constant, axes[8], divisions[8];
} rule;

/* `number` is that of the axes, or a name */
typedef struct {
    enum step_kind kind;
    size_t number, count;
    pitsets_division *divisions;
    rule rule;
} step;

/* A buffer between words that no call writes. Its size is an odd multiple of 8: of two in a row only one is at an
 * address that 16 divides. */
typedef struct {
    uint64_t before[EDGE];
    pitsets_state state;
    uint64_t behind[EDGE];
} lent_state;

/* where a state's head has the number of its rows */
enum { ROWS_IN_USE = 3 };

/* the state, without its marks */
typedef struct {
    uint64_t rows[64][36];
    size_t place[80];
    size_t heads[5];
    uint8_t kinds[80];
} state_slot;

/* the additions since a mark, what they said, and what they led to */
typedef struct {
    bool open;
    size_t count;
    rule added[PITSETS_STATE_RULES];
    int64_t said[PITSETS_STATE_RULES];
    state_slot after;
} trail;

/* the header's figures */
typedef char size_told[sizeof(pitsets_state) == PITSETS_STATE_BYTES ? 1 : -1];
typedef char alignment_told[__alignof__(pitsets_state) == PITSETS_STATE_ALIGN ? 1 : -1];

static struct {
    lent_state first, second, third, again;
    trail since[PITSETS_STATE_NAMES];
    bool started;
} walk;

static void broken(const char *what)
{
    puts(what);
    exit(2);
}

static void lend_state(lent_state *l, int byte)
{
    memset(l, DIRTY, sizeof *l);
    memset(&l->state, byte, sizeof l->state);
}

static void edges_kept(const lent_state *l)
{
    for (int i = 0; i < EDGE; i++)
        if (l->before[i] != UINT64_C(0xA5A5A5A5A5A5A5A5) || l->behind[i] != l->before[i]) broken("wrote beside a state");
}

static int64_t little_endian(const uint8_t *p, int bytes)
{
    int64_t value = 0;
    for (int i = 0; i < bytes; i++) value |= (int64_t)p[i] << (8 * i);
    return value - ((value >> (8 * bytes - 1)) << (8 * bytes));
}

/* the bytes of the next word; `-` is none */
static uint8_t *word_bytes(char **rest, size_t *length)
{
    char *w = word(rest);
    *length = strcmp(w, "-") ? strlen(w) / 2 : 0;
    uint8_t *bytes = malloc(*length + 1);
    if (!bytes) exit(2);
    for (size_t i = 0; i < *length; i++) bytes[i] = (uint8_t)(digit(w[2 * i]) * 16 + digit(w[2 * i + 1]));
    return bytes;
}

static void take_coefficients(const uint8_t *p, int32_t coefficients[8])
{
    for (int i = 0; i < 8; i++) coefficients[i] = (int32_t)little_endian(p + 2 * i, 2);
}

static void take_divisions(char **rest, step *s)
{
    size_t length;
    uint8_t *bytes = word_bytes(rest, &length), *end = bytes + length;
    s->divisions = malloc((length + 1) * sizeof *s->divisions);
    if (!s->divisions) exit(2);
    for (const uint8_t *p = bytes; p < end; s->count++) {
        const command *c = whole_command(p, end);
        if (!c || c->kind != DIVISION) broken("bad line");
        pitsets_division *d = &s->divisions[s->count];
        d->divisor = (int32_t)head_number(c, p);
        d->constant = (int32_t)little_endian(p + c->constant, 4);
        take_coefficients(p + axes_place(c), d->axes);
        p += c->bytes;
    }
    free(bytes);
}

/* a rule's own number is no number of a state's call; 0 in a 16 or 17 is no rule */
static void take_rule(char **rest, rule *r)
{
    size_t length;
    uint8_t *p = word_bytes(rest, &length);
    const command *c = whole_command(p, p + length);
    if (!c || c->bytes != length || (c->kind != EQUALITY && c->kind != INEQUALITY)) broken("bad line");
    if (c->constant > 1 && !head_number(c, p)) broken("bad line");
    r->equality = c->kind == EQUALITY;
    r->constant = (int32_t)little_endian(p + c->constant, 4);
    take_coefficients(p + axes_place(c), r->axes);
    take_coefficients(p + divisions_place(c), r->divisions);
    free(p);
}

static step take_step(char **rest)
{
    char *w = word(rest);
    step s = {.kind = START};
    if (!strcmp(w, "add")) {
        s.kind = ADD;
        take_rule(rest, &s.rule);
        return s;
    }
    s.number = number(rest);
    if (!strcmp(w, "start")) take_divisions(rest, &s);
    else if (!strcmp(w, "mark")) s.kind = MARK_AS;
    else if (!strcmp(w, "back")) s.kind = BACK_TO;
    else broken("bad line");
    return s;
}

static int64_t add_rule(pitsets_state *y, const rule *r)
{
    return pitsets_state_add(y, r->equality, r->constant, r->axes, r->divisions);
}

static int64_t make_step(pitsets_state *y, const step *s)
{
    switch (s->kind) {
    case START: return pitsets_state_start(y, s->number, s->divisions, s->count);
    case ADD: return add_rule(y, &s->rule);
    case MARK_AS: return pitsets_state_mark(y, s->number);
    default: return pitsets_state_back(y, s->number);
    }
}

static void keep_slot(state_slot *to, const pitsets_state *y)
{
    memcpy(to->rows, y->rows, sizeof to->rows);
    memcpy(to->place, y->place, sizeof to->place);
    memcpy(to->heads, y->heads, sizeof to->heads);
    memcpy(to->kinds, y->kinds, sizeof to->kinds);
}

/* rows behind those in use are no numbers of the state */
static bool same_slot(const state_slot *kept, const pitsets_state *y)
{
    size_t used = kept->heads[ROWS_IN_USE] * sizeof *kept->rows;
    return !memcmp(kept->heads, y->heads, sizeof kept->heads) && !memcmp(kept->rows, y->rows, used) &&
           !memcmp(kept->place, y->place, sizeof kept->place) && !memcmp(kept->kinds, y->kinds, sizeof kept->kinds);
}

/* trails end where the state goes elsewhere */
static void end_trails(const pitsets_state *y)
{
    for (trail *t = walk.since; t < walk.since + PITSETS_STATE_NAMES; t++) {
        if (t->open) keep_slot(&t->after, y);
        t->open = false;
    }
}

static void trail_again(const trail *t)
{
    walk.again = walk.first;
    for (size_t i = 0; i < t->count; i++)
        if (add_rule(&walk.again.state, &t->added[i]) != t->said[i]) broken("added again, says another word");
    if (!same_slot(&t->after, &walk.again.state)) broken("added again, other bytes");
}

static void begin_trail(trail *t)
{
    t->open = true;
    t->count = 0;
}

/* what was said to a step that is made, for the trails */
static void remember(const step *s, int64_t said)
{
    if (s->kind == BACK_TO) trail_again(&walk.since[s->number]);
    if (s->kind == BACK_TO || s->kind == MARK_AS) begin_trail(&walk.since[s->number]);
    if (s->kind != ADD) return;
    for (trail *t = walk.since; t < walk.since + PITSETS_STATE_NAMES; t++) {
        if (!t->open) continue;
        t->added[t->count] = s->rule;
        t->said[t->count++] = said;
    }
}

/* the step on the three buffers */
static int64_t walk_on(const step *s)
{
    int64_t said = make_step(&walk.first.state, s);
    if (said > 0) {
        if (s->kind == START || s->kind == BACK_TO) end_trails(&walk.second.state);
        if (make_step(&walk.second.state, s) != said) broken("the same call says another word");
        walk.started = true;
    }
    if (memcmp(&walk.first, &walk.second, sizeof walk.first)) {
        broken(said > 0 ? "the same calls, other bytes" : "a call that was not made changed the buffer");
    }
    if (walk.started && make_step(&walk.third.state, s) != said) broken("another word over other bytes");
    edges_kept(&walk.first);
    edges_kept(&walk.third);
    if (said > 0) remember(s, said);
    return said;
}

static void print_said(int64_t said)
{
    static const char *const words[] = {"none", "point", "empty", "wide", "long"};
    if (said < 0) printf("refused %" PRId64, -said);
    else if (said > PITSETS_STATE_LONG) broken("bad result");
    else printf("%s", words[said]);
}

static void states(char **rest)
{
    lend_state(&walk.first, 0);
    lend_state(&walk.second, 0);
    lend_state(&walk.third, DIRTY);
    walk.started = false;
    for (trail *t = walk.since; t < walk.since + PITSETS_STATE_NAMES; t++) t->open = false;
    for (;;) {
        step s = take_step(rest);
        print_said(walk_on(&s));
        free(s.divisions);
        char *w = word_or_end(rest);
        if (!w) break;
        if (strcmp(w, ";")) broken("bad line");
        printf(" ; ");
    }
    puts("");
}

#endif
