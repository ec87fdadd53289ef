#include "sets.h"
#include <stdio.h>
#include <stdlib.h>
#include <string.h>

int64_t floor_division(int64_t a, int64_t d) { return a / d - (a % d < 0); }

static int32_t i32(const uint8_t *p) { return (int32_t)(p[0] | p[1] << 8 | p[2] << 16 | (uint32_t)p[3] << 24); }
static int16_t i16(const uint8_t *p) { return (int16_t)(p[0] | p[1] << 8); }

static void take_division(basic_set *b, const command *k, const uint8_t *p)
{
    division *d = &b->div[b->divs++];
    d->divisor = (int32_t)head_number(k, p);
    d->constant = i32(p + k->constant);
    for (int j = 0; j < AXES; j++) d->axis[j] = i16(p + axes_place(k) + 2 * j);
}

/* division coefficients follow those of the axes */
static void take_constraint(basic_set *b, const command *k, const uint8_t *p)
{
    constraint *c = &b->con[b->cons++];
    c->equality = k->kind == EQUALITY;
    c->constant = i32(p + k->constant);
    for (int j = 0; j < AXES + DIVISIONS; j++) c->coefficient[j] = i16(p + axes_place(k) + 2 * j);
}

/* Reads what the workload program or an operation wrote: the layout and the counts are looked at, the numbers' ranges are not. */
int set_decode(set *s, int n, const uint8_t *p, size_t length)
{
    const uint8_t *end = p + length;
    s->n = n;
    s->count = 0;
    while (p < end) {
        basic_set *b = s->count ? &s->basic[s->count - 1] : NULL;
        const command *k = whole_command(p, end);
        if (!k) return -1;
        if (k->kind == OPENING) {
            if (s->count == BASIC_SETS) return -1;
            b = &s->basic[s->count++];
            b->divs = b->cons = 0;
        } else if (!b) return -1;
        else if (k->kind == DIVISION) {
            if (b->cons || b->divs == DIVISIONS) return -1;
            take_division(b, k, p);
        } else {
            if (b->cons == CONSTRAINTS) return -1;
            take_constraint(b, k, p);
        }
        p += k->bytes;
    }
    return 0;
}

static uint8_t *put(uint8_t *p, int64_t v, int bytes)
{
    for (int i = 0; i < bytes; i++) *p++ = (uint8_t)((uint64_t)v >> (8 * i));
    return p;
}

size_t set_encode(const set *s, uint8_t *start)
{
    uint8_t *p = start;
    for (const basic_set *b = s->basic; b < s->basic + s->count; b++) {
        *p++ = OPENING_CODE;
        for (const division *d = b->div; d < b->div + b->divs; d++) {
            *p++ = DIVISION_CODE;
            p = put(put(p, d->divisor, 2), d->constant, 4);
            for (int j = 0; j < AXES; j++) p = put(p, d->axis[j], 2);
        }
        for (const constraint *c = b->con; c < b->con + b->cons; c++) {
            *p++ = c->equality ? EQUALITY_CODE : INEQUALITY_CODE;
            p = put(p, c->constant, 4);
            for (int j = 0; j < AXES + DIVISIONS; j++) p = put(p, c->coefficient[j], 2);
        }
    }
    return (size_t)(p - start);
}

int basic_member(int n, const basic_set *b, const int32_t *x)
{
    int64_t v[AXES + DIVISIONS] = {0};
    for (int j = 0; j < n; j++) v[j] = x[j];
    for (int i = 0; i < b->divs; i++) {
        int64_t s = b->div[i].constant;
        for (int j = 0; j < n; j++) s += (int64_t)b->div[i].axis[j] * x[j];
        v[AXES + i] = floor_division(s, b->div[i].divisor);
    }
    for (int i = 0; i < b->cons; i++) {
        int64_t s = b->con[i].constant;
        for (int j = 0; j < AXES + DIVISIONS; j++) s += b->con[i].coefficient[j] * v[j];
        if (b->con[i].equality ? s != 0 : s < 0) return 0;
    }
    return 1;
}

int set_member(const set *s, const int32_t *x)
{
    for (int i = 0; i < s->count; i++)
        if (basic_member(s->n, &s->basic[i], x)) return 1;
    return 0;
}

static void *room(size_t size)
{
    void *p = malloc(size ? size : 1);
    if (!p) {
        fputs("out of memory\n", stderr);
        exit(2);
    }
    return p;
}

static void take(FILE *f, void *p, size_t size)
{
    if (size && fread(p, 1, size, f) != size) {
        fputs("workload: the file is cut off\n", stderr);
        exit(2);
    }
}

static void read_case(FILE *f, workcase *c)
{
    uint8_t head[2];
    uint32_t size;
    take(f, head, 2);
    c->n = head[0];
    c->whole = head[1];
    for (int k = 0; k < SETS; k++) {
        take(f, &size, 4);
        c->length[k] = size;
        c->bytes[k] = room(size);
        take(f, c->bytes[k], size);
        c->decoded[k] = room(sizeof(set));
        if (set_decode(c->decoded[k], c->n, c->bytes[k], size)) {
            fputs("workload: no set\n", stderr);
            exit(2);
        }
    }
    take(f, c->low, sizeof c->low);
    take(f, c->high, sizeof c->high);
    take(f, &size, 4);
    c->points = (int)size;
    c->point = room(size * sizeof *c->point);
    take(f, c->point, size * sizeof *c->point);
}

void workload_read(workload *w, const char *path)
{
    FILE *f = fopen(path, "rb");
    uint32_t cases;
    if (!f) {
        perror(path);
        exit(2);
    }
    take(f, w->family, sizeof w->family);
    take(f, &cases, 4);
    w->cases = (int)cases;
    w->at = room(cases * sizeof *w->at);
    for (int i = 0; i < w->cases; i++) read_case(f, &w->at[i]);
    fclose(f);
}
