/* The words of a line of the line mode (tools/second), for calls.c and tests/probe.c. */
#ifndef LINE_H
#define LINE_H

#include <stddef.h>
#include <stdio.h>
#include <stdlib.h>
#include <string.h>

/* the next word, if there is one */
static inline char *word_or_end(char **rest) { return strtok_r(NULL, " \n", rest); }

static inline char *word(char **rest)
{
    char *w = word_or_end(rest);
    if (!w) {
        puts("bad line");
        exit(2);
    }
    return w;
}

static inline size_t number(char **rest) { return strtoull(word(rest), NULL, 10); }

static inline int digit(char c) { return c <= '9' ? c - '0' : c - 'a' + 10; }

#endif
