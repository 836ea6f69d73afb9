/* What the tests from C share: an expectation, a word, pointers that lead nowhere, a text and a task's tables. */
#ifndef EXPECT_H
#define EXPECT_H

#include <stdio.h>
#include <stdlib.h>
#include <string.h>
#include "desk.h"

#define EXPECT(what)                                              \
    do {                                                          \
        tried++;                                                  \
        if (!(what)) {                                            \
            printf("line %d: not so: %s\n", __LINE__, #what);     \
            exit(1);                                              \
        }                                                         \
    } while (0)

static int tried;

/* a word as kind and number */
static desk_word word(uint64_t kind, uint64_t number) { return kind + 256 * number; }
#define SHORT word(8, 0)

/* leads nowhere; with a length of 0 it is not looked at */
#define WILD8 ((uint8_t *)1)
#define WILD32 ((uint32_t *)4)

static uint8_t text[DESK_TEXT + 1];
static size_t text_len;
static uint32_t counts[DESK_COUNTS];
static uint8_t facts[DESK_FACTS];
static uint32_t costs[DESK_COSTS];
static uint32_t shares[DESK_SHARES];
#define COUNTED counts, DESK_COUNTS
#define TABLES facts, DESK_FACTS, costs, DESK_COSTS, shares, DESK_SHARES
#define TASK COUNTED, TABLES

/* the counts of a task of edition 1, as they are lent */
#define OF(vars, ops, maps) (const uint32_t[DESK_COUNTS]){vars, ops, maps, 1, 0}, DESK_COUNTS

/* Reads the text from a file; one that is too long is cut short, and still too long. */
static int text_from(const char *path)
{
    FILE *f = fopen(path, "rb");
    if (!f)
        return 0;
    text_len = fread(text, 1, sizeof text, f);
    fclose(f);
    return 1;
}

#endif
