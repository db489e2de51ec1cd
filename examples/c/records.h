/* Writes a board's bytes record by record: head, nodes, wires, end (docs/REFERENCE.md). The judge says if it is one. */
#ifndef RECORDS_H
#define RECORDS_H

#include "plate.h"

#include <string.h>

/* Room for the longest board and some records more, so that too many can be tried. */
typedef struct {
    uint8_t bytes[PLATE_MOST_BOARD + 64];
    size_t length;
} board;

/* The types of nodes. */
enum { PASS = 1, SUM, DESTINATION, BALANCE, MUL, ADD, DELAY, ALLPASS, ONEPOLE, SINE };

static inline void put(board *b, uint32_t v, int bytes)
{
    for (; bytes > 0; bytes--, v >>= 8)
        b->bytes[b->length++] = (uint8_t)(v & 255);
}

static inline void head(board *b, uint32_t n, uint32_t input)
{
    b->length = 0;
    put(b, 8, 2), put(b, 1, 2), put(b, n, 2), put(b, input, 2);
}

/* The whole number n and the float f are 0 where the type has none. */
static inline void node(board *b, uint32_t type, uint32_t n, float f)
{
    uint32_t bits;
    memcpy(&bits, &f, 4);
    put(b, 14, 2), put(b, 2, 2), put(b, type, 2), put(b, n, 4), put(b, bits, 4);
}

static inline void wire(board *b, uint32_t source, uint32_t target)
{
    put(b, 8, 2), put(b, 3, 2), put(b, source, 2), put(b, target, 2);
}

static inline void end(board *b) { put(b, 4, 2), put(b, 4, 2); }

static inline plate_answer judged(const board *b) { return plate_judge(b->bytes, b->length); }

#endif
