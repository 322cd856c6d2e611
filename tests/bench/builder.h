/* An image in the making: rows are appended table by table, and bytes() puts the tables together. */
#ifndef BUILDER_H
#define BUILDER_H

#include <stddef.h>
#include <stdint.h>
#include <string.h>

enum { TYPES, FIELDS, VARIABLES, PROCEDURES, NODES, STATEMENTS, TABLES };
enum { MOST_NODES = 2048, LONGEST = 29713 };

/* Kinds of types, variables, nodes and statements; operators 1 are + and -. */
enum { BOOLEAN, INTEGER, SET, ARRAY, RECORD };
enum { GLOBAL, LOCAL, VALUE, VAR };
enum { CONSTANT, VARIABLE, FIELD, ELEMENT, GUARD, DYADIC, MONADIC, TEST, ARGUMENT };
enum { ASSIGN, CALL, UNLESS, GO, RETURN, READ, WRITE, HALT };

struct builder {
    uint8_t rows[TABLES][8 * MOST_NODES];
    unsigned count[TABLES];
};

static inline void set_row(uint8_t *row, unsigned kind, unsigned x, unsigned y, unsigned z) {
    const uint8_t bytes[8] = {(uint8_t)kind,     0,          (uint8_t)(x >> 8), (uint8_t)x,
                              (uint8_t)(y >> 8), (uint8_t)y, (uint8_t)(z >> 8), (uint8_t)z};
    memcpy(row, bytes, 8);
}

static inline unsigned add(struct builder *b, int table, unsigned kind, unsigned x, unsigned y, unsigned z) {
    set_row(b->rows[table] + 8 * b->count[table], kind, x, y, z);
    return b->count[table]++;
}

/* The three scalar types and procedure 0, which begins at statement 0. */
static inline void begin(struct builder *b) {
    memset(b, 0, sizeof *b);
    for (unsigned scalar = BOOLEAN; scalar <= SET; scalar++)
        add(b, TYPES, scalar, 0, 0, 0);
    add(b, PROCEDURES, 0, 0, 0, 0);
}

static inline size_t bytes(const struct builder *b, uint8_t *image) {
    size_t at = 5;
    for (int t = 0; t < TABLES; t++) {
        image[at] = (uint8_t)(b->count[t] >> 8);
        image[at + 1] = (uint8_t)b->count[t];
        memcpy(image + at + 2, b->rows[t], 8 * b->count[t]);
        at += 2 + 8 * b->count[t];
    }
    image[0] = 1;
    for (int i = 0; i < 4; i++)
        image[1 + i] = (uint8_t)(at >> (24 - 8 * i));
    return at;
}

#endif
