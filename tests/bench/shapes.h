/* Images with the deepest expressions that the check accepts: 2,048 nodes, of which as many as can be lie in one chain.
 * Each writes 5 or -5, and finishes. */
#ifndef SHAPES_H
#define SHAPES_H

#include "builder.h"

static unsigned constant(struct builder *b, unsigned number) { return add(b, NODES, CONSTANT, 1, 0, number); }

/* -(-(... 5)), of n nodes: n - 1 is to be even, so that it is 5. */
static unsigned negations(struct builder *b, unsigned n) {
    unsigned node = constant(b, 5);
    while (--n > 0)
        node = add(b, NODES, MONADIC, node, 0, 1);
    return node;
}

/* write -(-(... 5)) */
static void shape_negations(struct builder *b) {
    unsigned node = negations(b, 2047);
    node = add(b, NODES, MONADIC, node, 0, 1);
    add(b, STATEMENTS, WRITE, node, 0, 0);
    add(b, STATEMENTS, RETURN, 0, 0, 0);
}

/* P(-(-(... 5))), which writes it */
static void shape_argument(struct builder *b) {
    const unsigned v = add(b, VARIABLES, VALUE, 1, 0, 0), node = negations(b, 2045);
    add(b, STATEMENTS, CALL, 1, add(b, NODES, ARGUMENT, add(b, NODES, MONADIC, node, 0, 1), 0, 0), 0);
    add(b, STATEMENTS, RETURN, 0, 0, 0);
    add(b, PROCEDURES, 0, 2, 1, 0);
    add(b, STATEMENTS, WRITE, add(b, NODES, VARIABLE, v, 0, 0), 0, 0);
    add(b, STATEMENTS, RETURN, 0, 0, 0);
}

/* write ((5 + 0) + 0) + .. , or 0 + (0 + (.. + 5)) */
static void shape_sums(struct builder *b, int right) {
    unsigned node = constant(b, 5);
    while (b->count[NODES] + 2 <= MOST_NODES) {
        const unsigned zero = constant(b, 0);
        node = right ? add(b, NODES, DYADIC, zero, node, 1) : add(b, NODES, DYADIC, node, zero, 1);
    }
    add(b, STATEMENTS, WRITE, node, 0, 0);
    add(b, STATEMENTS, RETURN, 0, 0, 0);
}

static void shape_left(struct builder *b) { shape_sums(b, 0); }
static void shape_right(struct builder *b) { shape_sums(b, 1); }

/* a[a[.. a[0]]] := 5, then write a[0] */
static void shape_index(struct builder *b) {
    const unsigned t = add(b, TYPES, 3, 1, 2, 0), a = add(b, VARIABLES, GLOBAL, t, 0, 0);
    const unsigned zero = constant(b, 0), first = add(b, NODES, VARIABLE, a, 0, 0);
    const unsigned written = add(b, NODES, ELEMENT, first, zero, 0);
    unsigned node = constant(b, 0);
    const unsigned five = constant(b, 5);
    while (b->count[NODES] + 2 <= MOST_NODES)
        node = add(b, NODES, ELEMENT, add(b, NODES, VARIABLE, a, 0, 0), node, 0);
    add(b, STATEMENTS, ASSIGN, node, five, 0);
    add(b, STATEMENTS, WRITE, written, 0, 0);
    add(b, STATEMENTS, RETURN, 0, 0, 0);
}

/* write 5 + a[a[.. a[0].f].f].f: evaluating and finding take turns */
static void shape_fields(struct builder *b) {
    const unsigned r = add(b, TYPES, 4, 0, add(b, FIELDS, 0, 1, 0, 0), 1), t = add(b, TYPES, 3, r, 2, 0);
    const unsigned a = add(b, VARIABLES, GLOBAL, t, 0, 0), five = constant(b, 5);
    unsigned node = constant(b, 0);
    while (b->count[NODES] + 4 <= MOST_NODES) {
        node = add(b, NODES, ELEMENT, add(b, NODES, VARIABLE, a, 0, 0), node, 0);
        node = add(b, NODES, FIELD, node, 0, 0);
    }
    add(b, STATEMENTS, WRITE, add(b, NODES, DYADIC, five, node, 1), 0, 0);
    add(b, STATEMENTS, RETURN, 0, 0, 0);
}

static const struct {
    const char *name;
    void (*make)(struct builder *b);
} shapes[] = {
    {"negations", shape_negations}, {"an argument", shape_argument}, {"sums, left", shape_left},
    {"sums, right", shape_right},   {"indices", shape_index},        {"indices and fields", shape_fields},
};

enum { SHAPES = sizeof shapes / sizeof shapes[0] };

static size_t build(void (*make)(struct builder *b), uint8_t *image) {
    static struct builder b;
    begin(&b);
    make(&b);
    return bytes(&b, image);
}

#endif
