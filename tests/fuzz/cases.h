/* Continues and their answers as cases, in the form of vectors/requests/, for another model to be
 * held to. Nothing is written until a file is opened. */
#ifndef CASES_H
#define CASES_H

#include <inttypes.h>
#include <stdio.h>

#include "door.h"

/* What is lent to a continue. */
struct continued {
    const uint8_t *image;
    size_t length;
    const int32_t *input;
    size_t inputs;
    const int64_t *store;
    size_t cells;
    const int32_t *output;
    size_t places;
    uint32_t steps;
    struct door_result from;
};

extern FILE *cases; /* NULL: none are written */

void write_case(const struct continued *call);

/* What the call came to, and left in as many cells and places. */
void write_answer(struct door_result result, const int64_t *store, size_t cells, const int32_t *output, size_t places);

#endif
