/* The images that are linked into starred.c, and what each is lent: tests/targets/cases writes them. */
#ifndef LINKED_H
#define LINKED_H

#include <stddef.h>
#include <stdint.h>

struct linked {
    const char *name;
    const uint8_t *image;
    size_t length;
    const int32_t *input;
    size_t inputs, cells, places;
    uint32_t steps;
};

extern const struct linked linked[];
extern const size_t linked_count;

#endif
