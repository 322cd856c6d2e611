/* The form of the fuzzer's bytes: what is lent besides the image, the inputs, then the image.
 *
 *   byte 0       cells of the store: 0 to 199 so many, from 200 on an edge of `edges`
 *   byte 1       two different numbers that fill the store before the two runs
 *   byte 2       inputs, 0 to 15
 *   byte 3       places of the output, 0 to 255
 *   bytes 4, 5   steps
 *   bytes 6, 7   after how many of them the run is cut in two
 *   then         DAMAGES times 4 bytes: what is changed before a continue from there, where (2 bytes), by what
 *   then         4 bytes an input
 *   then         the image */
#ifndef FORM_H
#define FORM_H

#include <stddef.h>
#include <stdint.h>

enum { CELLS, FILL, INPUTS, PLACES, STEPS, CUT = 6, DAMAGE = 8, DAMAGES = 3, HEAD = DAMAGE + 4 * DAMAGES };
enum { FEW_CELLS = 200, MOST_CELLS = 65537, MOST_INPUTS = 15, MOST_PLACES = 255, MOST_STEPS = 4095 };

static const uint32_t edges[] = {0, 1, 2, 3, 255, 4096, 8192, 65535, 65536, 65537};
enum { EDGES = sizeof edges / sizeof edges[0] };

/* Bytes before the image, of so many bytes in all. */
static inline size_t head_of(const uint8_t *data, size_t size) {
    size_t head;
    if (size < HEAD)
        return size;
    head = HEAD + 4 * (size_t)(data[INPUTS] % (MOST_INPUTS + 1));
    return head < size ? head : size;
}

#endif
