#ifndef SMALLEST_H
#define SMALLEST_H

#include <stdint.h>

/* Document 01's starred case 10: three types, a procedure, a RETURN. */
static const uint8_t smallest[57] = {
    1, 0, 0, 0, 57,                                                                 /* version, length */
    0, 3, 0, 0, 0, 0, 0, 0, 0, 0, 1, 0, 0, 0, 0, 0, 0, 0, 2, 0, 0, 0, 0, 0, 0, 0, /* types */
    0, 0,                                                                           /* fields */
    0, 0,                                                                           /* variables */
    0, 1, 0, 0, 0, 0, 0, 0, 0, 0,                                                   /* procedures */
    0, 0,                                                                           /* nodes */
    0, 1, 4, 0, 0, 0, 0, 0, 0, 0,                                                   /* statements */
};

#endif
