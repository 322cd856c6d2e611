/* A result of door.h in words. */
#ifndef RESULT_H
#define RESULT_H

#include <inttypes.h>
#include <stdio.h>

#include "same.h"

static inline void print_result(const char *what, struct door_result r) {
    printf("%s: refusal %" PRIu32 ", row %" PRIu32 ", outcome %" PRIu32 ", trap %" PRIu32 ", HALT %" PRId32
           ", statement %" PRIu32 ", steps %" PRIu32 ", read %" PRIu64 ", written %" PRIu64 ", frame %" PRIu32
           " to %" PRIu32 ", mark %" PRIu32 "\n",
           what, r.refusal, r.fault, r.outcome, r.trap, r.halt, r.row, r.steps, r.read, r.written, r.base, r.top,
           r.mark);
}

#endif
