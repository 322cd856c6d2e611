/* Whether two results are the same: by their numbers, since eight bytes of a result hold nothing. */
#ifndef SAME_H
#define SAME_H

#include <stdbool.h>

#include "door.h"

_Static_assert(sizeof(struct door_result) == 64, "a result has ten numbers of 4 bytes, two of 8, and 8 bytes more:");
_Static_assert(offsetof(struct door_result, top) == 32 && offsetof(struct door_result, read) == 40, "four here,");
_Static_assert(offsetof(struct door_result, mark) == 56, "and four behind the last");

static inline bool same_result(struct door_result a, struct door_result b) {
    return a.refusal == b.refusal && a.fault == b.fault && a.outcome == b.outcome && a.trap == b.trap &&
           a.halt == b.halt && a.steps == b.steps && a.row == b.row && a.base == b.base && a.top == b.top &&
           a.read == b.read && a.written == b.written && a.mark == b.mark;
}

#endif
