/* What is expected of a run, and how many expectations were not met. */
#ifndef EXPECT_H
#define EXPECT_H

#include <string.h>

#include "result.h"

static unsigned expectations, differences;

static inline void expect(bool met, const char *what) {
    expectations++;
    if (!met) {
        differences++;
        printf("load: %s: not as expected\n", what);
    }
}

static inline void expect_result(const char *what, struct door_result got, struct door_result expected) {
    const bool met = same_result(got, expected);
    expect(met, what);
    if (!met) {
        print_result("  got", got);
        print_result("  expected", expected);
    }
}

/* The exit status of a test, after a line with its numbers. */
static inline int expected_all(const char *test) {
    printf("load: %s: %u expectations, %u not met\n", test, expectations, differences);
    return differences > 0 || expectations == 0;
}

#endif
