/* Text and numbers by host.h, for programs that may have no C library. */
#ifndef WORDS_H
#define WORDS_H

#include "door.h"
#include "host.h"

static inline void say(const char *text) {
    size_t size = 0;
    while (text[size] != '\0')
        size++;
    put(text, size);
}

/* Divides by 16 bits at a time, since 64 at once would need a helper of the compiler's; gives the remainder. */
static inline unsigned divide(uint64_t *number, unsigned by) {
    uint64_t quotient = 0;
    uint32_t rest = 0;
    for (int shift = 48; shift >= 0; shift -= 16) {
        rest = rest << 16 | (uint32_t)(*number >> shift & 0xffff);
        quotient = quotient << 16 | rest / by;
        rest %= by;
    }
    *number = quotient;
    return rest;
}

static inline void say_digits(uint64_t number, unsigned base) {
    char digits[20];
    size_t at = sizeof digits;
    do {
        digits[--at] = "0123456789abcdef"[divide(&number, base)];
    } while (number > 0);
    put(digits + at, sizeof digits - at);
}

static inline void say_number(int64_t number) {
    if (number < 0)
        say("-");
    say_digits(number < 0 ? 0 - (uint64_t)number : (uint64_t)number, 10);
}

static inline void say_count(const char *before, uint64_t number) {
    say(before);
    say_digits(number, 10);
}

/* The nine numbers, in document 01's order. */
static inline void say_nine(struct door_result r) {
    say_digits(r.refusal, 10);
    say_count(" ", r.fault);
    say_count(" ", r.outcome);
    say_count(" ", r.trap);
    say(" ");
    say_number(r.halt);
    say_count(" ", r.row);
    say_count(" ", r.steps);
    say_count(" ", r.read);
    say_count(" ", r.written);
}

_Noreturn static inline void stop(const char *what) {
    say(what);
    say("\n");
    finish(2);
}

#endif
