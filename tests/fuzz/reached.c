/* Prints at exit, for each basic block of the engine in the order of its module, 1 where it was reached and else 0. */
#include <stdint.h>
#include <stdio.h>
#include <stdlib.h>

extern const uint8_t door_reached[];
extern const uint64_t door_blocks;

static void print(void) {
    for (uint64_t i = 0; i < door_blocks; i++)
        putchar('0' + door_reached[i]);
    putchar('\n');
}

__attribute__((constructor)) static void at_exit(void) {
    if (atexit(print) != 0)
        abort();
}
