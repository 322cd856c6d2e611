/* What the programs without a C library need of <string.h>; bare.c defines it. */
#ifndef BARE_STRING_H
#define BARE_STRING_H

#include <stddef.h>

void *memset(void *to, int byte, size_t size);
void *memcpy(void *restrict to, const void *restrict from, size_t size);

#endif
