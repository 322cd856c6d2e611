/* What the tests in C share: reading a file, and giving up. */
#ifndef FILE_H
#define FILE_H

#include <stdint.h>
#include <stdio.h>
#include <stdlib.h>

_Noreturn static void fail(const char *what) {
    perror(what);
    exit(2);
}

/* The bytes of a file; the caller frees them. */
static uint8_t *read_file(const char *name, size_t *length) {
    FILE *file = fopen(name, "rb");
    uint8_t *bytes;
    long size;
    if (!file || fseek(file, 0, SEEK_END) != 0 || (size = ftell(file)) < 0 || fseek(file, 0, SEEK_SET) != 0)
        fail(name);
    *length = (size_t)size;
    bytes = malloc(*length + 1);
    if (!bytes || fread(bytes, 1, *length, file) != *length)
        fail(name);
    fclose(file);
    return bytes;
}

#endif
