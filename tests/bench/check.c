/* One check of an image, which valgrind is given (run-check): check IMAGE. It prints refusal and row. */
#include "door.h"
#include "file.h"

/* The call that valgrind counts. */
__attribute__((noinline)) static uint32_t measured(const uint8_t *image, size_t length) {
    return door_check(image, length);
}

int main(int count, char **words) {
    size_t length;
    uint8_t *image;
    uint32_t answer;
    if (count != 2) {
        fprintf(stderr, "usage: check IMAGE\n");
        return 2;
    }
    image = read_file(words[1], &length);
    answer = measured(image, length);
    free(image);
    printf("%u %u\n", (unsigned)(answer >> 16), (unsigned)(answer & 65535));
    return 0;
}
