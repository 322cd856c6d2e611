/* How much stack door_check uses: stack IMAGE...
 *
 * Each image is checked on a thread whose stack is painted beforehand, twice with different paint; a page that cannot
 * be touched lies below it. What is reported is the distance from the caller's frame down to the lowest byte that has
 * changed: for the first image, and the most for any. It fails where that exceeds DOOR_CHECK_STACK of door.h. */
#define _GNU_SOURCE
#include "door.h"
#include "painted.h"

struct image {
    uint8_t *bytes;
    size_t length;
    volatile uint32_t answer;
};

static uintptr_t check(void *given) {
    struct image *image = given;
    image->answer = door_check(image->bytes, image->length);
    return (uintptr_t)__builtin_frame_address(0);
}

int main(int count, char **words) {
    struct painted stack = painted_stack((size_t)1 << 20);
    size_t first = 0, most = 0;
    const char *most_of = "";
    if (count < 2) {
        fprintf(stderr, "usage: stack IMAGE...\n");
        return 2;
    }
    for (int i = 1; i < count; i++) {
        struct image image;
        size_t used;
        image.bytes = read_file(words[i], &image.length);
        used = painted_bytes(&stack, check, &image);
        free(image.bytes);
        if (i == 1)
            first = used;
        if (used > most) {
            most = used;
            most_of = words[i];
        }
    }
    printf("stack of door_check: %zu bytes for %s; the most of %d images: %zu, for %s\n", first, words[1], count - 1,
           most, most_of);
    return most > DOOR_CHECK_STACK;
}
