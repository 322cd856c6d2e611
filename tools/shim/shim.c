/* What tools/targets adds to the engine: the library's version and, but for x86-64, the functions of door.h.
 *
 * The kit's module keeps to the conventions of x86-64 in its three functions: lengths have 64 bits, and the result goes
 * where a first pointer says. tools/targets renames them, and has them take the earlier result by its address. The
 * functions here are what C calls, by the target's own conventions. */
#include "door.h"

#define TEXT_OF(number) #number
#define TEXT(number) TEXT_OF(number)

const char door_version[] = "door " DOOR_VERSION " interface " TEXT(DOOR_INTERFACE);

#ifndef __x86_64__

/* The engine's layout of a result, and its order of bytes. */
_Static_assert(sizeof(struct door_result) == 64, "a result has 64 bytes");
_Static_assert(__builtin_offsetof(struct door_result, read) == 40, "read is aligned to 8 bytes");
_Static_assert(__builtin_offsetof(struct door_result, mark) == 56, "mark is behind read and written");
_Static_assert(__BYTE_ORDER__ == __ORDER_LITTLE_ENDIAN__, "the engine is little-endian");

uint32_t door_engine_check(const uint8_t *image, uint64_t length);
struct door_result *door_engine_run(struct door_result *result, const uint8_t *image, uint64_t image_length,
                                    const int32_t *input, uint64_t input_length, int64_t *store, uint64_t store_length,
                                    int32_t *output, uint64_t output_length, uint32_t steps);
struct door_result *door_engine_continue(struct door_result *result, const uint8_t *image, uint64_t image_length,
                                         const int32_t *input, uint64_t input_length, int64_t *store,
                                         uint64_t store_length, int32_t *output, uint64_t output_length,
                                         uint32_t steps, struct door_result *from);

uint32_t door_check(const uint8_t *image, size_t length) { return door_engine_check(image, length); }

struct door_result door_run(const uint8_t *image, size_t image_length, const int32_t *input, size_t input_length,
                            int64_t *store, size_t store_length, int32_t *output, size_t output_length,
                            uint32_t steps) {
    struct door_result result;
    door_engine_run(&result, image, image_length, input, input_length, store, store_length, output, output_length,
                    steps);
    return result;
}

struct door_result door_continue(const uint8_t *image, size_t image_length, const int32_t *input, size_t input_length,
                                 int64_t *store, size_t store_length, int32_t *output, size_t output_length,
                                 uint32_t steps, struct door_result from) {
    struct door_result result;
    door_engine_continue(&result, image, image_length, input, input_length, store, store_length, output,
                         output_length, steps, &from);
    return result;
}

#endif
