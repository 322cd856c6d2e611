/* Runs images on memory of just the size that is lent, for valgrind to watch: exact STEPS IMAGE...
 *
 * Image, input, store and output come from the heap, and store and output are not set before the run: valgrind sees any
 * access beside them, and any number that depends on what they held. Each image must be accepted, and use up its
 * steps. */
#include "expect.h"
#include "file.h"

enum { CELLS = 8192, PLACES = 3, INPUTS = 2 };

static void *exactly(size_t size) {
    void *room = malloc(size);
    if (!room)
        fail("memory");
    return room;
}

static void run(const char *name, uint32_t steps) {
    size_t length;
    uint8_t *data = read_file(name, &length), *image = exactly(length);
    int32_t *input = exactly(INPUTS * sizeof *input), *output = exactly(PLACES * sizeof *output);
    int64_t *store = exactly(CELLS * sizeof *store);
    struct door_result result;
    memcpy(image, data, length);
    free(data);
    input[0] = 1234;
    input[1] = 19800;
    expect(door_check(image, length) == 0, name);
    result = door_run(image, length, input, INPUTS, store, CELLS, output, PLACES, steps);
    expect(result.refusal == 0 && result.outcome == 0 && result.steps == steps, name);
    free(image);
    free(input);
    free(output);
    free(store);
}

int main(int count, char **words) {
    const uint32_t steps = count > 1 ? (uint32_t)strtoul(words[1], NULL, 10) : 0;
    for (int i = 2; i < count; i++)
        run(words[i], steps);
    return expected_all("exact memory");
}
