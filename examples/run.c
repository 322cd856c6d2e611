/* Runs door programs from C: run vectors/input/members-1.img
 * Prints the numbers of each run and its outputs; exits 1 where they differ from what documents 01 and 02 make of the
 * image. */
#include <stdio.h>
#include <string.h>

#include "door.h"
#include "result.h"
#include "smallest.h"

#define CELLS 8192
#define PLACES 16

static int64_t store[CELLS];
static int32_t output[PLACES];
static int differences;

/* Runs an image in so many cells, and holds the numbers to those expected. */
static void run(const char *what, const uint8_t *image, size_t length, const int32_t *input, size_t inputs,
                size_t cells, uint32_t steps, struct door_result expected) {
    struct door_result got;
    for (size_t i = 0; i < CELLS; i++)
        store[i] = -1;
    for (size_t i = 0; i < PLACES; i++)
        output[i] = 7;
    got = door_run(image, length, input, inputs, store, cells, output, PLACES, steps);
    print_result(what, got);
    for (uint64_t i = 0; i < got.written; i++)
        printf("  writes %d\n", (int)output[i]);
    if (!same_result(got, expected)) {
        printf("  expected other numbers\n");
        differences++;
    }
    /* cells from the mark on are never touched; in a refusal it is 0 */
    for (size_t i = got.mark; i < CELLS; i++)
        if (store[i] != -1) {
            printf("  cell %zu was touched\n", i);
            differences++;
            break;
        }
}

int main(int count, char **words) {
    static const int32_t none[1] = {0}; /* never null */
    static const int32_t member[2] = {1234, 19800}, expired[2] = {4711, 20001};
    /* the globals have 23 cells, the module body's frame 3; on these lies Add's, of 6, and later Decide's, of 8 */
    static const struct door_result opened = {
        .outcome = 1, .steps = 43, .row = 12, .base = 23, .top = 26, .read = 2, .written = 1, .mark = 34};
    static uint8_t members[29713];
    uint8_t other[57];
    size_t length;
    FILE *file;
    if (count != 2 || !(file = fopen(words[1], "rb"))) {
        fprintf(stderr, "usage: run MEMBERS.img\n");
        return 2;
    }
    length = fread(members, 1, sizeof members, file);
    fclose(file);
    memcpy(other, smallest, sizeof other);
    other[0] = 2;
    run("starred case 10", smallest, 57, none, 0, 3, 100,
        (struct door_result){.outcome = 1, .steps = 1, .top = 3, .mark = 3});
    run("no steps", smallest, 57, none, 0, 3, 0, (struct door_result){.top = 3, .mark = 3});
    run("two cells", smallest, 57, none, 0, 2, 100, (struct door_result){.refusal = 13});
    run("version 2", other, 57, none, 0, CELLS, 100, (struct door_result){.refusal = 1});
    run("a member", members, length, member, 2, CELLS, 200, opened);
    run("a member, in as many cells as the mark", members, length, member, 2, 34, 200, opened);
    run("a member, in one less", members, length, member, 2, 33, 200,
        (struct door_result){
            .outcome = 2, .trap = 7, .steps = 28, .row = 7, .base = 23, .top = 26, .read = 2, .mark = 32});
    run("a member, expired", members, length, expired, 2, CELLS, 200,
        (struct door_result){
            .outcome = 1, .steps = 36, .row = 12, .base = 23, .top = 26, .read = 2, .written = 1, .mark = 34});
    run("no card", members, length, none, 0, CELLS, 200,
        (struct door_result){.outcome = 2, .trap = 8, .steps = 26, .row = 5, .base = 23, .top = 26, .mark = 32});
    return differences ? 1 : 0;
}
