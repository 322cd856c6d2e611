/* Continues a run, from C: continue vectors/input/members-1.img
 * A run that is cut in two, or in many slices, gives what one run gives. Exits 1 where it does not. */
#include <stdio.h>
#include <string.h>

#include "door.h"
#include "result.h"

#define CELLS 64
#define PLACES 4
#define STEPS 200 /* more than the program needs */

/* What a program is lent besides its image, and what a call left of it: all of it is kept from slice to slice. */
struct kept {
    struct door_result result;
    int64_t store[CELLS];
    int32_t output[PLACES];
};

static uint8_t image[DOOR_IMAGE_MAX + 1];
static size_t length;
static const int32_t input[2] = {1234, 19800};

static void begin(struct kept *kept, uint32_t steps) {
    memset(kept, 0, sizeof *kept);
    kept->result = door_run(image, length, input, 2, kept->store, CELLS, kept->output, PLACES, steps);
}

/* Goes on. A refused continue leaves store and output, and its result is none to go on from: the old one stays. */
static uint32_t go_on(struct kept *kept, uint32_t steps) {
    const struct door_result next =
        door_continue(image, length, input, 2, kept->store, CELLS, kept->output, PLACES, steps, kept->result);
    if (next.refusal == DOOR_ACCEPTED)
        kept->result = next;
    return next.refusal;
}

static int is_same(const struct kept *a, const struct kept *b) {
    return same_result(a->result, b->result) && memcmp(a->store, b->store, sizeof a->store) == 0 &&
           memcmp(a->output, b->output, sizeof a->output) == 0;
}

int main(int count, char **words) {
    static struct kept whole, part;
    FILE *file = count == 2 ? fopen(words[1], "rb") : NULL;
    int differences = 0;
    if (file == NULL) {
        fprintf(stderr, "usage: continue MEMBERS.img\n");
        return 2;
    }
    length = fread(image, 1, sizeof image, file);
    fclose(file);

    begin(&whole, STEPS);
    print_result("one run", whole.result);

    /* cut in two, before each of its steps */
    for (uint32_t first = 0; first < whole.result.steps; first++) {
        begin(&part, first);
        differences += go_on(&part, STEPS - first) != DOOR_ACCEPTED || !is_same(&whole, &part);
    }
    printf("cut before each of %u steps: %d differences\n", (unsigned)whole.result.steps, differences);

    /* a step at a time, until it has finished; what has finished is not continued */
    begin(&part, 0);
    while (part.result.outcome == DOOR_STEPS_USED_UP && go_on(&part, 1) == DOOR_ACCEPTED) {
    }
    print_result("a step at a time", part.result);
    differences += !is_same(&whole, &part);
    differences += go_on(&part, 1) != DOOR_REFUSED_STATE;

    /* a link that leads nowhere; a frame that ends elsewhere; a mark beyond the store: not what a slice left */
    begin(&part, 30);
    part.store[part.result.base + 2] = CELLS;
    differences += go_on(&part, 1) != DOOR_REFUSED_STATE;
    begin(&part, 30);
    part.result.top++;
    differences += go_on(&part, 1) != DOOR_REFUSED_STATE;
    begin(&part, 30);
    part.result.mark = CELLS + 1;
    differences += go_on(&part, 1) != DOOR_REFUSED_STATE;
    printf("%d differences\n", differences);
    return differences ? 1 : 0;
}
