/* How much stack door_run and door_continue use: stack_run [-s BYTES] [IMAGE...]
 *
 * The evaluator calls itself, no deeper than an expression has nodes. So it is run on the deepest expressions that the
 * check accepts, 2,048 nodes of which as many as can be lie in one chain, and on the images given; all of them are then
 * continued from the fresh state. The states of states.h are continued too, with 0 steps, which is the check and then
 * question 14, and with some. Each call is on a thread of its own with a stack of BYTES (by default 4 MiB), painted
 * beforehand, twice with different paint; a page that cannot be touched lies below it. What is reported is the distance
 * from the caller's frame down to the lowest byte that has changed.
 *
 * It fails where that exceeds DOOR_RUN_STACK of door.h; where a continue of 0 steps takes more than 12 KB above a run
 * of 0 steps of the same image, which is the check alone; and where the continue of a deep expression takes more than
 * 1 KB above its run, since what question 14 took is to be given back before the first step. */
#define _GNU_SOURCE
#include "door.h"
#include "painted.h"
#include "shapes.h"
#include "states.h"

#include <stdbool.h>

#define CELLS 65536
#define PLACES 16
#define STEPS 1000

/* What a continue may take above a run: while it asks question 14, and when it steps. */
#define MORE_ASKING 12288
#define MORE_STEPPING 1024

static int64_t store[CELLS], fresh[CELLS]; /* the fresh state's cells are 0 */
static int32_t output[PLACES];
static const int32_t input[1];

/* ---- the stack */

/* An image, how many steps it is given, and the state that it is continued from. */
struct program {
    const uint8_t *image;
    size_t length;
    uint32_t steps;
    const int64_t *cells;
    struct door_result from, result;
};

static uintptr_t run(void *given) {
    struct program *program = given;
    program->result = door_run(program->image, program->length, input, 0, store, CELLS, output, PLACES, program->steps);
    return (uintptr_t)__builtin_frame_address(0);
}

static uintptr_t go_on(void *given) {
    struct program *program = given;
    memcpy(store, program->cells, 8 * (size_t)program->from.top);
    program->result = door_continue(program->image, program->length, input, 0, store, CELLS, output, PLACES,
                                    program->steps, program->from);
    return (uintptr_t)__builtin_frame_address(0);
}

/* The fresh state of an image. */
static struct door_result begun(const struct program *program) {
    return door_run(program->image, program->length, input, 0, store, CELLS, output, PLACES, 0);
}

/* The most so far, and of what. */
struct most {
    size_t used;
    char of[64];
};

static void note(struct most *most, size_t used, const char *of) {
    if (used > most->used) {
        most->used = used;
        snprintf(most->of, sizeof most->of, "%s", of);
    }
}

/* Whether it ended as it should: 5 or -5 is written. */
static bool is_right(const char *name, struct door_result result) {
    if (result.refusal == 0 && result.outcome == 1 && result.written == 1 && abs(output[0]) == 5)
        return true;
    printf("stack_run: %s: refusal %u %u, outcome %u, trap %u, %u written, the first %d\n", name,
           (unsigned)result.refusal, (unsigned)result.fault, (unsigned)result.outcome, (unsigned)result.trap,
           (unsigned)result.written, (int)output[0]);
    return false;
}

static bool measure_shapes(struct painted *stack, struct most *runs, struct most *continues) {
    static uint8_t image[LONGEST];
    printf("stack in bytes:         door_run  door_continue\n");
    for (size_t i = 0; i < SHAPES; i++) {
        struct program program = {
            .image = image, .length = build(shapes[i].make, image), .steps = STEPS, .cells = fresh};
        const size_t used = painted_bytes(stack, run, &program);
        size_t again;
        if (!is_right(shapes[i].name, program.result))
            return false;
        program.from = begun(&program);
        again = painted_bytes(stack, go_on, &program);
        if (!is_right(shapes[i].name, program.result))
            return false;
        printf("  %-20s %9zu %14zu\n", shapes[i].name, used, again);
        note(runs, used, shapes[i].name);
        note(continues, again, shapes[i].name);
        if (again > used + MORE_STEPPING) {
            printf("stack_run: the continue takes more than %d bytes above the run\n", MORE_STEPPING);
            return false;
        }
    }
    return true;
}

/* Images that are refused are only run. */
static void measure_image(struct painted *stack, const char *name, struct most *runs, struct most *continues) {
    struct program program = {.steps = STEPS, .cells = fresh};
    uint8_t *given = read_file(name, &program.length);
    program.image = given;
    note(runs, painted_bytes(stack, run, &program), name);
    program.from = begun(&program);
    if (program.from.refusal == DOOR_ACCEPTED)
        note(continues, painted_bytes(stack, go_on, &program), name);
    free(given);
}

/* A continue of so many steps from a state that passes. */
static size_t continued(struct painted *stack, struct program *program, uint32_t steps) {
    size_t used;
    program->steps = steps;
    used = painted_bytes(stack, go_on, program);
    if (program->result.refusal != DOOR_ACCEPTED)
        wrong("a state that does not pass");
    return used;
}

/* The states are made in half of the store, so that there is room to go on. */
static bool measure_states(struct painted *stack, struct most *continues) {
    static struct state state;
    struct most asking = {0}, more = {0};
    printf("of 0 steps:             door_run  door_continue, and of %d steps\n", STEPS);
    for (size_t i = 0; i < STATES; i++) {
        struct program program = {.image = state.image, .cells = state.store};
        size_t checked, asked, stepped;
        states[i].make(&state, CELLS / 2);
        program.length = state.length;
        program.from = state.from;
        checked = painted_bytes(stack, run, &program);
        asked = continued(stack, &program, 0);
        stepped = continued(stack, &program, STEPS);
        printf("  %-20s %9zu %14zu %14zu\n", states[i].name, checked, asked, stepped);
        note(continues, stepped, states[i].name);
        note(&asking, asked, states[i].name);
        note(&more, asked > checked ? asked - checked : 0, states[i].name);
    }
    note(continues, asking.used, asking.of);
    printf("  the most of question 14 with the check: %zu, for %s; above the check: %zu, for %s\n", asking.used,
           asking.of, more.used, more.of);
    if (more.used <= MORE_ASKING)
        return true;
    printf("stack_run: that is more than %d above the check\n", MORE_ASKING);
    return false;
}

static bool holds(const char *what, const struct most *most) {
    printf("  the most of %s: %zu, for %s\n", what, most->used, most->of);
    if (most->used <= DOOR_RUN_STACK)
        return true;
    printf("stack_run: that exceeds DOOR_RUN_STACK, %zu\n", (size_t)DOOR_RUN_STACK);
    return false;
}

int main(int count, char **words) {
    size_t size = (size_t)4 << 20;
    struct most runs = {0}, continues = {0};
    struct painted stack;
    bool good;
    int at = 1;
    if (count > 2 && strcmp(words[1], "-s") == 0) {
        size = strtoul(words[2], NULL, 10);
        at = 3;
    }
    if (size == 0) {
        fprintf(stderr, "usage: stack_run [-s BYTES] [IMAGE...]\n");
        return 2;
    }
    stack = painted_stack(size);
    if (!measure_shapes(&stack, &runs, &continues))
        return 1;
    for (; at < count; at++)
        measure_image(&stack, words[at], &runs, &continues);
    good = measure_states(&stack, &continues);
    good = holds("door_run", &runs) && good;
    return holds("door_continue", &continues) && good ? 0 : 1;
}
