/* Starred cases of document 01, a door program and the deepest expressions. It prints the library's version, and of the
 * images that are linked in what vectors/ has: the name, the nine numbers of its run, its outputs. Of these and of
 * tests/bench/shapes.h it prints, behind "stack", the stack that check, run and a continue from the fresh state took, in
 * bytes, by painting. It ends with another status than 0 where that is more than door.h states. */
#include "door.h"
#include "linked.h"
#include "shapes.h"
#include "words.h"

enum { CELLS = 8192, PLACES = 4096, PAINTS = 2, UNPAINTED = 256 };

static int64_t store[CELLS];
static int32_t output[PLACES];
static uint32_t checked;
static struct door_result ran, fresh;

/* What is measured: it makes its call, and gives the address of its own frame. */
typedef uintptr_t measured(const struct linked *program);

static uintptr_t check(const struct linked *program) {
    checked = door_check(program->image, program->length);
    return (uintptr_t)__builtin_frame_address(0);
}

static struct door_result run_of(const struct linked *program, uint32_t steps) {
    return door_run(program->image, program->length, program->input, program->inputs, store, program->cells, output,
                    program->places, steps);
}

static uintptr_t run(const struct linked *program) {
    ran = run_of(program, program->steps);
    return (uintptr_t)__builtin_frame_address(0);
}

static uintptr_t go_on(const struct linked *program) {
    ran = door_continue(program->image, program->length, program->input, program->inputs, store, program->cells,
                        output, program->places, program->steps, fresh);
    return (uintptr_t)__builtin_frame_address(0);
}

/* The bytes below the caller's frame that have changed, with either paint. The paint ends a little below this frame,
 * so that it covers nothing of its own. */
static size_t stack_of(measured *volatile call, const struct linked *program) {
    static const unsigned char paints[PAINTS] = {0xa5, 0x5a};
    unsigned char *const end = (unsigned char *)__builtin_frame_address(0) - UNPAINTED;
    size_t most = 0;
    for (int i = 0; i < PAINTS; i++) {
        const volatile unsigned char *at = stack_bottom;
        uintptr_t frame;
        for (volatile unsigned char *to = stack_bottom; to < end; to++)
            *to = paints[i];
        frame = call(program);
        while (*at == paints[i])
            at++;
        if (frame - (uintptr_t)at > most)
            most = frame - (uintptr_t)at;
    }
    return most;
}

static void say_run(const struct linked *program) {
    say(program->name);
    say("\n");
    say_nine(ran);
    say("\n");
    for (size_t i = 0; i < ran.written; i++) {
        say_number(output[i]);
        say("\n");
    }
}

static void hold(size_t used, size_t stated, const char *what) {
    if (used > stated)
        stop(what);
}

/* Runs a program, and prints the stack that check, run and continue took; what the run gave is left in `ran`. */
static void measure(const struct linked *program) {
    const size_t of_check = stack_of(check, program), of_run = stack_of(run, program);
    const struct door_result whole = ran;
    size_t of_continue;
    fresh = run_of(program, 0);
    of_continue = stack_of(go_on, program);
    ran = whole;
    if (checked != (ran.refusal <= DOOR_REFUSED_RULE ? ran.refusal * 65536u + ran.fault : 0))
        stop("check and run differ");
    say("stack ");
    say(program->name);
    say_count(": ", of_check);
    say_count(" ", of_run);
    say_count(" ", of_continue);
    say("\n");
    hold(of_check, DOOR_CHECK_STACK, "that is more than DOOR_CHECK_STACK");
    hold(of_run, DOOR_RUN_STACK, "that is more than DOOR_RUN_STACK");
    hold(of_continue, DOOR_RUN_STACK, "that is more than DOOR_RUN_STACK");
}

static void measure_shape(size_t number) {
    static uint8_t image[LONGEST];
    static const int32_t input[1];
    const size_t length = build(shapes[number].make, image);
    const struct linked program = {shapes[number].name, image, length, input, 0, CELLS, PLACES, 1000};
    measure(&program);
    if (ran.refusal != DOOR_ACCEPTED || ran.outcome != DOOR_FINISHED || ran.written != 1 ||
        (output[0] != 5 && output[0] != -5))
        stop("that is not 5");
}

void program(void) {
    say(door_version);
    say("\n");
    for (size_t i = 0; i < linked_count; i++) {
        measure(&linked[i]);
        say_run(&linked[i]);
    }
    for (size_t i = 0; i < SHAPES; i++)
        measure_shape(i);
    finish(0);
}
