/* What a program needs on this machine: cells, steps, stack and time. Build it from the top of the repository:
 *
 *     gcc -std=c11 -O2 -Wall -Wextra -Werror -I include -I tests/bench -o target/measure examples/measure.c \
 *         target/staticlib/libdoor.a -pthread -Wl,-z,now
 *
 * and give it an image, at most so many steps (-s, by default 1,000,000) and the numbers that the program reads:
 *
 *     target/measure vectors/input/members-1.img 1234 19800
 *
 * Cells: those that the program begins with (G + F0), and those that this run needed, its mark. Stack: by painting it
 * (tests/bench/painted.h). Time: of the processor, the best of several rounds; that of a step is the mean of this
 * run's, without the check. Another input may need more of each. */
#define _GNU_SOURCE
#include <time.h>

#include "door.h"
#include "painted.h"

#define INPUTS 256
#define PLACES 4096
#define ROUNDS 15
#define ROUND_SECONDS 0.02

static int64_t store[DOOR_STORE_MAX];
static int32_t output[PLACES];

struct program {
    const uint8_t *image;
    size_t length;
    int32_t input[INPUTS];
    size_t inputs;
    uint32_t steps;
};

static struct door_result run(const struct program *program) {
    return door_run(program->image, program->length, program->input, program->inputs, store, DOOR_STORE_MAX, output,
                    PLACES, program->steps);
}

/* ---- stack */

static uintptr_t check_call(void *given) {
    const struct program *program = given;
    volatile uint32_t answer = door_check(program->image, program->length);
    (void)answer;
    return (uintptr_t)__builtin_frame_address(0);
}

static uintptr_t run_call(void *given) {
    const struct program *program = given;
    volatile uint32_t outcome = run(program).outcome;
    (void)outcome;
    return (uintptr_t)__builtin_frame_address(0);
}

/* ---- time */

static double seconds(void) {
    struct timespec time;
    if (clock_gettime(CLOCK_PROCESS_CPUTIME_ID, &time) != 0)
        fail("no clock");
    return (double)time.tv_sec + (double)time.tv_nsec / 1e9;
}

static double seconds_of(unsigned long calls, painted_call *call, struct program *program) {
    const double start = seconds();
    for (unsigned long i = 0; i < calls; i++)
        (void)call(program);
    return seconds() - start;
}

/* The seconds of a call: of each round's mean the best. */
static double best_seconds(painted_call *call, struct program *program) {
    unsigned long calls = 1;
    double best;
    while (seconds_of(calls, call, program) < ROUND_SECONDS)
        calls *= 2;
    best = seconds_of(calls, call, program);
    for (int round = 1; round < ROUNDS; round++) {
        const double spent = seconds_of(calls, call, program);
        if (spent < best)
            best = spent;
    }
    return best / (double)calls;
}

int main(int count, char **words) {
    static struct program program = {.steps = 1000000};
    struct program fresh;
    struct door_result result;
    struct painted stack = painted_stack((size_t)4 << 20);
    double whole, start;
    int at = 1;
    if (count > 2 && strcmp(words[1], "-s") == 0) {
        program.steps = (uint32_t)strtoul(words[2], NULL, 10);
        at = 3;
    }
    if (at >= count || count - at > INPUTS) {
        fprintf(stderr, "usage: measure [-s STEPS] IMAGE [INPUT...]\n");
        return 2;
    }
    program.image = read_file(words[at], &program.length);
    for (int i = at + 1; i < count; i++)
        program.input[program.inputs++] = (int32_t)strtol(words[i], NULL, 10);

    result = run(&program);
    printf("image   %zu bytes\n", program.length);
    printf("check   %.2f us, %zu bytes of stack\n", best_seconds(check_call, &program) * 1e6,
           painted_bytes(&stack, check_call, &program));
    if (result.refusal != DOOR_ACCEPTED) {
        printf("refused %u, row %u\n", (unsigned)result.refusal, (unsigned)result.fault);
        return 1;
    }
    fresh = program;
    fresh.steps = 0;
    printf("cells   %u to begin with, %u needed\n", (unsigned)run(&fresh).mark, (unsigned)result.mark);
    printf("run     outcome %u, trap %u, %u steps\n", (unsigned)result.outcome, (unsigned)result.trap,
           (unsigned)result.steps);
    whole = best_seconds(run_call, &program);
    start = best_seconds(run_call, &fresh);
    printf("time    %.2f us, of which %.2f before the first step; %.1f ns a step\n", whole * 1e6, start * 1e6,
           result.steps > 0 ? (whole - start) / result.steps * 1e9 : 0);
    printf("stack   %zu bytes\n", painted_bytes(&stack, run_call, &program));
    return 0;
}
