/* Runs a door program in a thread whose stack is static memory, of the size that door.h states. Build it from the top
 * of the repository, and give it the deepest expression of the benchmark:
 *
 *     gcc -std=c11 -O2 -Wall -Wextra -Wpedantic -Werror -I include -o target/thread examples/thread.c \
 *         target/staticlib/libdoor.a -pthread
 *     target/thread tests/bench/programs/deep-minus.img */
#define _POSIX_C_SOURCE 200809L
#include <pthread.h>
#include <stdio.h>

#include "door.h"

#define CELLS 1024
#define STEPS 1000
#define THREAD_ITSELF 16384 /* what the thread needs above the run's frames */

/* The page size, which pthread_attr_setstack asks of both. There is no guard page below such a stack. */
static _Alignas(4096) unsigned char stack[DOOR_RUN_STACK + THREAD_ITSELF];

static uint8_t image[DOOR_IMAGE_MAX + 1];
static size_t length;
static int64_t store[CELLS];
static int32_t output[1];
static const int32_t input[1]; /* never null */
static struct door_result result;

static void *run(void *nothing) {
    result = door_run(image, length, input, 0, store, CELLS, output, 1, STEPS);
    return nothing;
}

static int in_the_thread(void) {
    pthread_attr_t attributes;
    pthread_t thread;
    return pthread_attr_init(&attributes) == 0 && pthread_attr_setstack(&attributes, stack, sizeof stack) == 0 &&
           pthread_create(&thread, &attributes, run, NULL) == 0 && pthread_join(thread, NULL) == 0;
}

int main(int count, char **words) {
    FILE *file = count == 2 ? fopen(words[1], "rb") : NULL;
    if (file == NULL) {
        fprintf(stderr, "usage: thread IMAGE\n");
        return 2;
    }
    length = fread(image, 1, sizeof image, file);
    fclose(file);
    if (!in_the_thread()) {
        fprintf(stderr, "thread: there is no thread with such a stack\n");
        return 2;
    }
    printf("refusal %u, outcome %u, trap %u, %u steps\n", (unsigned)result.refusal, (unsigned)result.outcome,
           (unsigned)result.trap, (unsigned)result.steps);
    return 0;
}
