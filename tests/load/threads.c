/* Several runs at once: threads ROUNDS IMAGE IMAGE...
 *
 * Each image is first run alone. Then each has a thread that checks and runs it so many times, all at once, each with a
 * store and an output of its own: every number, cell and output place must be as alone. Then two threads for each image
 * do so, which share its bytes and its inputs. Image and input cannot be written meanwhile. */
#define _GNU_SOURCE
#include <pthread.h>

#include "expect.h"
#include "file.h"
#include "guarded.h"

enum { CELLS = 8192, PLACES = 64, STEPS = 20000, INPUTS = 8, MOST_THREADS = 64 };

/* What a run leaves. */
struct left {
    uint32_t answer;
    struct door_result result;
    int64_t store[CELLS];
    int32_t output[PLACES];
};

struct program {
    uint8_t *image;
    size_t length;
    int32_t *input;
    struct left alone;
};

struct thread {
    pthread_t id;
    const struct program *program;
    unsigned rounds, differences;
    struct left left;
};

static pthread_barrier_t together;

static void run(const struct program *p, struct left *left, int64_t fill) {
    for (size_t i = 0; i < CELLS; i++)
        left->store[i] = fill;
    for (size_t i = 0; i < PLACES; i++)
        left->output[i] = -7;
    left->answer = door_check(p->image, p->length);
    left->result = door_run(p->image, p->length, p->input, INPUTS, left->store, CELLS, left->output, PLACES, STEPS);
}

static void *many(void *given) {
    struct thread *thread = given;
    const struct left *alone = &thread->program->alone;
    pthread_barrier_wait(&together);
    for (unsigned i = 0; i < thread->rounds; i++) {
        run(thread->program, &thread->left, 3);
        thread->differences += thread->left.answer != alone->answer ||
                               !same_result(thread->left.result, alone->result) ||
                               memcmp(thread->left.store, alone->store, sizeof alone->store) != 0 ||
                               memcmp(thread->left.output, alone->output, sizeof alone->output) != 0;
    }
    return NULL;
}

/* So many threads at once, thread i on program i modulo their number. */
static void at_once(const struct program *programs, unsigned count, unsigned threads, unsigned rounds) {
    static struct thread all[MOST_THREADS];
    if (pthread_barrier_init(&together, NULL, threads) != 0)
        fail("a barrier");
    for (unsigned i = 0; i < threads; i++) {
        all[i].program = &programs[i % count];
        all[i].rounds = rounds;
        all[i].differences = 0;
        if (pthread_create(&all[i].id, NULL, many, &all[i]) != 0)
            fail("a thread");
    }
    for (unsigned i = 0; i < threads; i++) {
        if (pthread_join(all[i].id, NULL) != 0)
            fail("a thread");
        expect(all[i].differences == 0, "a run beside others");
    }
    pthread_barrier_destroy(&together);
}

/* An image and inputs that cannot be written. */
static void begin(struct program *p, const char *name) {
    uint8_t *data = read_file(name, &p->length);
    const struct guarded image = guarded(p->length), input = guarded(4 * INPUTS);
    p->image = beside(image, BEFORE_GUARD, p->length);
    p->input = beside(input, BEFORE_GUARD, 4 * INPUTS);
    memcpy(p->image, data, p->length);
    for (int i = 0; i < INPUTS; i++)
        p->input[i] = 1000 + i;
    free(data);
    protect(image, PROT_READ);
    protect(input, PROT_READ);
    run(p, &p->alone, 3);
    expect(p->alone.result.refusal == 0 && p->alone.result.steps > 1, "a run alone");
}

int main(int count, char **words) {
    static struct program programs[MOST_THREADS / 2];
    const unsigned rounds = count > 1 ? (unsigned)strtoul(words[1], NULL, 10) : 0;
    const unsigned images = (unsigned)count - 2;
    if (rounds == 0 || images < 2 || images > MOST_THREADS / 2) {
        fprintf(stderr, "usage: threads ROUNDS IMAGE IMAGE...\n");
        return 2;
    }
    for (unsigned i = 0; i < images; i++)
        begin(&programs[i], words[2 + i]);
    at_once(programs, images, images, rounds);
    at_once(programs, images, 2 * images, rounds);
    return expected_all("threads");
}
