/* What it costs to ask whether a state can be gone on from:
 *
 *     continue names                    the names of the states of states.h, one to a line
 *     continue test                     makes each, in stores of several sizes, and sees that it passes
 *     continue once WHICH NAME CELLS    one door_continue (WHICH is continue) or door_run (run) of 0 steps from that
 *                                       state: what valgrind is given. NAME may also be IMAGE@STEPS, for the state that
 *                                       this image leaves after so many steps.
 *
 * A continue of 0 steps makes the check and asks question 14; a run of 0 steps makes the check alone. */
#include "file.h"
#include "result.h"
#include "states.h"

static struct state s;
static const int32_t input[1];
static int32_t output[1];

static struct door_result asked(void) {
    return door_continue(s.image, s.length, input, 0, s.store, s.cells, output, 0, 0, s.from);
}

/* The call that valgrind counts. */
__attribute__((noinline)) static struct door_result measured(bool fresh) {
    return fresh ? door_run(s.image, s.length, input, 0, s.store, s.cells, output, 0, 0) : asked();
}

/* IMAGE@STEPS */
static void make_by_run(const char *name, size_t cells) {
    char path[256];
    const char *at = strchr(name, '@');
    uint8_t *image;
    if (!at || (size_t)(at - name) >= sizeof path)
        wrong(name);
    memcpy(path, name, (size_t)(at - name));
    path[at - name] = '\0';
    image = read_file(path, &s.length);
    if (s.length > LONGEST)
        wrong("too long an image");
    memcpy(s.image, image, s.length);
    free(image);
    s.cells = cells;
    s.from = door_run(s.image, s.length, input, 0, s.store, cells, output, 0, (uint32_t)strtoul(at + 1, NULL, 10));
}

static void make(const char *name, size_t cells) {
    if (cells > MOST_STATE)
        wrong("too many cells");
    for (size_t i = 0; i < STATES; i++)
        if (strcmp(states[i].name, name) == 0) {
            states[i].make(&s, cells);
            return;
        }
    make_by_run(name, cells);
}

/* Each passes, its store is full, and a state with a link more or less does not. */
static int test(void) {
    static const size_t sizes[] = {5000, 32768, 65536};
    unsigned faults = 0;
    for (size_t i = 0; i < STATES; i++)
        for (size_t k = 0; k < sizeof sizes / sizeof sizes[0]; k++) {
            struct door_result got;
            make(states[i].name, sizes[k]);
            got = asked();
            if (!same_result(got, s.from) || s.from.top + 600 < s.cells) {
                printf("continue: %s in %zu cells:\n", states[i].name, sizes[k]);
                print_result("  from", s.from);
                print_result("  got", got);
                faults++;
            }
            s.store[s.from.base + 2]++;
            got = asked();
            faults += got.refusal != DOOR_REFUSED_STATE;
        }
    printf("continue: %d states, %u faults\n", STATES, faults);
    return faults > 0;
}

int main(int count, char **words) {
    if (count == 2 && strcmp(words[1], "names") == 0) {
        for (size_t i = 0; i < STATES; i++)
            puts(states[i].name);
        return 0;
    }
    if (count == 2 && strcmp(words[1], "test") == 0)
        return test();
    if (count != 5 || strcmp(words[1], "once") != 0) {
        fprintf(stderr, "usage: continue names | continue test | continue once continue|run NAME CELLS\n");
        return 2;
    }
    make(words[3], strtoul(words[4], NULL, 10));
    if (s.from.refusal != DOOR_ACCEPTED || s.from.outcome != DOOR_STEPS_USED_UP)
        wrong("no state to go on from");
    printf("top %u\n", (unsigned)s.from.top);
    if (strcmp(words[2], "run") == 0)
        return measured(true).refusal != DOOR_ACCEPTED;
    return !same_result(measured(false), s.from);
}
