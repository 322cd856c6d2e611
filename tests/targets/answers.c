/* What check, run and continue answer to the calls of a file, one line a call. README.md has the file's form and the
 * line's. The same calls must give the same lines on every target. */
#include "door.h"
#include "words.h"

enum { MOST_BYTES = 1 << 16, MOST_CELLS = 1 << 17, MOST_NUMBERS = 100001, NUMBERS = 12, BESIDE = 4 };
enum kind { RUN, CONTINUE, GO_ON };
#define AS_BEFORE UINT32_MAX

/* The head of a call, as the file has it. */
struct call {
    uint32_t kind, bytes, inputs, cells, places, steps;
    uint32_t cells_follow, places_follow; /* so many numbers: all of them, or one for all; 0 where they stay */
    uint64_t numbers[NUMBERS];
};

/* What is lent: an image at an odd address, store and output between numbers that nobody may write. */
static _Alignas(8) uint8_t room[1 + MOST_BYTES];
static uint8_t *const image = room + 1;
static int32_t input[MOST_NUMBERS], output[BESIDE + MOST_NUMBERS + BESIDE];
static int64_t store[BESIDE + MOST_CELLS + BESIDE];
static size_t bytes, inputs;
static struct door_result last; /* the last that was not refused */

/* ---- checksums: FNV-1a with 64 bits, 32 bits a step */

#define CHECKSUM 14695981039346656037u

static uint64_t added(uint64_t sum, uint32_t number) { return (sum ^ number) * 1099511628211u; }

static uint64_t sum_of_cells(size_t cells) {
    uint64_t sum = CHECKSUM;
    for (size_t i = 0; i < BESIDE + cells + BESIDE; i++) {
        const uint64_t cell = (uint64_t)store[i];
        sum = added(added(sum, (uint32_t)cell), (uint32_t)(cell >> 32));
    }
    return sum;
}

static uint64_t sum_of_numbers(const int32_t *numbers, size_t count) {
    uint64_t sum = CHECKSUM;
    for (size_t i = 0; i < count; i++)
        sum = added(sum, (uint32_t)numbers[i]);
    return sum;
}

static uint64_t sum_of_bytes(const uint8_t *at, size_t count) {
    uint64_t sum = CHECKSUM;
    for (size_t i = 0; i < count; i++)
        sum = added(sum, at[i]);
    return sum;
}

/* ---- a call */

static void take_all(void *to, size_t size) {
    if (!take(to, size))
        stop("answers: the file ends within a call");
}

static void take_cells(const struct call *call) {
    int64_t *cells = store + BESIDE;
    if (call->cells_follow == 0)
        return;
    if (call->cells_follow > call->cells && call->cells_follow > 1)
        stop("answers: more cells than are lent");
    take_all(cells, 8 * (size_t)call->cells_follow);
    for (size_t i = call->cells_follow; i < call->cells + (size_t)BESIDE; i++)
        cells[i] = cells[call->cells_follow - 1];
}

static void take_places(const struct call *call) {
    int32_t *places = output + BESIDE;
    if (call->places_follow == 0)
        return;
    if (call->places_follow > call->places && call->places_follow > 1)
        stop("answers: more places than are lent");
    take_all(places, 4 * (size_t)call->places_follow);
    for (size_t i = call->places_follow; i < call->places + (size_t)BESIDE; i++)
        places[i] = places[call->places_follow - 1];
}

static void take_lent(const struct call *call) {
    if ((call->bytes != AS_BEFORE && call->bytes > MOST_BYTES) || call->cells > MOST_CELLS ||
        (call->inputs != AS_BEFORE && call->inputs > MOST_NUMBERS) || call->places > MOST_NUMBERS)
        stop("answers: a call that is too large");
    if (call->bytes != AS_BEFORE)
        take_all(image, bytes = call->bytes);
    if (call->inputs != AS_BEFORE)
        take_all(input, 4 * (inputs = call->inputs));
    take_cells(call);
    take_places(call);
}

/* The earlier result: the numbers of the call or, to go on, those of the last result with these added. */
static struct door_result from_of(const struct call *call) {
    static const struct door_result none;
    const struct door_result before = call->kind == GO_ON ? last : none;
    const uint64_t *n = call->numbers;
    return (struct door_result){.refusal = before.refusal + (uint32_t)n[0],
                                .fault = before.fault + (uint32_t)n[1],
                                .outcome = before.outcome + (uint32_t)n[2],
                                .trap = before.trap + (uint32_t)n[3],
                                .halt = (int32_t)((uint32_t)before.halt + (uint32_t)n[4]),
                                .steps = before.steps + (uint32_t)n[5],
                                .row = before.row + (uint32_t)n[6],
                                .base = before.base + (uint32_t)n[7],
                                .top = before.top + (uint32_t)n[8],
                                .read = before.read + n[9],
                                .written = before.written + n[10],
                                .mark = before.mark + (uint32_t)n[11]};
}

static struct door_result called(const struct call *call) {
    int64_t *cells = store + BESIDE;
    int32_t *places = output + BESIDE;
    if (call->kind == RUN)
        return door_run(image, bytes, input, inputs, cells, call->cells, places, call->places, call->steps);
    if (call->kind > GO_ON)
        stop("answers: a kind that is not known");
    return door_continue(image, bytes, input, inputs, cells, call->cells, places, call->places, call->steps,
                         from_of(call));
}

static void say_result(struct door_result r) {
    say("; ");
    say_nine(r);
    say_count(" ", r.base);
    say_count(" ", r.top);
    say_count(" ", r.mark);
}

static void say_sum(uint64_t sum) {
    say(" ");
    say_digits(sum, 16);
}

static void answer(const struct call *call, unsigned number) {
    struct door_result result;
    take_lent(call);
    say_count("", number);
    if (call->bytes != AS_BEFORE) {
        const uint32_t checked = door_check(image, bytes);
        say_count(": check ", door_refusal(checked));
        say_count(" ", door_row(checked));
    }
    result = called(call);
    if (result.refusal == DOOR_ACCEPTED)
        last = result;
    say_result(result);
    say(";");
    say_sum(sum_of_cells(call->cells));
    say_sum(sum_of_numbers(output, BESIDE + call->places + BESIDE));
    say_sum(sum_of_numbers(input, inputs));
    say_sum(sum_of_bytes(image, bytes));
    say("\n");
}

void program(void) {
    struct call call;
    unsigned number = 0;
    while (take(&call, sizeof call))
        answer(&call, number++);
    finish(number == 0);
}
