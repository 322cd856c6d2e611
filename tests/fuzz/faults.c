/* Deliberate faults, to see that the harness finds them: FAULT is the number of one. The linker's --wrap puts these
 * calls between harness and engine. The comment of each is what the fuzzer then says; tests/fuzz/run compares. */
#include "door.h"

uint32_t __real_door_check(const uint8_t *image, size_t length);
uint32_t __wrap_door_check(const uint8_t *image, size_t length);
struct door_result __real_door_run(const uint8_t *image, size_t image_length, const int32_t *input, size_t input_length,
                                   int64_t *store, size_t store_length, int32_t *output, size_t output_length,
                                   uint32_t steps);
struct door_result __wrap_door_run(const uint8_t *image, size_t image_length, const int32_t *input, size_t input_length,
                                   int64_t *store, size_t store_length, int32_t *output, size_t output_length,
                                   uint32_t steps);

struct door_result __real_door_continue(const uint8_t *image, size_t image_length, const int32_t *input,
                                        size_t input_length, int64_t *store, size_t store_length, int32_t *output,
                                        size_t output_length, uint32_t steps, struct door_result from);
struct door_result __wrap_door_continue(const uint8_t *image, size_t image_length, const int32_t *input,
                                        size_t input_length, int64_t *store, size_t store_length, int32_t *output,
                                        size_t output_length, uint32_t steps, struct door_result from);

uint32_t __wrap_door_check(const uint8_t *image, size_t length) {
    const uint32_t answer = __real_door_check(image, length);
    return FAULT == 1 && door_refusal(answer) == 10 ? 0 : answer; /* 1: check == r.refusal * 65536 + r.fault */
}

struct door_result __wrap_door_run(const uint8_t *image, size_t image_length, const int32_t *input, size_t input_length,
                                   int64_t *store, size_t store_length, int32_t *output, size_t output_length,
                                   uint32_t steps) {
    static int32_t *used_by;
    const int64_t held = store_length > 0 ? store[store_length - 1] : 0;
    struct door_result result;
    used_by = output;
    result =
        __real_door_run(image, image_length, input, input_length, store, store_length, output, output_length, steps);
    switch (FAULT) {
    case 2: /* 2: SEGV on unknown address */
        if (*(const volatile uint8_t *)(image - 1) == 255)
            result.row = 0;
        break;
    case 3: /* 3: SEGV on unknown address */
        *(volatile int64_t *)(store + store_length) = 0;
        break;
    case 4: /* 4: SEGV on unknown address */
        if (input_length > 0)
            *(volatile int32_t *)(input) = 0;
        break;
    case 5: /* 5: left->output[i] == PLACE */
        if (result.refusal == 13 && output_length > 0)
            output[output_length - 1] = 0;
        break;
    case 6: /* 6: same_result(before, less->result) */
        result.steps += result.refusal == 0 && result.outcome == 0;
        break;
    case 7: /* 7: same_result(a->result, b->result) */
        if (result.refusal == 0 && held < 0)
            result.row = 0;
        break;
    case 8: /* 8: same_result(before, less->result) */
        if (result.trap == 3)
            result.row++;
        break;
    case 9: /* 9: same || (a->store[i] == a->fill && b->store[i] == b->fill) */
        if (result.outcome == 1)
            store[0] = held ^ 1;
        break;
    case 10: /* a state that is shared by the calls: only another thread can see it */
        result.row += used_by != output;
        break;
    case 18: /* 18: only_refusal(r) */
        if (result.refusal == 13)
            result.mark = (uint32_t)store_length;
        break;
    case 19: /* 19: left->store[i] == left->fill */
        result.mark -= result.mark > result.top;
        break;
    case 20: /* 20: cut->result.refusal == 13 || cut->result.trap == 7 */
        result.mark += result.refusal == 0 && result.mark < store_length;
        break;
    case 21: /* 21: same_result(cut->result, whole->result) */
        if (result.outcome == 2) { /* a call whose argument traps is not counted, and leaves no cells */
            const uint32_t before = __real_door_run(image, image_length, input, input_length, store, store_length,
                                                    output, output_length, result.steps - 1).mark;
            for (; result.mark > before; result.mark--)
                store[result.mark - 1] = held;
        }
        break;
    case 22: /* 22: left->store[i] == left->fill */
        if (result.outcome == 1 && result.mark < store_length)
            store[result.mark] = held ^ 1;
        break;
    default:
        break;
    }
    return result;
}

struct door_result __wrap_door_continue(const uint8_t *image, size_t image_length, const int32_t *input,
                                        size_t input_length, int64_t *store, size_t store_length, int32_t *output,
                                        size_t output_length, uint32_t steps, struct door_result from) {
    const struct door_result given = from;
    const int unasked = FAULT == 24 && steps == 0 && (from.mark < from.top || from.mark > store_length);
    struct door_result result;
    if (FAULT == 11) /* 11: same_result(next, (struct door_result){.refusal = 14}) */
        from.outcome = from.trap = 0;
    if (unasked || (FAULT == 23 && given.steps + steps == 1000)) /* 23: same_result(next, whole->result) */
        from.mark = from.top;
    result = __real_door_continue(image, image_length, input, input_length, store, store_length, output, output_length,
                                  steps, from);
    switch (FAULT) {
    case 12: /* 12: same_result(next, whole->result) */
        if (result.refusal == 0 && given.steps + steps == 1000) /* what the first files lend in all */
            result.steps -= given.steps;
        break;
    case 13: /* 13: is_memory(BEFORE_GUARD, given, from) */
        if (result.refusal == 14 && given.outcome == 0 && store_length > 0)
            store[0] = 0;
        break;
    case 14: /* 14: is_memory(BEHIND_GUARD, given, whole) */
        if (result.refusal == 0 && given.written > 0 && given.steps + steps == 1000)
            output[0] ^= 1;
        break;
    case 15: /* 15: SEGV on unknown address */
        if (result.refusal == 0 && given.read > 0)
            *(volatile int64_t *)(store + store_length) = 0;
        break;
    case 16: /* 16: same_result(answer, go_on(BEFORE_GUARD, given, 0, from->result)) */
        if (result.refusal == 0 && given.top < store_length && store[given.top] == INT64_MIN + (int64_t)given.top)
            result = (struct door_result){.refusal = 14};
        break;
    case 17: /* 17: same_result(answer, from->result) */
        if (result.refusal == 0 && given.steps + steps > 1000)
            result.row = 0;
        break;
    case 24: /* 24: from->result.mark <= given->cells */
        if (unasked && result.refusal == 0)
            result.mark = given.mark;
        break;
    case 25: /* 25: left->store[i] == from->store[i] */
        if (result.refusal == 0 && steps > 0 && given.steps + steps > 1000 && result.mark < store_length)
            store[result.mark] ^= 1;
        break;
    default:
        break;
    }
    return result;
}
