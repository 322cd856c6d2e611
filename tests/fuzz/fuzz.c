/* The fuzzer's target: an image and what is lent with it, from bytes of the form in form.h.
 *
 * Image, input, store and output lie directly before a page that cannot be touched in one call, and directly behind one
 * in another, each time with other numbers in the store; image and input cannot be written during the calls. What
 * door.h promises is then asked of the results, as far as C can see it; abort() says where it does not hold.
 *
 * A run is also made in as many cells as its mark, and in one less; and it is cut in two, and continued: from its own
 * result and store, and from both damaged. */
#define _GNU_SOURCE
#include <stdbool.h>
#include <stdint.h>
#include <stdio.h>
#include <stdlib.h>
#include <string.h>

#include "cases.h"
#include "form.h"
#include "guarded.h"
#include "result.h"

#define MOST_IMAGE 40000
#define PLACE 0x55aa55aa

/* A promise; the words of the condition are what is printed where it is broken. */
#define PROMISED(condition)                                                                                            \
    do {                                                                                                               \
        if (!(condition)) {                                                                                            \
            fprintf(stderr, "fuzz: line %d: broken: %s\n", __LINE__, #condition);                                      \
            abort();                                                                                                   \
        }                                                                                                              \
    } while (0)

static struct guarded image_area[SIDES], input_area[SIDES], store_area[SIDES], output_area[SIDES];

/* What is lent. */
struct lent {
    size_t image, inputs, cells, places; /* bytes and numbers */
    uint32_t steps, cut;
};

/* Where that lies on a side. */
static uint8_t *image_at(enum side side, const struct lent *given) {
    return beside(image_area[side], side, given->image);
}
static int32_t *input_at(enum side side, const struct lent *given) {
    return beside(input_area[side], side, 4 * given->inputs);
}
static int64_t *store_at(enum side side, const struct lent *given) {
    return beside(store_area[side], side, 8 * given->cells);
}
static int32_t *output_at(enum side side, const struct lent *given) {
    return beside(output_area[side], side, 4 * given->places);
}

/* What a run leaves. */
struct left {
    struct door_result result;
    int64_t fill, store[MOST_CELLS];
    int32_t output[MOST_PLACES];
};

static const int64_t fills[] = {0, -1, 1, 7, INT64_MIN, INT64_MAX, 4294967296, 0x0101010101010101};
#define COUNT(array) (sizeof(array) / sizeof(array)[0])

static void fill_lent(enum side side, const struct lent *given, const uint8_t *inputs, const uint8_t *image,
                      int64_t fill) {
    int64_t *store = store_at(side, given);
    int32_t *output = output_at(side, given);
    protect(image_area[side], PROT_READ | PROT_WRITE);
    protect(input_area[side], PROT_READ | PROT_WRITE);
    memcpy(image_at(side, given), image, given->image);
    memcpy(input_at(side, given), inputs, 4 * given->inputs);
    protect(image_area[side], PROT_READ);
    protect(input_area[side], PROT_READ);
    for (size_t i = 0; i < given->cells; i++)
        store[i] = fill;
    for (size_t i = 0; i < given->places; i++)
        output[i] = PLACE;
}

/* Puts into that side's memory what a call left, or takes it from there. */
static void put_back(enum side side, const struct lent *given, const struct left *left) {
    memcpy(store_at(side, given), left->store, 8 * given->cells);
    memcpy(output_at(side, given), left->output, 4 * given->places);
}
static void take_out(enum side side, const struct lent *given, struct left *left) {
    memcpy(left->store, store_at(side, given), 8 * given->cells);
    memcpy(left->output, output_at(side, given), 4 * given->places);
}
static bool is_memory(enum side side, const struct lent *given, const struct left *left) {
    return memcmp(store_at(side, given), left->store, 8 * given->cells) == 0 &&
           memcmp(output_at(side, given), left->output, 4 * given->places) == 0;
}

static void run(enum side side, const struct lent *given, uint32_t steps, struct left *left) {
    left->result = door_run(image_at(side, given), given->image, input_at(side, given), given->inputs,
                            store_at(side, given), given->cells, output_at(side, given), given->places, steps);
    take_out(side, given, left);
}

/* Of an accepted image: where its statement table begins, how many there are, and whether one is a call. */
static const uint8_t *statement_table(const uint8_t *image) {
    const uint8_t *at = image + 5;
    for (int table = 0; table < 5; table++)
        at += 2 + 8 * (size_t)(256 * at[0] + at[1]);
    return at;
}
static uint32_t statements_of(const uint8_t *image) {
    const uint8_t *at = statement_table(image);
    return 256u * at[0] + at[1];
}
static bool is_call(const uint8_t *image, uint32_t row) { return statement_table(image)[2 + 8 * row] == 1; }

static bool only_refusal(struct door_result r) {
    return same_result(r, (struct door_result){.refusal = r.refusal, .fault = r.fault});
}

static void promised_of_refusal(uint32_t check, const struct lent *given, const struct left *left) {
    const struct door_result r = left->result;
    PROMISED(r.refusal <= 13);
    if (r.refusal >= 1 && r.refusal <= 11)
        PROMISED(check == r.refusal * 65536 + r.fault);
    else
        PROMISED(check == 0 && r.fault == 0);
    PROMISED((check == 0 && given->cells > 65536) == (r.refusal == 12));
    if (r.refusal == 0)
        return;
    PROMISED(only_refusal(r));
    for (size_t i = 0; i < given->cells; i++)
        PROMISED(left->store[i] == left->fill);
    for (size_t i = 0; i < given->places; i++)
        PROMISED(left->output[i] == PLACE);
}

static void promised_of_run(const uint8_t *image, const struct lent *given, const struct left *left) {
    const struct door_result r = left->result;
    PROMISED(r.outcome <= 2);
    PROMISED((r.trap != 0) == (r.outcome == 2) && r.trap <= 10);
    PROMISED(r.halt == 0 || r.trap == 10);
    PROMISED(r.row < statements_of(image));
    PROMISED(r.base + 3 <= r.top && r.top <= r.mark && r.mark <= given->cells);
    PROMISED(r.steps <= given->steps);
    PROMISED(r.outcome == 0 ? r.steps == given->steps : r.steps >= 1);
    PROMISED(r.read <= given->inputs && r.written <= given->places);
    PROMISED(r.trap != 8 || r.read == given->inputs);
    PROMISED(r.trap != 9 || r.written == given->places);
    PROMISED(r.read + r.written <= r.steps);
    for (size_t i = r.written; i < given->places; i++)
        PROMISED(left->output[i] == PLACE);
    for (size_t i = r.mark; i < given->cells; i++)
        PROMISED(left->store[i] == left->fill);
}

/* Two runs that differ in place and in what the store held: the same but for the cells that neither wrote. A number
 * that was written is a value, a link, an address or a type. */
static void promised_of_both(const struct lent *given, const struct left *a, const struct left *b) {
    PROMISED(same_result(a->result, b->result));
    PROMISED(memcmp(a->output, b->output, 4 * given->places) == 0);
    for (size_t i = 0; i < given->cells; i++) {
        const bool same = a->store[i] == b->store[i];
        PROMISED(same || (a->store[i] == a->fill && b->store[i] == b->fill));
        PROMISED(!same || (a->store[i] >= INT32_MIN && a->store[i] <= UINT32_MAX));
        PROMISED(same || a->result.refusal != 0 || i >= 3); /* procedure 0's links, or globals, are zeroed */
    }
}

/* A step that finishes or traps is the last, and changes no row and no count but its own: with one step less the run
 * stands before it. Only a call raises the mark, where it found room, and an argument then trapped. */
static void promised_before_last(const uint8_t *image, const struct lent *given, const struct left *all,
                                 const struct left *less) {
    struct door_result before = all->result;
    const bool asked = is_call(image, before.row) && before.trap != 7;
    PROMISED(asked ? less->result.mark <= before.mark : less->result.mark == before.mark);
    before.outcome = before.trap = 0;
    before.halt = 0;
    before.steps--;
    before.mark = less->result.mark;
    PROMISED(same_result(before, less->result));
    PROMISED(memcmp(all->output, less->output, 4 * given->places) == 0);
}

/* In as many cells as its mark a run is the same; in one less it cannot begin, or a call finds no room. */
static void promised_of_mark(const uint8_t *inputs, const uint8_t *image, const struct lent *given,
                             const struct left *whole, struct left *cut) {
    struct lent fewer = *given;
    fewer.cells = whole->result.mark;
    fill_lent(BEFORE_GUARD, &fewer, inputs, image, whole->fill);
    run(BEFORE_GUARD, &fewer, given->steps, cut);
    PROMISED(same_result(cut->result, whole->result));
    PROMISED(is_memory(BEFORE_GUARD, &fewer, whole));
    fewer.cells--;
    fill_lent(BEFORE_GUARD, &fewer, inputs, image, whole->fill);
    run(BEFORE_GUARD, &fewer, given->steps, cut);
    PROMISED(cut->result.refusal == 13 || cut->result.trap == 7);
}

/* ---- continuing */

/* Goes on, on the memory of that side as it is. */
static struct door_result go_on(enum side side, const struct lent *given, uint32_t steps, struct door_result from) {
    return door_continue(image_at(side, given), given->image, input_at(side, given), given->inputs,
                         store_at(side, given), given->cells, output_at(side, given), given->places, steps, from);
}

/* A run of `cut` steps, continued for the others, is one run; what was refused, has finished or trapped is refused. */
static void promised_in_two(const struct lent *given, const struct left *whole, struct left *first) {
    struct door_result next;
    first->fill = whole->fill;
    run(BEHIND_GUARD, given, given->cut, first);
    next = go_on(BEHIND_GUARD, given, given->steps - given->cut, first->result);
    if (whole->result.refusal != 0) {
        PROMISED(same_result(next, whole->result));
        PROMISED(is_memory(BEHIND_GUARD, given, first));
    } else if (first->result.outcome != 0) {
        PROMISED(same_result(next, (struct door_result){.refusal = 14}));
        PROMISED(is_memory(BEHIND_GUARD, given, first));
    } else {
        PROMISED(same_result(next, whole->result));
        PROMISED(is_memory(BEHIND_GUARD, given, whole));
    }
}

static int64_t special_of(unsigned n, struct door_result r) {
    const int64_t base = r.base, top = r.top, row = r.row;
    const int64_t more_read = (int64_t)(r.read + 1), more_written = (int64_t)(r.written + 1);
    const int64_t numbers[] = {0,         1,         2,          3,         -1,        INT64_MIN, INT64_MAX, 65535,
                               65536,     65537,     INT32_MAX,  INT32_MIN, 1ll << 31, 1ll << 32, 1ll << 33, base,
                               base + 3,  top,       top - 1,    row,       row + 1,   more_read, more_written,
                               UINT32_MAX};
    return numbers[n % COUNT(numbers)];
}

static void set_field(struct door_result *r, unsigned field, int64_t by, bool whole) {
    uint32_t *const words[] = {&r->row, &r->base, &r->top, &r->steps, &r->refusal, &r->fault, &r->outcome, &r->trap};
    field %= COUNT(words) + 3;
    if (field < COUNT(words))
        *words[field] = (uint32_t)(whole ? (uint64_t)by : *words[field] + (uint64_t)by);
    else if (field == COUNT(words))
        r->read = whole ? (uint64_t)by : r->read + (uint64_t)by;
    else if (field == COUNT(words) + 1)
        r->written = whole ? (uint64_t)by : r->written + (uint64_t)by;
    else
        r->halt = (int32_t)by;
}

/* Changes a cell or a number of the result. Most cells are below the top. */
static void damage(const uint8_t *bytes, const struct lent *given, struct left *left) {
    const unsigned where = 256u * bytes[1] + bytes[2];
    const struct door_result r = left->result;
    const size_t within = (where & 0xf000) != 0xf000 && r.top > 0 && r.top <= given->cells ? r.top : given->cells;
    int64_t *cell = within > 0 ? &left->store[where % within] : NULL;
    switch (bytes[0] % 8) {
    case 1:
        if (cell)
            *cell = (int64_t)((uint64_t)*cell + (uint64_t)(int64_t)(int8_t)bytes[3]);
        break;
    case 2:
        if (cell)
            *cell = special_of(bytes[3], r);
        break;
    case 3:
        if (cell)
            *cell = left->store[bytes[3] % within];
        break;
    case 4:
        if (cell)
            *cell = (int64_t)((uint64_t)*cell ^ (uint64_t)1 << bytes[3] % 64);
        break;
    case 5:
        set_field(&left->result, where, (int8_t)bytes[3], false);
        break;
    case 6:
        set_field(&left->result, where, special_of(bytes[3], r), true);
        break;
    case 7: /* around what the mark may be */
        left->result.mark = (uint32_t)((where % 2 ? given->cells : r.top) + (uint64_t)(int64_t)(int8_t)bytes[3]);
        break;
    default: /* nothing */
        break;
    }
}

/* As if it had not ended: what a finishing or trapping step leaves is a state too. */
static void unend(struct door_result *result) {
    result->outcome = result->trap = 0;
    result->halt = 0;
}

/* What is lent to a continue, and what it came to, for another model. Counts of 64 bits, which no list has, are left
 * out. */
static void note_case(const uint8_t *data, size_t head, const struct lent *given, const struct left *from,
                      const struct left *left) {
    const uint8_t *image = data + head;
    int32_t input[MOST_INPUTS];
    if (from->result.read > INT64_MAX || from->result.written > INT64_MAX)
        return;
    memcpy(input, data + HEAD, 4 * given->inputs);
    write_case(&(struct continued){image, given->image, input, given->inputs, from->store, given->cells, from->output,
                                   given->places, given->steps, from->result});
    write_answer(left->result, left->store, given->cells, left->output, given->places);
}

/* Of a continue that was not refused. */
static void promised_of_continue(const uint8_t *image, const struct lent *given, const struct left *from,
                                 const struct left *left) {
    const struct door_result f = from->result, r = left->result;
    PROMISED(r.fault == 0 && r.outcome <= 2);
    PROMISED((r.trap != 0) == (r.outcome == 2) && r.trap <= 10);
    PROMISED(r.halt == 0 || r.trap == 10);
    PROMISED(r.row < statements_of(image));
    PROMISED(r.base + 3 <= r.top && r.top <= r.mark && f.mark <= r.mark && r.mark <= given->cells);
    PROMISED(r.steps >= f.steps && r.steps - f.steps <= given->steps);
    PROMISED(r.outcome == 0 ? r.steps - f.steps == given->steps : r.steps > f.steps);
    PROMISED(f.read <= r.read && r.read <= given->inputs && f.written <= r.written && r.written <= given->places);
    PROMISED(r.trap != 8 || r.read == given->inputs);
    PROMISED(r.trap != 9 || r.written == given->places);
    PROMISED(r.read - f.read + (r.written - f.written) <= r.steps - f.steps);
    for (size_t i = 0; i < given->places; i++)
        PROMISED((i >= f.written && i < r.written) || left->output[i] == from->output[i]);
    for (size_t i = r.mark; i < given->cells; i++)
        PROMISED(left->store[i] == from->store[i]);
}

/* In as many cells as its mark a continue is the same; in one less it is refused, or a call finds no room where those of
 * the earlier mark are there. */
static void promised_of_continued_mark(const struct lent *given, const struct left *from, const struct left *whole) {
    struct lent fewer = *given;
    struct door_result answer;
    fewer.cells = whole->result.mark;
    put_back(BEFORE_GUARD, &fewer, from);
    PROMISED(same_result(whole->result, go_on(BEFORE_GUARD, &fewer, given->steps, from->result)));
    PROMISED(is_memory(BEFORE_GUARD, &fewer, whole));
    fewer.cells--;
    put_back(BEFORE_GUARD, &fewer, from);
    answer = go_on(BEFORE_GUARD, &fewer, given->steps, from->result);
    if (fewer.cells < from->result.mark)
        PROMISED(answer.refusal == 13 || answer.refusal == 14);
    else
        PROMISED(answer.refusal == 0 && answer.trap == 7);
}

/* Whether question 14 passes the result and store that are in `from`: with 0 steps they come back as they are. Cells
 * from the top on mean nothing to it. */
static bool passes(const struct lent *given, const struct left *from) {
    struct door_result answer;
    put_back(BEFORE_GUARD, given, from);
    answer = go_on(BEFORE_GUARD, given, 0, from->result);
    PROMISED(is_memory(BEFORE_GUARD, given, from));
    PROMISED(same_result(answer, from->result) ||
             (answer.refusal >= 12 && answer.refusal <= 14 && answer.fault == 0 && only_refusal(answer)));
    for (size_t i = from->result.top; i < given->cells; i++)
        store_at(BEFORE_GUARD, given)[i] = INT64_MIN + (int64_t)i;
    PROMISED(same_result(answer, go_on(BEFORE_GUARD, given, 0, from->result)));
    return answer.refusal == 0;
}

/* A continue from a result and store that are damaged: refused, and nothing is touched; or a run that leaves a state
 * which passes too. */
static void promised_of_foreign(const uint8_t *data, size_t head, const struct lent *given, struct left *from,
                                struct left *left) {
    struct door_result other;
    bool passed;
    unend(&from->result);
    for (int i = 0; i < DAMAGES; i++)
        damage(data + DAMAGE + 4 * i, given, from);
    passed = passes(given, from);
    PROMISED(!passed || (from->result.outcome == 0 && from->result.trap == 0 && from->result.halt == 0));
    PROMISED(!passed || (from->result.read <= given->inputs && from->result.written <= given->places));
    PROMISED(!passed || (from->result.top <= from->result.mark && from->result.mark <= given->cells));
    put_back(BEFORE_GUARD, given, from);
    other = go_on(BEFORE_GUARD, given, given->steps, from->result);
    put_back(BEHIND_GUARD, given, from);
    left->result = go_on(BEHIND_GUARD, given, given->steps, from->result);
    take_out(BEHIND_GUARD, given, left);
    note_case(data, head, given, from, left);
    PROMISED(same_result(left->result, other));
    PROMISED(is_memory(BEFORE_GUARD, given, left));
    PROMISED((left->result.refusal == 0) == (passed && from->result.steps <= UINT32_MAX - given->steps));
    if (left->result.refusal != 0) {
        PROMISED(only_refusal(left->result));
        PROMISED(is_memory(BEHIND_GUARD, given, from));
        return;
    }
    promised_of_continue(data + head, given, from, left);
    promised_of_continued_mark(given, from, left);
    unend(&left->result);
    PROMISED(passes(given, left));
}

static struct lent parse(const uint8_t *data, size_t head, size_t size) {
    const size_t cells = data[CELLS];
    const uint32_t steps = (256u * data[STEPS] + data[STEPS + 1]) & MOST_STEPS;
    return (struct lent){
        .image = size - head,
        .inputs = (head - HEAD) / 4,
        .cells = cells < FEW_CELLS ? cells : edges[(cells - FEW_CELLS) % EDGES],
        .places = data[PLACES],
        .steps = steps,
        .cut = (256u * data[CUT] + data[CUT + 1]) % (steps + 1),
    };
}

int LLVMFuzzerInitialize(int *count, char ***words) {
    (void)count, (void)words;
    for (enum side side = 0; side < SIDES; side++) {
        image_area[side] = guarded(MOST_IMAGE);
        input_area[side] = guarded(4 * MOST_INPUTS);
        store_area[side] = guarded(8 * (size_t)MOST_CELLS);
        output_area[side] = guarded(4 * MOST_PLACES);
    }
    return 0;
}

int LLVMFuzzerTestOneInput(const uint8_t *data, size_t size) {
    static struct left left[SIDES], less, first;
    const size_t head = head_of(data, size);
    struct lent given;
    uint32_t check[SIDES];
    if (size < HEAD || size - head > MOST_IMAGE)
        return 0;
    given = parse(data, head, size);
    for (enum side side = 0; side < SIDES; side++) {
        left[side].fill = fills[(data[FILL] + side) % COUNT(fills)];
        fill_lent(side, &given, data + HEAD, data + head, left[side].fill);
        check[side] = door_check(image_at(side, &given), given.image);
        run(side, &given, given.steps, &left[side]);
        promised_of_refusal(check[side], &given, &left[side]);
        if (left[side].result.refusal == 0)
            promised_of_run(data + head, &given, &left[side]);
    }
    PROMISED(check[0] == check[1]);
    promised_of_both(&given, &left[0], &left[1]);
    if (left[0].result.outcome != 0) {
        less.fill = left[0].fill;
        fill_lent(BEHIND_GUARD, &given, data + HEAD, data + head, less.fill);
        run(BEHIND_GUARD, &given, left[0].result.steps - 1, &less);
        promised_before_last(data + head, &given, &left[0], &less);
    }
    if (left[0].result.refusal == 0)
        promised_of_mark(data + HEAD, data + head, &given, &left[0], &less);
    fill_lent(BEHIND_GUARD, &given, data + HEAD, data + head, left[0].fill);
    promised_in_two(&given, &left[0], &first);
    if (first.result.refusal == 0)
        promised_of_foreign(data, head, &given, &first, &less);
    return 0;
}
