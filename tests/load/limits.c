/* Memory and steps at their limits: limits [--long]
 *
 * Every image here is made by hand, and what is expected of it is by documents 01 and 02. All that is lent lies directly
 * before a page that cannot be touched, and then directly behind one. --long runs two loops with all 4,294,967,295
 * steps. */
#define _GNU_SOURCE
#include <time.h>

#include "builder.h"
#include "door.h"
#include "expect.h"
#include "guarded.h"
#include "smallest.h"

#define ALL_STEPS UINT32_MAX
#define MOST_CELLS 1100000
#define FILL (-7)

static struct guarded image_area, input_area, store_area, output_area;
static enum side side;

/* ---- what is lent */

struct lending {
    const uint8_t *image;
    size_t length;
    const int32_t *input;
    size_t inputs, cells, places;
    uint32_t steps;
};

static int64_t *store_of(size_t cells) { return beside(store_area, side, 8 * cells); }

/* Whether the cells from one on, and all before the store and behind it that can be seen, are as before the run. */
static bool untouched(size_t from, size_t cells) {
    const int64_t *store = store_of(cells), *all = (const int64_t *)store_area.begin;
    for (size_t i = 0; i < store_area.size / 8; i++)
        if ((all + i < store || all + i >= store + from) && all[i] != FILL)
            return false;
    return true;
}

/* Goes on, with what the last run was lent and left. */
static struct door_result go_on(struct lending l, struct door_result from) {
    return door_continue(beside(image_area, side, l.length), l.length, beside(input_area, side, 4 * l.inputs), l.inputs,
                         store_of(l.cells), l.cells, beside(output_area, side, 4 * l.places), l.places, l.steps, from);
}

/* A run on memory at the guard pages; image and input cannot be written. The check is asked too. */
static struct door_result run(struct lending l) {
    uint8_t *image = beside(image_area, side, l.length);
    int32_t *input = beside(input_area, side, 4 * l.inputs), *output = beside(output_area, side, 4 * l.places);
    struct door_result result;
    uint32_t answer;
    protect(image_area, PROT_READ | PROT_WRITE);
    protect(input_area, PROT_READ | PROT_WRITE);
    if (l.length > 0)
        memcpy(image, l.image, l.length);
    if (l.inputs > 0)
        memcpy(input, l.input, 4 * l.inputs);
    protect(image_area, PROT_READ);
    protect(input_area, PROT_READ);
    for (size_t i = 0; i < store_area.size / 8; i++)
        ((int64_t *)store_area.begin)[i] = FILL;
    for (size_t i = 0; i < l.places; i++)
        output[i] = FILL;
    answer = door_check(image, l.length);
    result = door_run(image, l.length, input, l.inputs, store_of(l.cells), l.cells, output, l.places, l.steps);
    expect(door_refusal(answer) == (result.refusal < 12 ? result.refusal : 0), "check and run say the same refusal");
    expect(door_row(answer) == result.fault, "check and run say the same row");
    for (size_t i = result.written; i < l.places; i++)
        expect(output[i] == FILL, "a place that was not written keeps its number");
    return result;
}

static struct door_result refusal(uint32_t number) { return (struct door_result){.refusal = number}; }
static struct door_result used_up(uint32_t steps, uint32_t row) {
    return (struct door_result){.row = row, .steps = steps};
}
static struct door_result trapped(uint32_t trap, uint32_t row, uint32_t steps) {
    return (struct door_result){.outcome = 2, .trap = trap, .row = row, .steps = steps};
}
static struct door_result finished(uint32_t row, uint32_t steps) {
    return (struct door_result){.outcome = 1, .row = row, .steps = steps};
}
/* the same with its newest frame, and with as many cells needed as it ends at, or as many as here */
static struct door_result framed(uint32_t base, uint32_t frame, struct door_result result) {
    result.base = base;
    result.top = result.mark = base + frame;
    return result;
}
static struct door_result marked(uint32_t mark, struct door_result result) {
    result.mark = mark;
    return result;
}

/* ---- images */

static struct builder b;
static uint8_t image[LONGEST];

static struct lending made(size_t cells, size_t places, uint32_t steps) {
    return (struct lending){
        .image = image, .length = bytes(&b, image), .cells = cells, .places = places, .steps = steps};
}

static unsigned integer(unsigned number) { return add(&b, NODES, CONSTANT, INTEGER, 0, number); }

/* A global x of type INTEGER. */
static unsigned with_x(void) {
    begin(&b);
    return add(&b, VARIABLES, GLOBAL, INTEGER, 0, 0);
}

/* GOTO itself */
static void endless(void) {
    begin(&b);
    add(&b, STATEMENTS, GO, 0, 0, 0);
}

/* x := x + 1; GOTO the first */
static void counting(void) {
    const unsigned x = with_x(), target = add(&b, NODES, VARIABLE, x, 0, 0), read = add(&b, NODES, VARIABLE, x, 0, 0);
    add(&b, STATEMENTS, ASSIGN, target, add(&b, NODES, DYADIC, read, integer(1), 1), 0);
    add(&b, STATEMENTS, GO, 0, 0, 0);
}

/* RETURN, with so many cells of globals and a local array of two: G + F0 is five more. */
static void returning(unsigned globals) {
    begin(&b);
    while (globals > 0) {
        const unsigned length = globals < 4096 ? globals : 4096;
        if (b.count[TYPES] == 3 || length < 4096)
            add(&b, TYPES, ARRAY, INTEGER, length, 0);
        add(&b, VARIABLES, GLOBAL, b.count[TYPES] - 1, 0, 0);
        globals -= length;
    }
    add(&b, TYPES, ARRAY, INTEGER, 2, 0);
    add(&b, VARIABLES, LOCAL, b.count[TYPES] - 1, 0, 0);
    b.rows[PROCEDURES][7] = 1; /* a local */
    add(&b, STATEMENTS, RETURN, 0, 0, 0);
}

/* One statement whose operand may name x, then RETURN */
static void one(unsigned kind, unsigned (*operand)(unsigned)) {
    const unsigned x = with_x();
    add(&b, STATEMENTS, kind, operand(x), 0, 0);
    add(&b, STATEMENTS, RETURN, 0, 0, 0);
}

static unsigned variable(unsigned x) { return add(&b, NODES, VARIABLE, x, 0, 0); }
static unsigned nine(unsigned x) {
    (void)x;
    return integer(9);
}

/* P; RETURN, and P is RETURN, or calls itself before that. Each frame has 3 cells. */
static void calling(bool itself) {
    begin(&b);
    add(&b, STATEMENTS, CALL, 1, 0, 0);
    add(&b, STATEMENTS, RETURN, 0, 0, 0);
    add(&b, PROCEDURES, 0, 2, 0, 0);
    if (itself)
        add(&b, STATEMENTS, CALL, 1, 0, 0);
    add(&b, STATEMENTS, RETURN, 0, 0, 0);
}

/* P(1, 1 DIV 0), whose frame has 5 cells: the second argument traps. Then RETURN, and P is RETURN. */
static void trapping(void) {
    unsigned first, second;
    begin(&b);
    add(&b, VARIABLES, VALUE, INTEGER, 0, 0);
    add(&b, VARIABLES, VALUE, INTEGER, 0, 0);
    first = integer(1);
    second = add(&b, NODES, DYADIC, integer(1), integer(0), 4);
    first = add(&b, NODES, ARGUMENT, first, 0, 0);
    add(&b, NODES, ARGUMENT, second, 0, 0);
    add(&b, STATEMENTS, CALL, 1, first, 0);
    add(&b, STATEMENTS, RETURN, 0, 0, 0);
    add(&b, PROCEDURES, 0, 2, 2, 0);
    add(&b, STATEMENTS, RETURN, 0, 0, 0);
}

/* ---- tests */

static void image_lengths(void) {
    uint8_t five[5] = {1, 0, 0, 0, 5};
    const uint8_t zero[1] = {0};
    for (size_t length = 0; length <= 5; length++)
        expect_result("a beginning of an image", run((struct lending){.image = smallest, .length = length, .cells = 3}),
                      refusal(length == 0 ? 1 : 2));
    expect_result("version 0", run((struct lending){.image = zero, .length = 1}), refusal(1));
    expect_result("five bytes that say so", run((struct lending){.image = five, .length = 5}), refusal(3));
    five[4] = 4;
    expect_result("four of four bytes", run((struct lending){.image = five, .length = 4}), refusal(2));
    for (size_t length = 6; length < sizeof smallest; length++)
        expect_result("a beginning of an image", run((struct lending){.image = smallest, .length = length, .cells = 3}),
                      refusal(2));
    expect_result("the smallest image",
                  run((struct lending){.image = smallest, .length = sizeof smallest, .cells = 3, .steps = 9}),
                  framed(0, 3, finished(0, 1)));
}

/* A store of so many cells: refused, and untouched, or the globals and the frame zeroed and the rest untouched. */
static void store_length(unsigned globals, size_t cells, uint32_t expected) {
    const size_t needed = (size_t)globals + 5;
    struct door_result result;
    bool zeroed = true;
    returning(globals);
    result = run(made(cells, 4, 9));
    expect_result("a store", result, expected ? refusal(expected) : framed(globals, 5, finished(0, 1)));
    expect(untouched(expected ? 0 : needed, cells), "cells that are not the program's");
    for (size_t i = 0; !expected && i < needed; i++)
        zeroed = zeroed && store_of(cells)[i] == 0;
    expect(zeroed, "cells of the globals and the frame");
}

static void store_lengths(void) {
    store_length(0, 0, 13);
    store_length(0, 4, 13);
    store_length(0, 5, 0);
    store_length(5, 0, 13);
    store_length(5, 1, 13);
    store_length(5, 9, 13);
    store_length(5, 10, 0);
    store_length(5, 65536, 0);
    store_length(5, 65537, 12);
    /* the largest G + F0 that fits, one more, and the most that an image can have: the check accepts all three */
    store_length(65531, 65535, 13);
    store_length(65531, 65536, 0);
    store_length(65531, 65537, 12);
    store_length(65532, 65536, 13);
    store_length(65532, 65537, 12);
    store_length(255 * 4096, 0, 13);
    store_length(255 * 4096, 65536, 13);
    store_length(255 * 4096, 65537, 12);
    store_length(255 * 4096, 255 * 4096 + 5, 12);
}

static void nothing_lent(void) {
    static const int32_t seven[1] = {7};
    struct lending l;
    one(READ, variable);
    l = made(4, 0, 9);
    expect_result("a read without input", run(l), framed(1, 3, trapped(8, 0, 1)));
    l.input = seven;
    l.inputs = 1;
    expect_result("a read of the only input", run(l),
                  framed(1, 3, (struct door_result){.outcome = 1, .row = 1, .steps = 2, .read = 1}));
    expect(store_of(4)[0] == 7, "what was read");
    one(WRITE, variable);
    expect_result("a write without places", run(made(4, 0, 9)), framed(1, 3, trapped(9, 0, 1)));
    expect_result("a write to the only place", run(made(4, 1, 9)),
                  framed(1, 3, (struct door_result){.outcome = 1, .row = 1, .steps = 2, .written = 1}));
    expect_result("no steps", run(made(4, 1, 0)), framed(1, 3, used_up(0, 0)));
    one(HALT, nine);
    expect_result("HALT with all steps", run(made(4, 0, ALL_STEPS)),
                  framed(1, 3, (struct door_result){.outcome = 2, .trap = 10, .halt = 9, .steps = 1}));
}

static double seconds(void) {
    struct timespec now;
    clock_gettime(CLOCK_PROCESS_CPUTIME_ID, &now);
    return (double)now.tv_sec + 1e-9 * (double)now.tv_nsec;
}

/* An endless loop uses up its steps; the counting one has counted half of them. */
static void loops(uint32_t steps, bool print) {
    const double began = seconds();
    double between, end;
    endless();
    expect_result("GOTO itself", run(made(3, 0, steps)), framed(0, 3, used_up(steps, 0)));
    between = seconds();
    counting();
    if (steps == ALL_STEPS) /* the last step is addition 2,147,483,648, the first that overflows */
        expect_result("counting", run(made(4, 0, steps)), framed(1, 3, trapped(4, 0, steps)));
    else
        expect_result("counting", run(made(4, 0, steps)), framed(1, 3, used_up(steps, steps % 2)));
    expect(store_of(4)[0] == (int64_t)(steps == ALL_STEPS ? INT32_MAX : steps / 2 + steps % 2), "what was counted");
    end = seconds();
    if (print)
        printf("load: %10" PRIu32 " steps: GOTO itself %.2f s, %.1f ns a step; counting %.2f s, %.1f ns a step\n",
               steps, between - began, 1e9 * (between - began) / steps, end - between, 1e9 * (end - between) / steps);
}

static void finishing_early(void) {
    expect_result("RETURN with all steps",
                  run((struct lending){.image = smallest, .length = sizeof smallest, .cells = 3, .steps = ALL_STEPS}),
                  framed(0, 3, finished(0, 1)));
    returning(5);
    expect_result("RETURN with all steps and cells", run(made(65536, 0, ALL_STEPS)), framed(5, 5, finished(0, 1)));
}

/* Steps done and lent are at most 4,294,967,295 together, whatever was done. */
static void steps_together(void) {
    struct door_result from;
    counting();
    from = run(made(4, 0, 10));
    from.steps = ALL_STEPS - 5;
    expect_result("one step more than there are", go_on(made(4, 0, 6), from), refusal(14));
    expect_result("all steps more", go_on(made(4, 0, ALL_STEPS), from), refusal(14));
    expect(store_of(4)[0] == 5, "a refusal leaves the store");
    expect_result("the last five steps", go_on(made(4, 0, 5), from), framed(1, 3, used_up(ALL_STEPS, 1)));
    expect(store_of(4)[0] == 8, "what was counted");
    from = framed(1, 3, used_up(ALL_STEPS, 1));
    expect_result("no step after the last", go_on(made(4, 0, 0), from), from);
    expect_result("a step after the last", go_on(made(4, 0, 1), from), refusal(14));
}

/* A count may be its list's length, and no more; lists and store may have other lengths than before. */
static void lists_together(void) {
    static const int32_t numbers[2] = {7, 8};
    struct lending l;
    struct door_result from, next;
    const unsigned x = with_x();
    add(&b, STATEMENTS, READ, variable(x), 0, 0);
    add(&b, STATEMENTS, WRITE, variable(x), 0, 0);
    add(&b, STATEMENTS, GO, 0, 0, 0);
    l = made(4, 2, 3);
    l.input = numbers;
    l.inputs = 2;
    from = run(l);
    next = go_on(l, from);
    expect_result("the second round", next, framed(1, 3, (struct door_result){.steps = 6, .read = 2, .written = 2}));
    l.steps = 9;
    expect_result(
        "counts at their lists' ends, and a read there", go_on(l, next),
        framed(1, 3, (struct door_result){.outcome = 2, .trap = 8, .steps = 7, .read = 2, .written = 2}));
    next.outcome = 2;
    next.trap = 8;
    expect_result("after a trap", go_on(l, next), refusal(14));
    from.read = 3;
    expect_result("a count beyond the input", go_on(l, from), refusal(14));
    from.read = (uint64_t)1 << 32;
    expect_result("a count of 33 bits", go_on(l, from), refusal(14));
    from.read = 1;
    from.written = 3;
    expect_result("a count beyond the output", go_on(l, from), refusal(14));
    from.written = UINT64_MAX;
    expect_result("the largest count", go_on(l, from), refusal(14));
}

/* Question 14 reads no cell from `top` on, and no cell beyond the store where base and top lie there. */
static void states_beyond(void) {
    static const uint32_t far[] = {3, 5, 4095, 65535, 65536, 65537, INT32_MAX, 1u << 31, UINT32_MAX - 3, UINT32_MAX};
    const struct door_result good = framed(1, 3, used_up(0, 0));
    struct door_result from;
    counting();
    (void)run(made(4, 0, 0));
    for (size_t i = 0; i < sizeof far / sizeof far[0]; i++) {
        from = good;
        from.base = far[i];
        expect_result("another base", go_on(made(4, 0, 0), from), refusal(14));
        from.top = far[i] + 3;
        expect_result("base and top moved", go_on(made(4, 0, 0), from), refusal(14));
        from = good;
        from.top = far[i];
        expect_result("another top", go_on(made(4, 0, 0), from), refusal(14));
        from = good;
        from.row = far[i];
        expect_result("another row", go_on(made(4, 0, 0), from), refusal(14));
    }
    expect_result("the state as it was", go_on(made(4, 0, 0), good), good);
}

/* How many cells a run needed: one less than these, and a call finds no room. */
static void marks(void) {
    calling(false);
    expect_result("before the call", run(made(9, 0, 0)), framed(0, 3, used_up(0, 0)));
    expect_result("in the call", run(made(9, 0, 1)), framed(3, 3, used_up(1, 2)));
    expect_result("after the call", run(made(9, 0, 2)), marked(6, framed(0, 3, used_up(2, 1))));
    expect_result("in just as many cells", run(made(6, 0, 9)), marked(6, framed(0, 3, finished(1, 3))));
    expect_result("in one less", run(made(5, 0, 9)), framed(0, 3, trapped(7, 0, 1)));
    trapping();
    expect_result("an argument that traps", run(made(9, 0, 9)), marked(8, framed(0, 3, trapped(5, 0, 1))));
    expect(store_of(9)[6] == 1 && untouched(8, 9), "the argument before it, and no cell from the mark on");
    expect_result("in just as many cells", run(made(8, 0, 9)), marked(8, framed(0, 3, trapped(5, 0, 1))));
    expect_result("in one less", run(made(7, 0, 9)), framed(0, 3, trapped(7, 0, 1)));
    expect(untouched(3, 7), "cells from the mark on");
    calling(true);
    for (uint32_t cells = 3; cells < 20; cells++) { /* as many frames of 3 as there is room for */
        const uint32_t base = cells / 3 * 3 - 3;
        expect_result("calls without end", run(made(cells, 0, 99)),
                      framed(base, 3, trapped(7, base > 0 ? 2 : 0, cells / 3)));
        expect(untouched(base + 3, cells), "cells from the mark on");
    }
    expect_result("calls without end in all cells", run(made(65536, 0, ALL_STEPS)),
                  framed(65532, 3, trapped(7, 2, 21845)));
}

/* The mark goes from slice to slice; question 14 takes any from the top to the store's length. */
static void marks_together(void) {
    static const uint32_t far[] = {0, 2, 10, 65535, 65536, 65537, INT32_MAX, 1u << 31, UINT32_MAX};
    struct door_result from;
    calling(false);
    from = run(made(9, 0, 2));
    expect_result("the last slice", go_on(made(9, 0, 9), from), marked(6, framed(0, 3, finished(1, 3))));
    expect_result("in as many cells as the mark", go_on(made(6, 0, 9), run(made(6, 0, 2))),
                  marked(6, framed(0, 3, finished(1, 3))));
    from = run(made(9, 0, 0));
    for (from.mark = 3; from.mark <= 9; from.mark++) {
        expect_result("no steps", go_on(made(9, 0, 0), from), from);
        (void)run(made(9, 0, 0));
        expect_result("the call", go_on(made(9, 0, 1), from),
                      marked(from.mark < 6 ? 6 : from.mark, framed(3, 3, used_up(1, 2))));
        (void)run(made(9, 0, 0));
    }
    for (size_t i = 0; i < sizeof far / sizeof far[0]; i++)
        expect_result("a mark below the top or beyond the store", go_on(made(9, 0, 0), marked(far[i], from)),
                      refusal(14));
    (void)run(made(8, 0, 0));
    expect_result("one cell less than the mark", go_on(made(8, 0, 1), marked(9, from)), refusal(14));
}

int main(int count, char **words) {
    const bool whole = count == 2 && strcmp(words[1], "--long") == 0;
    static const uint32_t few[] = {0, 1, 2, 3, 1000000};
    if (count > 1 && !whole) {
        fprintf(stderr, "usage: limits [--long]\n");
        return 2;
    }
    image_area = guarded(LONGEST);
    input_area = guarded(64);
    store_area = guarded(8 * (size_t)MOST_CELLS);
    output_area = guarded(64);
    for (side = 0; side < SIDES; side++) {
        image_lengths();
        store_lengths();
        nothing_lent();
        finishing_early();
        steps_together();
        lists_together();
        states_beyond();
        marks();
        marks_together();
        for (size_t i = 0; i < sizeof few / sizeof few[0]; i++)
            loops(few[i], false);
    }
    side = BEFORE_GUARD;
    loops(10000000, true);
    loops(100000000, true);
    if (whole)
        loops(ALL_STEPS, true);
    return expected_all("limits");
}
