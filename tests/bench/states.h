/* States to continue from that are costly to ask about: each an image, a store and the result that stands for it. Some
 * are what a program leaves that calls itself until the store is full, others are written cell by cell.
 *
 * A costly state has many frames, many VAR parameters in them, and many variables or fields that hold no cells but are
 * looked at; deep-values costs stack. At most there are 64 types, 256 fields, 256 variables and 65,536 cells. */
#ifndef STATES_H
#define STATES_H

#include <stdio.h>
#include <stdlib.h>

#include "builder.h"
#include "door.h"

enum { MOST_TYPES = 64, MOST_STATE = 65536 };

struct state {
    uint8_t image[LONGEST];
    size_t length, cells;
    int64_t store[MOST_STATE];
    struct door_result from;
};

static struct builder b;

_Noreturn static void wrong(const char *what) {
    fprintf(stderr, "states: %s\n", what);
    exit(2);
}

/* ---- parts of images */

static unsigned record(unsigned base_plus_1, unsigned own) {
    return add(&b, TYPES, RECORD, base_plus_1, b.count[FIELDS] - own, own);
}
static void field(unsigned type) { add(&b, FIELDS, 0, type, 0, 0); }
static unsigned global(unsigned type) { return add(&b, VARIABLES, GLOBAL, type, 0, 0); }
static unsigned variable(unsigned v) { return add(&b, NODES, VARIABLE, v, 0, 0); }

/* So many variables of a kind: the first row. */
static unsigned variables(unsigned kind, unsigned type, unsigned count) {
    const unsigned first = b.count[VARIABLES];
    while (count-- > 0)
        add(&b, VARIABLES, kind, type, 0, 0);
    return first;
}

/* A procedure with the variables that come next, its body beginning at the next statement: its row. */
static unsigned procedure(unsigned parameters, unsigned locals) {
    return add(&b, PROCEDURES, 0, b.count[STATEMENTS], parameters, locals);
}

/* A call with these variables as arguments; of `same`, where it is set, each time the first. */
static void call(unsigned q, unsigned first, unsigned count, int same) {
    const unsigned held = b.count[NODES];
    for (unsigned i = 0; i < count; i++)
        variable(same ? first : first + i);
    for (unsigned i = 0; i < count; i++)
        add(&b, NODES, ARGUMENT, held + i, 0, 0);
    add(&b, STATEMENTS, CALL, q, count > 0 ? held + count : 0, 0);
}

static void give_back(void) { add(&b, STATEMENTS, RETURN, 0, 0, 0); }

/* A procedure with `count` parameters and with locals, which calls itself with its own parameters. */
static void recursive(unsigned kind, unsigned type, unsigned count, unsigned local, unsigned locals) {
    const unsigned first = variables(kind, type, count);
    unsigned q;
    variables(LOCAL, local, locals);
    q = procedure(count, locals);
    call(q, first, count, 0);
    give_back();
}

/* The same with VAR parameters alone. */
static void recursive_var(unsigned type, unsigned count) { recursive(VAR, type, count, 0, 0); }

/* Procedure 1 is recursive; the module body calls it with `count` times variable `v`. */
static void calling_itself(unsigned v, unsigned kind, unsigned type, unsigned count, unsigned local, unsigned locals) {
    call(1, v, count, 1);
    give_back();
    recursive(kind, type, count, local, locals);
}

/* A call with one argument. */
static void call_with(unsigned q, unsigned node) {
    add(&b, STATEMENTS, CALL, q, add(&b, NODES, ARGUMENT, node, 0, 0), 0);
}

/* Procedure 2 is recursive, with VAR parameters; all of them name what the module body hands to procedure 1. */
static void naming(unsigned node, unsigned type, unsigned count) {
    unsigned first;
    call_with(1, node);
    give_back();
    first = variables(VAR, type, 1);
    procedure(1, 0);
    call(2, first, count, 1);
    give_back();
    recursive_var(type, count);
}

/* Extensions of record r, each with four fields of type e, until there are so many types: the last. */
static unsigned extended(unsigned r, unsigned e, unsigned types) {
    while (b.count[TYPES] < types) {
        field(e), field(e), field(e), field(e);
        r = record(r + 1, 4);
    }
    return r;
}

/* ---- states */

/* The state in which a call does not fit any more: that of the trap, with its outcome put back to 0. */
static void run_full(struct state *s, size_t cells) {
    static const int32_t none[1];
    static int32_t output[1];
    s->length = bytes(&b, s->image);
    s->cells = cells;
    s->from = door_run(s->image, s->length, none, 0, s->store, cells, output, 0, UINT32_MAX);
    if (s->from.refusal != 0 || s->from.trap != DOOR_TRAP_FRAME)
        wrong("the store does not get full");
    s->from.outcome = s->from.trap = 0;
}

/* A record without cells. */
static unsigned empty(void) { return record(0, 0); }

/* P(VAR a, b): both always name variables of the oldest frame. */
static void oldest(struct state *s, size_t cells) {
    unsigned r;
    begin(&b);
    field(INTEGER), field(SET);
    r = record(0, 2);
    b.rows[PROCEDURES][7] = 2; /* procedure 0 has two locals */
    call(1, 0, 2, 0);
    give_back();
    variables(LOCAL, r, 2);
    recursive_var(r, 2);
    run_full(s, cells);
}

/* 255 VAR parameters a frame, which name a global */
static void parameters(struct state *s, size_t cells) {
    begin(&b);
    calling_itself(global(INTEGER), VAR, INTEGER, 255, 0, 0);
    run_full(s, cells);
}

/* Value parameters and locals of a record with a BOOLEAN and an INTEGER */
static void values(struct state *s, size_t cells) {
    unsigned r;
    begin(&b);
    field(BOOLEAN), field(INTEGER);
    r = record(0, 2);
    calling_itself(global(r), VALUE, r, 4, r, 4);
    run_full(s, cells);
}

/* Arrays of arrays of records as value parameters, 513 cells a frame with the links */
static void arrays(struct state *s, size_t cells) {
    unsigned r;
    begin(&b);
    field(BOOLEAN), field(INTEGER), field(SET);
    r = record(0, 3);
    r = add(&b, TYPES, ARRAY, r, 2, 0);
    r = add(&b, TYPES, ARRAY, r, 5, 0);
    r = add(&b, TYPES, ARRAY, r, 17, 0);
    calling_itself(global(r), VALUE, r, 1, 0, 0);
    run_full(s, cells);
}

/* Records nested as deep as types can be, each with a BOOLEAN before the next, so that none has cells of one kind: the
 * values are read by calls that are nested as deep. Bases in place of fields need the same stack. */
static void deep_values(struct state *s, size_t cells) {
    unsigned r;
    begin(&b);
    field(BOOLEAN), field(INTEGER);
    r = record(0, 2);
    while (b.count[TYPES] < MOST_TYPES) {
        field(BOOLEAN), field(r);
        r = record(0, 2);
    }
    calling_itself(global(r), VALUE, r, 1, 0, 0);
    run_full(s, cells);
}

/* Arrays of records with a cell at each end and 254 fields between them that have none */
static void empty_fields(struct state *s, size_t cells) {
    unsigned e, r;
    begin(&b);
    e = empty();
    field(BOOLEAN);
    for (int i = 0; i < 254; i++)
        field(e);
    field(INTEGER);
    r = record(0, 256);
    r = add(&b, TYPES, ARRAY, r, 254, 0);
    calling_itself(global(r), VALUE, r, 1, 0, 0);
    run_full(s, cells);
}

/* Frames of three cells, with 256 locals that have none */
static void empty_locals(struct state *s, size_t cells) {
    unsigned e;
    begin(&b);
    e = empty();
    calling_itself(0, VALUE, 0, 0, e, 256);
    run_full(s, cells);
}

/* The same, and one that has a cell, behind the others */
static void one_cell(struct state *s, size_t cells) {
    unsigned e;
    begin(&b);
    e = empty();
    calling_itself(0, VALUE, 0, 0, e, 255);
    add(&b, VARIABLES, LOCAL, BOOLEAN, 0, 0);
    b.rows[PROCEDURES][8 + 6] = 1; /* procedure 1 has 256 locals */
    b.rows[PROCEDURES][8 + 7] = 0;
    run_full(s, cells);
}

/* 18 VAR parameters a frame that name the last of 237 globals, all without cells, which begin at one place */
static void empty_globals(struct state *s, size_t cells) {
    unsigned e, named;
    begin(&b);
    e = empty();
    named = empty();
    variables(GLOBAL, e, 236);
    calling_itself(global(named), VAR, named, 18, 0, 0);
    run_full(s, cells);
}

/* The result of a run that stands before a statement, and never needed more cells than now. */
static struct door_result standing(unsigned row, unsigned base, unsigned room) {
    return (struct door_result){.row = row, .base = base, .top = base + room, .mark = base + room};
}

/* What a procedure with locals, whose `held` cells begin `globals` + 6 cells into the store, leads to: it calls frames
 * of three cells, `small` of them, and the last of these frames with `count` VAR parameters, which call themselves. All
 * of these name an object of this type among the locals. Only the first call's arguments are a global, g: the cells are
 * then written to name the object. */
static void named_below(struct state *s, size_t cells, unsigned g, unsigned globals, unsigned locals, unsigned held,
                        unsigned small, unsigned address, unsigned type, unsigned count) {
    enum { BODY, HOLDER, SMALL, NAMER };
    static const unsigned calls[] = {0, 2, 4, 7};
    const unsigned rooms[] = {3, 3 + held, 3, 3 + 2 * count};
    unsigned caller = BODY;
    call(HOLDER, 0, 0, 0);
    give_back();
    procedure(0, locals);
    call(SMALL, 0, 0, 0);
    give_back();
    procedure(0, 0);
    call(SMALL, 0, 0, 0);
    call(NAMER, g, count, 1);
    give_back();
    recursive_var(type, count);
    s->length = bytes(&b, s->image);
    s->cells = cells;
    memset(s->store, 0, sizeof s->store); /* the links of the module body's frame */
    s->from = standing(calls[BODY], globals, rooms[BODY]);
    for (unsigned frame = 1;; frame++) {
        const unsigned q = frame == 1 ? HOLDER : frame <= 1 + small ? SMALL : NAMER, base = s->from.top;
        if (base + rooms[q] > cells)
            break;
        s->store[base] = caller;
        s->store[base + 1] = calls[caller] + (caller == SMALL && q == NAMER ? 2 : 1);
        s->store[base + 2] = s->from.base;
        for (unsigned i = 0; q == NAMER && i < count; i++) {
            s->store[base + 3 + 2 * i] = address;
            s->store[base + 4 + 2 * i] = type;
        }
        s->from = standing(calls[q], base, rooms[q]);
        caller = q;
    }
}

/* The same of 237 locals of an older frame, which is not the newest of its block of cells */
static void empty_below(struct state *s, size_t cells) {
    unsigned e, named, g;
    begin(&b);
    e = empty();
    named = empty();
    g = global(named);
    variables(LOCAL, e, 236);
    variables(LOCAL, named, 1);
    named_below(s, cells, g, 0, 237, 0, 20, 6, named, 9);
}

/* 60 types, each with the one before it behind three fields without cells; 250 VAR parameters a frame name a cell of
 * the innermost */
static void deep_fields(struct state *s, size_t cells) {
    unsigned e, r, node;
    begin(&b);
    e = empty();
    field(INTEGER), field(INTEGER);
    r = record(0, 2);
    while (b.count[TYPES] < MOST_TYPES) {
        field(e), field(e), field(e), field(r);
        r = record(0, 4);
    }
    node = variable(global(r));
    for (int i = 0; i < 59; i++)
        node = add(&b, NODES, FIELD, node, 3, 0);
    naming(add(&b, NODES, FIELD, node, 1, 0), INTEGER, 250);
    run_full(s, cells);
}

/* A chain of 60 bases, each with four fields without cells; 250 VAR parameters a frame name an object at the end of the
 * first of them, which is a field of the last */
static void deep_bases(struct state *s, size_t cells) {
    unsigned e, named, r;
    begin(&b);
    e = empty();
    named = empty();
    field(INTEGER), field(named);
    r = extended(record(0, 2), e, MOST_TYPES);
    naming(add(&b, NODES, FIELD, variable(global(r)), 1, 0), named, 250);
    run_full(s, cells);
}

/* A chain of 60 bases whose 256 fields have no cells, frames of 5 cells, each with 254
 * locals of its last record, and a VAR parameter that names the last of them in the frame before */
static void worst(struct state *s, size_t cells) {
    unsigned e, r, named, first;
    begin(&b);
    e = empty();
    r = extended(e, e, MOST_TYPES - 1);
    named = empty();
    call(1, global(named), 1, 1);
    give_back();
    first = variables(VAR, named, 1);
    variables(LOCAL, r, 253);
    variables(LOCAL, named, 1);
    procedure(1, 254);
    call_with(1, variable(first + 254));
    give_back();
    run_full(s, cells);
}

/* The same with frames of three cells and no VAR parameters */
static void worst_locals(struct state *s, size_t cells) {
    unsigned e;
    begin(&b);
    e = empty();
    calling_itself(0, VALUE, 0, 0, extended(e, e, MOST_TYPES), 256);
    run_full(s, cells);
}

/* Records within records, as deep as there are types, with a base without cells at each level; the field that leads on
 * comes last, behind others with a cell each, and all fields that there can be are used. `own` has how many fields each
 * level has, from the innermost on: the outermost record. */
static unsigned nested(unsigned own[MOST_TYPES], unsigned *levels) {
    const unsigned base = empty();
    unsigned r;
    field(INTEGER), field(INTEGER);
    r = record(base + 1, own[0] = 2);
    for (*levels = 1; b.count[TYPES] < MOST_TYPES; ++*levels) {
        own[*levels] = (256 - b.count[FIELDS]) / (MOST_TYPES - b.count[TYPES]);
        for (unsigned i = 0; i + 1 < own[*levels]; i++)
            field(INTEGER);
        field(r);
        r = record(base + 1, own[*levels]);
    }
    return r;
}

/* As deep-fields, in such a record, with 253 VAR parameters a frame */
static void deep_worst(struct state *s, size_t cells) {
    unsigned node, levels, own[MOST_TYPES];
    begin(&b);
    node = variable(global(nested(own, &levels)));
    while (levels > 0)
        node = add(&b, NODES, FIELD, node, own[--levels] - 1, 0);
    naming(node, INTEGER, 253);
    run_full(s, cells);
}

/* The costliest that we know: the same in a local of an older frame. The named cell is the first of its block of cells,
 * and many frames begin behind it in that block. 120 VAR parameters a frame leave room for the globals before. */
static void deep_below(struct state *s, size_t cells) {
    enum { BLOCK = 64, NAMED = 4 * BLOCK + 1 };
    unsigned r, g, levels, held, globals, own[MOST_TYPES];
    begin(&b);
    r = nested(own, &levels);
    held = b.count[FIELDS] - (levels - 1);
    globals = NAMED + 1 - held - 6;
    g = variables(GLOBAL, INTEGER, globals);
    variables(LOCAL, r, 1);
    named_below(s, cells, g, globals, 1, held, BLOCK / 3, NAMED, INTEGER, 120);
}

static const struct {
    const char *name;
    void (*make)(struct state *s, size_t cells);
} states[] = {
    {"oldest", oldest},
    {"parameters", parameters},
    {"values", values},
    {"arrays", arrays},
    {"deep-values", deep_values},
    {"empty-fields", empty_fields},
    {"empty-locals", empty_locals},
    {"one-cell", one_cell},
    {"empty-globals", empty_globals},
    {"empty-below", empty_below},
    {"deep-fields", deep_fields},
    {"deep-worst", deep_worst},
    {"deep-below", deep_below},
    {"deep-bases", deep_bases},
    {"worst", worst},
    {"worst-locals", worst_locals},
};
enum { STATES = sizeof states / sizeof states[0] };

#endif
