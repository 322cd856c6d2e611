/* Changes of an image that leave most of its form: the tables are taken apart, a row is changed, inserted or removed,
 * and the tables are put together again with their counts and the length mended. Where rows move, what names them moves
 * along. Some changes keep each node named exactly once: an operator around a node, two names that change places, a new
 * statement with nodes of its own. So the questions after the ninth, and the run, are reached. */
#include <stdbool.h>

#include "builder.h"
#include "form.h"

size_t LLVMFuzzerMutate(uint8_t *data, size_t size, size_t most);

static const unsigned room[TABLES] = {64, 256, 256, 64, 2048, 1024};
static struct builder b;

/* ---- chance */

static uint64_t state;

static unsigned below(unsigned n) {
    state = state * 6364136223846793005u + 1442695040888963407u;
    return n ? (unsigned)((state >> 33) % n) : 0;
}

/* ---- rows */

enum { A = 1, B, C }; /* the three numbers of a row, which stand at bytes 2, 4 and 6 */

static uint8_t *row_at(int table, unsigned row) { return b.rows[table] + 8 * row; }
static unsigned kind_at(int table, unsigned row) { return row_at(table, row)[0]; }

static unsigned number(int table, unsigned row, int which) {
    const uint8_t *at = row_at(table, row) + 2 * which;
    return 256u * at[0] + at[1];
}

static void set_number(int table, unsigned row, int which, unsigned n) {
    uint8_t *at = row_at(table, row) + 2 * which;
    at[0] = (uint8_t)(n >> 8);
    at[1] = (uint8_t)n;
}

/* The table whose rows the number names, or -1. */
static int named_table(int table, unsigned kind, int which) {
    static const int8_t nodes[9][3] = {
        {TYPES, -1, -1},    {VARIABLES, -1, -1}, {NODES, -1, -1},        {NODES, NODES, -1}, {VARIABLES, TYPES, -1},
        {NODES, NODES, -1}, {NODES, -1, -1},     {VARIABLES, TYPES, -1}, {NODES, -1, -1},
    };
    static const int8_t statements[8][3] = {
        {NODES, NODES, -1}, {PROCEDURES, NODES, -1}, {NODES, STATEMENTS, -1}, {-1, STATEMENTS, -1},
        {-1, -1, -1},       {NODES, -1, -1},         {NODES, -1, -1},         {NODES, -1, -1},
    };
    if (table == NODES && kind < 9)
        return nodes[kind][which - A];
    if (table == STATEMENTS && kind < 8)
        return statements[kind][which - A];
    if (table == TYPES && kind == RECORD)
        return which == A ? TYPES : which == B ? FIELDS : -1;
    if (table == PROCEDURES)
        return which == A ? STATEMENTS : -1;
    return which == A && (table == VARIABLES || table == FIELDS || (table == TYPES && kind == ARRAY)) ? TYPES : -1;
}

/* A base is named by its row plus 1. */
static unsigned offset(int table, unsigned kind, int which) {
    return table == TYPES && kind == RECORD && which == A ? 1 : 0;
}

/* Whatever names a row of the table from `from` on names the row `by` further. */
static void move_names(int table, unsigned from, int by) {
    for (int t = 0; t < TABLES; t++)
        for (unsigned row = 0; row < b.count[t]; row++)
            for (int which = A; which <= C; which++) {
                const unsigned kind = kind_at(t, row), n = number(t, row, which);
                if (named_table(t, kind, which) == table && n >= from + offset(t, kind, which))
                    set_number(t, row, which, n + (unsigned)by);
            }
}

static void insert_row(int table, unsigned at, const uint8_t *row) {
    uint8_t copy[8];
    if (b.count[table] >= room[table])
        return;
    memcpy(copy, row, 8);
    memmove(row_at(table, at + 1), row_at(table, at), 8 * (b.count[table] - at));
    memcpy(row_at(table, at), copy, 8);
    b.count[table]++;
    move_names(table, at, 1);
}

static void remove_row(int table, unsigned at) {
    memmove(row_at(table, at), row_at(table, at + 1), 8 * (b.count[table] - at - 1));
    b.count[table]--;
    move_names(table, at + 1, -1);
}

/* ---- types, as far as an image that is well formed has them; NONE for all else */

enum { NONE = 0xffff };

static unsigned fields_of(unsigned type) {
    const unsigned base = number(TYPES, type, A);
    return number(TYPES, type, C) + (base > 0 && base <= type ? fields_of(base - 1) : 0);
}

static unsigned field_type(unsigned type, unsigned field) {
    const unsigned base = number(TYPES, type, A), inherited = base > 0 && base <= type ? fields_of(base - 1) : 0;
    const unsigned row = number(TYPES, type, B) + field - inherited;
    if (field < inherited)
        return field_type(base - 1, field);
    return row < b.count[FIELDS] ? number(FIELDS, row, A) : NONE;
}

static bool is_type(unsigned type, unsigned kind) { return type < b.count[TYPES] && kind_at(TYPES, type) == kind; }

static unsigned type_of(unsigned node) {
    const unsigned x = number(NODES, node, A), y = number(NODES, node, B), op = number(NODES, node, C);
    unsigned type;
    switch (kind_at(NODES, node)) {
    case CONSTANT:
        return x;
    case VARIABLE:
        return x < b.count[VARIABLES] ? number(VARIABLES, x, A) : NONE;
    case GUARD:
        return y;
    case TEST:
        return BOOLEAN;
    case DYADIC:
        return op == 16 ? SET : op >= 7 ? BOOLEAN : x < node ? type_of(x) : NONE;
    case FIELD:
        type = x < node ? type_of(x) : NONE;
        return is_type(type, RECORD) ? field_type(type, y) : NONE;
    case ELEMENT:
        type = x < node ? type_of(x) : NONE;
        return is_type(type, ARRAY) ? number(TYPES, type, A) : NONE;
    default:
        return x < node ? type_of(x) : NONE;
    }
}

/* ---- new nodes, behind the others; `p` is the procedure whose variables they may use */

static unsigned interesting(void) {
    static const uint16_t numbers[] = {0, 1, 2, 3, 4, 31, 32, 255, 256, 4095, 4096, 4097, 0x7fff, 0x8000, 0xffff};
    return numbers[below(sizeof numbers / sizeof numbers[0])];
}

static unsigned new_constant(unsigned type) {
    if (type == BOOLEAN || below(2))
        return add(&b, NODES, CONSTANT, type, 0, below(type == BOOLEAN ? 2 : 40));
    return add(&b, NODES, CONSTANT, type, interesting(), interesting());
}

/* The first variable of a procedure; of procedure 0, the first that is no global. */
static unsigned first_own(unsigned p) {
    unsigned first = 0;
    while (first < b.count[VARIABLES] && kind_at(VARIABLES, first) == GLOBAL)
        first++;
    for (unsigned q = 0; q < p; q++)
        first += number(PROCEDURES, q, B) + number(PROCEDURES, q, C);
    return first;
}

static unsigned visible_variable(unsigned p) {
    const unsigned globals = first_own(0), own = number(PROCEDURES, p, B) + number(PROCEDURES, p, C);
    return globals == 0 || (own > 0 && below(2)) ? first_own(p) + below(own) : below(globals);
}

/* An operator that takes and gives the type, mostly. */
static unsigned operator_for(unsigned type, bool dyadic) {
    static const uint8_t of_sets[] = {1, 2, 3, 6};
    if (!dyadic)
        return type == BOOLEAN ? 2 : 1;
    return below(16) == 0    ? 1 + below(16)
           : type == BOOLEAN ? 13 + below(2)
           : type == SET     ? of_sets[below(4)]
                             : 1 + below(5);
}

static unsigned new_expression(unsigned type, unsigned p, unsigned depth);

/* A designator of the type, or NONE where chance finds none. */
static unsigned new_designator(unsigned type, unsigned p, unsigned depth) {
    for (int tries = 0; tries < 8; tries++) {
        const unsigned before = b.count[NODES], v = visible_variable(p);
        const bool guard = v < b.count[VARIABLES] && kind_at(VARIABLES, v) == VAR && below(3) == 0;
        unsigned node = add(&b, NODES, guard ? GUARD : VARIABLE, v, guard ? below(b.count[TYPES]) : 0, 0);
        for (int down = 0; down < 3 && type_of(node) != type; down++) {
            const unsigned whole = type_of(node);
            if (is_type(whole, ARRAY)) {
                const unsigned index = depth == 0 ? new_constant(INTEGER) : new_expression(INTEGER, p, depth - 1);
                node = add(&b, NODES, ELEMENT, node, index, 0);
            } else if (is_type(whole, RECORD)) {
                node = add(&b, NODES, FIELD, node, below(fields_of(whole)), 0);
            }
        }
        if (type_of(node) == type)
            return node;
        b.count[NODES] = before;
    }
    return NONE;
}

static unsigned new_number(uint32_t n) { return add(&b, NODES, CONSTANT, INTEGER, n >> 16, n & 0xffff); }

/* A constant for IN: mostly an element, 0 to 31. */
static unsigned new_element(void) {
    static const uint32_t outside[] = {32, 33, INT32_MAX, 0x80000000, UINT32_MAX};
    return new_number(below(8) ? below(32) : outside[below(sizeof outside / sizeof outside[0])]);
}

/* A constant for a divisor: mostly small, and as often negative as positive; else -1, 0 or one at the edges. */
static unsigned new_divisor(void) {
    static const uint32_t others[] = {UINT32_MAX, 0, 0x80000000, 0x80000001, INT32_MAX};
    const uint32_t small = 1 + below(9);
    return new_number(below(4) == 0 ? others[below(sizeof others / sizeof others[0])] : below(2) ? small : 0 - small);
}

/* A constant for a dividend: the least INTEGER, whose quotient by -1 overflows. */
static unsigned new_dividend(void) { return new_number(0x80000000); }

/* DIV or MOD. */
static bool divides(unsigned type, unsigned op) { return type == INTEGER && (op == 4 || op == 5); }

static unsigned new_dyadic(unsigned type, unsigned p, unsigned depth) {
    const unsigned choice = below(8);
    const bool compares = type == BOOLEAN && choice < 4, in = type == BOOLEAN && choice == 4;
    const bool range = type == SET && choice == 0;
    const unsigned op = range ? 16 : in ? 15 : compares ? 7 + below(6) : operator_for(type, true);
    const unsigned left = compares || range || in ? INTEGER : type;
    const unsigned right = compares || range ? INTEGER : in ? SET : type;
    const unsigned x = in && below(4)                       ? new_element()
                       : divides(type, op) && below(8) == 0 ? new_dividend()
                                                            : new_expression(left, p, depth - 1);
    const unsigned y = divides(type, op) && below(4) ? new_divisor() : new_expression(right, p, depth - 1);
    return add(&b, NODES, DYADIC, x, y, op);
}

static unsigned new_expression(unsigned type, unsigned p, unsigned depth) {
    const unsigned designator = below(2) ? new_designator(type, p, depth) : NONE;
    if (designator != NONE || type > SET)
        return designator != NONE ? designator : new_designator(type, p, 0);
    if (depth == 0)
        return new_constant(type);
    if (type == BOOLEAN && below(8) == 0)
        return add(&b, NODES, TEST, visible_variable(p), below(b.count[TYPES]), 0);
    if (below(4) == 0) {
        const unsigned x = new_expression(type, p, depth - 1);
        return add(&b, NODES, MONADIC, x, 0, type == BOOLEAN ? 2 : 1);
    }
    return new_dyadic(type, p, depth);
}

/* ---- changes */

/* Whether the number has a use, other than to name a node, which would then have two names or none. */
static bool free_number(int table, unsigned kind, int which) {
    const int named = named_table(table, kind, which);
    if (table == NODES)
        return (kind == CONSTANT && which != A) || (kind == FIELD && which == B) ||
               ((kind == DYADIC || kind == MONADIC) && which == C) || (named >= 0 && named != NODES);
    return named >= 0 ? named != NODES : (table == TYPES && kind == ARRAY && which == B) || table == PROCEDURES;
}

static void change_number(int table, unsigned row, bool any) {
    const unsigned kind = kind_at(table, row);
    const int which = A + (int)below(3), named = named_table(table, kind, which);
    if (!any && !free_number(table, kind, which))
        return;
    switch (below(4)) {
    case 0:
        set_number(table, row, which, number(table, row, which) + (below(2) ? 1u : 0xffffu));
        break;
    case 1:
        set_number(table, row, which, interesting());
        break;
    default:
        set_number(table, row, which,
                   named >= 0 ? below(b.count[named]) + offset(table, kind, which) : below(table == NODES ? 17 : 9));
    }
}

static void change_kind(int table, unsigned row) {
    static const unsigned kinds[TABLES] = {5, 1, 4, 1, 9, 8};
    row_at(table, row)[0] = (uint8_t)below(kinds[table] + (below(16) == 0));
}

/* Two numbers of two rows that name the same table change places. */
static void swap_names(int table, unsigned row) {
    const unsigned other = below(b.count[table]);
    const int which = A + (int)below(2), there = A + (int)below(2);
    const int named = named_table(table, kind_at(table, row), which);
    if (named >= 0 && named == named_table(table, kind_at(table, other), there)) {
        const unsigned n = number(table, row, which);
        set_number(table, row, which, number(table, other, there));
        set_number(table, other, there, n);
    }
}

/* The procedure in whose body the statement stands. */
static unsigned procedure_of(unsigned statement) {
    unsigned p = 0;
    while (p + 1 < b.count[PROCEDURES] && number(PROCEDURES, p + 1, A) <= statement)
        p++;
    return p;
}

/* An operator around a node: what named the node names the operator. A dyadic one has a constant before the node as its
 * other operand. */
static void wrap(unsigned node) {
    const unsigned type = type_of(node);
    const bool dyadic = below(4) != 0, first = below(2);
    const unsigned op = operator_for(type, dyadic);
    uint8_t row[8];
    if (kind_at(NODES, node) == ARGUMENT || type > SET || b.count[NODES] + 3 > room[NODES])
        return;
    if (dyadic) {
        const bool other = divides(type, op) && below(4);
        const unsigned constant = !other ? new_constant(type) : first ? new_dividend() : new_divisor();
        memcpy(row, row_at(NODES, constant), 8);
        b.count[NODES]--;
        insert_row(NODES, node, row);
        node++;
    }
    memcpy(row, row_at(NODES, node), 8);
    insert_row(NODES, node, row); /* what named the node names the row behind this copy of it: the operator */
    if (dyadic)
        set_row(row, DYADIC, first ? node - 1 : node, first ? node : node - 1, op);
    else
        set_row(row, MONADIC, node, 0, op);
    memcpy(row_at(NODES, node + 1), row, 8);
}

/* The arguments of a call: the first row, or NONE. */
static unsigned new_arguments(unsigned p, unsigned called) {
    const unsigned count = number(PROCEDURES, called, B), first = first_own(called);
    unsigned operands[4], argument = NONE;
    if (count > 4 || first + count > b.count[VARIABLES])
        return NONE;
    for (unsigned i = 0; i < count; i++) {
        const unsigned type = number(VARIABLES, first + i, A);
        const bool by_name = kind_at(VARIABLES, first + i) == VAR;
        operands[i] = by_name ? new_designator(type, p, 1) : new_expression(type, p, 1);
        if (operands[i] == NONE)
            return NONE;
    }
    for (unsigned i = 0; i < count; i++) {
        const unsigned row = add(&b, NODES, ARGUMENT, operands[i], 0, 0);
        argument = i == 0 ? row : argument;
    }
    return argument;
}

/* A statement behind another of the same body, with nodes of its own. */
static void new_statement(unsigned behind) {
    const unsigned p = procedure_of(behind), start = number(PROCEDURES, p, A), before = b.count[NODES];
    const unsigned end = p + 1 < b.count[PROCEDURES] ? number(PROCEDURES, p + 1, A) : b.count[STATEMENTS];
    const unsigned kind = below(8), type = below(4) ? below(3) : below(b.count[TYPES]);
    const unsigned target = start + below(end - start + 1), called = 1 + below(b.count[PROCEDURES] - 1);
    unsigned x = 0, y = 0;
    uint8_t row[8];
    if (behind + 1 >= end || before + 256 > room[NODES])
        return;
    switch (kind) {
    case ASSIGN:
        x = new_designator(type, p, 2);
        y = new_expression(type, p, below(4));
        break;
    case CALL:
        if (called >= b.count[PROCEDURES])
            return;
        x = called;
        y = number(PROCEDURES, called, B) ? new_arguments(p, called) : 0;
        break;
    case UNLESS:
        x = new_expression(BOOLEAN, p, below(4));
        y = target;
        break;
    case GO:
        y = target;
        break;
    case READ:
        x = new_designator(INTEGER, p, 2);
        break;
    case WRITE:
        x = new_expression(INTEGER, p, below(4));
        break;
    case HALT:
        x = new_constant(INTEGER);
        break;
    }
    if (x == NONE || y == NONE) {
        b.count[NODES] = before;
        return;
    }
    set_row(row, kind, x, y, 0);
    insert_row(STATEMENTS, behind + 1, row);
}

/* A type, a global, or a procedure that returns at once: behind the others, where they break no rule. */
static void new_declaration(void) {
    const unsigned type = below(b.count[TYPES]), next = b.count[FIELDS], count = below(3);
    uint8_t row[8];
    switch (below(4)) {
    case 0:
        if (b.count[TYPES] < room[TYPES])
            add(&b, TYPES, ARRAY, type, 1 + below(5), 0);
        break;
    case 1:
        if (b.count[TYPES] >= room[TYPES] || next + count > room[FIELDS])
            return;
        for (unsigned i = 0; i < count; i++)
            add(&b, FIELDS, 0, below(b.count[TYPES]), 0, 0);
        add(&b, TYPES, RECORD, is_type(type, RECORD) ? type + 1 : 0, next, count);
        break;
    case 2:
        set_row(row, GLOBAL, type, 0, 0);
        insert_row(VARIABLES, first_own(0), row);
        break;
    default:
        if (b.count[PROCEDURES] >= room[PROCEDURES] || b.count[VARIABLES] + 3 > room[VARIABLES] ||
            b.count[STATEMENTS] >= room[STATEMENTS])
            return;
        for (unsigned i = 0; i < count; i++)
            add(&b, VARIABLES, below(2) ? VALUE : VAR, below(b.count[TYPES]), 0, 0);
        add(&b, VARIABLES, LOCAL, type, 0, 0);
        add(&b, PROCEDURES, 0, b.count[STATEMENTS], count, 1);
        add(&b, STATEMENTS, RETURN, 0, 0, 0);
    }
}

/* A change of a row that asks for nothing: most break a rule. */
static void change_row(int table, unsigned row) {
    switch (below(5)) {
    case 0:
        change_kind(table, row);
        break;
    case 1:
        insert_row(table, row, row_at(table, below(b.count[table])));
        break;
    case 2:
        insert_row(table, row + 1, row_at(table, row));
        break;
    case 3:
        remove_row(table, row);
        break;
    default:
        change_number(table, row, true);
    }
}

static void change_image(void) {
    static const uint8_t likely[] = {TYPES, FIELDS, VARIABLES, PROCEDURES, NODES, NODES, NODES, STATEMENTS, STATEMENTS};
    const int table = likely[below(sizeof likely)];
    const unsigned row = below(b.count[table]), choice = below(16);
    if (b.count[TYPES] < 3 || b.count[PROCEDURES] == 0 || b.count[STATEMENTS] == 0)
        begin(&b);
    else if (choice < 4)
        new_statement(below(b.count[STATEMENTS]));
    else if (choice < 5)
        new_declaration();
    else if (b.count[table] == 0)
        return;
    else if (choice < 8 && b.count[NODES] > 0)
        wrap(below(b.count[NODES]));
    else if (choice < 10)
        swap_names(table, row);
    else if (choice < 14)
        change_number(table, row, false);
    else
        change_row(table, row);
}

/* Takes an image apart, as far as its counts and bytes go. */
static void take_apart(const uint8_t *image, size_t length) {
    size_t at = 5;
    for (int t = 0; t < TABLES; t++) {
        const size_t left = at + 2 <= length ? (length - at - 2) / 8 : 0;
        size_t count = at + 2 <= length ? 256u * image[at] + image[at + 1] : 0;
        count = count < left ? count : left;
        count = count < room[t] ? count : room[t];
        b.count[t] = (unsigned)count;
        if (count > 0)
            memcpy(b.rows[t], image + at + 2, 8 * count);
        at += 2 + 8 * count;
    }
}

static size_t length_of(void) {
    size_t length = 5;
    for (int t = 0; t < TABLES; t++)
        length += 2 + 8 * (size_t)b.count[t];
    return length;
}

/* Changes what is lent with the image; the number of inputs stays, since the image stands behind them. */
static void change_head(uint8_t *data, size_t head) {
    const uint8_t inputs = data[INPUTS];
    if (below(2))
        data[below(HEAD)] = (uint8_t)below(256);
    else
        LLVMFuzzerMutate(data, head, head);
    data[INPUTS] = inputs;
}

size_t LLVMFuzzerCustomMutator(uint8_t *data, size_t size, size_t most, unsigned seed) {
    const size_t head = head_of(data, size);
    state = seed;
    below(1);
    if (size < HEAD || below(16) == 0)
        return LLVMFuzzerMutate(data, size, most);
    if (below(4) == 0) {
        change_head(data, head);
        return size;
    }
    take_apart(data + head, size - head);
    for (unsigned changes = 1 + below(2); changes > 0; changes--)
        change_image();
    if (head + length_of() > most)
        return LLVMFuzzerMutate(data, size, most);
    return head + bytes(&b, data + head);
}
