/* Calls of door.h whose answers are stored: cases FILE...
 *
 * vectors/requests/README.txt has the form of a file. Each call is made twice, with all that is lent directly behind a
 * page that cannot be touched and directly before one; image and input cannot be written meanwhile. Every number, cell
 * and output place is compared. */
#define _GNU_SOURCE
#include <errno.h>
#include <string.h>

#include "builder.h"
#include "guarded.h"
#include "result.h"

enum { MOST_CELLS = 70000, MOST_NUMBERS = 70000, FIELDS_OF_RESULT = 12, LONGEST_LINE = 1 << 20 };

/* What is lent, as the last call left it. */
static struct {
    uint8_t image[LONGEST + 1];
    int32_t input[MOST_NUMBERS], output[MOST_NUMBERS];
    int64_t store[MOST_CELLS];
    size_t length, inputs, cells, places;
    uint32_t steps;
    struct door_result from;
} lent;

/* What the last call should have given, and has. */
static struct {
    bool called;
    struct door_result result, got;
    int64_t store[MOST_CELLS];
    int32_t output[MOST_NUMBERS];
} expected;

static struct guarded image_area, input_area, store_area, output_area;
static const char *file_name;
static char name[256];
static unsigned line_number, same, different;
static size_t fields; /* of each result in the file, as its first one has; 0 before that */

static void broken(const char *what) {
    fprintf(stderr, "cases: %s: line %u: %s\n", file_name, line_number, what);
    exit(2);
}

/* ---- what a line has */

/* A count may have all 64 bits; it is then negative here. */
static long long number_of(const char **at) {
    char *end;
    long long number;
    errno = 0;
    number = **at == '-' ? strtoll(*at, &end, 10) : (long long)strtoull(*at, &end, 10);
    if (end == *at || errno != 0)
        broken("not a number");
    *at = end;
    return number;
}

/* The numbers of a list, V*N being N times V; returns how many there are, at most `most`. */
static size_t list_of(const char *at, long long *numbers, size_t most) {
    size_t count = 0;
    for (;;) {
        long long number, times = 1;
        at += strspn(at, " ");
        if (*at == '\0')
            return count;
        number = number_of(&at);
        if (*at == '*') {
            at++;
            times = number_of(&at);
        }
        for (; times > 0; times--) {
            if (count == most)
                broken("too many numbers");
            numbers[count++] = number;
        }
    }
}

static long long list[MOST_NUMBERS];

static size_t cells_of(const char *at, int64_t *cells) {
    const size_t count = list_of(at, list, MOST_CELLS);
    for (size_t i = 0; i < count; i++)
        cells[i] = list[i];
    return count;
}

static size_t places_of(const char *at, int32_t *places) {
    const size_t count = list_of(at, list, MOST_NUMBERS);
    for (size_t i = 0; i < count; i++) {
        if (list[i] < INT32_MIN || list[i] > INT32_MAX)
            broken("more than 32 bits");
        places[i] = (int32_t)list[i];
    }
    return count;
}

static uint32_t word(long long number) {
    if (number < 0 || number > UINT32_MAX)
        broken("more than 32 bits");
    return (uint32_t)number;
}

/* In the order of the file. A result without its last number, the mark, gets the lowest that it may have. */
static struct door_result result_of(const char *at) {
    long long n[FIELDS_OF_RESULT];
    const size_t there = list_of(at, n, FIELDS_OF_RESULT);
    if (there < FIELDS_OF_RESULT - 1 || (fields > 0 && there != fields))
        broken("another number of fields");
    fields = there;
    if (fields < FIELDS_OF_RESULT)
        n[11] = n[10];
    return (struct door_result){.refusal = word(n[0]),
                                .fault = word(n[1]),
                                .outcome = word(n[2]),
                                .trap = word(n[3]),
                                .halt = (int32_t)n[4],
                                .row = word(n[5]),
                                .steps = word(n[6]),
                                .read = (uint64_t)n[7],
                                .written = (uint64_t)n[8],
                                .base = word(n[9]),
                                .top = word(n[10]),
                                .mark = word(n[11])};
}

static void take_image(const char *hex) {
    unsigned byte;
    for (lent.length = 0; sscanf(hex, "%2x", &byte) == 1; hex += 2) {
        if (lent.length > LONGEST)
            broken("an image that is too long");
        lent.image[lent.length++] = (uint8_t)byte;
    }
}

/* ---- calls */

static struct door_result call_on(enum side side, bool fresh, int64_t *store, int32_t *output) {
    uint8_t *image = beside(image_area, side, lent.length);
    int32_t *input = beside(input_area, side, 4 * lent.inputs), *places = beside(output_area, side, 4 * lent.places);
    int64_t *cells = beside(store_area, side, 8 * lent.cells);
    struct door_result result;
    protect(image_area, PROT_READ | PROT_WRITE);
    protect(input_area, PROT_READ | PROT_WRITE);
    memcpy(image, lent.image, lent.length);
    memcpy(input, lent.input, 4 * lent.inputs);
    memcpy(cells, lent.store, 8 * lent.cells);
    memcpy(places, lent.output, 4 * lent.places);
    protect(image_area, PROT_READ);
    protect(input_area, PROT_READ);
    if (fresh)
        result = door_run(image, lent.length, input, lent.inputs, cells, lent.cells, places, lent.places, lent.steps);
    else
        result = door_continue(image, lent.length, input, lent.inputs, cells, lent.cells, places, lent.places,
                               lent.steps, lent.from);
    memcpy(store, cells, 8 * lent.cells);
    memcpy(output, places, 4 * lent.places);
    return result;
}

static void call(const char *which) {
    static int64_t store[MOST_CELLS];
    static int32_t output[MOST_NUMBERS];
    const bool fresh = strcmp(which, "run") == 0;
    struct door_result other;
    if (!fresh && strcmp(which, "continue") != 0)
        broken("a call that is not known");
    memcpy(expected.store, lent.store, 8 * lent.cells);
    memcpy(expected.output, lent.output, 4 * lent.places);
    other = call_on(BEHIND_GUARD, fresh, store, output);
    expected.got = call_on(BEFORE_GUARD, fresh, lent.store, lent.output);
    expected.called = true;
    if (!same_result(other, expected.got) || memcmp(store, lent.store, 8 * lent.cells) != 0 ||
        memcmp(output, lent.output, 4 * lent.places) != 0) {
        printf("cases: %s: two calls differ in where their memory lies\n", name);
        different++;
    }
}

/* Compares the last call, whose answers are all known now. */
static void compare(void) {
    if (!expected.called)
        return;
    expected.called = false;
    if (same_result(expected.got, expected.result) && memcmp(expected.store, lent.store, 8 * lent.cells) == 0 &&
        memcmp(expected.output, lent.output, 4 * lent.places) == 0) {
        same++;
        return;
    }
    different++;
    printf("cases: %s, before line %u:\n", name, line_number);
    print_result("  expected", expected.result);
    print_result("  got", expected.got);
    for (size_t i = 0; i < lent.cells; i++)
        if (expected.store[i] != lent.store[i])
            printf("  cell %zu: expected %lld, got %lld\n", i, (long long)expected.store[i], (long long)lent.store[i]);
    for (size_t i = 0; i < lent.places; i++)
        if (expected.output[i] != lent.output[i])
            printf("  output %zu: expected %d, got %d\n", i, (int)expected.output[i], (int)lent.output[i]);
}

/* ---- lines */

/* What follows the word, where the line begins with it; else NULL. */
static const char *after(const char *line, const char *first) {
    const size_t length = strlen(first);
    if (strncmp(line, first, length) != 0 || (line[length] != ' ' && line[length] != '\0'))
        return NULL;
    return line[length] == ' ' ? line + length + 1 : line + length;
}

static void begin_case(const char *text) {
    snprintf(name, sizeof name, "%s", text);
    lent.inputs = lent.cells = lent.places = 0;
    lent.steps = 0;
    lent.from = (struct door_result){0};
}

static void answer(const char *line) {
    const char *rest;
    if (!expected.called)
        broken("an answer without a call");
    if ((rest = after(line, "result"))) {
        expected.result = result_of(rest);
        if (fields < FIELDS_OF_RESULT)
            expected.result.mark = expected.got.mark;
    } else if ((rest = after(line, "store"))) {
        if (cells_of(rest, expected.store) != lent.cells)
            broken("another number of cells");
    } else if ((rest = after(line, "output"))) {
        if (places_of(rest, expected.output) != lent.places)
            broken("another number of places");
    } else
        broken("an answer that is not known");
}

static void take(const char *line) {
    const char *rest;
    if ((rest = after(line, "="))) {
        answer(rest);
        return;
    }
    compare();
    if (line[0] == '\0' || line[0] == '#')
        return;
    if ((rest = after(line, "level"))) {
        if (strcmp(rest, "5") != 0)
            broken("a level that is not known");
    } else if ((rest = after(line, "image")))
        take_image(rest);
    else if ((rest = after(line, "case")))
        begin_case(rest);
    else if ((rest = after(line, "store")))
        lent.cells = cells_of(rest, lent.store);
    else if ((rest = after(line, "input")))
        lent.inputs = places_of(rest, lent.input);
    else if ((rest = after(line, "output")))
        lent.places = places_of(rest, lent.output);
    else if ((rest = after(line, "steps")))
        lent.steps = word(number_of(&rest));
    else if ((rest = after(line, "from")))
        lent.from = result_of(rest);
    else if ((rest = after(line, "call")))
        call(rest);
    else
        broken("a line that is not known");
}

static void take_file(void) {
    static char line[LONGEST_LINE];
    FILE *file = fopen(file_name, "r");
    if (!file) {
        perror(file_name);
        exit(2);
    }
    fields = 0;
    for (line_number = 1; fgets(line, sizeof line, file); line_number++) {
        if (!strchr(line, '\n'))
            broken("too long a line");
        line[strcspn(line, "\n")] = '\0';
        take(line);
    }
    compare();
    fclose(file);
}

int main(int count, char **words) {
    image_area = guarded(LONGEST + 1);
    input_area = guarded(4 * (size_t)MOST_NUMBERS);
    store_area = guarded(8 * (size_t)MOST_CELLS);
    output_area = guarded(4 * (size_t)MOST_NUMBERS);
    for (int i = 1; i < count; i++) {
        file_name = words[i];
        take_file();
    }
    printf("cases: %u calls same, %u different\n", same, different);
    return different > 0 || same == 0;
}
