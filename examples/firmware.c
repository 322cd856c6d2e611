/* A door reader's main loop: it keeps an image in force, takes a new one only where it arrived as it was sent, the
 * check accepts it and the store suits it, and asks the program about each fob. A program gets its steps in slices;
 * between two of them the reader looks at the latch, and may lose its power. Build it from the top of the repository:
 *
 *     gcc -std=c11 -O2 -Wall -Wextra -Wpedantic -Werror -I include -o target/firmware examples/firmware.c \
 *         target/staticlib/libdoor.a
 *     target/firmware <examples/firmware.events
 *
 * Its input is what happens at the door, an event to a line; examples/firmware.transcript has what it says to these.
 *
 *     image FILE CRC a new image comes, with the CRC-32 that its sender computed, in hexadecimal; it is compared and
 *                    checked, and replaces the old one where it is accepted
 *     noise N        in the next transfer the lowest bit of byte N arrives flipped
 *     1234 19800     a fob: the numbers that the program reads, here card and day
 *     between WORDS  what happens between the slices of the next fob, a word before each: 0 or 1, the latch shows this
 *                    from now on; power, the power fails and comes back; fault, the same, and a saved link has changed
 *     steps N        configuration: at most so many steps a fob
 *     cells N        configuration: so many cells of the store are lent
 *     fault N        byte N of the image in force is inverted, as by a fault of the memory
 *
 * The first part is what a reader's firmware has: no heap, memory of fixed size, no stdio. The second part plays the
 * hardware. */
#include <stdbool.h>
#include <stddef.h>
#include <stdint.h>

#include "door.h"

#ifndef READER_CELLS
#define READER_CELLS 1024 /* cells of 8 bytes: the globals and the frames of the calls have to fit */
#endif
#define READER_INPUTS 8    /* numbers that a program may read for a fob: the fob's, then the latch's */
#define READER_OUTPUTS 4   /* numbers that a program may write for a fob */
#define READER_STEPS 10000 /* steps for a fob, unless configured */
#define READER_SLICE 100   /* steps between two looks at the outside */

#define ANSWER_OPEN 1 /* the first output that opens the door */

/* ---- what the core asks of the hardware */

static void show(const char *text);
static void show_number(int64_t number);
static void open_door(void);
static int32_t latch(void);     /* what the latch shows, 0 or 1 */
static void look_outside(void); /* what else a reader does between two slices; the power may fail here */

/* ---- the core */

/* A new image is received beside the one in force. One byte more than the longest image: a longer one that is cut there
 * is still refused, and never taken for a good one. */
#define IMAGE_BYTES (DOOR_IMAGE_MAX + 1)

static uint8_t images[2][IMAGE_BYTES];
static size_t in_force;        /* which of the two */
static size_t in_force_length; /* its bytes; 0 before the first image has come */

static struct {
    size_t length; /* bytes that are kept */
    uint32_t crc;  /* of all bytes, also of those that are not */
} arriving;

/* A run, with all that it needs to go on. It is kept from slice to slice, and saved whole where the power may fail; the
 * image in force belongs to it too. */
static struct run {
    struct door_result result; /* the newest that was not refused */
    int64_t store[READER_CELLS];
    int32_t output[READER_OUTPUTS];
    int32_t input[READER_INPUTS];
    size_t inputs; /* so many there are: the list grows from slice to slice */
    size_t of_fob; /* so many of them the fob gave */
} run;

static size_t lent_cells = READER_CELLS;
static uint32_t lent_steps = READER_STEPS;

static struct {
    uint32_t opened;
    uint32_t denied;
    uint32_t steps_used_up;
    uint32_t trapped;
    uint32_t refused;
    uint32_t begun_afresh;
    uint32_t cells_needed; /* the most of a run that finished: for whoever chooses a board */
} counts;

static const char *refusal_text(uint32_t refusal) {
    switch (refusal) {
    case DOOR_REFUSED_VERSION:
        return "another version";
    case DOOR_REFUSED_LENGTH:
        return "another length";
    case DOOR_REFUSED_TABLES:
        return "tables that do not fill the image";
    case DOOR_REFUSED_TYPE:
        return "a type row";
    case DOOR_REFUSED_VARIABLE:
        return "a variable row";
    case DOOR_REFUSED_PROCEDURE:
        return "a procedure row";
    case DOOR_REFUSED_NODE:
        return "a node's form";
    case DOOR_REFUSED_STATEMENT:
        return "a statement's form";
    case DOOR_REFUSED_NAMES:
        return "a node not named once";
    case DOOR_REFUSED_NODE_TYPE:
        return "a node without a type";
    case DOOR_REFUSED_RULE:
        return "a statement's rules";
    case DOOR_REFUSED_STORE_ABOVE:
        return "more cells lent than a run takes";
    case DOOR_REFUSED_STORE_BELOW:
        return "fewer cells lent than the program begins with";
    case DOOR_REFUSED_STATE:
        return "a state that cannot be gone on from";
    default:
        return "a number that door.h does not have";
    }
}

static const char *trap_text(uint32_t trap) {
    switch (trap) {
    case DOOR_TRAP_INDEX:
        return "an index outside its array";
    case DOOR_TRAP_GUARD:
        return "a guard that does not hold";
    case DOOR_TRAP_TARGET:
        return "a record of another dynamic type";
    case DOOR_TRAP_OVERFLOW:
        return "an INTEGER overflow";
    case DOOR_TRAP_DIVISOR:
        return "a divisor that is zero";
    case DOOR_TRAP_BOUND:
        return "a set's element outside 0 to 31";
    case DOOR_TRAP_FRAME:
        return "a call beyond the store";
    case DOOR_TRAP_INPUT:
        return "the input used up";
    case DOOR_TRAP_OUTPUT:
        return "the output full";
    case DOOR_TRAP_HALT:
        return "HALT";
    default:
        return "a number that door.h does not have";
    }
}

/* "7 (a node's form), row 22" */
static void show_refusal(uint32_t refusal, uint32_t row) {
    show_number(refusal);
    show(" (");
    show(refusal_text(refusal));
    show("), row ");
    show_number(row);
}

/* Where the next image is put, IMAGE_BYTES at most. */
static uint8_t *receive_buffer(void) { return images[1U - in_force]; }

/* The CRC-32 of zlib and Ethernet, after one byte more; of no bytes it is 0. */
static uint32_t crc_after(uint32_t crc, uint8_t byte) {
    crc = ~crc ^ byte;
    for (int bit = 0; bit < 8; bit++) {
        crc = ((crc & 1U) != 0U) ? ((crc >> 1) ^ 0xEDB88320U) : (crc >> 1);
    }
    return ~crc;
}

static void image_begins(void) {
    arriving.length = 0;
    arriving.crc = 0;
}

static void image_byte(uint8_t byte) {
    if (arriving.length < IMAGE_BYTES) {
        receive_buffer()[arriving.length] = byte;
        arriving.length++;
    }
    arriving.crc = crc_after(arriving.crc, byte);
}

/* Whether the store suits an image that the check accepts: 0, 12 or 13. A run of no steps asks it, and runs nothing;
 * but it clears cells of the store, so that no run may be waiting in it. */
static uint32_t store_refusal(const uint8_t *image, size_t length) {
    return door_run(image, length, run.input, 0, run.store, lent_cells, run.output, READER_OUTPUTS, 0).refusal;
}

static void show_what_stays(void) {
    show(in_force_length > 0U ? "; the old image stays\n" : "; there is no image yet\n");
}

/* The image that has come is checked, and comes into force where it is accepted. */
static void check_received(void) {
    const uint32_t answer = door_check(receive_buffer(), arriving.length);
    uint32_t refusal = door_refusal(answer);
    if (refusal == DOOR_ACCEPTED) {
        refusal = store_refusal(receive_buffer(), arriving.length);
    }
    if (refusal == DOOR_ACCEPTED) {
        in_force = 1U - in_force;
        in_force_length = arriving.length;
        show("in force\n");
    } else {
        show("refused: ");
        show_refusal(refusal, door_row(answer));
        show_what_stays();
    }
}

/* All bytes have come, and the CRC that the sender computed. The check does not see damage that leaves a program which
 * keeps the rules, so the CRC is compared before it is asked. A CRC finds damage, not malice: whoever changes the image
 * on purpose computes another. Where that matters the sender signs the image, and the reader verifies the signature
 * here, over the same bytes, with a key that it had before. */
static void image_ends(uint32_t sent_crc) {
    if (arriving.crc == sent_crc) {
        check_received();
    } else {
        show("refused: damaged on the way, by its CRC");
        show_what_stays();
    }
}

/* Nothing was run. */
static void on_refusal(const struct door_result *result) {
    counts.refused++;
    show("shut: refused: ");
    show_refusal(result->refusal, result->fault);
    switch (result->refusal) {
    case DOOR_REFUSED_STORE_ABOVE:
    case DOOR_REFUSED_STORE_BELOW:
        show("; the reader is configured wrongly\n");
        break;
    default: /* the check accepted these bytes when they came: the memory has changed since */
        show("; the image has changed in memory\n");
        break;
    }
}

static void on_finished(const struct door_result *result) {
    if ((result->written >= 1U) && (run.output[0] == ANSWER_OPEN)) {
        counts.opened++;
        open_door();
        show("open");
    } else {
        counts.denied++;
        show("shut: the program says no");
    }
    if (result->mark > counts.cells_needed) {
        counts.cells_needed = result->mark;
    }
    show(" (");
    show_number(result->steps);
    show(" steps, ");
    show_number(result->mark);
    show(" cells)\n");
}

static void on_steps_used_up(const struct door_result *result) {
    counts.steps_used_up++;
    show("shut: ");
    show_number(result->steps);
    show(" steps used up before statement ");
    show_number(result->row);
    show("\n");
}

static void on_trap(const struct door_result *result) {
    counts.trapped++;
    show("shut: trap ");
    show_number(result->trap);
    show(" (");
    show(trap_text(result->trap));
    if (result->trap == DOOR_TRAP_HALT) {
        show(" ");
        show_number(result->halt);
    }
    show(") at statement ");
    show_number(result->row);
    show("\n");
}

/* Every end of a run but one leaves the door shut. */
static void on_result(const struct door_result *result) {
    if (result->refusal != DOOR_ACCEPTED) {
        on_refusal(result);
        return;
    }
    switch (result->outcome) {
    case DOOR_FINISHED:
        on_finished(result);
        break;
    case DOOR_STEPS_USED_UP:
        on_steps_used_up(result);
        break;
    case DOOR_TRAPPED:
        on_trap(result);
        break;
    default:
        show("shut: an outcome that door.h does not have\n");
        break;
    }
}

/* Steps of the next slice, after so many: all slices together are at most those of a fob. */
static uint32_t slice_after(uint32_t done) {
    const uint32_t left = (done < lent_steps) ? (lent_steps - done) : 0U;
    return (left < READER_SLICE) ? left : READER_SLICE;
}

static bool is_waiting(void) {
    return (run.result.refusal == DOOR_ACCEPTED) && (run.result.outcome == DOOR_STEPS_USED_UP) &&
           (slice_after(run.result.steps) > 0U);
}

/* The first slice, from the fresh state, with the fob's numbers alone. */
static void first_slice(void) {
    run.inputs = run.of_fob;
    run.result = door_run(images[in_force], in_force_length, run.input, run.inputs, run.store, lent_cells, run.output,
                          READER_OUTPUTS, slice_after(0));
}

/* One slice more. Before it the input grows by what the latch shows, where the program has read all there was. */
static void next_slice(void) {
    struct door_result next;
    if ((run.result.read == run.inputs) && (run.inputs < READER_INPUTS)) {
        run.input[run.inputs] = latch();
        run.inputs++;
    }
    next = door_continue(images[in_force], in_force_length, run.input, run.inputs, run.store, lent_cells, run.output,
                         READER_OUTPUTS, slice_after(run.result.steps), run.result);
    if (next.refusal == DOOR_REFUSED_STATE) { /* what was kept is not what a slice left: nothing to go on from */
        counts.begun_afresh++;
        show("refused: ");
        show_refusal(next.refusal, next.fault);
        show("; begun afresh; ");
        first_slice();
    } else { /* another refusal ends the run: the image in force has changed, or what is lent */
        run.result = next;
    }
}

/* The power is back, and this was saved. Of the lengths, which are the reader's own, the reader asks itself that they
 * are lengths; of all else door_continue asks what it needs. Neither sees a number that has become another good one:
 * where that matters, save a checksum too. */
static void power_is_back(const struct run *saved) {
    run = *saved;
    if ((run.inputs > READER_INPUTS) || (run.of_fob > run.inputs)) {
        run.inputs = 0;
        run.of_fob = 0;
    }
}

/* A fob is at the reader. `input` is not null, also where `count` is 0; it is at most READER_INPUTS. */
static void fob_seen(const int32_t *input, size_t count) {
    if (in_force_length == 0U) {
        show("shut: there is no image yet\n");
        return;
    }
    for (size_t i = 0; i < count; i++) {
        run.input[i] = input[i];
    }
    run.of_fob = count;
    first_slice();
    while (is_waiting()) {
        look_outside();
        next_slice();
    }
    on_result(&run.result);
}

static void show_count(const char *text, uint32_t count) {
    show(text);
    show_number(count);
}

static void show_counts(void) {
    show_count("opened ", counts.opened);
    show_count(", denied ", counts.denied);
    show_count(", steps used up ", counts.steps_used_up);
    show_count(", trapped ", counts.trapped);
    show_count(", refused ", counts.refused);
    show_count(", begun afresh ", counts.begun_afresh);
    show_count(", cells needed ", counts.cells_needed);
    show("\n");
}

/* ---- the hardware, played by stdio */

#include <errno.h>
#include <stdio.h>
#include <stdlib.h>
#include <string.h>

static void show(const char *text) { (void)fputs(text, stdout); }

static void show_number(int64_t number) { (void)printf("%lld", (long long)number); }

static void open_door(void) {} /* the bolt */

static int32_t latch_shows;
static const char *between = ""; /* words of the event that are left */

static int32_t latch(void) { return latch_shows; }

/* Everything that is not saved is lost. */
static void power_fails(bool with_fault) {
    static struct run saved;
    saved = run;
    if (with_fault) {
        saved.store[saved.result.base] ^= 64;
    }
    memset(&run, 0xa5, sizeof run);
    power_is_back(&saved);
}

static bool is_event(const char *line, const char *name) { return strncmp(line, name, strlen(name)) == 0; }

static void look_outside(void) {
    if ((*between == '0') || (*between == '1')) {
        latch_shows = *between - '0';
    } else if (is_event(between, "power") || is_event(between, "fault")) {
        power_fails(*between == 'f');
    } else {
        return; /* nothing more happens */
    }
    between += strcspn(between, " ");
    between += strspn(between, " ");
}

static long noisy = -1; /* the byte of the next transfer that arrives with a flipped bit; none where it is below 0 */

/* The image comes from a file, byte by byte. */
static bool image_event(const char *words) {
    char name[256];
    unsigned int sent_crc;
    int end = 0;
    FILE *file;
    if ((sscanf(words, "%255s %8x%n", name, &sent_crc, &end) != 2) || (words[end] != '\0')) {
        return false;
    }
    file = fopen(name, "rb");
    if (file == NULL) {
        return false;
    }
    image_begins();
    for (int byte = fgetc(file); byte != EOF; byte = fgetc(file)) {
        image_byte((uint8_t)((noisy == 0) ? (byte ^ 1) : byte));
        noisy--;
    }
    noisy = -1;
    (void)fclose(file);
    image_ends(sent_crc);
    return true;
}

/* The numbers of a line, at most `most`; false where there is something else, or more. */
static bool numbers_of(const char *text, int64_t least, int64_t last, int64_t *numbers, size_t most, size_t *count) {
    *count = 0;
    for (;;) {
        char *end;
        int64_t number;
        text += strspn(text, " \t");
        if (*text == '\0') {
            return true;
        }
        errno = 0;
        number = strtoll(text, &end, 10);
        if ((end == text) || (errno != 0) || (number < least) || (number > last) || (*count == most)) {
            return false;
        }
        numbers[*count] = number;
        *count += 1U;
        text = end;
    }
}

static bool fob_event(const char *text) {
    int64_t numbers[READER_INPUTS];
    int32_t input[READER_INPUTS];
    size_t count;
    if (!numbers_of(text, INT32_MIN, INT32_MAX, numbers, READER_INPUTS, &count)) {
        return false;
    }
    for (size_t i = 0; i < count; i++) {
        input[i] = (int32_t)numbers[i];
    }
    fob_seen(input, count);
    return true;
}

/* The one number of an event, 0 to `last`. */
static bool setting_of(const char *text, int64_t last, int64_t *number) {
    size_t count;
    return numbers_of(text, 0, last, number, 1, &count) && (count == 1U);
}

/* Its words are kept until the next fob has been asked about. */
static bool between_event(const char *words) {
    static char kept[256];
    if ((strlen(words) >= sizeof kept) || (strspn(words, " 01powerfault") != strlen(words))) {
        return false;
    }
    between = strcpy(kept, words);
    latch_shows = 0;
    show("set\n");
    return true;
}

static bool event(const char *line) {
    int64_t number;
    if (is_event(line, "image ")) {
        return image_event(line + 6);
    }
    if (is_event(line, "between ")) {
        return between_event(line + 8);
    }
    if (is_event(line, "steps ") && setting_of(line + 6, UINT32_MAX, &number)) {
        lent_steps = (uint32_t)number;
        show("set\n");
        return true;
    }
    if (is_event(line, "cells ") && setting_of(line + 6, READER_CELLS, &number)) {
        lent_cells = (size_t)number;
        show("set\n");
        return true;
    }
    if (is_event(line, "noise ") && setting_of(line + 6, DOOR_IMAGE_MAX - 1, &number)) {
        noisy = number;
        show("set\n");
        return true;
    }
    if (is_event(line, "fault ") && (in_force_length > 0U) &&
        setting_of(line + 6, (int64_t)in_force_length - 1, &number)) {
        images[in_force][number] ^= 0xffU;
        show("inverted\n");
        return true;
    }
    return fob_event(line);
}

int main(void) {
    char line[256];
    bool good = true;
    while (fgets(line, sizeof line, stdin) != NULL) {
        line[strcspn(line, "\n")] = '\0';
        show(line);
        show(": ");
        if (!event(line)) {
            show("not understood, or not there\n");
            good = false;
        }
    }
    show_counts();
    return good ? EXIT_SUCCESS : EXIT_FAILURE;
}
