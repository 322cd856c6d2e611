/* Calls the check from C: check vectors/large/longest.img
 * Prints each answer and what document 01 makes of the image; exits 1 where the two differ. */
#include <stdio.h>
#include <stdlib.h>
#include <string.h>

#include "door.h"
#include "smallest.h"

#define LONGEST 29713

/* One byte of an image is changed, and then it is handed over with this length. */
struct damage {
    const char *what;
    size_t at;
    uint8_t byte;
    size_t length;
    uint32_t refusal, row;
};

static const struct damage of_smallest[] = {
    {"starred case 10", 0, 1, 57, 0, 0},
    {"no bytes", 0, 1, 0, 1, 0},
    {"version 2", 0, 2, 57, 1, 0},
    {"another length", 4, 58, 57, 2, 0},
    {"a byte less", 0, 1, 56, 2, 0},
    {"four types", 6, 4, 57, 3, 0},
    {"type row 1 a SET", 15, 2, 57, 4, 1},
    {"the module body with a parameter", 42, 1, 57, 6, 0},
    {"a write of no node", 49, 6, 57, 8, 0},
};

/* The tables of the longest image: rows begin at 7 (types), 521, 2571, 4621, 5135 (nodes) and 21521 (statements). */
static const struct damage of_longest[] = {
    {"the longest image", 0, 1, LONGEST, 0, 0},
    {"a byte less", 0, 1, LONGEST - 1, 2, 0},
    {"a byte more", 0, 1, LONGEST + 1, 2, 0},
    {"a byte more, counted", 4, 0x12, LONGEST + 1, 3, 0},
    {"the last variable of kind 4", 2571 + 8 * 255, 4, LONGEST, 5, 255},
    {"the last node of kind 9", 5135 + 8 * 2047, 9, LONGEST, 7, 2047},
    {"node 0 is not named", 5135 + 8 * 3 + 3, 1, LONGEST, 9, 0},
    {"node 7 a field that is not there", 5135 + 8 * 7 + 4, 255, LONGEST, 10, 7},
    {"a SET for an INTEGER parameter", 5135 + 3, 2, LONGEST, 11, 0},
};

static int differences;

static void check_all(const uint8_t *image, const struct damage *damage, size_t count) {
    for (size_t i = 0; i < count; i++, damage++) {
        /* memory of just this length, so that valgrind sees a read beyond it; never null, as the check wants it */
        uint8_t *copy = malloc(damage->length > 0 ? damage->length : 1);
        uint32_t answer;
        if (!copy) {
            fprintf(stderr, "check: no memory\n");
            exit(2);
        }
        memcpy(copy, image, damage->length);
        if (damage->at < damage->length)
            copy[damage->at] = damage->byte;
        answer = door_check(copy, damage->length);
        free(copy);
        printf("%s: refusal %u, row %u\n", damage->what, (unsigned)door_refusal(answer), (unsigned)door_row(answer));
        if (answer != damage->refusal * 65536 + damage->row) {
            printf("  expected: refusal %u, row %u\n", (unsigned)damage->refusal, (unsigned)damage->row);
            differences++;
        }
    }
}

int main(int count, char **words) {
    static uint8_t image[LONGEST + 1]; /* the last byte is 0 */
    FILE *file;
    if (count != 2 || !(file = fopen(words[1], "rb"))) {
        fprintf(stderr, "usage: check LONGEST.img\n");
        return 2;
    }
    if (fread(image, 1, LONGEST, file) != LONGEST || fgetc(file) != EOF) {
        fprintf(stderr, "check: %s does not have %d bytes\n", words[1], LONGEST);
        return 2;
    }
    fclose(file);
    check_all(image, of_longest, sizeof of_longest / sizeof *of_longest);
    memcpy(image, smallest, sizeof smallest);
    check_all(image, of_smallest, sizeof of_smallest / sizeof *of_smallest);
    return differences ? 1 : 0;
}
