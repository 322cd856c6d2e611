/* The check of a door program's image, its run, and the continuation of a run whose steps are used up, as documents 01
 * and 02 (docs/spec/) ask for them. For C99 and C++11 and later. docs/FIRMWARE.md is the guide, examples/firmware.c a
 * reader's main loop.
 *
 * Link libdoor.a. `bash tools/library` writes it for x86-64 to target/staticlib/, and `bash tools/targets` for this and
 * for ARM and RISC-V processors to target/targets/NAME/; the interface is the same for all, which are little-endian. Of
 * other libraries it needs memset, and for some processors memcpy and a division (docs/FIRMWARE.md, "Targets"). There
 * is no heap, no file, no clock and no state between calls: nothing is touched but what is lent, and the stack. So
 * several threads may call at once, each with its own store and output. */
#ifndef DOOR_H
#define DOOR_H

#include <stddef.h>
#include <stdint.h>

#ifdef __cplusplus
extern "C" {
#endif

/* The interface that this header speaks of: 1 is the base's, and each change of a signature or a struct adds one. A
 * result that was kept under another number has other fields, and is none to go on from. */
#define DOOR_INTERFACE 3

/* The release that this header comes with: three numbers. */
#define DOOR_VERSION "1.0.0"

/* The library's own word for both, "door 1.0.0 interface 3": in the libraries that tools/targets makes; the one that
 * `tools/library` writes has none. */
extern const char door_version[];

/* The longest image that is accepted, in bytes; the largest store that is taken, in cells. */
#define DOOR_IMAGE_MAX 29713
#define DOOR_STORE_MAX 65536

/* The stack that a call needs, in bytes: measured, by painting the stack, and rounded up. It is no proven bound, and
 * holds for the libraries that this kit builds. `bash tests/stack` measures it on x86-64, `bash tests/targets/run` on
 * the other targets, of which none needs more. Check: 16,544 at most, for the longest image and all of vectors/; no
 * function of it calls itself. Run and continue: expressions of 2,048 nodes, the deepest that an accepted image can
 * have, in a thread with this stack and four pages more for the thread itself. A continue needs hardly more than a run:
 * what question 14 takes is given back before the first step. */
#define DOOR_CHECK_STACK 16896
#define DOOR_RUN_STACK 581632

/* Refusals: the first question that is answered "no", and then the lowest row at fault. Rows count from 0. door_check
 * gives 0 to 11, door_run 0 to 13, door_continue all of them.
 *
 *                                      what is wrong                                                   row */
#define DOOR_ACCEPTED 0u             /* nothing                                                         0 */
#define DOOR_REFUSED_VERSION 1u      /* there is no first byte, or it is not 1                          0 */
#define DOOR_REFUSED_LENGTH 2u       /* bytes 1 to 4 are missing, or are not the image's length         0 */
#define DOOR_REFUSED_TABLES 3u       /* a count is out of range, or the tables do not fill the image    0 */
#define DOOR_REFUSED_TYPE 4u         /* a type row, or an own field of a record, breaks its rule        type (1) */
#define DOOR_REFUSED_VARIABLE 5u     /* a variable row breaks its form                                  variable */
#define DOOR_REFUSED_PROCEDURE 6u    /* a procedure row breaks its rule                                 procedure (2) */
#define DOOR_REFUSED_NODE 7u         /* a node is not well formed, or names a row that is not there     node */
#define DOOR_REFUSED_STATEMENT 8u    /* a statement is not well formed, or names such a row             statement */
#define DOOR_REFUSED_NAMES 9u        /* a node is named never, or more than once                        node */
#define DOOR_REFUSED_NODE_TYPE 10u   /* a node has no type                                              node */
#define DOOR_REFUSED_RULE 11u        /* a statement breaks a type rule, or names another procedure's    statement
                                      * variable */
#define DOOR_REFUSED_STORE_ABOVE 12u /* the store has more than DOOR_STORE_MAX cells                    0 */
#define DOOR_REFUSED_STORE_BELOW 13u /* the store has less than G + F0 cells, those of the globals and  0
                                      * of the module body's frame */
#define DOOR_REFUSED_STATE 14u       /* the earlier result or the store cannot be gone on from          0 */
/* (1) the type count for a field that no record claims; (2) the procedure count for a variable that no procedure
 * claims. */

/* Outcomes of a run or a continue that was not refused. */
#define DOOR_STEPS_USED_UP 0u /* the program has not ended yet, and can be continued; also where 0 steps are lent */
#define DOOR_FINISHED 1u      /* the module body returned */
#define DOOR_TRAPPED 2u       /* a statement could not be carried out; `trap` says why */

/* Traps. */
#define DOOR_TRAP_NONE 0u     /* not trapped */
#define DOOR_TRAP_INDEX 1u    /* an index outside its array */
#define DOOR_TRAP_GUARD 2u    /* a guard that does not hold */
#define DOOR_TRAP_TARGET 3u   /* a record assigned to one of another dynamic type */
#define DOOR_TRAP_OVERFLOW 4u /* an INTEGER beyond 32 bits, also by -2147483648 DIV -1 */
#define DOOR_TRAP_DIVISOR 5u  /* a divisor that is zero */
#define DOOR_TRAP_BOUND 6u    /* a set's element, in a range or before IN, outside 0 to 31 */
#define DOOR_TRAP_FRAME 7u    /* a call whose frame goes beyond the store */
#define DOOR_TRAP_INPUT 8u    /* a read when the input is used up */
#define DOOR_TRAP_OUTPUT 9u   /* a write when the output is full */
#define DOOR_TRAP_HALT 10u    /* HALT; `halt` has its number */

/* Answers refusal * 65,536 + row; 0 where the image is accepted.
 *
 * `image` points to `length` bytes that can be read and that nobody writes during the call. It must not be null, also
 * where `length` is 0. No more than these bytes are read, and nothing is written but the stack. The check takes images
 * of any length.
 *
 * Stack: DOOR_CHECK_STACK bytes. */
uint32_t door_check(const uint8_t *image, size_t length);

/* The two parts of an answer. */
static inline uint32_t door_refusal(uint32_t answer) { return answer / 65536u; }
static inline uint32_t door_row(uint32_t answer) { return answer % 65536u; }

/* The nine numbers of a run, where its newest frame begins and ends, and how many cells it needed. Of a run that was
 * continued, `steps`, `read`, `written` and `mark` are those of all its parts together. It has 64 bytes. Numbers, not
 * bytes, are to be compared: four bytes between `top` and `read`, and four behind `mark`, hold nothing. */
struct door_result {
    uint32_t refusal; /* DOOR_ACCEPTED, or why nothing was run: DOOR_REFUSED_.. */
    uint32_t fault;   /* the row of refusal */
    uint32_t outcome; /* DOOR_STEPS_USED_UP, DOOR_FINISHED or DOOR_TRAPPED */
    uint32_t trap;    /* DOOR_TRAP_NONE unless trapped, else DOOR_TRAP_.. */
    int32_t halt;     /* HALT's number with DOOR_TRAP_HALT, else 0 */
    uint32_t steps;   /* steps taken; a step that finishes or traps counts */
    uint32_t row;     /* the statement row: of the last step where it finished or trapped, else of the next */
    uint32_t base;    /* the cell where the newest frame begins; 0 in a refusal */
    uint32_t top;     /* the cell where it ends, the first that is not its own; 0 in a refusal */
    uint64_t read;    /* inputs read */
    uint64_t written; /* outputs written */
    uint32_t mark;    /* the cells that the run needed: so many are enough, one less is not; 0 in a refusal */
};

/* Checks an image, and runs it from the fresh state, with at most `steps` steps.
 *
 * A refusal, 1 to 13, leaves store and output as they were, and every number but `refusal` and `fault` 0: so `refusal`
 * is asked first, and `outcome` only where it is DOOR_ACCEPTED. Where door_check accepted the same bytes, 1 to 11 do not
 * come; with 0 steps a run asks for 12 and 13, and runs nothing.
 *
 * Without a refusal, whatever the outcome, the cells of `store` hold afterwards what the run left in them, also those of
 * frames that have ended; cells that the run did not reach keep what they held. `output` has what was written in its
 * first `written` places and keeps the others. The step that traps changes no variable and no output; what earlier steps
 * did stays. What the store held before does not matter to the run.
 *
 * `mark` is the largest of G + F0 and the tops that calls asked for and found room for, also where an argument then
 * traps; a call with DOOR_TRAP_FRAME does not count. So with 0 steps it is G + F0, and always at least `top` and at
 * most `store_length`. With a store of `mark` cells, and all else the same, the run gives the same result, the same
 * cells below `mark` and the same output; with any shorter one it gives DOOR_REFUSED_STORE_BELOW or DOOR_TRAP_FRAME.
 * Cells from `mark` on are not written. That is so for this input and these steps: with others it may need more.
 *
 * `image`, `input`, `store` and `output` point to as many bytes, numbers, cells and places as the length behind each
 * says, each aligned as its type asks. No pointer may be null, also where its length is 0. `image` and `input` may
 * overlap each other; `store` and `output` may overlap nothing else of the four. Nobody else writes any of them, or
 * reads store or output, during the call. Nothing else is read or written but the stack.
 *
 * The result is returned by value, so that no fifth memory need be lent.
 *
 * Stack: DOOR_RUN_STACK bytes. */
struct door_result door_run(const uint8_t *image, size_t image_length, const int32_t *input, size_t input_length,
                            int64_t *store, size_t store_length, int32_t *output, size_t output_length,
                            uint32_t steps);

/* Goes on from an earlier result, with at most `steps` steps more. Where a run of n steps has ended with
 * DOOR_STEPS_USED_UP, this gives, with its result as `from`, what one run of n + steps steps gives: every number, cell
 * and output place. `from` may also come from a door_continue.
 *
 * It is lent what the run was lent: the same image; `store` as the earlier call left it; `input` and `output` whole,
 * from their first place on. It goes on reading at place `from.read` and writing at `from.written`; output places below
 * that are neither read nor changed. Input, output and store may meanwhile have become longer, or shorter: the input as
 * far as `from.read`, the output as far as `from.written`, the store as far as `from.mark`.
 *
 * The check is made again, and 1 to 13 are asked as by door_run. Then DOOR_REFUSED_STATE comes, with row 0, where
 *   - `refusal`, `fault`, `outcome`, `trap` or `halt` of `from` is not 0: what was refused, has finished or has trapped
 *     is not continued;
 *   - `row`, `base`, `top` of `from` and the store's cells below `top` are no state that this image can be in: frames,
 *     links, values in the range of their types, and VAR parameters that name an object of their type (document 01,
 *     "Sound");
 *   - `mark` of `from` is below its `top`, or exceeds `store_length`;
 *   - `read` exceeds `input_length`, or `written` exceeds `output_length`;
 *   - `from.steps` and `steps` together exceed 4,294,967,295.
 * A refusal leaves store and output as they were, and every number but `refusal` and `fault` 0. So it is no result to
 * go on from: keep the earlier one until the next is there and not refused.
 *
 * `mark` is that of `from`, or larger by the calls since. With a store of so many cells, and all else the same, this
 * call gives the same result, the same cells below `mark` and the same output. With a shorter one it is refused by
 * DOOR_REFUSED_STORE_BELOW or DOOR_REFUSED_STATE or, where that has `from.mark` cells or more, gives DOOR_TRAP_FRAME.
 * Cells from `mark` on are not written.
 *
 * Numbers and cells that have been changed since may pass, where they are another such state: the engine then goes on
 * from that, and touches nothing that was not lent. Whoever has to know that nothing was changed keeps a checksum.
 *
 * With 0 steps it asks all this, runs nothing, and gives `from` back. Memory, overlap and stack are as for door_run. */
struct door_result door_continue(const uint8_t *image, size_t image_length, const int32_t *input, size_t input_length,
                                 int64_t *store, size_t store_length, int32_t *output, size_t output_length,
                                 uint32_t steps, struct door_result from);

#ifdef __cplusplus
}
#endif

#endif
