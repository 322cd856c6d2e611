/* What answers.c and starred.c need of the machine that they run on, and it of them: hosted.c is for Linux with a C
 * library, bare.c for a board or a processor without one. */
#ifndef HOST_H
#define HOST_H

#include <stddef.h>
#include <stdint.h>

/* The program; it ends by finish(). */
void program(void);

/* The stack that it is called on. */
enum { STACK = 1 << 20 };
extern unsigned char stack_bottom[STACK];

/* Takes so many bytes of the cases; false where they are used up. */
_Bool take(void *to, size_t size);

/* Prints so many bytes. */
void put(const char *bytes, size_t size);

/* Ends the program. */
_Noreturn void finish(int status);

#endif
