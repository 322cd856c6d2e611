/* A stack that is painted before a call, so that afterwards one sees how much of it the call used. */
#ifndef PAINTED_H
#define PAINTED_H

#include <pthread.h>
#include <stdint.h>
#include <string.h>
#include <sys/mman.h>
#include <unistd.h>

#include "file.h"

/* What is measured: it makes its call, and gives the address of its own frame. */
typedef uintptr_t painted_call(void *given);

struct painted {
    unsigned char *bottom;
    size_t size;
    unsigned char paint;
    painted_call *call;
    void *given;
    size_t used;
};

/* Memory for a stack of so many bytes, in whole pages; a page that cannot be touched lies below it. */
static struct painted painted_stack(size_t size) {
    const size_t page = (size_t)sysconf(_SC_PAGESIZE);
    struct painted stack = {.size = (size + page - 1) / page * page};
    unsigned char *room =
        mmap(NULL, page + stack.size, PROT_READ | PROT_WRITE, MAP_PRIVATE | MAP_ANONYMOUS | MAP_STACK, -1, 0);
    if (room == MAP_FAILED || mprotect(room, page, PROT_NONE) != 0)
        fail("memory for a stack");
    stack.bottom = room + page;
    return stack;
}

static void *on_its_stack(void *given) {
    struct painted *stack = given;
    const volatile unsigned char *at = stack->bottom;
    const uintptr_t frame = stack->call(stack->given);
    while (*at == stack->paint)
        at++;
    stack->used = (size_t)(frame - (uintptr_t)at);
    return NULL;
}

/* Calls on a thread with that stack, twice with different paint: the most bytes below the caller's frame that have
 * changed. */
static size_t painted_bytes(struct painted *stack, painted_call *call, void *given) {
    static const unsigned char paints[] = {0xa5, 0x5a};
    size_t most = 0;
    stack->call = call;
    stack->given = given;
    for (size_t i = 0; i < sizeof paints; i++) {
        pthread_attr_t attributes;
        pthread_t thread;
        stack->paint = paints[i];
        memset(stack->bottom, paints[i], stack->size);
        if (pthread_attr_init(&attributes) != 0 || pthread_attr_setstack(&attributes, stack->bottom, stack->size) != 0 ||
            pthread_create(&thread, &attributes, on_its_stack, stack) != 0 || pthread_join(thread, NULL) != 0)
            fail("a thread");
        pthread_attr_destroy(&attributes);
        if (stack->used > most)
            most = stack->used;
    }
    return most;
}

#endif
