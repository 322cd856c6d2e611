/* host.h for Linux with a C library: the cases are the standard input, and the program is a thread. */
#define _GNU_SOURCE
#include <pthread.h>
#include <stdio.h>
#include <stdlib.h>

#include "host.h"

_Alignas(4096) unsigned char stack_bottom[STACK];

_Bool take(void *to, size_t size) { return fread(to, 1, size, stdin) == size; }

void put(const char *bytes, size_t size) { fwrite(bytes, 1, size, stdout); }

_Noreturn void finish(int status) {
    if (fflush(stdout) != 0)
        status = 2;
    exit(status);
}

static void *begun(void *nothing) {
    program();
    return nothing;
}

int main(void) {
    pthread_attr_t attributes;
    pthread_t thread;
    if (pthread_attr_init(&attributes) == 0 && pthread_attr_setstack(&attributes, stack_bottom, STACK) == 0 &&
        pthread_create(&thread, &attributes, begun, NULL) == 0)
        pthread_join(thread, NULL);
    perror("a thread");
    return 2;
}
