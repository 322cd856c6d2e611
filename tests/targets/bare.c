/* host.h, the start of a program, and what the library needs from outside, where there is no C library: on a Cortex-M
 * with a debugger's semihosting, and on a RISC-V with the system calls of Linux, as qemu-riscv32 has them. */
#include <string.h>

#include "host.h"

enum { BUFFER = 4096 };

static size_t take_some(void *to, size_t size);
static void put_all(const char *bytes, size_t size);
_Noreturn static void leave(int status);

_Alignas(16) unsigned char stack_bottom[STACK];

/* ---- what the library needs */

void *memset(void *to, int byte, size_t size) {
    volatile unsigned char *at = to;
    while (size-- > 0)
        *at++ = (unsigned char)byte;
    return to;
}

void *memcpy(void *restrict to, const void *restrict from, size_t size) {
    volatile unsigned char *at = to;
    const unsigned char *next = from;
    while (size-- > 0)
        *at++ = *next++;
    return to;
}

#ifdef __arm__
void __aeabi_memcpy(void *to, const void *from, size_t size) { memcpy(to, from, size); }
void __aeabi_memclr(void *to, size_t size) { memset(to, 0, size); }
void __aeabi_memclr4(void *to, size_t size) { memset(to, 0, size); }
void __aeabi_memclr8(void *to, size_t size) { memset(to, 0, size); }
#endif

/* ---- host.h */

static char printed[BUFFER];
static size_t printed_size;

static void flush(void) {
    put_all(printed, printed_size);
    printed_size = 0;
}

void put(const char *bytes, size_t size) {
    for (size_t i = 0; i < size; i++) {
        if (printed_size == BUFFER)
            flush();
        printed[printed_size++] = bytes[i];
    }
}

_Bool take(void *to, size_t size) {
    unsigned char *at = to;
    while (size > 0) {
        const size_t taken = take_some(at, size);
        if (taken == 0)
            return 0;
        at += taken;
        size -= taken;
    }
    return 1;
}

_Noreturn void finish(int status) {
    flush();
    leave(status);
}

/* ---- the machine */

#ifdef __arm__

enum { SYS_OPEN = 1, SYS_WRITE = 5, SYS_READ = 6, SYS_GET_CMDLINE = 21, SYS_EXIT_EXTENDED = 32 };
enum { READ_BYTES = 1, WRITE = 4, APPLICATION_EXIT = 0x20026 };

static int asked(int operation, const void *block) {
    register int r0 __asm__("r0") = operation;
    register const void *r1 __asm__("r1") = block;
    __asm__ volatile("bkpt 0xab" : "+r"(r0) : "r"(r1) : "memory");
    return r0;
}

static int opened(const char *name, int mode) {
    size_t length = 0;
    while (name[length] != '\0')
        length++;
    const uintptr_t block[] = {(uintptr_t)name, (uintptr_t)mode, length};
    return asked(SYS_OPEN, block);
}

static void put_all(const char *bytes, size_t size) {
    static int handle;
    if (handle == 0)
        handle = opened(":tt", WRITE);
    const uintptr_t block[] = {(uintptr_t)handle, (uintptr_t)bytes, size};
    asked(SYS_WRITE, block);
}

/* The file of the cases is what the command line names. */
static size_t take_some(void *to, size_t size) {
    static int handle;
    if (handle == 0) {
        static char name[256];
        const uintptr_t line[] = {(uintptr_t)name, sizeof name};
        if (asked(SYS_GET_CMDLINE, line) != 0 || (handle = opened(name, READ_BYTES)) <= 0)
            return 0;
    }
    const uintptr_t block[] = {(uintptr_t)handle, (uintptr_t)to, size};
    return size - (size_t)asked(SYS_READ, block); /* it gives how many bytes were not read */
}

_Noreturn static void leave(int status) {
    const uintptr_t block[] = {APPLICATION_EXIT, (uintptr_t)status};
    for (;;)
        asked(SYS_EXIT_EXTENDED, block);
}

void _start(void) {
    program();
    finish(2);
}

static void fault(void) { leave(3); }

/* The first words of memory: where the stack begins, where the program does, and what exceptions lead to. */
__attribute__((section(".vectors"), used)) static void *const vectors[] = {
    stack_bottom + STACK, _start, fault, fault, fault, fault, fault};

#else

enum { READ_CALL = 63, WRITE_CALL = 64, EXIT_CALL = 93, INPUT = 0, OUTPUT = 1 };

static long system_call(long number, long a, long b, long c) {
    register long a0 __asm__("a0") = a;
    register long a1 __asm__("a1") = b;
    register long a2 __asm__("a2") = c;
    register long a7 __asm__("a7") = number;
    __asm__ volatile("ecall" : "+r"(a0) : "r"(a1), "r"(a2), "r"(a7) : "memory");
    return a0;
}

static void put_all(const char *bytes, size_t size) {
    while (size > 0) {
        const long written = system_call(WRITE_CALL, OUTPUT, (long)bytes, (long)size);
        if (written <= 0)
            leave(2);
        bytes += written;
        size -= (size_t)written;
    }
}

static size_t take_some(void *to, size_t size) {
    const long taken = system_call(READ_CALL, INPUT, (long)to, (long)size);
    return taken > 0 ? (size_t)taken : 0;
}

_Noreturn static void leave(int status) {
    for (;;)
        system_call(EXIT_CALL, status, 0, 0);
}

__attribute__((used)) static void begun(void) {
    program();
    finish(2);
}

__attribute__((naked, used)) void _start(void) {
    __asm__("la sp, stack_bottom\n li t0, %0\n add sp, sp, t0\n j begun" : : "i"(STACK));
}

#endif
