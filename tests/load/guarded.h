/* Memory to lend, with a page before it and a page behind it that cannot be touched. */
#ifndef GUARDED_H
#define GUARDED_H

#include <stdint.h>
#include <stdio.h>
#include <stdlib.h>
#include <sys/mman.h>
#include <unistd.h>

struct guarded {
    uint8_t *begin;
    size_t size; /* whole pages */
};

static inline void protect(struct guarded area, int allowed) {
    if (mprotect(area.begin, area.size, allowed) != 0) {
        perror("mprotect");
        exit(2);
    }
}

/* Room for so many bytes. */
static inline struct guarded guarded(size_t most) {
    const size_t page = (size_t)sysconf(_SC_PAGESIZE);
    struct guarded area = {.size = (most / page + 1) * page};
    uint8_t *room = mmap(NULL, area.size + 2 * page, PROT_NONE, MAP_PRIVATE | MAP_ANONYMOUS, -1, 0);
    if (room == MAP_FAILED) {
        perror("mmap");
        exit(2);
    }
    area.begin = room + page;
    protect(area, PROT_READ | PROT_WRITE);
    return area;
}

/* Where so many bytes begin that lie directly behind the first guard page, or directly before the last one. */
enum side { BEHIND_GUARD, BEFORE_GUARD, SIDES };

static inline void *beside(struct guarded area, enum side side, size_t bytes) {
    return side == BEHIND_GUARD ? area.begin : area.begin + area.size - bytes;
}

#endif
