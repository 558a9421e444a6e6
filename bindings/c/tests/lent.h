/* Memory to lend, laid so that whatever a call touches beside it ends the program: pages that may not be touched stand on both sides.
   A buffer ends where the page after it starts, or starts where the page before it ends. */
#ifndef LENT_H
#define LENT_H

#include <stdint.h>
#include <stdio.h>
#include <stdlib.h>
#include <string.h>
#include <sys/mman.h>

enum { PAGE = 4096 };
enum side { AT_END, AT_START };

/* What a lent number holds before a call: no answer has it. */
#define MARK INT64_C(-7777777777777777777)

struct lent {
    uint8_t *map;
    size_t mapped;
    void *at;
};

static inline void must(int good, const char *what) {
    if (good) return;
    perror(what);
    exit(4);
}

/* Room for so many bytes; for none, a pointer that may not be followed. */
static inline struct lent lend(size_t bytes, enum side side) {
    size_t inner = (bytes + PAGE - 1) / PAGE * PAGE;
    struct lent new = {NULL, inner + 2 * PAGE, NULL};
    new.map = mmap(NULL, new.mapped, PROT_NONE, MAP_PRIVATE | MAP_ANONYMOUS, -1, 0);
    must(new.map != MAP_FAILED, "mmap");
    if (inner) must(mprotect(new.map + PAGE, inner, PROT_READ | PROT_WRITE) == 0, "mprotect");
    new.at = new.map + PAGE + (side == AT_END ? inner - bytes : 0);
    return new;
}

/* A copy that may only be read. */
static inline struct lent lend_copy(const void *from, size_t bytes, enum side side) {
    struct lent new = lend(bytes, side);
    if (bytes) {
        memcpy(new.at, from, bytes);
        must(mprotect(new.map + PAGE, new.mapped - 2 * PAGE, PROT_READ) == 0, "mprotect");
    }
    return new;
}

static inline struct lent lend_marks(size_t numbers, enum side side) {
    struct lent new = lend(numbers * sizeof(int64_t), side);
    for (size_t i = 0; i < numbers; i++) ((int64_t *)new.at)[i] = MARK;
    return new;
}

/* Whether the numbers from `first` on are as they were lent. */
static inline int untouched(const struct lent *lent, size_t first, size_t numbers) {
    for (size_t i = first; i < numbers; i++)
        if (((const int64_t *)lent->at)[i] != MARK) return 0;
    return 1;
}

static inline void give_back(struct lent *lent) { must(munmap(lent->map, lent->mapped) == 0, "munmap"); }

#endif
