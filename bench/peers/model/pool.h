/* Pages of 512 atomic words. A write takes pages, fills them and gives them up; once others can see a page, it doesn't change.
 * All stores and loads are sequentially consistent. */
#ifndef POOL_H
#define POOL_H
#include <setjmp.h>
#include <stdatomic.h>
#include <stdbool.h>
#include <stddef.h>
#include <stdint.h>

#define PAGE_WORDS 512
#define PASSES 64
#define TAKEN_MOST 8192

/* The words before the pages, each in its own cache line. */
#define LOCK 0
#define CURRENT 8
#define ANNOUNCEMENT(pass) (16 + 8 * (pass))
#define FIRST_PAGE (16 + 8 * PASSES)

typedef _Atomic uint64_t word;

/* `number`: the number of the version after which the page was given up. */
struct retired {
    uint32_t page, number;
};

/* What readers read is in a different cache line from what the writer changes. */
struct pool {
    word *words;
    uint64_t pages;
    int passes;
    _Alignas(64) uint32_t *free;
    size_t free_count;
    struct retired *retired; /* a ring, from `first` to `last` */
    uint64_t first, last;
};

/* An open write. If no page is free, `take` jumps to `full`. */
struct write {
    struct pool *pool;
    jmp_buf full;
    uint32_t taken[TAKEN_MOST], given[TAKEN_MOST];
    int taken_count, given_count;
};

void open_pool(struct pool *pool, uint64_t pages, int passes);
void close_pool(struct pool *pool);

/* Frees the pages that no announced version has, in the order in which they were given up. */
void scan(struct pool *pool);

uint32_t take(struct write *write);
void give_up(struct write *write, uint32_t page);

/* Ends a write: `undo` returns its pages, and `publish` makes a new version page current, with the next number. */
void undo(struct write *write);
void publish(struct write *write, uint32_t version_page);

static inline uint64_t word_at(const struct pool *pool, uint64_t page, int at) {
    return atomic_load(&pool->words[FIRST_PAGE + page * PAGE_WORDS + at]);
}

/* A word that already has its value isn't stored. */
static inline void fill_word(struct pool *pool, uint64_t page, int at, uint64_t value) {
    if (word_at(pool, page, at) != value) atomic_store(&pool->words[FIRST_PAGE + page * PAGE_WORDS + at], value);
}
#endif
