#include "pool.h"

#include <stdlib.h>

void open_pool(struct pool *pool, uint64_t pages, int passes) {
    size_t count = FIRST_PAGE + pages * PAGE_WORDS;
    *pool = (struct pool){.pages = pages, .passes = passes};
    pool->words = aligned_alloc(4096, (count * sizeof *pool->words + 4095) / 4096 * 4096);
    for (size_t i = 0; i < count; i++) atomic_store_explicit(&pool->words[i], 0, memory_order_relaxed);
    pool->free = malloc(pages * sizeof *pool->free);
    pool->retired = malloc(pages * sizeof *pool->retired);
    for (uint32_t page = pages - 1; page >= 1; page--) pool->free[pool->free_count++] = page;
}

void close_pool(struct pool *pool) {
    free(pool->words);
    free(pool->free);
    free(pool->retired);
}

static uint64_t least_announced(const struct pool *pool) {
    uint64_t least = atomic_load(&pool->words[CURRENT]) >> 32;
    for (int pass = 0; pass < pool->passes; pass++) {
        uint64_t announced = atomic_load(&pool->words[ANNOUNCEMENT(pass)]);
        if (announced && announced - 1 < least) least = announced - 1;
    }
    return least;
}

static void turn(uint32_t *list, size_t count) {
    for (size_t i = 0; i < count / 2; i++) {
        uint32_t page = list[i];
        list[i] = list[count - 1 - i];
        list[count - 1 - i] = page;
    }
}

void scan(struct pool *pool) {
    uint64_t least = least_announced(pool);
    size_t before = pool->free_count;
    for (; pool->first != pool->last; pool->first++) {
        struct retired next = pool->retired[pool->first % pool->pages];
        if (next.number >= least) break;
        pool->free[pool->free_count++] = next.page;
    }
    turn(pool->free + before, pool->free_count - before);
}

uint32_t take(struct write *write) {
    struct pool *pool = write->pool;
    if (!pool->free_count) scan(pool);
    if (!pool->free_count) longjmp(write->full, 1);
    return write->taken[write->taken_count++] = pool->free[--pool->free_count];
}

void give_up(struct write *write, uint32_t page) {
    for (int i = write->taken_count; i-- > 0;)
        if (write->taken[i] == page) { /* no one has seen it */
            write->taken[i] = write->taken[--write->taken_count];
            write->pool->free[write->pool->free_count++] = page;
            return;
        }
    write->given[write->given_count++] = page;
}

void undo(struct write *write) {
    while (write->taken_count) write->pool->free[write->pool->free_count++] = write->taken[--write->taken_count];
}

void publish(struct write *write, uint32_t version_page) {
    struct pool *pool = write->pool;
    uint64_t current = atomic_load(&pool->words[CURRENT]), number = current >> 32;
    give_up(write, (uint32_t)current);
    for (int i = 0; i < write->given_count; i++)
        pool->retired[pool->last++ % pool->pages] = (struct retired){write->given[i], number};
    atomic_store(&pool->words[CURRENT], (number + 1) << 32 | version_page);
}
