/* Items on pages. */
#ifndef ITEM_H
#define ITEM_H
#include "tree.h"

/* The position of an item's first word. */
static inline int item_start(int place) { return 2 + ITEM_WORDS * place; }

static inline uint64_t item_head(const struct pool *pool, uint64_t page, int place) { return word_at(pool, page, item_start(place)); }

/* How many words an item with this head uses. */
static inline int words_used(uint64_t head) { return 1 + ((uint32_t)(head >> 32) + (uint32_t)head + 7) / 8; }

/* The number of the page below an inner item. */
uint64_t child_at(const struct pool *pool, uint64_t page, int place);
uint64_t child_of(const uint64_t *words);

/* Copies bytes of an item. Up to 7 more are written. */
void copy_bytes(const struct pool *pool, uint64_t page, int place, uint32_t from, uint32_t length, uint8_t *to);

/* Returns how many of a page's items come before a key, and whether the next one has that key. */
int place_of(const struct pool *pool, uint64_t page, int count, const struct key *key, bool *same);

void make_item(uint64_t *to, const struct key *key, const uint8_t *payload, uint32_t length);

/* Makes an inner item for a page. */
void make_inner(uint64_t *to, const struct pool *pool, uint64_t page);
#endif
