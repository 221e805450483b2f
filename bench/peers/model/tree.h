/* Trees of pages. A change copies the pages on the way to it.
 *
 * A page has its level, its number of items, and up to 12 items of 42 words: a word with the lengths of the key and the payload,
 * and then their bytes. An inner item has the lowest key of a page below, and that page's number. */
#ifndef TREE_H
#define TREE_H
#include "../keys.h"
#include "pool.h"

#define ITEM_WORDS 42
#define ITEMS_MOST 12
#define ITEMS_LEAST 6
#define LEVELS 8

/* Bytes as words, with the first byte highest. The rest of the last word is zero. */
struct key {
    uint32_t length;
    uint64_t words[ITEM_WORDS];
};

struct key key_of(const uint8_t *bytes, uint32_t length);

/* A position in each level of a tree, leaf first. */
struct cursor {
    const struct pool *pool;
    uint64_t pages[LEVELS];
    int places[LEVELS], counts[LEVELS], top;
};

/* A tree's root is a page number plus 1, or 0. Both functions return the new root. */
uint64_t tree_insert(struct write *write, uint64_t root, const struct key *key, const uint8_t *payload, uint32_t length);
uint64_t tree_remove(struct write *write, uint64_t root, const struct key *key);

/* Moves to the first item with this key or a later one. Returns false if there is none. */
bool seek(struct cursor *cursor, const struct pool *pool, uint64_t root, const struct key *key);
bool step(struct cursor *cursor);

/* These move to the last item of all, to the last one before a key, and to the previous one. They return false if there is
 * none. */
bool seek_last(struct cursor *cursor, const struct pool *pool, uint64_t root);
bool seek_before(struct cursor *cursor, const struct pool *pool, uint64_t root, const struct key *key);
bool step_back(struct cursor *cursor);

/* Returns whether the key exists, and its payload. Up to 7 bytes are written after it. */
bool find(const struct pool *pool, uint64_t root, const struct key *key, uint8_t *payload, uint32_t *length);

/* Copies the key, or the payload, at a cursor. Returns its length. */
uint32_t key_at(const struct cursor *cursor, uint8_t *to);
uint32_t payload_at(const struct cursor *cursor, uint8_t *to);
#endif
