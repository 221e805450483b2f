/* Lookups and walks. */
#include "item.h"

/* Moves to the item at this position, or after it. */
static bool settle(struct cursor *cursor) {
    int level = 0;
    while (cursor->places[level] >= cursor->counts[level]) {
        if (++level > cursor->top) return false;
        cursor->places[level]++;
    }
    for (; level > 0; level--) {
        uint64_t below = child_at(cursor->pool, cursor->pages[level], cursor->places[level]);
        cursor->pages[level - 1] = below;
        cursor->counts[level - 1] = word_at(cursor->pool, below, 1);
        cursor->places[level - 1] = 0;
    }
    return true;
}

/* Moves to the key's position in each level. Returns whether the leaf has the key. */
static bool descend(struct cursor *cursor, const struct pool *pool, uint64_t root, const struct key *key) {
    uint64_t page = root - 1;
    cursor->pool = pool;
    cursor->top = word_at(pool, page, 0);
    for (int level = cursor->top;; level--) {
        bool same;
        cursor->pages[level] = page;
        cursor->counts[level] = word_at(pool, page, 1);
        int at = place_of(pool, page, cursor->counts[level], key, &same);
        if (level > 0 && !same && at > 0) at--;
        cursor->places[level] = at;
        if (level == 0) return same;
        page = child_at(pool, page, at);
    }
}

bool seek(struct cursor *cursor, const struct pool *pool, uint64_t root, const struct key *key) {
    return root && (descend(cursor, pool, root, key) || settle(cursor));
}

bool step(struct cursor *cursor) {
    cursor->places[0]++;
    return settle(cursor);
}

/* Moves to the last item of a page and of everything below it, from this level down. */
static void settle_last(struct cursor *cursor, int level, uint64_t page) {
    for (;; level--) {
        cursor->pages[level] = page;
        cursor->counts[level] = word_at(cursor->pool, page, 1);
        cursor->places[level] = cursor->counts[level] - 1;
        if (level == 0) return;
        page = child_at(cursor->pool, page, cursor->places[level]);
    }
}

bool seek_last(struct cursor *cursor, const struct pool *pool, uint64_t root) {
    if (!root) return false;
    cursor->pool = pool;
    cursor->top = word_at(pool, root - 1, 0);
    settle_last(cursor, cursor->top, root - 1);
    return true;
}

bool step_back(struct cursor *cursor) {
    int level = 0;
    while (cursor->places[level] == 0)
        if (++level > cursor->top) return false;
    cursor->places[level]--;
    if (level > 0) settle_last(cursor, level - 1, child_at(cursor->pool, cursor->pages[level], cursor->places[level]));
    return true;
}

bool seek_before(struct cursor *cursor, const struct pool *pool, uint64_t root, const struct key *key) {
    if (!root) return false;
    descend(cursor, pool, root, key);
    return step_back(cursor);
}

uint32_t key_at(const struct cursor *cursor, uint8_t *to) {
    uint32_t length = item_head(cursor->pool, cursor->pages[0], cursor->places[0]) >> 32;
    copy_bytes(cursor->pool, cursor->pages[0], cursor->places[0], 0, length, to);
    return length;
}

uint32_t payload_at(const struct cursor *cursor, uint8_t *to) {
    uint64_t head = item_head(cursor->pool, cursor->pages[0], cursor->places[0]);
    copy_bytes(cursor->pool, cursor->pages[0], cursor->places[0], head >> 32, (uint32_t)head, to);
    return (uint32_t)head;
}

bool find(const struct pool *pool, uint64_t root, const struct key *key, uint8_t *payload, uint32_t *length) {
    struct cursor cursor;
    if (!root || !descend(&cursor, pool, root, key)) return false;
    *length = payload_at(&cursor, payload);
    return true;
}
