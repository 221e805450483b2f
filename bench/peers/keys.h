/* What LMDB's adapter and the model share: numbers in keys, and the bounds of a walk over an index. */
#ifndef KEYS_H
#define KEYS_H
#include "../driver/query.h"

/* Keys store numbers with the highest byte first, so that they sort as the numbers do. */
static inline void put_number(uint8_t *to, uint64_t number) {
    number = __builtin_bswap64(number);
    __builtin_memcpy(to, &number, 8);
}

static inline uint64_t take_number(const uint8_t *from) {
    uint64_t number;
    __builtin_memcpy(&number, from, 8);
    return __builtin_bswap64(number);
}

/* Writes a walk's first key, and the bytes that none of its keys exceeds. Returns the length of both. */
static inline size_t walk_bounds(const struct query *query, enum kind kind, uint8_t *from, uint8_t *to) {
    const struct comparison *pick = &query->comparisons[query->pick];
    size_t length = is_scan(pick) ? 0 : pick->text.length;
    if (kind == IS_NUMBER) {
        int64_t low, high;
        number_bounds(query, &low, &high);
        put_number(from, (uint64_t)low ^ 1ull << 63);
        put_number(to, (uint64_t)high ^ 1ull << 63);
        return 8;
    }
    __builtin_memcpy(from, pick->text.bytes, length);
    if (pick->how == EQUAL) from[length++] = 0;
    __builtin_memcpy(to, from, length);
    return length;
}

/* Whether a comparison has to be checked at each node that a walk finds: it isn't picked, and doesn't bound the walk. */
static inline bool is_asked(const struct query *query, int i) {
    return !query->is_any && i != query->pick && i != query->low && i != query->high;
}

/* Returns the text in an index key, which is followed by a zero byte and the node. */
static inline struct text key_text(const uint8_t *key, size_t length) { return (struct text){(const char *)key, length - 9}; }
#endif
