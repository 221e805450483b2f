#include "item.h"

#include <string.h>

struct key key_of(const uint8_t *bytes, uint32_t length) {
    struct key key;
    key.length = length;
    uint32_t whole = length / 8;
    for (uint32_t i = 0; i < whole; i++) key.words[i] = take_number(bytes + 8 * i);
    if (length % 8) {
        uint8_t last[8] = {0};
        memcpy(last, bytes + 8 * whole, length % 8);
        key.words[whole] = take_number(last);
    }
    return key;
}

static uint64_t number_in(uint64_t first, uint64_t second, uint32_t at) {
    int shift = 8 * (at % 8);
    return shift ? first << shift | second >> (64 - shift) : first;
}

uint64_t child_at(const struct pool *pool, uint64_t page, int place) {
    int start = item_start(place);
    uint32_t at = word_at(pool, page, start) >> 32;
    uint64_t second = at % 8 ? word_at(pool, page, start + 2 + at / 8) : 0;
    return number_in(word_at(pool, page, start + 1 + at / 8), second, at);
}

uint64_t child_of(const uint64_t *words) {
    uint32_t at = words[0] >> 32;
    return number_in(words[1 + at / 8], at % 8 ? words[2 + at / 8] : 0, at);
}

void copy_bytes(const struct pool *pool, uint64_t page, int place, uint32_t from, uint32_t length, uint8_t *to) {
    int start = item_start(place) + 1;
    for (uint32_t at = from; at < from + length;) {
        uint8_t bytes[8];
        uint32_t skip = at % 8;
        put_number(bytes, word_at(pool, page, start + at / 8));
        if (skip == 0) memcpy(to, bytes, 8);
        else memcpy(to, bytes + skip, 8 - skip);
        to += 8 - skip;
        at += 8 - skip;
    }
}

/* Returns less than 0 if the item's key comes before the key, and more than 0 if it comes after. */
static int compare(const struct pool *pool, uint64_t page, int place, const struct key *key) {
    int start = item_start(place);
    uint32_t length = word_at(pool, page, start) >> 32, common = length < key->length ? length : key->length;
    for (uint32_t i = 0; i < common / 8; i++) {
        uint64_t there = word_at(pool, page, start + 1 + i);
        if (there != key->words[i]) return there < key->words[i] ? -1 : 1;
    }
    if (common % 8) {
        uint64_t mask = ~0ull << (64 - 8 * (common % 8));
        uint64_t there = word_at(pool, page, start + 1 + common / 8) & mask, here = key->words[common / 8] & mask;
        if (there != here) return there < here ? -1 : 1;
    }
    return (length > key->length) - (length < key->length);
}

int place_of(const struct pool *pool, uint64_t page, int count, const struct key *key, bool *same) {
    int low = 0, high = count;
    *same = false;
    while (low < high) {
        int middle = (low + high) / 2, order = compare(pool, page, middle, key);
        if (order == 0) {
            *same = true;
            return middle;
        }
        if (order < 0) low = middle + 1;
        else high = middle;
    }
    return low;
}

void make_item(uint64_t *to, const struct key *key, const uint8_t *payload, uint32_t length) {
    uint32_t key_words = (key->length + 7) / 8, words = (key->length + length + 7) / 8;
    to[0] = (uint64_t)key->length << 32 | length;
    for (uint32_t i = 0; i < words; i++) to[1 + i] = i < key_words ? key->words[i] : 0;
    for (uint32_t i = 0; i < length; i++) {
        uint32_t at = key->length + i;
        to[1 + at / 8] |= (uint64_t)payload[i] << (56 - 8 * (at % 8));
    }
}

void make_inner(uint64_t *to, const struct pool *pool, uint64_t page) {
    struct key key = {.length = item_head(pool, page, 0) >> 32};
    uint32_t words = (key.length + 7) / 8;
    uint8_t payload[8];
    for (uint32_t i = 0; i < words; i++) key.words[i] = word_at(pool, page, item_start(0) + 1 + i);
    if (key.length % 8) key.words[words - 1] &= ~0ull << (64 - 8 * (key.length % 8));
    put_number(payload, page);
    make_item(to, &key, payload, 8);
}
