#include "volume.h"

#include <stdlib.h>
#include <string.h>

/* An index's words in a version page: the length of its name, the name, its kind and its root. */
#define INDEX_WORDS 11
#define FIRST_INDEX 4
#define VERSION_LEVEL 255

void load_version(struct version *version, const struct pool *pool, uint64_t page) {
    version->count = word_at(pool, page, 1);
    version->next = word_at(pool, page, 2);
    version->catalog = word_at(pool, page, 3);
    for (uint64_t i = 0; i < version->count; i++) {
        struct index *index = &version->indices[i];
        int at = FIRST_INDEX + INDEX_WORDS * i;
        index->length = word_at(pool, page, at);
        for (size_t j = 0; 8 * j < index->length; j++) put_number((uint8_t *)index->name + 8 * j, word_at(pool, page, at + 1 + j));
        index->kind = word_at(pool, page, at + 9);
        index->root = word_at(pool, page, at + 10);
    }
}

uint32_t write_version(struct write *write, const struct version *version) {
    struct pool *pool = write->pool;
    uint32_t page = take(write);
    fill_word(pool, page, 0, VERSION_LEVEL);
    fill_word(pool, page, 1, version->count);
    fill_word(pool, page, 2, version->next);
    fill_word(pool, page, 3, version->catalog);
    for (uint64_t i = 0; i < version->count; i++) {
        const struct index *index = &version->indices[i];
        int at = FIRST_INDEX + INDEX_WORDS * i;
        struct key name = key_of((const uint8_t *)index->name, index->length);
        fill_word(pool, page, at, index->length);
        for (uint32_t j = 0; j < 8; j++) fill_word(pool, page, at + 1 + j, 8 * j < name.length ? name.words[j] : 0);
        fill_word(pool, page, at + 9, index->kind);
        fill_word(pool, page, at + 10, index->root);
    }
    return page;
}

const struct index *index_of(const struct version *version, struct text name) {
    for (uint64_t i = 0; i < version->count; i++) {
        const struct index *index = &version->indices[i];
        if (same_text((struct text){index->name, index->length}, name)) return index;
    }
    return NULL;
}

static struct key catalog_key(uint64_t node, struct text name) {
    uint8_t bytes[80];
    put_number(bytes, node);
    memcpy(bytes + 8, name.bytes, name.length);
    return key_of(bytes, 8 + name.length);
}

uint32_t index_bytes(uint8_t *to, enum kind kind, const uint8_t *value, uint32_t length, uint64_t node) {
    memcpy(to, value, length);
    if (kind == IS_NUMBER) to[0] ^= 0x80;
    else to[length++] = 0;
    put_number(to + length, node);
    return length + 8;
}

bool attribute(const struct pool *pool, uint64_t catalog, uint64_t node, struct text name, uint8_t *stored, uint32_t *length) {
    struct key key = catalog_key(node, name);
    return find(pool, catalog, &key, stored, length);
}

static void need_node(const struct pool *pool, uint64_t catalog, uint64_t node) {
    uint8_t none[8];
    uint32_t length;
    if (!attribute(pool, catalog, node, (struct text){"", 0}, none, &length)) exit(1);
}

/* Removes a stored value from its index, or adds it. */
static void reindex(struct write *write, struct index *index, const uint8_t *stored, uint32_t length, uint64_t node, bool in) {
    uint8_t bytes[VALUE_MOST + 16];
    if (stored[0] != index->kind) return;
    struct key key = key_of(bytes, index_bytes(bytes, index->kind, stored + 1, length - 1, node));
    index->root = in ? tree_insert(write, index->root, &key, NULL, 0) : tree_remove(write, index->root, &key);
}

static bool is_of(const struct cursor *cursor, uint64_t node, uint8_t *key, uint32_t *length) {
    *length = key_at(cursor, key);
    return take_number(key) == node;
}

/* Returns how many attributes a node has. Setting a new name counts them. */
static int attributes(const struct pool *pool, uint64_t catalog, uint64_t node) {
    struct cursor cursor;
    struct key key = catalog_key(node, (struct text){"", 0});
    uint8_t bytes[80];
    uint32_t length;
    int count = 0;
    for (bool more = seek(&cursor, pool, catalog, &key) && step(&cursor); more && is_of(&cursor, node, bytes, &length); more = step(&cursor)) count++;
    return count;
}

static void set_value(struct write *write, struct version *version, const struct operation *it) {
    struct text name = {it->name, it->name_length};
    struct key key = catalog_key(it->node, name);
    uint8_t old[VALUE_MOST], new[VALUE_MOST] = {it->kind};
    uint32_t length = 0;
    struct index *index = (struct index *)index_of(version, name);
    memcpy(new + 1, it->value, it->value_length);
    need_node(write->pool, version->catalog, it->node);
    bool is_there = find(write->pool, version->catalog, &key, old, &length);
    if (!is_there && attributes(write->pool, version->catalog, it->node) >= 64) exit(1);
    if (index && is_there) reindex(write, index, old, length, it->node, false);
    if (index) reindex(write, index, new, it->value_length + 1, it->node, true);
    version->catalog = tree_insert(write, version->catalog, &key, new, it->value_length + 1);
}

static void drop(struct write *write, struct version *version, uint64_t node) {
    struct cursor cursor;
    struct key key = catalog_key(node, (struct text){"", 0});
    uint8_t bytes[80], stored[VALUE_MOST];
    uint32_t length;
    need_node(write->pool, version->catalog, node);
    while (seek(&cursor, write->pool, version->catalog, &key) && is_of(&cursor, node, bytes, &length)) {
        struct index *index = length > 8 ? (struct index *)index_of(version, (struct text){(char *)bytes + 8, length - 8}) : NULL;
        if (index) {
            uint32_t size = payload_at(&cursor, stored);
            reindex(write, index, stored, size, node, false);
        }
        struct key found = key_of(bytes, length);
        version->catalog = tree_remove(write, version->catalog, &found);
    }
}

static void add_index(struct version *version, const struct operation *it) {
    struct index *index = &version->indices[version->count++];
    memcpy(index->name, it->name, it->name_length);
    index->length = it->name_length;
    index->kind = it->kind;
    index->root = 0;
}

uint64_t work(struct write *write, struct version *version, const struct operation *it) {
    struct key key;
    switch (it->order) {
    case MAKE_NODE:
        key = catalog_key(version->next, (struct text){"", 0});
        version->catalog = tree_insert(write, version->catalog, &key, NULL, 0);
        return version->next++;
    case DROP_NODE: drop(write, version, it->node); return 0;
    case SET: set_value(write, version, it); return 0;
    case MAKE_INDEX: add_index(version, it); return 0;
    }
    return 0;
}
