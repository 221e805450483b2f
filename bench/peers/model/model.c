/* bestore's page format in plain C, unproved: it shows what the format allows. There is one writer at a time; a writer that
 * finds the lock taken doesn't wait. A pin announces the current version, a journal keeps each operation whole, and each write
 * scans. */
#include <stdlib.h>
#include <string.h>

#include "../holds.h"
#include "../paging.h"
#include "volume.h"

#define LIST_MOST 64

struct entry {
    uint64_t pass, made;
    struct operation operation;
};

struct pass {
    struct store *store;
    uint64_t number, pinned;
    bool is_list;
    int count;
    struct operation list[LIST_MOST];
    struct version version; /* the version pinned last */
    struct write write;
};

struct store {
    struct pool pool;
    struct entry *journal;
    size_t entries, room;
    int passes;
    struct pass *pass[PASSES];
};

struct store *store_open(uint64_t pages, int passes) {
    struct store *store = aligned_alloc(64, sizeof *store);
    memset(store, 0, sizeof *store);
    open_pool(&store->pool, pages, passes);
    fill_word(&store->pool, 0, 2, 1);
    store->passes = passes;
    for (int i = 0; i < passes; i++) {
        store->pass[i] = calloc(1, sizeof *store->pass[i]);
        store->pass[i]->store = store;
        store->pass[i]->number = i;
    }
    return store;
}

struct pass *store_pass(struct store *store, int number) { return store->pass[number]; }

void store_close(struct store *store) {
    for (int i = 0; i < store->passes; i++) free(store->pass[i]);
    close_pool(&store->pool);
    free(store->journal);
    free(store);
}

uint64_t bytes_used(struct store *store) { return 8 * PAGE_WORDS * (store->pool.pages - store->pool.free_count); }

/* Writes */

static void enter(struct store *store, const struct entry *entry) {
    if (store->entries == store->room) {
        store->room = store->room ? 2 * store->room : 64;
        store->journal = realloc(store->journal, store->room * sizeof *store->journal);
    }
    store->journal[store->entries++] = *entry;
}

static enum outcome apply_locked(struct pass *pass, const struct operation *list, int count, uint64_t *node) {
    struct store *store = pass->store;
    struct write *write = &pass->write;
    struct version version;
    write->pool = &store->pool;
    write->taken_count = write->given_count = 0;
    scan(&store->pool);
    if (setjmp(write->full)) {
        undo(write);
        return FULL;
    }
    load_version(&version, &store->pool, (uint32_t)atomic_load(&store->pool.words[CURRENT]));
    for (int i = 0; i < count; i++) *node = work(write, &version, &list[i]);
    uint32_t page = write_version(write, &version);
    for (int i = 0; i < count; i++) enter(store, &(struct entry){pass->number, *node, list[i]});
    publish(write, page);
    return DONE;
}

static enum outcome apply(struct pass *pass, const struct operation *list, int count, uint64_t *node) {
    word *lock = &pass->store->pool.words[LOCK];
    uint64_t open = 0;
    if (!atomic_compare_exchange_strong(lock, &open, pass->number + 1)) return BUSY;
    enum outcome outcome = apply_locked(pass, list, count, node);
    atomic_store(lock, 0);
    return outcome;
}

/* Applies an operation, or adds it to the open list. */
static enum outcome hand_in(struct pass *pass, const struct operation *operation, uint64_t *node) {
    if (!pass->is_list) return apply(pass, operation, 1, node);
    if (pass->count == LIST_MOST) exit(1);
    pass->list[pass->count++] = *operation;
    return DONE;
}

enum outcome begin(struct pass *pass) {
    pass->is_list = true;
    pass->count = 0;
    return DONE;
}

enum outcome commit(struct pass *pass) {
    uint64_t node;
    pass->is_list = false;
    return apply(pass, pass->list, pass->count, &node);
}

static void name_it(struct operation *operation, struct text name) {
    operation->name_length = name.length;
    memcpy(operation->name, name.bytes, name.length);
}

enum outcome make_index(struct pass *pass, struct text name, enum kind kind) {
    struct operation operation;
    uint64_t node;
    operation.order = MAKE_INDEX;
    operation.kind = kind;
    name_it(&operation, name);
    return hand_in(pass, &operation, &node);
}

enum outcome make_node(struct pass *pass, uint64_t *node) {
    struct operation operation;
    operation.order = MAKE_NODE;
    return hand_in(pass, &operation, node);
}

enum outcome drop_node(struct pass *pass, uint64_t node) {
    struct operation operation;
    uint64_t none;
    operation.order = DROP_NODE;
    operation.node = node;
    return hand_in(pass, &operation, &none);
}

enum outcome set(struct pass *pass, uint64_t node, struct text name, const struct value *value) {
    struct operation operation;
    uint64_t none;
    operation.order = SET;
    operation.kind = value->kind;
    operation.node = node;
    name_it(&operation, name);
    operation.value_length = value->kind == IS_NUMBER ? 8 : value->text.length;
    if (value->kind == IS_NUMBER) put_number(operation.value, value->number);
    else memcpy(operation.value, value->text.bytes, value->text.length);
    return hand_in(pass, &operation, &none);
}

/* Reads */

void pin(struct pass *pass) {
    word *words = pass->store->pool.words;
    uint64_t number = atomic_load(&words[CURRENT]) >> 32;
    atomic_store(&words[ANNOUNCEMENT(pass->number)], number + 1);
    pass->pinned = (uint32_t)atomic_load(&words[CURRENT]);
}

void unpin(struct pass *pass) { atomic_store(&pass->store->pool.words[ANNOUNCEMENT(pass->number)], 0); }

/* Checks an indexed name through its index. */
static bool holds(struct pass *pass, const struct comparison *it, uint64_t node) {
    const struct pool *pool = &pass->store->pool;
    uint8_t stored[VALUE_MOST], bytes[VALUE_MOST + 16];
    uint32_t length;
    if (!attribute(pool, pass->version.catalog, node, it->name, stored, &length)) return false;
    const struct index *index = index_of(&pass->version, it->name);
    if (index) {
        if (stored[0] != index->kind) return false;
        struct key key = key_of(bytes, index_bytes(bytes, index->kind, stored + 1, length - 1, node));
        uint32_t none;
        if (!find(pool, index->root, &key, bytes, &none)) return false;
    }
    return value_holds(it, stored, length);
}

static size_t walk(struct pass *pass, const struct query *query, uint64_t *nodes, size_t count, size_t most, size_t stop) {
    const struct comparison *pick = &query->comparisons[query->pick];
    struct cursor cursor;
    uint8_t from[VALUE_MOST], to[VALUE_MOST], bytes[VALUE_MOST + 16];
    bool scans = is_scan(pick);
    const struct index *index = index_of(&pass->version, pick->name);
    uint32_t length = walk_bounds(query, index->kind, from, to);
    struct key key = key_of(from, length);
    for (bool more = seek(&cursor, &pass->store->pool, index->root, &key); more && count < stop; more = step(&cursor)) {
        uint32_t found = key_at(&cursor, bytes);
        if (memcmp(bytes, to, length) > 0) break;
        if (scans && !text_holds(pick, key_text(bytes, found))) continue;
        uint64_t node = take_number(bytes + found - 8);
        if (count < most && all_hold(pass, query, node)) nodes[count++] = node;
    }
    return count;
}

size_t ask(struct pass *pass, struct query *query, uint64_t *nodes, size_t most) {
    size_t count = 0;
    load_version(&pass->version, &pass->store->pool, pass->pinned);
    if (!query->is_any) count = walk(pass, query, nodes, 0, most, SIZE_MAX);
    else
        for (query->pick = 0; query->pick < query->count; query->pick++) count = walk(pass, query, nodes, count, most, SIZE_MAX);
    sort_nodes(nodes, count);
    return query->is_any ? without_doubles(nodes, count) : count;
}

size_t ask_some(struct pass *pass, struct query *query, uint64_t *nodes, size_t most) {
    load_version(&pass->version, &pass->store->pool, pass->pinned);
    return walk(pass, query, nodes, 0, most, most);
}

/* About as many as there are nodes. */
static uint64_t keys_in(struct pass *pass, struct text by) {
    (void)by;
    return pass->version.next;
}

/* Moves a cursor to the last key before a place, or to the last of all. */
static bool move_before(struct pass *pass, struct cursor *cursor, uint64_t root, const struct place *after) {
    uint8_t from[16];
    if (!after) return seek_last(cursor, &pass->store->pool, root);
    put_place(from, after);
    struct key key = key_of(from, sizeof from);
    return seek_before(cursor, &pass->store->pool, root, &key);
}

static size_t walk_down(struct pass *pass, const struct query *query, struct text by, bool is_picked, const struct place *after, uint64_t *nodes,
                        size_t most) {
    const struct comparison *pick = &query->comparisons[query->pick];
    bool scans = is_picked && is_scan(pick);
    struct cursor cursor;
    uint8_t bytes[VALUE_MOST + 16];
    size_t count = 0;
    uint64_t root = index_of(&pass->version, by)->root;
    for (bool more = move_before(pass, &cursor, root, after); more && count < most; more = step_back(&cursor)) {
        uint32_t found = key_at(&cursor, bytes);
        if (scans && !text_holds(pick, key_text(bytes, found))) continue;
        if (is_picked && !scans && is_below(pick, bytes)) break;
        uint64_t node = take_number(bytes + found - 8);
        if ((is_picked || holds(pass, pick, node)) && all_hold(pass, query, node)) nodes[count++] = node;
    }
    return count;
}

size_t ask_page(struct pass *pass, struct query *query, struct text by, const struct place *after, uint64_t hits, uint64_t *nodes, size_t most) {
    load_version(&pass->version, &pass->store->pool, pass->pinned);
    return page(pass, query, by, after, hits, nodes, most);
}

/* Walks over each node's attributes. */
uint64_t read_each(struct pass *pass, const uint64_t *nodes, size_t count) {
    const struct pool *pool = &pass->store->pool;
    uint64_t catalog = word_at(pool, pass->pinned, 3), sum = 0;
    uint8_t number[8], bytes[VALUE_MOST + 16], stored[VALUE_MOST];
    for (size_t i = 0; i < count; i++) {
        struct cursor cursor;
        put_number(number, nodes[i]);
        struct key key = key_of(number, 8);
        bool more = seek(&cursor, pool, catalog, &key);
        for (more = more && step(&cursor); more; more = step(&cursor)) {
            key_at(&cursor, bytes);
            if (memcmp(bytes, number, 8)) break;
            uint32_t length = payload_at(&cursor, stored);
            sum += weight_of(stored, length);
        }
    }
    return sum;
}

bool get_number(struct pass *pass, uint64_t node, struct text name, int64_t *number) {
    const struct pool *pool = &pass->store->pool;
    uint8_t stored[VALUE_MOST];
    uint32_t length;
    if (!attribute(pool, word_at(pool, pass->pinned, 3), node, name, stored, &length)) return false;
    *number = take_number(stored + 1);
    return true;
}

void forget(struct query *query) { (void)query; }
