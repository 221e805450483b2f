/* LMDB: an environment in memory (/dev/shm), without syncs. A catalog maps (node, name) to value, and each index has a database
 * with keys (value, node). A commit is a transaction, and a pin is a read transaction. */
#include <lmdb.h>
#include <stdio.h>
#include <stdlib.h>
#include <string.h>
#include <sys/stat.h>
#include <unistd.h>

#include "../driver/peer.h"
#include "holds.h"
#include "paging.h"

#define INDICES 32
#define PASSES 64
#define KEY_MOST 320

struct index {
    char name[64];
    size_t length;
    enum kind kind;
    MDB_dbi database;
};

struct pass {
    struct store *store;
    MDB_txn *list, *reading; /* `list`: an open commit of several writes */
    MDB_cursor *cursors[INDICES], *attributes;
};

struct store {
    MDB_env *environment;
    MDB_dbi catalog;
    int indices;
    struct index index[INDICES];
    struct pass passes[PASSES];
    char folder[64];
};

static void must_do(int status) {
    if (!status) return;
    fprintf(stderr, "lmdb: %s\n", mdb_strerror(status));
    exit(1);
}

/* Keys */

static MDB_val catalog_key(uint8_t *to, uint64_t node, struct text name) {
    put_number(to, node);
    memcpy(to + 8, name.bytes, name.length);
    return (MDB_val){8 + name.length, to};
}

/* Encodes a stored value: its kind, and then the number or the text. */
static MDB_val stored(uint8_t *to, const struct value *value) {
    to[0] = value->kind;
    if (value->kind == IS_NUMBER) {
        put_number(to + 1, value->number);
        return (MDB_val){9, to};
    }
    memcpy(to + 1, value->text.bytes, value->text.length);
    return (MDB_val){1 + value->text.length, to};
}

/* Encodes an index key for a stored value. Keys sort by value, and then by node. */
static MDB_val index_key(uint8_t *to, MDB_val stored, uint64_t node) {
    const uint8_t *from = stored.mv_data;
    size_t length = stored.mv_size - 1;
    memcpy(to, from + 1, length);
    if (from[0] == IS_NUMBER) to[0] ^= 0x80;
    else to[length++] = 0;
    put_number(to + length, node);
    return (MDB_val){length + 8, to};
}

/* Opening */

struct store *store_open(uint64_t pages, int passes) {
    struct store *store = calloc(1, sizeof *store);
    MDB_txn *writing;
    (void)pages;
    snprintf(store->folder, sizeof store->folder, "/dev/shm/bestore-lmdb-%d", (int)getpid());
    mkdir(store->folder, 0700);
    must_do(mdb_env_create(&store->environment));
    must_do(mdb_env_set_mapsize(store->environment, 1ull << 30));
    must_do(mdb_env_set_maxdbs(store->environment, INDICES + 1));
    must_do(mdb_env_set_maxreaders(store->environment, PASSES));
    unsigned flags = MDB_NOSYNC | MDB_WRITEMAP | MDB_NOMETASYNC | MDB_NOTLS | MDB_NOMEMINIT;
    must_do(mdb_env_open(store->environment, store->folder, flags, 0600));
    must_do(mdb_txn_begin(store->environment, NULL, 0, &writing));
    must_do(mdb_dbi_open(writing, "catalog", MDB_CREATE, &store->catalog));
    uint8_t key[8] = {0}, next[8];
    put_number(next, 1);
    must_do(mdb_put(writing, store->catalog, &(MDB_val){8, key}, &(MDB_val){8, next}, 0));
    must_do(mdb_txn_commit(writing));
    for (int i = 0; i < passes; i++) store->passes[i].store = store;
    return store;
}

struct pass *store_pass(struct store *store, int number) { return &store->passes[number]; }

void store_close(struct store *store) {
    char file[96];
    for (int i = 0; i < PASSES; i++) {
        for (int j = 0; j < INDICES; j++)
            if (store->passes[i].cursors[j]) mdb_cursor_close(store->passes[i].cursors[j]);
        if (store->passes[i].attributes) mdb_cursor_close(store->passes[i].attributes);
        if (store->passes[i].reading) mdb_txn_abort(store->passes[i].reading);
    }
    mdb_env_close(store->environment);
    snprintf(file, sizeof file, "%s/data.mdb", store->folder);
    unlink(file);
    snprintf(file, sizeof file, "%s/lock.mdb", store->folder);
    unlink(file);
    rmdir(store->folder);
    free(store);
}

uint64_t bytes_used(struct store *store) {
    MDB_envinfo info;
    MDB_stat stat;
    must_do(mdb_env_info(store->environment, &info));
    must_do(mdb_env_stat(store->environment, &stat));
    return (info.me_last_pgno + 1) * stat.ms_psize;
}

/* Writes */

const bool has_long_lists = true;

enum outcome begin(struct pass *pass) {
    must_do(mdb_txn_begin(pass->store->environment, NULL, 0, &pass->list));
    return DONE;
}

enum outcome commit(struct pass *pass) {
    must_do(mdb_txn_commit(pass->list));
    pass->list = NULL;
    return DONE;
}

static MDB_txn *start(struct pass *pass) {
    MDB_txn *writing = pass->list;
    if (!writing) must_do(mdb_txn_begin(pass->store->environment, NULL, 0, &writing));
    return writing;
}

static enum outcome end(struct pass *pass, MDB_txn *writing) {
    if (writing != pass->list) must_do(mdb_txn_commit(writing));
    return DONE;
}

static struct index *index_of(struct store *store, struct text name) {
    for (int i = 0; i < store->indices; i++) {
        struct index *index = &store->index[i];
        if (same_text((struct text){index->name, index->length}, name)) return index;
    }
    return NULL;
}

enum outcome make_index(struct pass *pass, struct text name, enum kind kind) {
    MDB_txn *writing = start(pass);
    struct index *index = &pass->store->index[pass->store->indices++];
    char database[80];
    memcpy(index->name, name.bytes, name.length);
    index->length = name.length;
    index->kind = kind;
    snprintf(database, sizeof database, "index %.*s", (int)name.length, name.bytes);
    must_do(mdb_dbi_open(writing, database, MDB_CREATE, &index->database));
    return end(pass, writing);
}

enum outcome make_node(struct pass *pass, uint64_t *node) {
    MDB_txn *writing = start(pass);
    MDB_dbi catalog = pass->store->catalog;
    uint8_t key[8] = {0}, next[8];
    MDB_val at = {8, key}, value;
    must_do(mdb_get(writing, catalog, &at, &value));
    *node = take_number(value.mv_data);
    put_number(next, *node + 1);
    must_do(mdb_put(writing, catalog, &at, &(MDB_val){8, next}, 0));
    put_number(key, *node);
    must_do(mdb_put(writing, catalog, &at, &(MDB_val){0, NULL}, 0));
    return end(pass, writing);
}

static void leave_index(MDB_txn *writing, const struct index *index, MDB_val old, uint64_t node) {
    uint8_t bytes[KEY_MOST];
    if (*(uint8_t *)old.mv_data != index->kind) return;
    MDB_val key = index_key(bytes, old, node);
    must_do(mdb_del(writing, index->database, &key, NULL));
}

static void enter_index(MDB_txn *writing, const struct index *index, MDB_val new, uint64_t node) {
    uint8_t bytes[KEY_MOST];
    if (*(uint8_t *)new.mv_data != index->kind) return;
    MDB_val key = index_key(bytes, new, node);
    must_do(mdb_put(writing, index->database, &key, &(MDB_val){0, bytes}, 0));
}

enum outcome set(struct pass *pass, uint64_t node, struct text name, const struct value *value) {
    MDB_txn *writing = start(pass);
    MDB_dbi catalog = pass->store->catalog;
    uint8_t key_bytes[80], bytes[KEY_MOST];
    MDB_val key = catalog_key(key_bytes, node, (struct text){"", 0}), old, new = stored(bytes, value);
    must_do(mdb_get(writing, catalog, &key, &old)); /* the node exists */
    key = catalog_key(key_bytes, node, name);
    struct index *index = index_of(pass->store, name);
    if (index) {
        if (!mdb_get(writing, catalog, &key, &old)) leave_index(writing, index, old, node);
        enter_index(writing, index, new, node);
    }
    must_do(mdb_put(writing, catalog, &key, &new, 0));
    return end(pass, writing);
}

enum outcome drop_node(struct pass *pass, uint64_t node) {
    MDB_txn *writing = start(pass);
    MDB_cursor *cursor;
    uint8_t number[8];
    MDB_val key = {8, number}, value;
    put_number(number, node);
    must_do(mdb_cursor_open(writing, pass->store->catalog, &cursor));
    int status = mdb_cursor_get(cursor, &key, &value, MDB_SET_RANGE);
    while (!status && !memcmp(key.mv_data, number, 8)) {
        struct text name = {(char *)key.mv_data + 8, key.mv_size - 8};
        struct index *index = name.length ? index_of(pass->store, name) : NULL;
        if (index) leave_index(writing, index, value, node);
        must_do(mdb_cursor_del(cursor, 0));
        status = mdb_cursor_get(cursor, &key, &value, MDB_GET_CURRENT);
        if (status) status = mdb_cursor_get(cursor, &key, &value, MDB_NEXT);
    }
    mdb_cursor_close(cursor);
    return end(pass, writing);
}

/* Reads */

void pin(struct pass *pass) {
    if (pass->reading) must_do(mdb_txn_renew(pass->reading));
    else must_do(mdb_txn_begin(pass->store->environment, NULL, MDB_RDONLY, &pass->reading));
}

void unpin(struct pass *pass) { mdb_txn_reset(pass->reading); }

/* Returns a cursor that the pass keeps, moved to the pin's snapshot. */
static MDB_cursor *renewed(struct pass *pass, MDB_cursor **cursor, MDB_dbi database) {
    if (*cursor) must_do(mdb_cursor_renew(pass->reading, *cursor));
    else must_do(mdb_cursor_open(pass->reading, database, cursor));
    return *cursor;
}

static MDB_cursor *cursor_of(struct pass *pass, const struct index *index) {
    return renewed(pass, &pass->cursors[index - pass->store->index], index->database);
}

static bool holds(struct pass *pass, const struct comparison *it, uint64_t node) {
    uint8_t bytes[80];
    MDB_val key = catalog_key(bytes, node, it->name), value;
    if (mdb_get(pass->reading, pass->store->catalog, &key, &value)) return false;
    return value_holds(it, value.mv_data, value.mv_size);
}

/* Appends the nodes that a walk over the picked index finds, in its order, after `count` of them. It stops at `stop` in total. */
static size_t walk(struct pass *pass, const struct query *query, uint64_t *nodes, size_t count, size_t most, size_t stop) {
    const struct comparison *pick = &query->comparisons[query->pick];
    const struct index *index = index_of(pass->store, pick->name);
    MDB_cursor *cursor = cursor_of(pass, index);
    uint8_t from[KEY_MOST], to[KEY_MOST];
    bool scans = is_scan(pick);
    size_t length = walk_bounds(query, index->kind, from, to);
    MDB_val key = {length, from}, value;
    int status = mdb_cursor_get(cursor, &key, &value, length ? MDB_SET_RANGE : MDB_FIRST);
    for (; !status && count < stop && memcmp(key.mv_data, to, length) <= 0; status = mdb_cursor_get(cursor, &key, &value, MDB_NEXT)) {
        if (scans && !text_holds(pick, key_text(key.mv_data, key.mv_size))) continue;
        uint64_t node = take_number((uint8_t *)key.mv_data + key.mv_size - 8);
        if (count < most && all_hold(pass, query, node)) nodes[count++] = node;
    }
    return count;
}

size_t ask(struct pass *pass, struct query *query, uint64_t *nodes, size_t most) {
    size_t count = 0;
    if (!query->is_any) count = walk(pass, query, nodes, 0, most, SIZE_MAX);
    else
        for (query->pick = 0; query->pick < query->count; query->pick++) count = walk(pass, query, nodes, count, most, SIZE_MAX);
    sort_nodes(nodes, count);
    return query->is_any ? without_doubles(nodes, count) : count;
}

size_t ask_some(struct pass *pass, struct query *query, uint64_t *nodes, size_t most) { return walk(pass, query, nodes, 0, most, most); }

static uint64_t keys_in(struct pass *pass, struct text by) {
    MDB_stat stat;
    must_do(mdb_stat(pass->reading, index_of(pass->store, by)->database, &stat));
    return stat.ms_entries;
}

/* Moves a cursor to the last key before a place, or to the last of all. */
static int move_before(MDB_cursor *cursor, const struct place *after, MDB_val *key, MDB_val *value) {
    uint8_t from[16];
    if (!after) return mdb_cursor_get(cursor, key, value, MDB_LAST);
    put_place(from, after);
    *key = (MDB_val){sizeof from, from};
    int status = mdb_cursor_get(cursor, key, value, MDB_SET_RANGE);
    return mdb_cursor_get(cursor, key, value, status ? MDB_LAST : MDB_PREV);
}

static size_t walk_down(struct pass *pass, const struct query *query, struct text by, bool is_picked, const struct place *after, uint64_t *nodes,
                        size_t most) {
    const struct comparison *pick = &query->comparisons[query->pick];
    bool scans = is_picked && is_scan(pick);
    MDB_cursor *cursor = cursor_of(pass, index_of(pass->store, by));
    MDB_val key, value;
    size_t count = 0;
    for (int status = move_before(cursor, after, &key, &value); !status && count < most; status = mdb_cursor_get(cursor, &key, &value, MDB_PREV)) {
        if (scans && !text_holds(pick, key_text(key.mv_data, key.mv_size))) continue;
        if (is_picked && !scans && is_below(pick, key.mv_data)) break;
        uint64_t node = take_number((uint8_t *)key.mv_data + key.mv_size - 8);
        if ((is_picked || holds(pass, pick, node)) && all_hold(pass, query, node)) nodes[count++] = node;
    }
    return count;
}

size_t ask_page(struct pass *pass, struct query *query, struct text by, const struct place *after, uint64_t hits, uint64_t *nodes, size_t most) {
    return page(pass, query, by, after, hits, nodes, most);
}

/* Uses a cursor, which it sets to each node. */
uint64_t read_each(struct pass *pass, const uint64_t *nodes, size_t count) {
    MDB_cursor *cursor = renewed(pass, &pass->attributes, pass->store->catalog);
    uint64_t sum = 0;
    for (size_t i = 0; i < count; i++) {
        uint8_t number[8];
        MDB_val key = {8, number}, value;
        put_number(number, nodes[i]);
        int status = mdb_cursor_get(cursor, &key, &value, MDB_SET);
        while (!status && !(status = mdb_cursor_get(cursor, &key, &value, MDB_NEXT)) && !memcmp(key.mv_data, number, 8))
            sum += weight_of(value.mv_data, value.mv_size);
    }
    return sum;
}

bool get_number(struct pass *pass, uint64_t node, struct text name, int64_t *number) {
    uint8_t bytes[80];
    MDB_val key = catalog_key(bytes, node, name), value;
    if (mdb_get(pass->reading, pass->store->catalog, &key, &value)) return false;
    *number = take_number((uint8_t *)value.mv_data + 1);
    return true;
}

void forget(struct query *query) { (void)query; }
