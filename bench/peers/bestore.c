/* bestore through its C library: what bestore.h costs on top of the same calls in Rattle. bestore parses a query's text and keeps
 * it prepared. Each write outside begin and commit is a write of one operation; those in between are one batch. */
#include "../../include/bestore.h"

#include <stdio.h>
#include <stdlib.h>

#include "../driver/peer.h"

#define PASSES 64
#define COMMITS 10000000
#define TRIES 64

struct pass {
    _Alignas(64) bes_pass held;
    bes_turn *turn;
    bool is_open;
    bes_batch batch;
};

struct store {
    int count;
    bes_turn turn;
    struct pass passes[PASSES];
};

static void must_do(uint32_t answer) {
    if (answer == BES_OK) return;
    fprintf(stderr, "bestore: %s\n", bes_strerror(answer));
    exit(1);
}

/* Converts a write's result. Only these two errors are expected. */
static enum outcome outcome_of(uint32_t answer) {
    if (answer == BES_BUSY) return BUSY;
    if (answer == BES_FULL) return FULL;
    must_do(answer);
    return DONE;
}

struct store *store_open(uint64_t pages, int passes) {
    struct store *store = aligned_alloc(64, sizeof *store);
    memset(store, 0, sizeof *store);
    store->count = passes;
    must_do(bes_open(pages, passes, COMMITS, &store->passes[0].held));
    for (int i = 0; i < passes; i++) store->passes[i].turn = &store->turn;
    for (int i = 1; i < passes; i++) must_do(bes_another(&store->passes[0].held, &store->passes[i].held));
    return store;
}

struct pass *store_pass(struct store *store, int number) { return &store->passes[number]; }

void store_close(struct store *store) {
    for (int i = store->count; i-- > 0;) must_do(bes_close(&store->passes[i].held));
    free(store);
}

uint64_t bytes_used(struct store *store) {
    bes_usage usage;
    uint64_t number;
    must_do(bes_status(&store->passes[0].held, &usage, &number));
    return 4096 * (usage.pages - usage.free);
}

/* Writes */

static uint32_t kind_code(enum kind kind) { return kind == IS_NUMBER ? BES_INT64_TYPE : BES_STRING_TYPE; }

/* Makes an operation whose name and value are next to each other in `bytes`. */
static bes_operation operation_of(uint32_t kind, uint64_t node, size_t name_length) {
    bes_operation it = {.kind = kind, .node = node, .name_length = name_length, .value_at = name_length};
    return it;
}

static enum outcome apply(struct pass *pass, const bes_operation *it, const uint8_t *bytes, uint64_t *made) {
    uint64_t number;
    bes_retry retry = {TRIES - 1, 1, 0, BES_WITHIN, pass->turn};
    return outcome_of(bes_apply_retrying(&pass->held, &retry, it, 1, bytes, it->value_at + it->value_length, made, 1, &number));
}

enum outcome begin(struct pass *pass) {
    bes_batch_clear(&pass->batch);
    pass->is_open = true;
    return DONE;
}

enum outcome commit(struct pass *pass) {
    uint64_t made, number;
    const bes_batch *it = &pass->batch;
    pass->is_open = false;
    return outcome_of(bes_apply(&pass->held, it->operations, it->count, it->bytes, it->used, &made, 0, &number));
}

enum outcome make_index(struct pass *pass, struct text name, enum kind kind) {
    uint64_t made;
    bes_operation it = operation_of(BES_MAKE_INDEX, 0, name.length);
    it.code = kind_code(kind);
    return apply(pass, &it, (const uint8_t *)name.bytes, &made);
}

enum outcome make_node(struct pass *pass, uint64_t *node) {
    if (pass->is_open) {
        must_do(bes_batch_add(&pass->batch, BES_NEW_NODE, 0, "", 0, 0, NULL, 0));
        return DONE;
    }
    bes_operation it = operation_of(BES_NEW_NODE, 0, 0);
    return apply(pass, &it, (const uint8_t *)"", node);
}

enum outcome drop_node(struct pass *pass, uint64_t node) {
    uint64_t made;
    bes_operation it = operation_of(BES_REMOVE_NODE, node, 0);
    return apply(pass, &it, (const uint8_t *)"", &made);
}

static void name_of(char *to, struct text name) {
    memcpy(to, name.bytes, name.length);
    to[name.length] = 0;
}

enum outcome set(struct pass *pass, uint64_t node, struct text name, const struct value *value) {
    uint64_t made;
    if (pass->is_open) {
        char called[64];
        name_of(called, name);
        must_do(bes_batch_add(&pass->batch, BES_SET, node, called, kind_code(value->kind), value->number, value->text.bytes,
                              value->text.length));
        return DONE;
    }
    uint8_t bytes[63 + 255];
    bes_operation it = operation_of(BES_SET, node, name.length);
    it.code = kind_code(value->kind);
    it.number = value->number;
    it.value_length = value->text.length;
    memcpy(bytes, name.bytes, name.length);
    memcpy(bytes + name.length, value->text.bytes, value->text.length);
    return apply(pass, &it, bytes, &made);
}

/* Reads */

void pin(struct pass *pass) {
    uint64_t number;
    must_do(bes_pin(&pass->held, &number));
}

void unpin(struct pass *pass) { must_do(bes_unpin(&pass->held)); }

void parse(struct query *query, struct text text) {
    bes_prepared *prepared = calloc(1, sizeof *prepared);
    uint64_t place;
    must_do(bes_prepare((const uint8_t *)text.bytes, text.length, prepared, &place));
    query->prepared = prepared;
}

size_t ask(struct pass *pass, struct query *query, uint64_t *nodes, size_t most) {
    uint64_t count;
    must_do(bes_query_prepared(&pass->held, query->prepared, nodes, most, &count));
    return count;
}

size_t ask_some(struct pass *pass, struct query *query, uint64_t *nodes, size_t most) {
    uint64_t count;
    must_do(bes_any(&pass->held, query->prepared, nodes, most, &count));
    return count;
}

static bes_cursor cursor_at(const struct place *after) {
    bes_cursor cursor = {0, 0, {0}};
    const bes_attribute number = {.code = BES_INT64_TYPE, .number = after ? (uint64_t)after->number : 0};
    if (after) must_do(bes_cursor_at(&number, "", after->node, &cursor));
    return cursor;
}

size_t ask_page(struct pass *pass, struct query *query, struct text by, const struct place *after, uint64_t hits, uint64_t *nodes, size_t most) {
    bes_cursor cursor = cursor_at(after);
    bes_name name;
    uint64_t count;
    uint32_t more;
    (void)hits;
    must_do(bes_check_name((const uint8_t *)by.bytes, by.length, &name));
    must_do(bes_ordered(&pass->held, query->prepared, &name, 1, &cursor, nodes, most, &count, &more));
    return count;
}

/* Returns a number, or a text's length, or 0 if there is no value. */
static uint64_t weight_of(const bes_cell *cell) { return cell->code == BES_INT64_TYPE ? cell->number : cell->length; }

enum { WIDTH = 5, PART = 128 };

/* Returns the names of a file's attributes, in ascending order of bytes. */
static const bes_name *checked_names(void) {
    static const char *const names[WIDTH] = {"kind", "modified", "name", "owner", "size"};
    static bes_name checked[WIDTH];
    for (int i = 0; i < WIDTH && checked[WIDTH - 1].length == 0; i++)
        must_do(bes_check_name((const uint8_t *)names[i], strlen(names[i]), &checked[i]));
    return checked;
}

uint64_t read_each(struct pass *pass, const uint64_t *nodes, size_t count) {
    static uint8_t bytes[PART * WIDTH * 255];
    bes_cell cells[PART * WIDTH];
    const bes_name *names = checked_names();
    uint64_t sum = 0, length = 0;
    for (size_t first = 0; first < count; first += PART) {
        size_t part = count - first < PART ? count - first : PART;
        must_do(bes_columns(&pass->held, nodes + first, part, names, WIDTH, cells, PART * WIDTH, bytes, sizeof bytes, &length));
        for (size_t i = 0; i < part * WIDTH; i++) sum += weight_of(&cells[i]);
    }
    return sum;
}

void forget(struct query *query) {
    must_do(bes_release(query->prepared));
    free(query->prepared);
}

bool get_number(struct pass *pass, uint64_t node, struct text name, int64_t *number) {
    uint8_t none[1];
    bes_attribute found;
    uint32_t answer = bes_get(&pass->held, node, (const uint8_t *)name.bytes, name.length, &found, none, 0);
    if (answer == BES_NO_ATTRIBUTE) return false;
    must_do(answer);
    *number = (int64_t)found.number;
    return true;
}
