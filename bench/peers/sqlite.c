/* SQLite: rows (node, name, value), with a partial index for each indexed name. By default it has one connection to a database in
 * memory, and so only one thread. With -DWAL it uses a file in memory (/dev/shm) in WAL mode, with a connection for each pass. A
 * pin is a read transaction. */
#include <sqlite3.h>
#include <stdarg.h>
#include <stdio.h>
#include <stdlib.h>
#include <string.h>
#include <unistd.h>

#include "../driver/peer.h"

#define PASSES 64
#define KEPT 32

enum statement { BEGIN, COMMIT, MAKE_NODE, SET, DROP_ATTRIBUTES, DROP_NODE, PIN, LOOK, GET, STATEMENTS };

static const char *const texts[STATEMENTS] = {
    [BEGIN] = "BEGIN IMMEDIATE",
    [COMMIT] = "COMMIT",
    [MAKE_NODE] = "INSERT INTO node DEFAULT VALUES",
    [SET] = "INSERT INTO attribute(node, name, value) SELECT id, ?2, ?3 FROM node WHERE id = ?1"
            " ON CONFLICT(node, name) DO UPDATE SET value = excluded.value",
    [DROP_ATTRIBUTES] = "DELETE FROM attribute WHERE node = ?1",
    [DROP_NODE] = "DELETE FROM node WHERE id = ?1",
    [PIN] = "BEGIN",
    [LOOK] = "SELECT id FROM node LIMIT 1",
    [GET] = "SELECT value FROM attribute WHERE node = ?1 AND name = ?2",
};

/* What a query needs once: a statement, by its text. */
struct kept {
    char *text;
    sqlite3_stmt *statement;
};

struct pass {
    sqlite3 *connection;
    sqlite3_stmt *statements[STATEMENTS];
    int kept_count;
    struct kept kept[KEPT];
};

struct store {
    char file[64];
    int count;
    struct pass passes[PASSES];
};

static void must_do(sqlite3 *connection, int status) {
    if (status == SQLITE_OK || status == SQLITE_DONE || status == SQLITE_ROW) return;
    fprintf(stderr, "sqlite: %d %s\n", status, connection ? sqlite3_errmsg(connection) : "");
    exit(1);
}

static void execute(sqlite3 *connection, const char *text) {
    must_do(connection, sqlite3_exec(connection, text, NULL, NULL, NULL));
}

static sqlite3 *connect_to(const char *file) {
    sqlite3 *connection;
    must_do(NULL, sqlite3_open_v2(file, &connection, SQLITE_OPEN_READWRITE | SQLITE_OPEN_CREATE | SQLITE_OPEN_NOMUTEX, NULL));
    execute(connection, "PRAGMA synchronous = OFF");
#ifdef WAL
    sqlite3_busy_timeout(connection, 10000);
    execute(connection, "PRAGMA journal_mode = WAL; PRAGMA cache_size = -100000; PRAGMA mmap_size = 268435456");
#endif
    return connection;
}

struct store *store_open(uint64_t pages, int passes) {
    struct store *store = calloc(1, sizeof *store);
    (void)pages;
    store->count = passes;
#ifdef WAL
    snprintf(store->file, sizeof store->file, "/dev/shm/bestore-sqlite-%d", (int)getpid());
    unlink(store->file);
#else
    strcpy(store->file, ":memory:");
#endif
    store->passes[0].connection = connect_to(store->file);
    execute(store->passes[0].connection,
            "CREATE TABLE node(id INTEGER PRIMARY KEY AUTOINCREMENT);"
            "CREATE TABLE attribute(node INTEGER NOT NULL, name TEXT NOT NULL, value, PRIMARY KEY(node, name)) WITHOUT ROWID");
    for (int i = 1; i < passes; i++) store->passes[i].connection = connect_to(store->file);
    return store;
}

struct pass *store_pass(struct store *store, int number) { return &store->passes[number]; }

void store_close(struct store *store) {
    char file[80];
    for (int i = 0; i < store->count; i++) {
        for (int j = 0; j < STATEMENTS; j++) sqlite3_finalize(store->passes[i].statements[j]);
        for (int j = 0; j < store->passes[i].kept_count; j++) {
            sqlite3_finalize(store->passes[i].kept[j].statement);
            free(store->passes[i].kept[j].text);
        }
        sqlite3_close_v2(store->passes[i].connection);
    }
    unlink(store->file);
    snprintf(file, sizeof file, "%s-wal", store->file);
    unlink(file);
    snprintf(file, sizeof file, "%s-shm", store->file);
    unlink(file);
    free(store);
}

static sqlite3_stmt *statement_of(struct pass *pass, enum statement which) {
    sqlite3_stmt **statement = &pass->statements[which];
    if (!*statement) must_do(pass->connection, sqlite3_prepare_v2(pass->connection, texts[which], -1, statement, NULL));
    return *statement;
}

static enum outcome run(struct pass *pass, enum statement which) {
    sqlite3_stmt *statement = statement_of(pass, which);
    must_do(pass->connection, sqlite3_step(statement));
    sqlite3_reset(statement);
    return DONE;
}

static enum outcome run_for(struct pass *pass, enum statement which, uint64_t node) {
    sqlite3_bind_int64(statement_of(pass, which), 1, node);
    return run(pass, which);
}

/* Writes */

const bool has_long_lists = true, has_joined_reads = true;

enum outcome begin(struct pass *pass) { return run(pass, BEGIN); }

enum outcome commit(struct pass *pass) { return run(pass, COMMIT); }

enum outcome make_index(struct pass *pass, struct text name, enum kind kind) {
    char text[256];
    int length = name.length;
    (void)kind;
    snprintf(text, sizeof text, "CREATE INDEX index_%.*s ON attribute(value, node) WHERE name = '%.*s'", length, name.bytes, length, name.bytes);
    execute(pass->connection, text);
    return DONE;
}

enum outcome make_node(struct pass *pass, uint64_t *node) {
    run(pass, MAKE_NODE);
    *node = sqlite3_last_insert_rowid(pass->connection);
    return DONE;
}

enum outcome set(struct pass *pass, uint64_t node, struct text name, const struct value *value) {
    sqlite3_stmt *statement = statement_of(pass, SET);
    sqlite3_bind_text(statement, 2, name.bytes, name.length, SQLITE_STATIC);
    if (value->kind == IS_NUMBER) sqlite3_bind_int64(statement, 3, value->number);
    else sqlite3_bind_text(statement, 3, value->text.bytes, value->text.length, SQLITE_STATIC);
    return run_for(pass, SET, node);
}

enum outcome drop_node(struct pass *pass, uint64_t node) {
    bool alone = sqlite3_get_autocommit(pass->connection);
    if (alone) begin(pass);
    run_for(pass, DROP_ATTRIBUTES, node);
    run_for(pass, DROP_NODE, node);
    return alone ? commit(pass) : DONE;
}

static uint64_t pragma(struct store *store, const char *text) {
    sqlite3 *connection = store->passes[0].connection;
    sqlite3_stmt *statement;
    must_do(connection, sqlite3_prepare_v2(connection, text, -1, &statement, NULL));
    must_do(connection, sqlite3_step(statement));
    uint64_t number = sqlite3_column_int64(statement, 0);
    sqlite3_finalize(statement);
    return number;
}

uint64_t bytes_used(struct store *store) { return pragma(store, "PRAGMA page_count") * pragma(store, "PRAGMA page_size"); }

/* Reads */

/* The first read takes the snapshot. */
void pin(struct pass *pass) {
    run(pass, PIN);
    run(pass, LOOK);
}

void unpin(struct pass *pass) { run(pass, COMMIT); }

struct words {
    char text[1024];
    int length, arguments;
};

static void add(struct words *words, const char *form, ...) {
    va_list values;
    va_start(values, form);
    words->length += vsnprintf(words->text + words->length, sizeof words->text - words->length, form, values);
    va_end(values);
    if (words->length >= (int)sizeof words->text) exit(1);
}

/* GLOB and instr are case-sensitive. */
static void add_comparison(struct words *words, const struct comparison *it, char table) {
    static const char *const signs[] = {[EQUAL] = "=", [OTHER] = "<>", [BELOW] = "<", [UP_TO] = "<=", [ABOVE] = ">", [FROM] = ">="};
    int at = ++words->arguments;
    switch (it->how) {
    case FRONT: add(words, "%c.value >= ?%d AND %c.value < ?%d", table, at, table, ++words->arguments); break;
    case MIDDLE: add(words, "instr(%c.value, ?%d)", table, at); break;
    case END: add(words, "%c.value GLOB ?%d", table, at); break;
    default: add(words, "%c.value %s ?%d", table, signs[it->how], at); break;
    }
}

static void add_other(struct words *words, const struct comparison *it) {
    add(words, " AND EXISTS(SELECT 1 FROM attribute b WHERE b.node = a.node AND b.name = '%.*s' AND ", (int)it->name.length, it->name.bytes);
    add_comparison(words, it, 'b');
    add(words, ")");
}

/* Adds all comparisons of one name, joined by OR. */
static void add_any(struct words *words, const struct query *query) {
    for (int i = 0; i < query->count; i++) {
        add(words, i ? " OR " : " AND (");
        add_comparison(words, &query->comparisons[i], 'a');
    }
    add(words, ")");
}

static void add_all(struct words *words, const struct query *query) {
    const struct comparison *pick = &query->comparisons[query->pick];
    for (int i = 0; i < query->count; i++) {
        const struct comparison *it = &query->comparisons[i];
        if (!same_text(it->name, pick->name)) {
            add_other(words, it);
            continue;
        }
        add(words, " AND ");
        add_comparison(words, it, 'a');
    }
}

static struct words words_of(const struct query *query, const char *selected) {
    const struct text name = query->comparisons[query->pick].name;
    struct words words = {.arguments = 0};
    add(&words, "%s WHERE a.name = '%.*s'", selected, (int)name.length, name.bytes);
    if (query->is_any) add_any(&words, query);
    else add_all(&words, query);
    return words;
}

static void bind_text(sqlite3_stmt *statement, int at, struct text text) {
    sqlite3_bind_text(statement, at, text.bytes, text.length, SQLITE_STATIC);
}

/* Binds a prefix, and the first text after all texts that have it. */
static void bind_front(sqlite3_stmt *statement, struct text text, int *at) {
    char above[256];
    memcpy(above, text.bytes, text.length);
    above[text.length - 1]++;
    bind_text(statement, (*at)++, text);
    sqlite3_bind_text(statement, (*at)++, above, text.length, SQLITE_TRANSIENT);
}

static void bind_comparison(sqlite3_stmt *statement, const struct comparison *it, int *at) {
    if (!it->is_quoted) sqlite3_bind_int64(statement, (*at)++, it->number);
    else if (it->how == FRONT) bind_front(statement, it->text, at);
    else if (it->how == END) bind_text(statement, (*at)++, (struct text){it->text.bytes - 1, it->text.length + 1});
    else bind_text(statement, (*at)++, it->text);
}

static sqlite3_stmt *compile(struct pass *pass, const struct words *words) {
    sqlite3_stmt *statement;
    must_do(pass->connection, sqlite3_prepare_v2(pass->connection, words->text, words->length, &statement, NULL));
    return statement;
}

/* Returns the statement with this text that the pass keeps. */
static sqlite3_stmt *kept_statement(struct pass *pass, const struct words *words) {
    for (int i = 0; i < pass->kept_count; i++)
        if (!strcmp(pass->kept[i].text, words->text)) return pass->kept[i].statement;
    if (pass->kept_count == KEPT) exit(1);
    struct kept *kept = &pass->kept[pass->kept_count++];
    *kept = (struct kept){strdup(words->text), compile(pass, words)};
    return kept->statement;
}

static const char *const nodes_selected = "SELECT a.node FROM attribute a";
static const char *const values_selected = "SELECT b.value FROM attribute a JOIN attribute b ON b.node = a.node";

void prepare(struct pass *pass, struct query *query) {
    struct words words = words_of(query, nodes_selected);
    query->prepared = kept_statement(pass, &words);
    query->is_kept = true;
}

/* Returns the query's own statement, with its values bound. */
static sqlite3_stmt *bound(struct pass *pass, struct query *query) {
    int at = 1;
    if (!query->prepared) {
        struct words words = words_of(query, nodes_selected);
        query->prepared = compile(pass, &words);
    }
    for (int i = 0; i < query->count; i++) bind_comparison(query->prepared, &query->comparisons[i], &at);
    return query->prepared;
}

static size_t step_through(struct pass *pass, sqlite3_stmt *statement, uint64_t *nodes, size_t most, size_t stop) {
    size_t count = 0;
    int status = SQLITE_DONE;
    while (count < stop && (status = sqlite3_step(statement)) == SQLITE_ROW)
        if (count < most) nodes[count++] = sqlite3_column_int64(statement, 0);
    must_do(pass->connection, status);
    sqlite3_reset(statement);
    return count;
}

size_t ask(struct pass *pass, struct query *query, uint64_t *nodes, size_t most) {
    size_t count = step_through(pass, bound(pass, query), nodes, most, SIZE_MAX);
    sort_nodes(nodes, count);
    return count;
}

size_t ask_some(struct pass *pass, struct query *query, uint64_t *nodes, size_t most) {
    return step_through(pass, bound(pass, query), nodes, most, most);
}

/* Uses one statement for each form of query, with the order and the limit. */
size_t ask_page(struct pass *pass, struct query *query, struct text by, const struct place *after, uint64_t hits, uint64_t *nodes, size_t most) {
    static const char *const joined = "SELECT a.node FROM attribute a JOIN attribute o ON o.node = a.node AND o.name = 'size'";
    bool is_picked = pick_name(query, by);
    struct words words = words_of(query, is_picked ? nodes_selected : joined);
    char table = is_picked ? 'a' : 'o';
    int at = 1;
    (void)hits;
    if (after) add(&words, " AND (%c.value, %c.node) < (?%d, ?%d)", table, table, words.arguments + 1, words.arguments + 2);
    add(&words, " ORDER BY %c.value DESC, %c.node DESC LIMIT %d", table, table, (int)most);
    sqlite3_stmt *statement = kept_statement(pass, &words);
    for (int i = 0; i < query->count; i++) bind_comparison(statement, &query->comparisons[i], &at);
    if (after) {
        sqlite3_bind_int64(statement, at++, after->number);
        sqlite3_bind_int64(statement, at++, after->node);
    }
    return step_through(pass, statement, nodes, most, most);
}

/* Uses one statement for the query and the attributes of what it finds. This is faster than one per node. */
uint64_t ask_joined(struct pass *pass, struct query *query) {
    struct words words = words_of(query, values_selected);
    sqlite3_stmt *statement = kept_statement(pass, &words);
    uint64_t sum = 0;
    int at = 1, status;
    for (int i = 0; i < query->count; i++) bind_comparison(statement, &query->comparisons[i], &at);
    while ((status = sqlite3_step(statement)) == SQLITE_ROW) {
        bool is_number = sqlite3_column_type(statement, 0) == SQLITE_INTEGER;
        sum += is_number ? sqlite3_column_int64(statement, 0) : sqlite3_column_bytes(statement, 0);
    }
    must_do(pass->connection, status);
    sqlite3_reset(statement);
    return sum;
}

uint64_t read_each(struct pass *pass, const uint64_t *nodes, size_t count) {
    (void)pass;
    (void)nodes;
    (void)count;
    return 0;
}

bool get_number(struct pass *pass, uint64_t node, struct text name, int64_t *number) {
    sqlite3_stmt *statement = statement_of(pass, GET);
    sqlite3_bind_text(statement, 2, name.bytes, name.length, SQLITE_STATIC);
    sqlite3_bind_int64(statement, 1, node);
    bool found = sqlite3_step(statement) == SQLITE_ROW;
    if (found) *number = sqlite3_column_int64(statement, 0);
    sqlite3_reset(statement);
    return found;
}

void forget(struct query *query) {
    if (!query->is_kept) sqlite3_finalize(query->prepared);
}
