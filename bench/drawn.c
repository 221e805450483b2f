/* Asks drawn queries of bestore and of SQLite, both in memory, and compares the answers. bench/drawn draws the queries, and runs this
 * program under callgrind, which writes out the counts of each query by its own name.
 *
 *     drawn PAGES FILE
 *
 * FILE is a database with two tables. `node` has a column for each attribute, of the type TEXT, INT32 or INT64; the store gets an index
 * for each column that has one, by the name of index_COLUMN. `asked` has a row for each spelling of each query:
 *
 *     label           what the counts and the answers are named after
 *     form            plain, any, first, ascending or descending; the last two are pages in the order of an index
 *     by, room        that index, and the maximum number of nodes
 *     query           the query's text
 *     statement       the same for SQLite, in the query's first spelling; otherwise empty
 *     whole           for any, a statement for the whole answer
 *
 * The program prints each label, the number of nodes found, and whether the answer is right. Under callgrind it then asks everything
 * again, so what is counted is warm: each query has run once, and its statement too. */
#include "../include/bestore.h"

#include <sqlite3.h>
#include <stdio.h>
#include <stdlib.h>
#include <valgrind/callgrind.h>

enum { COMMITS = 4000000, TRIES = 8, TEXT = 100 };

static sqlite3 *database;
static bes_pass mine = BES_PASS_INIT;
static bes_batch batch;
static uint64_t *found, *expected, nodes_count;

static void fail(const char *what, const char *why)
{
    fprintf(stderr, "drawn: %s: %s\n", what, why);
    exit(1);
}

static void must_do(const char *what, uint32_t error)
{
    if (error != BES_OK)
        fail(what, bes_strerror(error));
}

static void must_run(const char *what, int status)
{
    if (status != SQLITE_OK)
        fail(what, database ? sqlite3_errmsg(database) : "not enough memory");
}

static sqlite3_stmt *statement_of(const char *text)
{
    sqlite3_stmt *statement;
    must_run(text, sqlite3_prepare_v2(database, text, -1, &statement, NULL));
    return statement;
}

static const char *word(sqlite3_stmt *row, int column) { return (const char *)sqlite3_column_text(row, column); }

/* Copies the database into memory. */
static void load(const char *path)
{
    sqlite3 *file;
    const int flags = SQLITE_OPEN_READWRITE | SQLITE_OPEN_CREATE | SQLITE_OPEN_NOMUTEX;
    must_run("the database in memory", sqlite3_open_v2(":memory:", &database, flags, NULL));
    if (sqlite3_open_v2(path, &file, SQLITE_OPEN_READONLY, NULL) != SQLITE_OK)
        fail(path, sqlite3_errmsg(file));
    sqlite3_backup *copy = sqlite3_backup_init(database, "main", file, "main");
    if (copy == NULL || sqlite3_backup_step(copy, -1) != SQLITE_DONE)
        fail(path, sqlite3_errmsg(database));
    sqlite3_backup_finish(copy);
    sqlite3_close(file);
    must_run("ANALYZE", sqlite3_exec(database, "ANALYZE node", NULL, NULL, NULL));
}

static uint32_t code_of(const char *type)
{
    return !strcmp(type, "TEXT") ? BES_STRING_TYPE : !strcmp(type, "INT32") ? BES_INT32_TYPE : BES_INT64_TYPE;
}

static void make_indices(void)
{
    sqlite3_stmt *row = statement_of("SELECT name, type FROM pragma_table_info('node')"
                                     " WHERE 'index_' || name IN (SELECT name FROM sqlite_master WHERE type = 'index')");
    while (sqlite3_step(row) == SQLITE_ROW)
        must_do(word(row, 0), bes_make_index(&mine, word(row, 0), code_of(word(row, 1))));
    sqlite3_finalize(row);
}

static void apply(void)
{
    uint64_t made[64], number;
    if (batch.count > 0)
        must_do("a batch", bes_batch_apply(&mine, &batch, TRIES, made, 64, &number));
    bes_batch_clear(&batch);
}

/* Adds the value in a row's column to the batch. */
static void add_value(sqlite3_stmt *row, int column)
{
    const char *name = sqlite3_column_name(row, column);
    const uint32_t code = code_of(sqlite3_column_decltype(row, column));
    if (code == BES_STRING_TYPE)
        must_do(name, bes_batch_set_text(&batch, nodes_count, name, word(row, column)));
    else if (code == BES_INT32_TYPE)
        must_do(name, bes_batch_set_int32(&batch, nodes_count, name, sqlite3_column_int(row, column)));
    else
        must_do(name, bes_batch_set_int64(&batch, nodes_count, name, sqlite3_column_int64(row, column)));
}

/* Opens a store and fills it with the nodes of the database, which have the same numbers. */
static void fill(uint64_t pages)
{
    bes_usage usage;
    uint64_t number;
    must_do("a store of so many pages", bes_open(pages, 2, COMMITS, &mine));
    make_indices();
    sqlite3_stmt *row = statement_of("SELECT * FROM node ORDER BY id");
    const int columns = sqlite3_column_count(row);
    while (sqlite3_step(row) == SQLITE_ROW) {
        if (batch.count + (size_t)columns > 64)
            apply();
        nodes_count++;
        must_do("a node", bes_batch_new_node(&batch));
        for (int column = 1; column < columns; column++)
            add_value(row, column);
    }
    apply();
    sqlite3_finalize(row);
    must_do("the status", bes_status(&mine, &usage, &number));
    fprintf(stderr, "%d nodes take %d of %d pages\n", (int)nodes_count, (int)(usage.pages - usage.free), (int)usage.pages);
    must_do("a pin", bes_pin(&mine, &number));
}

/* One spelling of a query, and how it is asked. */
struct asked {
    const char *label, *form, *by, *query, *statement, *whole;
    uint64_t room;
};

/* What is prepared for it. All zeros are a closed handle. Only a query's first spelling has a statement. */
struct ready {
    bes_prepared prepared;
    bes_name by;
    sqlite3_stmt *statement;
};

static struct asked asked_in(sqlite3_stmt *row)
{
    const struct asked it = {word(row, 0), word(row, 1), word(row, 2), word(row, 4), word(row, 5), word(row, 6),
                             (uint64_t)sqlite3_column_int64(row, 3)};
    return it;
}

static void prepare(const struct asked *it, struct ready *ready)
{
    uint64_t place;
    must_do(it->query, bes_prepare_text(it->query, &ready->prepared, &place));
    if (it->by[0])
        must_do(it->by, bes_check_name_text(it->by, &ready->by));
    if (it->statement[0])
        ready->statement = statement_of(it->statement);
}

/* Asks bestore, and returns how many nodes were found. */
static uint64_t ask(const struct asked *it, struct ready *ready)
{
    bes_cursor cursor;
    uint64_t count = 0;
    uint32_t more, error;
    memset(&cursor, 0, sizeof cursor);
    if (it->form[0] == 'p')
        error = bes_query_prepared(&mine, &ready->prepared, found, it->room, &count);
    else if (it->form[0] == 'f')
        error = bes_first(&mine, &ready->prepared, 0, found, it->room, &count);
    else if (!strcmp(it->form, "any"))
        error = bes_any(&mine, &ready->prepared, found, it->room, &count);
    else
        error = bes_ordered(&mine, &ready->prepared, &ready->by, it->form[0] == 'd', &cursor, found, it->room, &count, &more);
    must_do(it->query, error);
    return count;
}

/* Runs a statement of SQLite, and returns how many nodes were found. */
static uint64_t step_through(sqlite3_stmt *statement)
{
    uint64_t count = 0;
    while (sqlite3_step(statement) == SQLITE_ROW)
        expected[count++] = (uint64_t)sqlite3_column_int64(statement, 0);
    must_run("a statement", sqlite3_reset(statement));
    return count;
}

static int compare_nodes(const void *one, const void *other)
{
    const uint64_t a = *(const uint64_t *)one, b = *(const uint64_t *)other;
    return (a > b) - (a < b);
}

/* Returns whether the nodes that were found are distinct nodes of the whole answer, and as many as there is room for. */
static bool are_some(uint64_t count, uint64_t expected_count, uint64_t room)
{
    if (count != (expected_count < room ? expected_count : room))
        return false;
    qsort(found, count, sizeof *found, compare_nodes);
    for (uint64_t i = 0; i < count; i++) {
        if (i > 0 && found[i] == found[i - 1])
            return false;
        if (bsearch(&found[i], expected, expected_count, sizeof *expected, compare_nodes) == NULL)
            return false;
    }
    return true;
}

/* Returns how many nodes SQLite finds. For any, these are all that match. The other spellings of a query have its answer. */
static uint64_t expect(const struct asked *it, struct ready *ready)
{
    uint64_t count = step_through(ready->statement);
    if (it->whole[0]) {
        sqlite3_stmt *whole = statement_of(it->whole);
        count = step_through(whole);
        sqlite3_finalize(whole);
    }
    return count;
}

/* Asks everything once, compares the answers, and returns whether all are right. */
static bool compare(sqlite3_stmt *row, struct ready *ready)
{
    uint64_t expected_count = 0;
    bool are_right = true;
    for (; sqlite3_step(row) == SQLITE_ROW; ready++) {
        const struct asked it = asked_in(row);
        prepare(&it, ready);
        if (ready->statement != NULL)
            expected_count = expect(&it, ready);
        const uint64_t count = ask(&it, ready);
        const bool is_right = it.whole[0] ? are_some(count, expected_count, it.room)
                                          : count == expected_count && !memcmp(found, expected, count * sizeof *found);
        printf("%s\t%d\t%s\n", it.label, (int)count, is_right ? "right" : "wrong");
        are_right = are_right && is_right;
    }
    must_run("the queries", sqlite3_reset(row));
    return are_right;
}

/* Asks everything again, and lets callgrind write out the counts of each call. */
static void count(sqlite3_stmt *row, struct ready *ready)
{
    char name[TEXT];
    CALLGRIND_START_INSTRUMENTATION;
    for (; sqlite3_step(row) == SQLITE_ROW; ready++) {
        const struct asked it = asked_in(row);
        if (ready->statement != NULL) {
            snprintf(name, sizeof name, "sqlite %s", it.label);
            CALLGRIND_ZERO_STATS;
            step_through(ready->statement);
            CALLGRIND_DUMP_STATS_AT(name);
        }
        snprintf(name, sizeof name, "bestore %s", it.label);
        CALLGRIND_ZERO_STATS;
        ask(&it, ready);
        CALLGRIND_DUMP_STATS_AT(name);
    }
}

int main(int words_count, char **words)
{
    if (words_count != 3)
        fail("usage", "drawn PAGES FILE");
    load(words[2]);
    fill(strtoull(words[1], NULL, 10));
    sqlite3_stmt *row = statement_of("SELECT count(*) FROM asked");
    sqlite3_step(row);
    struct ready *ready = calloc((size_t)sqlite3_column_int64(row, 0) + 1, sizeof *ready);
    found = calloc(nodes_count + 1, sizeof *found);
    expected = calloc(nodes_count + 1, sizeof *expected);
    sqlite3_finalize(row);
    if (ready == NULL || found == NULL || expected == NULL)
        fail("the answers", "not enough memory");
    row = statement_of("SELECT * FROM asked ORDER BY rowid");
    if (!compare(row, ready))
        return 1;
    if (RUNNING_ON_VALGRIND)
        count(row, ready);
    return 0;
}
