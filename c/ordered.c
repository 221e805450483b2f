/* Tests partial results. Pages in an index's order are compared with a naive implementation, which runs the whole query, reads
 * the values, sorts them and cuts the list. The other partial results are the first nodes by number, any few nodes, and the
 * changes from bes_refresh_changed. With the argument `short`, fewer queries are run. */
#include "tests.h"

enum { NODES = 300, INDICES = 5, LATE = NODES / 3 };

/* One index of each kind. "word" is created after a third of the nodes have got their words, so these have no pair in it. */
static const char *const names[INDICES] = {"big", "count", "size", "when", "word"};
static const uint32_t kinds[INDICES] = {BES_UINT64_TYPE, BES_UINT32_TYPE, BES_INT32_TYPE, BES_INT64_TYPE, BES_STRING_TYPE};
static const char *const texts[] = {"size>=-1000", "size<0", "when>=0 && size>-3", "word==\"*a*\" || count<5", "count==7", "size==99"};

typedef struct row {
    uint64_t node;
    bes_attribute value;
    uint8_t bytes[256];
} row;

static bes_batch batch;
static uint64_t state = 88172645463325252u;
static bool word_has_index;
static bool has_word[2 * NODES + 1]; /* whether the node's word was set after the index was created */
static bool is_gone[2 * NODES + 1];
static uint64_t last_node;

/* Returns a random number from 0 to bound - 1. */
static uint64_t below(uint64_t bound)
{
    state ^= state << 13;
    state ^= state >> 7;
    state ^= state << 17;
    return state % bound;
}

/* Sets or removes each of a node's attributes at random. Many nodes have the same value. */
static void set_some(bes_pass *pass, uint64_t node)
{
    char text[4];
    size_t length = (size_t)below(sizeof text);
    uint64_t number = 0;
    memset(text, 0, sizeof text);
    for (size_t at = 0; at < length; at++)
        text[at] = (char)('a' + below(3));
    bes_batch_clear(&batch);
    CHECK(bes_batch_set_int32(&batch, node, "size", (int32_t)below(12) - 6) == BES_OK);
    if (below(4) != 0)
        CHECK(bes_batch_set_int64(&batch, node, "when", (int64_t)below(20) - 10) == BES_OK);
    CHECK(bes_batch_set_uint32(&batch, node, "count", (uint32_t)below(9)) == BES_OK);
    CHECK(bes_batch_set_uint64(&batch, node, "big", UINT64_MAX - below(3)) == BES_OK);
    CHECK(bes_batch_set_text(&batch, node, "word", text) == BES_OK);
    CHECK(bes_batch_apply(pass, &batch, 1, NULL, 0, &number) == BES_OK);
    has_word[node] = word_has_index;
}

static void make_node(bes_pass *pass)
{
    CHECK(bes_new_node(pass, &last_node) == BES_OK && last_node <= 2 * NODES);
    set_some(pass, last_node);
}

static void fill(bes_pass *pass)
{
    for (size_t at = 0; at < INDICES - 1; at++)
        CHECK(bes_make_index(pass, names[at], kinds[at]) == BES_OK);
    while (last_node < LATE)
        make_node(pass);
    CHECK(bes_make_index(pass, "word", BES_STRING_TYPE) == BES_OK);
    word_has_index = true;
    while (last_node < NODES)
        make_node(pass);
}

static bes_name held(const char *name)
{
    bes_name it;
    CHECK(bes_check_name_text(name, &it) == BES_OK);
    return it;
}

static void prepare(bes_prepared *prepared, const char *text)
{
    uint64_t place = 0;
    CHECK(bes_prepare((const uint8_t *)text, strlen(text), prepared, &place) == BES_OK);
}

/* Compares two values of one kind. Returns a negative number, 0, or a positive number. */
static int compare_values(const row *a, const row *b)
{
    size_t shorter = a->value.length < b->value.length ? a->value.length : b->value.length;
    int order = memcmp(a->bytes, b->bytes, shorter);
    if (a->value.code == BES_STRING_TYPE)
        return order != 0 ? order : (a->value.length > b->value.length) - (a->value.length < b->value.length);
    if (a->value.code == BES_INT32_TYPE || a->value.code == BES_INT64_TYPE)
        return ((int64_t)a->value.number > (int64_t)b->value.number) - ((int64_t)a->value.number < (int64_t)b->value.number);
    return (a->value.number > b->value.number) - (a->value.number < b->value.number);
}

static int compare_rows(const void *left, const void *right)
{
    const row *a = left, *b = right;
    int order = compare_values(a, b);
    return order != 0 ? order : (a->node > b->node) - (a->node < b->node);
}

static int compare_reversed(const void *left, const void *right)
{
    return compare_rows(right, left);
}

/* The naive implementation: lists the query's nodes that have a pair in the index, in the index's order. Returns how many there
 * are. */
static size_t plain(bes_pass *pass, bes_prepared *prepared, size_t index, bool descending, row *rows)
{
    static uint64_t nodes[2 * NODES];
    uint64_t count = 0;
    size_t kept = 0;
    CHECK(bes_query_prepared(pass, prepared, nodes, 2 * NODES, &count) == BES_OK && count <= 2 * NODES);
    for (size_t at = 0; at < count; at++) {
        row *it = &rows[kept];
        memset(it, 0, sizeof *it);
        it->node = nodes[at];
        uint32_t error = bes_read(pass, it->node, names[index], &it->value, it->bytes, sizeof it->bytes);
        CHECK(error == BES_OK || error == BES_NO_ATTRIBUTE);
        kept += error == BES_OK && (index != INDICES - 1 || has_word[it->node]);
    }
    qsort(rows, kept, sizeof *rows, descending ? compare_reversed : compare_rows);
    return kept;
}

/* Checks that the handle holds the nodes that a call wrote. */
static void check_kept(bes_prepared *prepared, const uint64_t *nodes, uint64_t count)
{
    uint64_t again[2 * NODES], kept = 0;
    CHECK(bes_found(prepared, 0, again, 2 * NODES, &kept) == BES_OK && kept == count);
    CHECK(memcmp(again, nodes, (size_t)count * sizeof *again) == 0);
}

/* All pages of one size together must equal the naive list. */
static void read_pages(bes_pass *pass, bes_prepared *prepared, size_t index, bool descending, size_t room)
{
    static row rows[2 * NODES];
    bes_name by = held(names[index]);
    bes_cursor cursor = {0, 0, {0}};
    size_t all = plain(pass, prepared, index, descending, rows), at = 0;
    uint32_t more = 1;
    while (more) {
        uint64_t nodes[2 * NODES + 1], count = 7;
        size_t left = all - at;
        bes_cursor before = cursor;
        nodes[room] = 4711;
        CHECK(bes_ordered(pass, prepared, &by, descending, &cursor, nodes, room, &count, &more) == BES_OK);
        CHECK(count == (left < room ? left : room) && more == (left > room) && nodes[room] == 4711);
        check_kept(prepared, nodes, count);
        for (size_t i = 0; i < count; i++)
            CHECK(nodes[i] == rows[at + i].node);
        at += (size_t)count;
        if (count == 0)
            CHECK(memcmp(&before, &cursor, sizeof cursor) == 0);
        else
            CHECK(cursor.kind == kinds[index] && cursor.length >= 8 && cursor.key[cursor.length - 1] == nodes[count - 1] % 256);
    }
    CHECK(at == all);
}

static void all_pages(bes_pass *pass, bool is_short)
{
    static const size_t rooms[] = {2 * NODES, 50, NODES, 7, 1};
    for (size_t text = 0; text < sizeof texts / sizeof *texts; text++) {
        bes_prepared prepared = BES_PREPARED_INIT;
        prepare(&prepared, texts[text]);
        for (size_t index = 0; index < INDICES; index++)
            for (size_t room = 0; room < (is_short ? 2 : 5); room++) {
                read_pages(pass, &prepared, index, false, rooms[room]);
                read_pages(pass, &prepared, index, true, rooms[room]);
            }
        CHECK(bes_release(&prepared) == BES_OK);
    }
}

/* A cursor from one direction also works in the other. The nodes after it in both directions, together with its own node, are all
 * the nodes. */
static void both_ways(bes_pass *pass)
{
    bes_prepared prepared = BES_PREPARED_INIT;
    bes_name by = held("when");
    uint64_t nodes[2 * NODES], all = 0, first = 0, up = 0, down = 0;
    uint32_t more = 1;
    bes_cursor cursor = {0, 0, {0}}, back;
    prepare(&prepared, texts[0]);
    CHECK(bes_ordered(pass, &prepared, &by, 0, &cursor, nodes, 2 * NODES, &all, &more) == BES_OK && more == 0);
    memset(&cursor, 0, sizeof cursor);
    CHECK(bes_ordered(pass, &prepared, &by, 0, &cursor, nodes, 20, &first, &more) == BES_OK && first == 20 && more == 1);
    back = cursor;
    CHECK(bes_ordered(pass, &prepared, &by, 0, &cursor, nodes, 2 * NODES, &up, &more) == BES_OK && up == all - 20);
    CHECK(bes_ordered(pass, &prepared, &by, 1, &back, nodes, 2 * NODES, &down, &more) == BES_OK && down == 19);
    CHECK(bes_release(&prepared) == BES_OK);
}

/* A page from a later snapshot continues from the position, whatever was written in between. */
static void writes_between(bes_pass *pass)
{
    bes_prepared prepared = BES_PREPARED_INIT;
    bes_name by = held("size");
    bes_cursor cursor = {0, 0, {0}};
    uint64_t nodes[8], count = 0, number = 0, node = 0;
    uint32_t more = 0;
    prepare(&prepared, "size>=100");
    for (int i = 0; i < 6; i++)
        CHECK(bes_new_node(pass, &node) == BES_OK && bes_set_int32(pass, node, "size", 100 + 10 * i) == BES_OK);
    node -= 5;
    CHECK(bes_pin(pass, &number) == BES_OK);
    CHECK(bes_ordered(pass, &prepared, &by, 1, &cursor, nodes, 3, &count, &more) == BES_OK && count == 3 && more == 1);
    CHECK(nodes[0] == node + 5 && nodes[1] == node + 4 && nodes[2] == node + 3);
    CHECK(bes_unpin(pass) == BES_OK);
    CHECK(bes_set_int32(pass, node, "size", 160) == BES_OK);     /* moved before the cursor: missed */
    CHECK(bes_set_int32(pass, node + 5, "size", 105) == BES_OK); /* returned, then moved after the cursor: returned again */
    CHECK(bes_remove_node(pass, node + 3) == BES_OK);            /* the cursor's own node */
    CHECK(bes_pin(pass, &number) == BES_OK);
    CHECK(bes_ordered(pass, &prepared, &by, 1, &cursor, nodes, 8, &count, &more) == BES_OK && count == 3 && more == 0);
    CHECK(nodes[0] == node + 2 && nodes[1] == node + 1 && nodes[2] == node + 5);
    CHECK(bes_ordered(pass, &prepared, &by, 1, &cursor, nodes, 8, &count, &more) == BES_OK && count == 0 && more == 0);
    CHECK(bes_unpin(pass) == BES_OK && bes_release(&prepared) == BES_OK);
}

/* Changes some nodes' values. Occasionally removes a node and creates another. */
static void write_some(bes_pass *pass)
{
    for (int write = 0; write < 3; write++) {
        uint64_t node = 1 + below(NODES);
        if (!is_gone[node])
            set_some(pass, node);
        if (is_gone[node] || last_node == 2 * NODES || below(24) != 0)
            continue;
        CHECK(bes_remove_node(pass, node) == BES_OK);
        is_gone[node] = true;
        make_node(pass);
    }
}

/* Returns the index of the first row after `last`, or 0 if there is no `last`. */
static size_t begin_after(const row *rows, size_t count, const row *last, bool descending)
{
    size_t at = 0;
    while (last->node != 0 && at < count && (descending ? compare_reversed : compare_rows)(&rows[at], last) <= 0)
        at++;
    return at;
}

/* Checks that each page equals the part after the cursor in the naive list for the page's own snapshot. */
static void pages_between_writes(bes_pass *pass, bes_prepared *prepared, size_t index, bool descending)
{
    static row rows[2 * NODES], last;
    uint64_t nodes[2 * NODES], count = 0, number = 0;
    bes_name by = held(names[index]);
    bes_cursor cursor = {0, 0, {0}};
    uint32_t more = 1;
    memset(&last, 0, sizeof last);
    while (more) {
        size_t room = (size_t)1 << below(8), all, at;
        CHECK(bes_pin(pass, &number) == BES_OK);
        all = plain(pass, prepared, index, descending, rows);
        at = begin_after(rows, all, &last, descending);
        CHECK(bes_ordered(pass, prepared, &by, descending, &cursor, nodes, room, &count, &more) == BES_OK);
        CHECK(count == (all - at < room ? all - at : room) && more == (all - at > room));
        for (size_t i = 0; i < count; i++)
            CHECK(nodes[i] == rows[at + i].node);
        if (count > 0)
            last = rows[at + count - 1];
        CHECK(bes_unpin(pass) == BES_OK);
        write_some(pass);
    }
}

static void random_pages(bes_pass *pass, bool is_short)
{
    for (size_t text = 0; text < (is_short ? 2 : sizeof texts / sizeof *texts); text++) {
        bes_prepared prepared = BES_PREPARED_INIT;
        prepare(&prepared, texts[text]);
        for (size_t index = 0; index < INDICES; index++) {
            pages_between_writes(pass, &prepared, index, false);
            pages_between_writes(pass, &prepared, index, true);
        }
        CHECK(bes_release(&prepared) == BES_OK);
    }
}

static int compare_numbers(const void *left, const void *right)
{
    const uint64_t *a = left, *b = right;
    return (*a > *b) - (*a < *b);
}

/* Reads all nodes by number, a page at a time. Also reads a few arbitrary nodes. */
static void first_and_any(bes_pass *pass, const char *text)
{
    bes_prepared prepared = BES_PREPARED_INIT;
    uint64_t all[2 * NODES], nodes[2 * NODES], count = 0, found = 0, from = 0;
    prepare(&prepared, text);
    CHECK(bes_query_prepared(pass, &prepared, all, 2 * NODES, &found) == BES_OK);
    for (size_t at = 0;; from = nodes[count - 1] + 1) {
        CHECK(bes_first(pass, &prepared, from, nodes, 13, &count) == BES_OK && count <= 13 && at + count <= found);
        CHECK(memcmp(nodes, all + at, (size_t)count * sizeof *nodes) == 0);
        check_kept(&prepared, nodes, count);
        at += (size_t)count;
        if (count < 13) {
            CHECK(at == found);
            break;
        }
    }
    for (size_t room = 1; room < 2 * NODES; room += 37) {
        bool seen[2 * NODES + 1] = {false};
        CHECK(bes_any(pass, &prepared, nodes, room, &count) == BES_OK && count == (found < room ? found : room));
        check_kept(&prepared, nodes, count);
        for (size_t at = 0; at < count; at++) {
            CHECK(bsearch(&nodes[at], all, (size_t)found, sizeof *all, compare_numbers) != NULL && !seen[nodes[at]]);
            seen[nodes[at]] = true;
        }
    }
    CHECK(bes_first(pass, &prepared, UINT64_MAX, nodes, 1, &count) == BES_OK && count == 0);
    CHECK(bes_release(&prepared) == BES_OK);
}

/* Checks the outputs of a refused call: the number of nodes is 0, and everything else is unchanged. */
static void refuse_page(uint32_t error, bes_pass *pass, bes_prepared *prepared, const bes_name *by, const bes_cursor *from, size_t room)
{
    uint64_t nodes[4] = {1, 2, 3, 4}, count = 7, kept = 7;
    uint32_t more = 9;
    bes_cursor cursor = *from;
    CHECK(bes_ordered(pass, prepared, by, 0, &cursor, nodes, room, &count, &more) == error);
    CHECK(count == 0 && more == 9 && memcmp(&cursor, from, sizeof cursor) == 0);
    CHECK(nodes[0] == 1 && nodes[1] == 2 && nodes[2] == 3 && nodes[3] == 4);
    if (error != BES_CLOSED)
        CHECK(bes_found(prepared, 0, nodes, 4, &kept) == BES_OK && kept == 0);
}

static void refuse_few(uint32_t error, bes_pass *pass, bes_prepared *prepared, size_t room)
{
    uint64_t nodes[2] = {1, 2}, count = 7, kept = 7;
    CHECK(bes_first(pass, prepared, 0, nodes, room, &count) == error && count == 0 && nodes[0] == 1 && nodes[1] == 2);
    count = 7;
    CHECK(bes_any(pass, prepared, nodes, room, &count) == error && count == 0 && nodes[0] == 1 && nodes[1] == 2);
    if (error != BES_CLOSED)
        CHECK(bes_found(prepared, 0, nodes, 2, &kept) == BES_OK && kept == 0);
}

static bes_cursor cursor_of(uint32_t kind, uint32_t length)
{
    bes_cursor cursor = {0, 0, {0}};
    cursor.kind = kind;
    cursor.length = length;
    return cursor;
}

/* Tests each error, and which error is returned if two apply. The pass is pinned. */
static void errors(bes_pass *pass)
{
    static const bes_name no_name = {3, "\xff=!"}, too_long = {UINT64_MAX, "size"};
    bes_pass closed = BES_PASS_INIT;
    bes_prepared unprepared = BES_PREPARED_INIT, prepared = BES_PREPARED_INIT, uncovered = BES_PREPARED_INIT;
    const bes_name size = held("size"), none = held("none"), word = held("word");
    const bes_cursor begin = cursor_of(0, 0), wrong = cursor_of(BES_INT64_TYPE, 16);
    uint64_t number = 0;
    prepare(&prepared, "size<0");
    prepare(&uncovered, "none==1");
    refuse_page(BES_CLOSED, &closed, &unprepared, &none, &wrong, 0);
    refuse_page(BES_CLOSED, pass, &unprepared, &none, &wrong, 0);
    refuse_few(BES_CLOSED, &closed, &unprepared, 0);
    refuse_few(BES_CLOSED, pass, &unprepared, 0);
    CHECK(bes_unpin(pass) == BES_OK);
    refuse_page(BES_NOT_PINNED, pass, &uncovered, &none, &wrong, 0);
    refuse_few(BES_NOT_PINNED, pass, &uncovered, 0);
    CHECK(bes_pin(pass, &number) == BES_OK);
    refuse_page(BES_NO_ROOM, pass, &uncovered, &none, &wrong, 0);
    refuse_few(BES_NO_ROOM, pass, &uncovered, 0);
    refuse_page(BES_NO_INDEX, pass, &uncovered, &none, &wrong, 4);
    refuse_page(BES_NO_INDEX, pass, &prepared, &no_name, &begin, 4);
    refuse_page(BES_NO_INDEX, pass, &prepared, &too_long, &begin, 4);
    refuse_page(BES_BAD_CURSOR, pass, &uncovered, &size, &wrong, 4);
    refuse_page(BES_NOT_COVERED, pass, &uncovered, &size, &begin, 4);
    refuse_few(BES_NOT_COVERED, pass, &uncovered, 2);
    refuse_page(BES_BAD_CURSOR, pass, &prepared, &word, &wrong, 4);
    for (uint32_t length = 0; length < 300; length++) {
        bes_cursor cursor = cursor_of(BES_INT32_TYPE, length);
        uint64_t nodes[4], count = 0;
        uint32_t more = 0;
        if (length < 8 || length > 264)
            refuse_page(BES_BAD_CURSOR, pass, &prepared, &size, &cursor, 4);
        else
            CHECK(bes_ordered(pass, &prepared, &size, 0, &cursor, nodes, 4, &count, &more) == BES_OK && count == 4);
    }
    for (uint32_t length = 1; length < 300; length++) {
        bes_cursor cursor = cursor_of(0, length);
        refuse_page(BES_BAD_CURSOR, pass, &prepared, &size, &cursor, 4);
    }
    CHECK(bes_release(&prepared) == BES_OK && bes_release(&uncovered) == BES_OK);
}

/* bes_refresh_changed gives the same result as bes_refresh, at every size and while another pass is reading. */
static void refresh_changed(bes_pass *pass)
{
    bes_prepared whole = BES_PREPARED_INIT, changed = BES_PREPARED_INIT;
    uint64_t number = 0, came[2][2 * NODES], went[2][2 * NODES];
    bes_updates updates[2] = {{7, 7}, {7, 7}};
    prepare(&whole, "size>=-4");
    prepare(&changed, "size>=-4");
    CHECK(bes_refresh_changed(pass, &changed, &updates[0]) == BES_NOT_PINNED && updates[0].created == 7);
    for (int round = 0; round < 12; round++) {
        for (int write = 0; write < round; write++)
            set_some(pass, 1 + below(NODES));
        CHECK(bes_pin(pass, &number) == BES_OK);
        CHECK(bes_refresh(pass, &whole, &updates[0]) == BES_OK && bes_refresh_changed(pass, &changed, &updates[1]) == BES_OK);
        CHECK(updates[0].created == updates[1].created && updates[0].removed == updates[1].removed);
        CHECK(bes_changes(&whole, came[0], 2 * NODES, went[0], 2 * NODES) == BES_OK);
        CHECK(bes_changes(&changed, came[1], 2 * NODES, went[1], 2 * NODES) == BES_OK);
        CHECK(memcmp(came[0], came[1], (size_t)updates[0].created * sizeof **came) == 0);
        CHECK(memcmp(went[0], went[1], (size_t)updates[0].removed * sizeof **went) == 0);
        CHECK(bes_unpin(pass) == BES_OK);
    }
    CHECK(bes_release(&whole) == BES_OK && bes_release(&changed) == BES_OK);
    CHECK(bes_refresh_changed(pass, &changed, &updates[0]) == BES_CLOSED);
}

int main(int argc, char **argv)
{
    bool is_short = argc > 1 && strcmp(argv[1], "short") == 0;
    bes_pass pass = BES_PASS_INIT;
    uint64_t number = 0;
    CHECK(bes_open(1000, 2, 50000, &pass) == BES_OK);
    fill(&pass);
    CHECK(bes_pin(&pass, &number) == BES_OK);
    all_pages(&pass, is_short);
    both_ways(&pass);
    for (size_t text = 0; text < sizeof texts / sizeof *texts; text++)
        first_and_any(&pass, texts[text]);
    errors(&pass);
    CHECK(bes_unpin(&pass) == BES_OK);
    writes_between(&pass);
    refresh_changed(&pass);
    random_pages(&pass, is_short);
    CHECK(bes_close(&pass) == BES_OK);
    return 0;
}
