/* Tests the calls on stores from one thread, and every kind of misuse. queries.c does the same for the calls on queries, and
 * threads.c makes calls from four threads. Together, the tests in this folder cover every error that bestore.h lists; memory.c
 * covers BES_NO_MEMORY and the cases that must return BES_BUSY. */
#include "tests.h"

static void closed_handle(void)
{
    bes_pass pass = BES_PASS_INIT, other = BES_PASS_INIT;
    uint64_t number = 7, nodes[2] = {7, 7};
    bes_attribute told = {7, 7, 7};
    uint8_t bytes[2] = {7, 7};
    bes_item item = {0, 0, 0, 0};
    bes_operation op;
    memset(&op, 0, sizeof op);
    CHECK(bes_pin(&pass, &number) == BES_CLOSED && number == 0);
    CHECK(bes_unpin(&pass) == BES_CLOSED);
    CHECK(bes_close(&pass) == BES_CLOSED);
    CHECK(bes_another(&pass, &other) == BES_CLOSED);
    number = 7;
    CHECK(bes_meet(&pass, &number) == BES_CLOSED && number == 0);
    CHECK(bes_move(&pass, &other) == BES_CLOSED);
    number = 7;
    CHECK(bes_explain(&pass, (const uint8_t *)"a==1", 4, bytes, 2, &number) == BES_CLOSED && number == 0 && bytes[0] == 7);
    number = 7;
    CHECK(bes_ways(&pass, (const uint8_t *)"a==1", 4, bytes, 2, &number) == BES_CLOSED && number == 0 && bytes[0] == 7);
    number = 7;
    CHECK(bes_apply(&pass, &op, 1, bytes, 0, nodes, 2, &number) == BES_CLOSED && number == 0 && nodes[0] == 7);
    number = 7;
    CHECK(bes_find(&pass, "a==1", nodes, 2, &number) == BES_CLOSED && number == 0);
    number = 7;
    CHECK(bes_query_items(&pass, &item, 1, bytes, 0, nodes, 2, &number) == BES_CLOSED && number == 0);
    CHECK(bes_read(&pass, 1, "a", &told, bytes, 2) == BES_CLOSED && told.code == 7 && bytes[0] == 7);
    CHECK(bes_apply_or_retry(&pass, &op, 1, bytes, 0, 1, nodes, 2, &number) == BES_CLOSED && nodes[0] == 7);
}

static void opening(void)
{
    bes_pass mine = BES_PASS_INIT, theirs = BES_PASS_INIT, third = BES_PASS_INIT;
    uint64_t number = 7;
    CHECK(bes_open(7, 2, 10, &mine) == BES_BAD_LIMITS && bes_open(16777217, 2, 10, &mine) == BES_BAD_LIMITS);
    CHECK(bes_open(8, 0, 10, &mine) == BES_BAD_LIMITS && bes_open(8, 65, 10, &mine) == BES_BAD_LIMITS);
    CHECK(bes_open(8, 2, 0, &mine) == BES_BAD_LIMITS && bes_open(8, 2, 1ull << 32, &mine) == BES_BAD_LIMITS);
    CHECK(bes_pin(&mine, &number) == BES_CLOSED && number == 0);
    CHECK(bes_open(8, 2, 10, &mine) == BES_OK);
    CHECK(bes_open(8, 2, 10, &mine) == BES_OPEN);
    CHECK(bes_another(&mine, &theirs) == BES_OK);
    CHECK(bes_another(&mine, &theirs) == BES_OPEN);
    CHECK(bes_another(&mine, &third) == BES_NO_PASS);
    CHECK(bes_another(&theirs, &third) == BES_NO_PASS);
    CHECK(bes_move(&mine, &theirs) == BES_OPEN);
    CHECK(bes_pin(&theirs, &number) == BES_OK && number == 0);
    CHECK(bes_move(&theirs, &third) == BES_OK);
    CHECK(bes_unpin(&theirs) == BES_CLOSED);
    number = 7;
    CHECK(bes_pin(&third, &number) == BES_PINNED && number == 0);
    CHECK(bes_move(&third, &theirs) == BES_OK);
    CHECK(bes_close(&mine) == BES_OK && bes_close(&mine) == BES_CLOSED);
    CHECK(bes_close(&theirs) == BES_OK);
    CHECK(bes_close(&third) == BES_CLOSED);
}

/* A returned pass, which has no pin, can be taken through any handle of the store. Passes that a handle holds can be taken only
 * through that handle. */
static void giving_back(void)
{
    bes_pass mine = BES_PASS_INIT, theirs = BES_PASS_INIT, third = BES_PASS_INIT, fourth = BES_PASS_INIT;
    uint64_t number = 7;
    CHECK(bes_open(8, 3, 10, &mine) == BES_OK && bes_another(&mine, &theirs) == BES_OK);
    CHECK(bes_another(&theirs, &third) == BES_NO_PASS);
    CHECK(bes_pin(&mine, &number) == BES_OK && bes_close(&mine) == BES_OK);
    CHECK(bes_another(&theirs, &third) == BES_OK && bes_another(&third, &mine) == BES_OK);
    CHECK(bes_another(&theirs, &fourth) == BES_NO_PASS && bes_another(&mine, &fourth) == BES_NO_PASS);
    CHECK(bes_pin(&mine, &number) == BES_OK && bes_pin(&third, &number) == BES_OK && number == 0);
    CHECK(bes_close(&third) == BES_OK && bes_close(&mine) == BES_OK && bes_close(&theirs) == BES_OK);
}

/* By meeting a returned pass, a pass sees what that pass has seen. */
static void meeting(void)
{
    bes_pass mine = BES_PASS_INIT, theirs = BES_PASS_INIT, third = BES_PASS_INIT;
    uint64_t number = 7, node = 0;
    CHECK(bes_open(64, 3, 10, &mine) == BES_OK && bes_another(&mine, &theirs) == BES_OK);
    CHECK(bes_another(&mine, &third) == BES_OK && bes_meet(&mine, &number) == BES_NO_PASS && number == 0);
    CHECK(bes_close(&third) == BES_OK && bes_meet(&theirs, &number) == BES_OK && number == 0);
    CHECK(bes_new_node(&mine, &node) == BES_OK && bes_pin(&theirs, &number) == BES_OK && number == 1);
    CHECK(bes_unpin(&theirs) == BES_OK && bes_new_node(&mine, &node) == BES_OK);
    CHECK(bes_meet(&mine, &number) == BES_OK && number == 2);
    CHECK(bes_meet(&theirs, &number) == BES_OK && number == 2);
    CHECK(bes_close(&mine) == BES_OK && bes_close(&theirs) == BES_OK);
}

/* Writes `count` operations, of which the first `right` are valid and all others are `op`. Returns the error. If the list is
 * invalid, checks that the error gives the index of the first invalid operation. */
static uint32_t wrong_behind(bes_pass *pass, size_t right, bes_operation op, size_t count, size_t size)
{
    static const uint8_t bytes[300] = "k\0\xff";
    static const bes_operation new_node = {BES_NEW_NODE, 0, 0, 0, 0, 0, 0, 0};
    view *before = seen_before();
    bes_operation ops[65];
    uint64_t made[2] = {7, 7}, number = 7, place;
    uint32_t answer;
    for (size_t i = 0; i < 65; i++)
        ops[i] = i < right ? new_node : op;
    look(pass, before);
    answer = bes_apply(pass, ops, count, bytes, size, made, 2, &number);
    place = answer == BES_BAD_COUNT || answer == BES_NOT_INDEXABLE ? 0 : right;
    CHECK(made[0] == 7 && made[1] == 7 && number == place);
    number = 7;
    CHECK(bes_apply_or_retry(pass, ops, count, bytes, size, 3, made, 2, &number) == answer && made[0] == 7 && number == place);
    CHECK(is_as_it_was(pass, before));
    return answer;
}

static uint32_t wrong(bes_pass *pass, bes_operation op, size_t count, size_t size)
{
    uint32_t answer = wrong_behind(pass, 0, op, count, size);
    if (count == 1 && answer != BES_NOT_INDEXABLE)
        CHECK(wrong_behind(pass, 1, op, 2, size) == answer && wrong_behind(pass, 63, op, 64, size) == answer);
    return answer;
}

static void wrong_writes(void)
{
    bes_pass pass = BES_PASS_INIT;
    uint64_t number = 7, made = 7;
    bes_operation new_node = {BES_NEW_NODE, 0, 0, 0, 0, 0, 0, 0};
    bes_operation none = {6, 0, 0, 0, 0, 1, 0, 0};
    bes_operation no_kind = {BES_SET, 1, 1, 0, 0, 1, 0, 0};
    bes_operation no_value = {BES_SET, BES_INT32_TYPE, 1, 1u << 31, 0, 1, 0, 0};
    bes_operation no_word = {BES_SET, BES_UINT32_TYPE, 1, 1ull << 32, 0, 1, 0, 0};
    bes_operation not_utf8 = {BES_UNSET, 0, 1, 0, 2, 1, 0, 0};
    bes_operation has_nul = {BES_UNSET, 0, 1, 0, 0, 2, 0, 0};
    bes_operation no_name = {BES_UNSET, 0, 1, 0, 0, 0, 0, 0};
    bes_operation long_name = {BES_UNSET, 0, 1, 0, 3, 64, 0, 0};
    bes_operation long_value = {BES_SET, BES_RAW_TYPE, 1, 0, 0, 1, 0, 256};
    bes_operation outside = {BES_UNSET, 0, 1, 0, 0xffffffffu, 0xffffffffu, 0, 0};
    bes_operation raw_index = {BES_MAKE_INDEX, BES_RAW_TYPE, 0, 0, 0, 1, 0, 0};
    CHECK(bes_open(64, 1, 100, &pass) == BES_OK);
    CHECK(wrong(&pass, new_node, 0, 0) == BES_BAD_COUNT);
    CHECK(wrong(&pass, new_node, 65, 0) == BES_BAD_COUNT);
    /* The number of operations is checked before they are read. */
    CHECK(wrong(&pass, none, 65, 0) == BES_BAD_COUNT);
    CHECK(bes_apply(&pass, &none, (size_t)1 << 40, (const uint8_t *)"", 0, &made, 1, &number) == BES_BAD_COUNT && number == 0);
    CHECK(wrong(&pass, none, 1, 300) == BES_NO_OPERATION);
    CHECK(wrong(&pass, no_kind, 1, 300) == BES_NO_KIND);
    CHECK(wrong(&pass, no_value, 1, 300) == BES_NO_VALUE);
    CHECK(wrong(&pass, no_word, 1, 300) == BES_NO_VALUE);
    CHECK(wrong(&pass, not_utf8, 1, 300) == BES_NOT_UTF8);
    CHECK(wrong(&pass, has_nul, 1, 300) == BES_HAS_NUL);
    CHECK(wrong(&pass, no_name, 1, 300) == BES_NAME_LENGTH);
    CHECK(wrong(&pass, long_name, 1, 300) == BES_NAME_LENGTH);
    CHECK(wrong(&pass, long_value, 1, 300) == BES_DATA_LENGTH);
    CHECK(wrong(&pass, outside, 1, 300) == BES_BAD_PART);
    CHECK(wrong(&pass, raw_index, 1, 300) == BES_NOT_INDEXABLE);
    CHECK(wrong(&pass, no_kind, 1, 0) == BES_BAD_PART);
    CHECK(bes_set_text(&pass, 1, "k", "v") == BES_NO_NODE);
    CHECK(bes_pin(&pass, &number) == BES_OK && number == 0);
    CHECK(bes_close(&pass) == BES_OK);
}

/* A node with the maximum number of attributes, and a store with the maximum number of indices. */
static void most(void)
{
    static bes_batch batch;
    bes_pass pass = BES_PASS_INIT;
    uint64_t node = 7, number = 7, made[64] = {7};
    char name[16];
    CHECK(bes_open(256, 1, 100, &pass) == BES_OK && bes_new_node(&pass, &node) == BES_OK);
    bes_batch_clear(&batch);
    for (int i = 0; i < 64; i++) {
        snprintf(name, sizeof name, "a%d", i);
        CHECK(bes_batch_set_int32(&batch, 1, name, i) == BES_OK);
    }
    CHECK(bes_batch_apply(&pass, &batch, 1, made, 64, &number) == BES_OK && number == 2);
    CHECK(bes_pin(&pass, &number) == BES_OK);
    LEAVES(&pass, bes_set_int32(&pass, 1, "a64", 64), BES_TOO_MANY_ATTRS);
    /* If the last operation fails, the whole list is refused. */
    bes_batch_clear(&batch);
    CHECK(bes_batch_new_node(&batch) == BES_OK && bes_batch_set_int32(&batch, 1, "a64", 64) == BES_OK);
    made[0] = 7;
    LEAVES(&pass, bes_batch_apply(&pass, &batch, 1, made, 64, &number), BES_TOO_MANY_ATTRS);
    CHECK(made[0] == 7 && number == 0);
    CHECK(bes_unset(&pass, 1, "a0") == BES_OK && bes_set_int32(&pass, 1, "a64", 64) == BES_OK);
    for (int i = 0; i < 32; i++) {
        snprintf(name, sizeof name, "i%d", i);
        CHECK(bes_make_index(&pass, name, BES_INT64_TYPE) == BES_OK);
    }
    LEAVES(&pass, bes_make_index(&pass, "i32", BES_INT64_TYPE), BES_TOO_MANY_INDICES);
    CHECK(bes_remove_index(&pass, "i0") == BES_OK && bes_make_index(&pass, "i32", BES_INT64_TYPE) == BES_OK);
    bes_batch_clear(&batch);
    CHECK(bes_batch_remove_index(&batch, "i1") == BES_OK && bes_batch_unset(&batch, 1, "a1") == BES_OK);
    CHECK(bes_batch_remove_node(&batch, 1) == BES_OK);
    CHECK(bes_batch_apply(&pass, &batch, 1, made, 64, &number) == BES_OK && made[0] == 0 && made[2] == 0);
    CHECK(bes_close(&pass) == BES_OK);
}

/* Operations that don't fit into a batch. */
static void full_batch(void)
{
    static bes_batch batch;
    char long_text[257] = "";
    bes_batch_clear(&batch);
    memset(long_text, 'x', 256);
    CHECK(bes_batch_set_text(&batch, 1, long_text, "") == BES_NAME_LENGTH && batch.count == 0);
    CHECK(bes_batch_set_text(&batch, 1, "k", long_text) == BES_DATA_LENGTH && batch.count == 0);
    while (batch.count < 64)
        CHECK(bes_batch_set_raw(&batch, 1, long_text + 256 - 63, long_text, 255) == BES_OK);
    CHECK(bes_batch_new_node(&batch) == BES_BAD_COUNT && batch.count == 64);
}

/* A pin holds its snapshot's pages until a write finds no free page. */
static void no_page_is_free(void)
{
    static bes_batch batch;
    bes_pass pass = BES_PASS_INIT;
    uint64_t node = 0, number = 7, count = 7;
    uint32_t answer;
    CHECK(bes_open(8, 1, 1000, &pass) == BES_OK && bes_make_index(&pass, "k", BES_INT64_TYPE) == BES_OK);
    CHECK(bes_new_node(&pass, &node) == BES_OK && bes_pin(&pass, &number) == BES_OK && number == 2);
    do
        answer = bes_new_node(&pass, &node);
    while (answer == BES_OK && node < 100);
    CHECK(answer == BES_FULL);
    LEAVES(&pass, bes_new_node(&pass, &count), BES_FULL);
    CHECK(count == 7);
    /* The number of the pinned snapshot is returned with the error. */
    bes_batch_clear(&batch);
    CHECK(bes_batch_new_node(&batch) == BES_OK);
    LEAVES(&pass, bes_batch_apply(&pass, &batch, 1, &count, 1, &number), BES_FULL);
    CHECK(number == 2 && count == 7);
    CHECK(bes_unpin(&pass) == BES_OK && bes_new_node(&pass, &count) == BES_OK && count == node + 1);
    CHECK(bes_close(&pass) == BES_OK);
}

static void values(void)
{
    static bes_batch batch = BES_BATCH_INIT;
    bes_pass pass = BES_PASS_INIT;
    uint64_t made[64], number = 0;
    bes_attribute told;
    uint8_t bytes[255];
    CHECK(bes_open(64, 1, 100, &pass) == BES_OK);
    CHECK(bes_batch_new_node(&batch) == BES_OK);
    CHECK(bes_batch_set_text(&batch, 1, "text", "h\xc3\xa9") == BES_OK);
    CHECK(bes_batch_set_mime(&batch, 1, "mime", "text/plain") == BES_OK);
    CHECK(bes_batch_set_raw(&batch, 1, "raw", "\0\xff", 2) == BES_OK);
    CHECK(bes_batch_set_int32(&batch, 1, "int32", INT32_MIN) == BES_OK);
    CHECK(bes_batch_set_int64(&batch, 1, "int64", INT64_MIN) == BES_OK);
    CHECK(bes_batch_set_uint32(&batch, 1, "uint32", UINT32_MAX) == BES_OK);
    CHECK(bes_batch_set_uint64(&batch, 1, "uint64", UINT64_MAX) == BES_OK);
    CHECK(bes_batch_apply(&pass, &batch, 1, made, 64, &number) == BES_OK && number == 1 && made[0] == 1 && made[7] == 0);
    CHECK(bes_read(&pass, 1, "text", &told, bytes, 255) == BES_NOT_PINNED);
    CHECK(bes_pin(&pass, &number) == BES_OK && number == 1);
    CHECK(bes_pin(&pass, &number) == BES_PINNED && number == 0);
    CHECK(bes_read(&pass, 1, "text", &told, bytes, 255) == BES_OK && told.code == BES_STRING_TYPE && told.length == 3);
    CHECK(memcmp(bytes, "h\xc3\xa9", 3) == 0);
    memset(bytes, 7, sizeof bytes);
    CHECK(bes_read(&pass, 1, "mime", &told, bytes, 4) == BES_OK && told.code == BES_MIME_STRING_TYPE && told.length == 10);
    CHECK(memcmp(bytes, "text\7", 5) == 0);
    CHECK(bes_read(&pass, 1, "raw", &told, bytes, 255) == BES_OK && told.code == BES_RAW_TYPE && told.length == 2);
    CHECK(memcmp(bytes, "\0\xff", 2) == 0);
    CHECK(bes_read(&pass, 1, "int32", &told, bytes, 0) == BES_OK && (int64_t)told.number == INT32_MIN && told.length == 0);
    CHECK(bes_read(&pass, 1, "int64", &told, bytes, 0) == BES_OK && (int64_t)told.number == INT64_MIN);
    CHECK(bes_read(&pass, 1, "uint32", &told, bytes, 0) == BES_OK && told.number == UINT32_MAX);
    CHECK(bes_read(&pass, 1, "uint64", &told, bytes, 0) == BES_OK && told.number == UINT64_MAX && told.code == BES_UINT64_TYPE);
    CHECK(bes_read(&pass, 1, "none", &told, bytes, 255) == BES_NO_ATTRIBUTE);
    CHECK(bes_read(&pass, 2, "text", &told, bytes, 255) == BES_NO_ATTRIBUTE);
    CHECK(bes_read(&pass, 1, "", &told, bytes, 255) == BES_NAME_LENGTH);
    CHECK(bes_read(&pass, 1, "\xff", &told, bytes, 255) == BES_NOT_UTF8);
    CHECK(bes_unpin(&pass) == BES_OK && bes_unpin(&pass) == BES_NOT_PINNED);
    CHECK(bes_close(&pass) == BES_OK);
}

/* Writes of one operation. */
static void single_writes(void)
{
    bes_pass pass = BES_PASS_INIT;
    uint64_t node = 0;
    CHECK(bes_open(64, 1, 100, &pass) == BES_OK && bes_new_node(&pass, &node) == BES_OK && node == 1);
    CHECK(bes_set_mime(&pass, 1, "m", "a/b") == BES_OK && bes_set_raw(&pass, 1, "raw", "\0", 1) == BES_OK);
    CHECK(bes_set_int64(&pass, 1, "l", -1) == BES_OK && bes_set_uint32(&pass, 1, "u", 1) == BES_OK);
    CHECK(bes_set_uint64(&pass, 1, "v", UINT64_MAX) == BES_OK);
    CHECK(bes_unset(&pass, 1, "raw") == BES_OK && bes_unset(&pass, 1, "raw") == BES_NO_ATTRIBUTE);
    CHECK(bes_remove_node(&pass, 1) == BES_OK && bes_remove_node(&pass, 1) == BES_NO_NODE);
    CHECK(bes_close(&pass) == BES_OK);
}

static void lists(void)
{
    static bes_batch batch;
    bes_pass pass = BES_PASS_INIT;
    bes_counts counts = {7, 7};
    bes_operation listed[3];
    uint8_t bytes[16];
    uint64_t made[64], number = 0;
    memset(listed, 7, sizeof listed);
    CHECK(bes_attributes(&pass, 1, &counts, listed, 3, bytes, 16) == BES_CLOSED);
    CHECK(bes_indices(&pass, &counts, listed, 3, bytes, 16) == BES_CLOSED);
    CHECK(bes_open(64, 1, 100, &pass) == BES_OK);
    bes_batch_clear(&batch);
    CHECK(bes_batch_make_index(&batch, "size", BES_UINT64_TYPE) == BES_OK);
    CHECK(bes_batch_new_node(&batch) == BES_OK);
    CHECK(bes_batch_set_text(&batch, 1, "name", "ann") == BES_OK);
    CHECK(bes_batch_set_uint64(&batch, 1, "size", 9) == BES_OK);
    CHECK(bes_batch_apply(&pass, &batch, 1, made, 64, &number) == BES_OK);
    CHECK(bes_attributes(&pass, 1, &counts, listed, 3, bytes, 16) == BES_NOT_PINNED);
    CHECK(bes_indices(&pass, &counts, listed, 3, bytes, 16) == BES_NOT_PINNED && counts.bytes == 7);
    CHECK(bes_pin(&pass, &number) == BES_OK);
    CHECK(bes_attributes(&pass, 2, &counts, listed, 3, bytes, 16) == BES_NO_NODE && counts.operations == 7);
    CHECK(bes_attributes(&pass, 1, &counts, listed, 1, bytes, 2) == BES_OK && counts.operations == 2 && counts.bytes == 11);
    CHECK(listed[1].kind == 0x07070707 && memcmp(bytes, "na", 2) == 0);
    CHECK(bes_attributes(&pass, 1, &counts, listed, 3, bytes, 16) == BES_OK);
    CHECK(memcmp(bytes, "nameannsize", 11) == 0 && listed[2].kind == 0x07070707);
    CHECK(listed[0].kind == BES_SET && listed[0].node == 1 && listed[0].code == BES_STRING_TYPE);
    CHECK(listed[1].code == BES_UINT64_TYPE && listed[1].number == 9 && listed[1].name_at == 7);
    CHECK(bes_apply(&pass, listed, 2, bytes, 11, made, 64, &number) == BES_OK && number == 2);
    CHECK(bes_indices(&pass, &counts, listed, 3, bytes, 16) == BES_OK && counts.operations == 1 && counts.bytes == 4);
    CHECK(listed[0].kind == BES_MAKE_INDEX && listed[0].code == BES_UINT64_TYPE && memcmp(bytes, "size", 4) == 0);
    CHECK(bes_close(&pass) == BES_OK);
}

/* Lists all nodes, one list at a time, whatever attributes they have. */
static void nodes_by_number(void)
{
    static bes_batch batch;
    bes_pass pass = BES_PASS_INIT;
    uint64_t number = 0, count = 7, from = 0, expected = 1, made[64], nodes[100] = {7};
    CHECK(bes_nodes(&pass, 0, nodes, 100, &count) == BES_CLOSED && count == 0);
    CHECK(bes_open(256, 1, 100, &pass) == BES_OK);
    for (int i = 0; i < 4; i++) {
        bes_batch_clear(&batch);
        while (batch.count < 64)
            CHECK(bes_batch_new_node(&batch) == BES_OK);
        CHECK(bes_batch_apply(&pass, &batch, 1, made, 64, &number) == BES_OK);
    }
    CHECK(bes_remove_node(&pass, 100) == BES_OK && bes_set_text(&pass, 7, "k", "v") == BES_OK);
    count = 7;
    CHECK(bes_nodes(&pass, 0, nodes, 100, &count) == BES_NOT_PINNED && count == 0 && nodes[0] == 7);
    CHECK(bes_pin(&pass, &number) == BES_OK);
    do {
        CHECK(bes_nodes(&pass, from, nodes, 100, &count) == BES_OK && count <= 100);
        for (uint64_t i = 0; i < count; i++) {
            expected += expected == 100;
            CHECK(nodes[i] == expected++);
        }
        from = expected;
    } while (count == 100);
    CHECK(expected == 257);
    CHECK(bes_nodes(&pass, 257, nodes, 100, &count) == BES_OK && count == 0);
    CHECK(bes_nodes(&pass, UINT64_MAX, nodes, 100, &count) == BES_OK && count == 0);
    CHECK(bes_nodes(&pass, 256, nodes, 0, &count) == BES_OK && count == 0);
    CHECK(bes_close(&pass) == BES_OK);
}

enum { MOST_BYTES = 64 * (63 + 255) };

/* Reads the operations that recreate a snapshot. If a list doesn't fit, the next call returns it. */
static void states(void)
{
    static const uint8_t expected[] = "nameannsizesize";
    static bes_batch batch;
    static uint8_t bytes[MOST_BYTES];
    bes_pass pass = BES_PASS_INIT, next = BES_PASS_INIT;
    bes_place place = BES_PLACE_INIT;
    bes_counts counts = {7, 7};
    bes_operation listed[64];
    uint64_t number = 0, made[64] = {7};
    memset(listed, 7, sizeof listed);
    CHECK(bes_state(&pass, &place, &counts, listed, 64, bytes, MOST_BYTES) == BES_CLOSED && counts.operations == 7);
    CHECK(bes_leave(&place) == BES_CLOSED && bes_open(64, 1, 100, &pass) == BES_OK && bes_open(64, 1, 100, &next) == BES_OK);
    CHECK(bes_state(&pass, &place, &counts, listed, 64, bytes, MOST_BYTES) == BES_NOT_PINNED && counts.bytes == 7);
    CHECK(bes_pin(&pass, &number) == BES_OK);
    CHECK(bes_state(&pass, &place, &counts, listed, 64, bytes, MOST_BYTES) == BES_OK && counts.operations == 0 && counts.bytes == 0);
    CHECK(listed[0].kind == 0x07070707 && bes_unpin(&pass) == BES_OK);
    CHECK(bes_leave(&place) == BES_OK && bes_leave(&place) == BES_CLOSED);
    bes_batch_clear(&batch);
    CHECK(bes_batch_new_node(&batch) == BES_OK && bes_batch_new_node(&batch) == BES_OK);
    CHECK(bes_batch_set_text(&batch, 1, "name", "ann") == BES_OK && bes_batch_remove_node(&batch, 2) == BES_OK);
    CHECK(bes_batch_make_index(&batch, "size", BES_UINT64_TYPE) == BES_OK && bes_batch_set_uint64(&batch, 1, "size", 9) == BES_OK);
    CHECK(bes_batch_apply(&pass, &batch, 1, made, 64, &number) == BES_OK && bes_pin(&pass, &number) == BES_OK);
    CHECK(bes_state(&pass, &place, &counts, listed, 5, bytes, MOST_BYTES) == BES_OK && counts.operations == 6);
    CHECK(counts.bytes == 15 && listed[4].kind == BES_MAKE_INDEX && listed[5].kind == 0x07070707);
    memset(bytes, 7, sizeof bytes);
    CHECK(bes_state(&pass, &place, &counts, listed, 6, bytes, 14) == BES_OK && counts.operations == 6 && counts.bytes == 15);
    CHECK(memcmp(bytes, expected, 14) == 0 && bytes[14] == 7);
    CHECK(bes_state(&pass, &place, &counts, listed, 6, bytes, 15) == BES_OK && counts.operations == 6 && counts.bytes == 15);
    CHECK(memcmp(bytes, expected, 15) == 0 && listed[3].kind == BES_REMOVE_NODE && listed[3].node == 2);
    CHECK(bes_apply(&next, listed, 6, bytes, 15, made, 64, &number) == BES_OK && made[0] == 1 && made[2] == 2);
    CHECK(bes_state(&pass, &place, &counts, listed, 64, bytes, MOST_BYTES) == BES_OK && counts.operations == 0);
    CHECK(bes_batch_state(&pass, &place, &batch) == BES_OK && batch.count == 0 && batch.used == 0);
    CHECK(bes_leave(&place) == BES_OK && bes_batch_state(&pass, &place, &batch) == BES_OK && batch.count == 6 && batch.used == 15);
    CHECK(bes_close(&pass) == BES_OK && bes_batch_state(&pass, &place, &batch) == BES_CLOSED && batch.count == 0);
    CHECK(bes_leave(&place) == BES_OK && bes_new_node(&next, &number) == BES_OK && number == 3 && bes_close(&next) == BES_OK);
}

/* With a witness, a pass sees what another pass has seen. The witness outlives their store. */
static void joining(void)
{
    bes_pass mine = BES_PASS_INIT, theirs = BES_PASS_INIT;
    bes_witness witness = BES_WITNESS_INIT, later = BES_WITNESS_INIT, moved = BES_WITNESS_INIT;
    uint64_t number = 7, node = 0, nodes[4];
    CHECK(bes_witness_of(&mine, &witness) == BES_CLOSED && bes_dismiss(&witness) == BES_CLOSED);
    CHECK(bes_join(&mine, &witness, &number) == BES_CLOSED && number == 0);
    CHECK(bes_open(64, 2, 10, &mine) == BES_OK && bes_another(&mine, &theirs) == BES_OK);
    number = 7;
    LEAVES(&mine, bes_join(&mine, &witness, &number), BES_CLOSED);
    CHECK(number == 0 && bes_witness_of(&mine, &witness) == BES_OK);
    LEAVES(&mine, bes_witness_of(&mine, &witness), BES_OPEN);
    number = 7;
    LEAVES(&theirs, bes_join(&theirs, &witness, &number), BES_OK);
    CHECK(number == 0 && bes_new_node(&mine, &node) == BES_OK && bes_witness_of(&mine, &later) == BES_OK);
    CHECK(bes_join(&theirs, &later, &number) == BES_OK && number == 1);
    CHECK(bes_new_node(&theirs, &node) == BES_OK && bes_join(&theirs, &witness, &number) == BES_OK && number == 2);
    CHECK(bes_pin(&mine, &number) == BES_OK && number == 2 && bes_new_node(&theirs, &node) == BES_OK);
    CHECK(bes_join(&theirs, &later, &number) == BES_OK && number == 3);
    CHECK(bes_join(&mine, &later, &number) == BES_OK && number == 3 && bes_pin(&mine, &number) == BES_PINNED);
    CHECK(bes_nodes(&mine, 0, nodes, 4, &number) == BES_OK && number == 2 && bes_unpin(&mine) == BES_OK);
    CHECK(bes_join(&mine, &witness, &number) == BES_OK && number == 3);
    CHECK(bes_pin(&mine, &number) == BES_OK && number == 3 && bes_close(&mine) == BES_OK);
    number = 7;
    CHECK(bes_join(&mine, &later, &number) == BES_CLOSED && number == 0 && bes_close(&theirs) == BES_OK);
    CHECK(bes_move_witness(&later, &witness) == BES_OPEN && bes_dismiss(&witness) == BES_OK);
    CHECK(bes_move_witness(&later, &moved) == BES_OK && bes_move_witness(&later, &moved) == BES_CLOSED);
    CHECK(bes_dismiss(&later) == BES_CLOSED && bes_dismiss(&moved) == BES_OK && bes_dismiss(&moved) == BES_CLOSED);
}

/* Counts the pages that are free and those that a pin holds, and finds the pass with that pin. */
static void usage(void)
{
    bes_pass mine = BES_PASS_INIT, theirs = BES_PASS_INIT;
    bes_usage first, held, then;
    uint64_t number = 7, node = 0;
    memset(&first, 7, sizeof first);
    CHECK(bes_status(&mine, &first, &number) == BES_CLOSED && number == 0 && first.pages == 0x0707070707070707);
    CHECK(bes_open(64, 3, 100, &mine) == BES_OK && bes_another(&mine, &theirs) == BES_OK);
    number = 7;
    CHECK(bes_status(&mine, &first, &number) == BES_OK && number == 0);
    CHECK(first.pages == 64 && first.free > 0 && first.free < 64 && first.retired == 0 && first.entries == 0 && first.commits == 100);
    CHECK(!first.is_held && first.oldest == 0 && first.holder == 0);
    CHECK(bes_new_node(&mine, &node) == BES_OK && bes_pin(&theirs, &number) == BES_OK && number == 1);
    for (int i = 0; i < 5; i++)
        CHECK(bes_new_node(&mine, &node) == BES_OK);
    CHECK(bes_status(&mine, &held, &number) == BES_OK && held.entries == 6);
    CHECK(held.is_held && held.oldest == 1 && held.holder == 1 && held.retired > 0 && held.free + held.retired < 64);
    CHECK(bes_unpin(&theirs) == BES_OK && bes_status(&theirs, &then, &number) == BES_OK);
    CHECK(!then.is_held && then.retired == 0 && then.free == held.free + held.retired);
    CHECK(bes_close(&mine) == BES_OK && bes_close(&theirs) == BES_OK);
}

static void journal(void)
{
    static const char all[] = "1 by 0 new -> node 1\n2 by 0 set 1 \"k\" CSTR \"v\" -> ok\n";
    bes_pass pass = BES_PASS_INIT;
    uint64_t node = 0, count = 7;
    uint8_t text[128];
    memset(text, 7, sizeof text);
    CHECK(bes_journal(&pass, text, 128, &count) == BES_CLOSED && count == 0 && text[0] == 7);
    CHECK(bes_open(64, 1, 10, &pass) == BES_OK);
    CHECK(bes_journal(&pass, text, 128, &count) == BES_OK && count == 0 && text[0] == 7);
    CHECK(bes_new_node(&pass, &node) == BES_OK && bes_set_text(&pass, node, "k", "v") == BES_OK);
    CHECK(bes_unset(&pass, node, "none") == BES_NO_ATTRIBUTE);
    CHECK(bes_journal(&pass, text, 3, &count) == BES_OK && count == sizeof all - 1);
    CHECK(memcmp(text, all, 3) == 0 && text[3] == 7);
    CHECK(bes_journal(&pass, text, 128, &count) == BES_OK && count == sizeof all - 1 && memcmp(text, all, sizeof all - 1) == 0);
    CHECK(bes_close(&pass) == BES_OK);
}

/* The last handle closes the store, whether pinned or not, but only if there is room for the whole journal. */
static void finishing(void)
{
    static const char all[] = "1 by 2 new -> node 1\n2 by 1 new -> node 2\n3 by 2 new -> node 3\n";
    bes_pass mine = BES_PASS_INIT, theirs = BES_PASS_INIT, moved = BES_PASS_INIT;
    uint64_t node = 0, number = 0, count = 7;
    uint8_t text[128];
    memset(text, 7, sizeof text);
    CHECK(bes_finish(&mine, text, 128, &count) == BES_CLOSED && count == 0 && text[0] == 7);
    CHECK(bes_open(64, 3, 10, &mine) == BES_OK && bes_another(&mine, &theirs) == BES_OK);
    CHECK(bes_new_node(&mine, &node) == BES_OK && bes_new_node(&theirs, &node) == BES_OK);
    count = 7;
    CHECK(bes_finish(&theirs, text, 128, &count) == BES_IN_USE && count == 0 && text[0] == 7);
    CHECK(bes_finish(&mine, text, 128, &count) == BES_IN_USE && bes_new_node(&mine, &node) == BES_OK && node == 3);
    CHECK(bes_pin(&theirs, &number) == BES_OK && bes_close(&theirs) == BES_OK && bes_pin(&mine, &number) == BES_OK);
    CHECK(bes_finish(&mine, text, sizeof all - 2, &count) == BES_OK && count == sizeof all - 1 && text[0] == 7);
    CHECK(bes_unpin(&mine) == BES_OK && bes_pin(&mine, &number) == BES_OK && number == 3);
    CHECK(bes_move(&mine, &moved) == BES_OK);
    CHECK(bes_finish(&moved, text, sizeof all - 1, &count) == BES_OK && count == sizeof all - 1);
    CHECK(memcmp(text, all, sizeof all - 1) == 0 && text[sizeof all - 1] == 7);
    CHECK(bes_finish(&moved, text, 128, &count) == BES_CLOSED && bes_close(&moved) == BES_CLOSED);
    CHECK(bes_open(8, 1, 10, &mine) == BES_OK && bes_finish(&mine, text, 0, &count) == BES_OK && count == 0);
    CHECK(bes_close(&mine) == BES_CLOSED);
}

/* If two errors apply, the call returns the one that bestore.h lists first. */
static void order_of_reads(void)
{
    static const uint8_t long_text[4097] = {0xff};
    const bes_item none = {16, 0, 0, 0};
    bes_pass pass = BES_PASS_INIT, other = BES_PASS_INIT, third = BES_PASS_INIT;
    bes_prepared prepared = BES_PREPARED_INIT;
    bes_counts counts;
    bes_attribute read;
    bes_operation listed[1];
    uint64_t number = 0, nodes[1];
    uint8_t bytes[1];
    CHECK(bes_another(&pass, &pass) == BES_CLOSED && bes_find(&pass, "size<", nodes, 1, &number) == BES_CLOSED);
    CHECK(bes_open(64, 2, 2, &pass) == BES_OK && bes_open(0, 0, 0, &pass) == BES_OPEN);
    CHECK(bes_another(&pass, &other) == BES_OK && bes_another(&pass, &other) == BES_OPEN && bes_another(&pass, &third) == BES_NO_PASS);
    CHECK(bes_query(&pass, long_text, 4097, nodes, 1, &number) == BES_NOT_UTF8);
    CHECK(bes_find(&pass, "size<", nodes, 1, &number) == BES_SYNTAX && bes_find(&pass, "size<1", nodes, 1, &number) == BES_NOT_PINNED);
    CHECK(bes_query_items(&pass, &none, 1, bytes, 0, nodes, 1, &number) == BES_NO_ITEM);
    CHECK(bes_read(&pass, 1, "", &read, bytes, 1) == BES_NAME_LENGTH && bes_read(&pass, 1, "k", &read, bytes, 1) == BES_NOT_PINNED);
    CHECK(bes_get(&pass, 1, long_text, 64, &read, bytes, 1) == BES_NOT_UTF8);
    CHECK(bes_get(&pass, 1, long_text + 1, 64, &read, bytes, 1) == BES_NAME_LENGTH);
    CHECK(bes_attributes(&pass, 1, &counts, listed, 1, bytes, 1) == BES_NOT_PINNED);
    CHECK(bes_query_prepared(&pass, &prepared, nodes, 1, &number) == BES_CLOSED);
    CHECK(bes_prepare_text("size<1", &prepared, &number) == BES_OK && bes_prepare_text("size<", &prepared, &number) == BES_OPEN);
    CHECK(bes_query_prepared(&pass, &prepared, nodes, 1, &number) == BES_NOT_PINNED);
    CHECK(bes_release(&prepared) == BES_OK && bes_close(&pass) == BES_OK && bes_close(&other) == BES_OK);
}

static uint32_t applied(bes_pass *pass, bes_operation operation, size_t bytes_count)
{
    static const uint8_t bytes[300] = "k\0\xff";
    uint64_t made = 0, number = 0;
    return bes_apply(pass, &operation, 1, bytes, bytes_count, &made, 1, &number);
}

static void order_of_writes(void)
{
    bes_pass pass = BES_PASS_INIT;
    uint64_t number = 0, node = 0;
    CHECK(bes_open(8, 1, 2, &pass) == BES_OK);
    CHECK(applied(&pass, (bes_operation){9, 1, 9, 0, 2, 1, 9, 1}, 3) == BES_BAD_PART);
    CHECK(applied(&pass, (bes_operation){9, 1, 9, 0, 2, 1, 0, 256}, 300) == BES_NO_OPERATION);
    CHECK(applied(&pass, (bes_operation){BES_SET, 1, 9, 0, 2, 64, 0, 256}, 300) == BES_NOT_UTF8);
    CHECK(applied(&pass, (bes_operation){BES_SET, 1, 9, 0, 3, 64, 0, 256}, 300) == BES_NAME_LENGTH);
    CHECK(applied(&pass, (bes_operation){BES_SET, 1, 9, 0, 0, 2, 0, 256}, 300) == BES_HAS_NUL);
    CHECK(applied(&pass, (bes_operation){BES_SET, 1, 9, 0, 0, 1, 0, 256}, 300) == BES_NO_KIND);
    CHECK(applied(&pass, (bes_operation){BES_SET, BES_STRING_TYPE, 9, 0, 0, 1, 0, 256}, 300) == BES_NOT_UTF8);
    CHECK(applied(&pass, (bes_operation){BES_SET, BES_STRING_TYPE, 9, 0, 0, 1, 3, 256}, 300) == BES_DATA_LENGTH);
    CHECK(applied(&pass, (bes_operation){BES_SET, BES_STRING_TYPE, 9, 0, 0, 1, 0, 2}, 300) == BES_HAS_NUL);
    CHECK(bes_new_node(&pass, &node) == BES_OK && bes_new_node(&pass, &node) == BES_OK && bes_pin(&pass, &number) == BES_OK);
    CHECK(bes_remove_node(&pass, 9) == BES_NO_NODE && bes_remove_node(&pass, 1) == BES_COMMITS_SPENT);
    CHECK(bes_close(&pass) == BES_OK);
}

static void spent(void)
{
    bes_pass pass = BES_PASS_INIT;
    uint64_t node = 7;
    CHECK(bes_open(64, 1, 1, &pass) == BES_OK);
    CHECK(bes_new_node(&pass, &node) == BES_OK && node == 1);
    CHECK(bes_new_node(&pass, &node) == BES_COMMITS_SPENT && node == 1);
    CHECK(bes_close(&pass) == BES_OK);
    CHECK(strcmp(bes_strerror(BES_COMMITS_SPENT), "the journal has reached the limit that the store was opened with; "
                                                  "copy the state into a new store") == 0);
    CHECK(strcmp(bes_strerror(BES_BAD_PART), "a name or value lies outside the bytes that were passed with the list") == 0);
    CHECK(strcmp(bes_strerror(63), "an error of a later version of the library") == 0);
    CHECK(bes_version() == BES_VERSION_NUMBER && strcmp(BES_VERSION, "0.4.0") == 0);
}

/* No pass is lost by closing or meeting: 64 are taken, closed and taken again, through the first handle and through another. */
static void all_passes(void)
{
    static bes_pass taken[65];
    bes_pass first = BES_PASS_INIT, last = BES_PASS_INIT;
    uint64_t number = 0;
    CHECK(bes_open(64, 64, 10, &first) == BES_OK);
    CHECK(take_passes(&first, taken) == 63);
    for (int i = 0; i < 63; i += 2)
        CHECK(bes_pin(&taken[i], &number) == BES_OK);
    close_passes(taken, 63);
    for (int i = 0; i < 200; i++)
        CHECK(bes_meet(&first, &number) == BES_OK);
    CHECK(take_passes(&first, taken) == 63);
    CHECK(bes_meet(&first, &number) == BES_NO_PASS);
    CHECK(bes_move(&taken[40], &last) == BES_OK);
    close_passes(taken, 40);
    close_passes(taken + 41, 22);
    CHECK(bes_close(&first) == BES_OK);
    CHECK(take_passes(&last, taken) == 63);
    close_passes(taken, 63);
    CHECK(bes_close(&last) == BES_OK);
    /* When a handle is closed, the unused passes that it holds are returned with it. */
    CHECK(bes_open(64, 64, 10, &first) == BES_OK && bes_another(&first, &last) == BES_OK && bes_close(&first) == BES_OK);
    CHECK(take_passes(&last, taken) == 63);
    close_passes(taken, 63);
    CHECK(bes_close(&last) == BES_OK);
}

/* Whichever of 64 passes is the last, it closes the store, and the journal has the writes of all of them. */
static void finishing_all(void)
{
    static bes_pass taken[65];
    static uint8_t text[64 * 32];
    bes_pass first = BES_PASS_INIT;
    uint64_t node = 0, count = 0, lines = 0;
    CHECK(bes_open(64, 64, 100, &first) == BES_OK && bes_new_node(&first, &node) == BES_OK);
    CHECK(take_passes(&first, taken) == 63);
    for (int i = 0; i < 63; i++)
        CHECK(bes_new_node(&taken[i], &node) == BES_OK);
    CHECK(bes_close(&first) == BES_OK);
    close_passes(taken, 62);
    CHECK(bes_finish(&taken[62], text, sizeof text, &count) == BES_OK && count <= sizeof text);
    for (uint64_t i = 0; i < count; i++)
        lines += text[i] == '\n';
    CHECK(lines == 64);
}

int main(void)
{
    closed_handle();
    opening();
    giving_back();
    meeting();
    joining();
    wrong_writes();
    most();
    full_batch();
    no_page_is_free();
    values();
    single_writes();
    lists();
    nodes_by_number();
    states();
    usage();
    journal();
    finishing();
    spent();
    order_of_reads();
    order_of_writes();
    all_passes();
    finishing_all();
    return 0;
}
