/* Tests the helpers for positions in an index. A position made by a helper must equal the one that bes_ordered returns, and it
 * must convert back to the value. */
#include "tests.h"

static const uint32_t codes[] = { BES_STRING_TYPE, BES_INT32_TYPE, BES_INT64_TYPE, BES_UINT32_TYPE, BES_UINT64_TYPE };
static const uint64_t numbers[5][3] = {
    { 0, 0, 0 },
    { (uint64_t)INT32_MIN, (uint64_t)-1, INT32_MAX },
    { (uint64_t)INT64_MIN, (uint64_t)-1, INT64_MAX },
    { 0, 1, UINT32_MAX },
    { 0, 1, UINT64_MAX },
};
static char longest[256];
static const char *const texts[3] = { "", "a", longest };

/* Returns a node's value of this kind. */
static bes_attribute value_of(int kind, int at)
{
    bes_attribute value = { codes[kind], kind == 0 ? strlen(texts[at]) : 0, numbers[kind][at] };
    return value;
}

static void set(bes_pass *pass, bes_batch *batch, uint64_t node, int kind, int at)
{
    uint64_t number = 0, made[1];
    bes_batch_clear(batch);
    CHECK(bes_batch_new_node(batch) == BES_OK);
    CHECK(bes_batch_add(batch, BES_SET, node, "value", codes[kind], numbers[kind][at], texts[at], kind == 0 ? strlen(texts[at]) : 0) ==
          BES_OK);
    CHECK(bes_batch_apply(pass, batch, 1, made, 1, &number) == BES_OK && made[0] == node);
}

static void is_read_back(const bes_cursor *cursor, const bes_attribute *value, const char *text, uint64_t node)
{
    bes_attribute read = { 7, 7, 7 };
    uint8_t bytes[255];
    uint64_t of = 0;
    CHECK(bes_cursor_value(cursor, &read, bytes, sizeof bytes, &of) == BES_OK && of == node);
    CHECK(read.code == value->code && read.length == value->length && read.number == value->number);
    CHECK(memcmp(bytes, text, value->length) == 0);
}

/* Tests every position in a store whose three nodes have ascending values of one kind. */
static void positions(int kind)
{
    static bes_batch batch;
    bes_pass pass = BES_PASS_INIT;
    bes_prepared all = BES_PREPARED_INIT;
    bes_cursor cursor, made;
    bes_name by;
    uint64_t place = 0, number = 0, node = 0, count = 0;
    uint32_t more = 0;
    memset(&cursor, 0, sizeof cursor);
    CHECK(bes_open(64, 1, 100, &pass) == BES_OK && bes_check_name_text("value", &by) == BES_OK);
    CHECK(bes_make_index(&pass, "value", codes[kind]) == BES_OK);
    CHECK(bes_prepare_text(kind == 0 ? "value==*" : kind < 3 ? "value!=7" : "value>=0", &all, &place) == BES_OK);
    for (int at = 0; at < 3; at++)
        set(&pass, &batch, (uint64_t)at + 1, kind, at);
    CHECK(bes_pin(&pass, &number) == BES_OK);
    for (int at = 0; at < 3; at++) {
        const bes_attribute value = value_of(kind, at);
        CHECK(bes_ordered(&pass, &all, &by, 0, &cursor, &node, 1, &count, &more) == BES_OK);
        CHECK(count == 1 && node == (uint64_t)at + 1 && more == (at < 2));
        CHECK(bes_cursor_at(&value, texts[at], node, &made) == BES_OK && memcmp(&made, &cursor, sizeof made) == 0);
        is_read_back(&cursor, &value, texts[at], node);
        /* Start at the value itself. */
        CHECK(bes_cursor_at(&value, texts[at], 0, &made) == BES_OK);
        CHECK(bes_ordered(&pass, &all, &by, 0, &made, &node, 1, &count, &more) == BES_OK && count == 1 && node == (uint64_t)at + 1);
    }
    CHECK(bes_release(&all) == BES_OK && bes_close(&pass) == BES_OK);
}

/* Tries values that an index can't have, and cursors that aren't positions in an index. */
static void refused(void)
{
    bes_cursor cursor = { 7, 7, { 7 } };
    const bes_cursor before = cursor, beginning = { 0, 0, { 0 } };
    bes_attribute value = { BES_MIME_STRING_TYPE, 1, 0 };
    uint64_t node = 7;
    CHECK(bes_cursor_at(&value, "a", 1, &cursor) == BES_NOT_INDEXABLE);
    value.code = BES_STRING_TYPE;
    CHECK(bes_cursor_at(&value, "", 1, &cursor) == BES_HAS_NUL);
    value.length = 256;
    CHECK(bes_cursor_at(&value, longest, 1, &cursor) == BES_DATA_LENGTH);
    value = (bes_attribute){ BES_INT32_TYPE, 0, (uint64_t)INT32_MIN - 1 };
    CHECK(bes_cursor_at(&value, NULL, 1, &cursor) == BES_NO_VALUE);
    value = (bes_attribute){ BES_UINT32_TYPE, 0, (uint64_t)UINT32_MAX + 1 };
    CHECK(bes_cursor_at(&value, NULL, 1, &cursor) == BES_NO_VALUE);
    CHECK(memcmp(&cursor, &before, sizeof cursor) == 0);
    CHECK(bes_cursor_value(&beginning, &value, NULL, 0, &node) == BES_BAD_CURSOR);
    value = (bes_attribute){ BES_STRING_TYPE, 2, 0 };
    CHECK(bes_cursor_at(&value, "ab", 1, &cursor) == BES_OK);
    CHECK(bes_cursor_value(&cursor, &value, NULL, 0, &node) == BES_OK && value.length == 2 && node == 1);
    for (uint32_t length = 0; length < 300; length++) {
        cursor.length = length;
        CHECK(bes_cursor_value(&cursor, &value, NULL, 0, &node) == (length == 11 ? BES_OK : BES_BAD_CURSOR));
    }
    cursor.length = 11;
    cursor.kind = BES_INT32_TYPE;
    CHECK(bes_cursor_value(&cursor, &value, NULL, 0, &node) == BES_BAD_CURSOR);
    cursor.kind = BES_INT64_TYPE;
    cursor.length = 16;
    CHECK(bes_cursor_value(&cursor, &value, NULL, 0, &node) == BES_OK && value.length == 0);
    cursor.kind = BES_RAW_TYPE;
    CHECK(bes_cursor_value(&cursor, &value, NULL, 0, &node) == BES_BAD_CURSOR);
}

int main(void)
{
    memset(longest, 'x', 255);
    for (int kind = 0; kind < 5; kind++)
        positions(kind);
    refused();
    return 0;
}
