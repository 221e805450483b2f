/* Tests the calls on queries from one thread: as text, as items and prepared, and every kind of misuse. */
#include "tests.h"

/* Uses a closed handle of a prepared query, and runs a query through a closed pass. */
static void closed_prepared(void)
{
    bes_pass pass = BES_PASS_INIT;
    bes_prepared prepared = BES_PREPARED_INIT;
    bes_updates updates = {7, 7};
    uint64_t number = 7, count = 7, place = 7, nodes[2] = {7, 7}, more[2] = {7, 7};
    CHECK(bes_release(&prepared) == BES_CLOSED);
    CHECK(bes_changes(&prepared, nodes, 2, more, 2) == BES_CLOSED && nodes[0] == 7 && more[0] == 7);
    CHECK(bes_found(&prepared, 0, nodes, 2, &count) == BES_CLOSED && count == 0 && nodes[0] == 7);
    count = 7;
    CHECK(bes_query_prepared(&pass, &prepared, nodes, 2, &count) == BES_CLOSED && count == 0);
    CHECK(bes_open(8, 1, 10, &pass) == BES_OK && bes_pin(&pass, &number) == BES_OK);
    count = 7;
    CHECK(bes_query_prepared(&pass, &prepared, nodes, 2, &count) == BES_CLOSED && count == 0 && nodes[0] == 7);
    CHECK(bes_refresh(&pass, &prepared, &updates) == BES_CLOSED && updates.created == 7 && updates.removed == 7);
    CHECK(bes_prepare_text("size<", &prepared, &place) == BES_SYNTAX && place == 5);
    CHECK(bes_prepare_text("\xff", &prepared, &place) == BES_NOT_UTF8 && place == 0);
    place = 7;
    CHECK(bes_prepare_text("size<1", &prepared, &place) == BES_OK && place == 0);
    place = 7;
    CHECK(bes_prepare_text("size<2", &prepared, &place) == BES_OPEN && place == 0);
    CHECK(bes_close(&pass) == BES_OK);
    count = 7;
    CHECK(bes_query_prepared(&pass, &prepared, nodes, 2, &count) == BES_CLOSED && count == 0);
    CHECK(bes_refresh(&pass, &prepared, &updates) == BES_CLOSED && updates.created == 7);
    CHECK(bes_release(&prepared) == BES_OK && bes_release(&prepared) == BES_CLOSED);
}

static void queries(void)
{
    bes_pass pass = BES_PASS_INIT;
    uint64_t node = 0, number = 0, count = 0, length = 0, nodes[4] = {7, 7, 7, 7};
    uint8_t text[64];
    bes_item less[3] = {{BES_ITEM_ATTRIBUTE, 0, 4, 0}, {BES_ITEM_INT64, 0, 0, (uint64_t)-1}, {BES_ITEM_LT, 0, 0, 0}};
    bes_item none = {16, 0, 0, 0};
    memset(text, 7, sizeof text);
    CHECK(bes_open(64, 1, 100, &pass) == BES_OK);
    CHECK(bes_make_index(&pass, "size", BES_INT32_TYPE) == BES_OK);
    CHECK(bes_make_index(&pass, "size", BES_INT32_TYPE) == BES_INDEX_EXISTS);
    for (int i = 1; i <= 3; i++) {
        CHECK(bes_new_node(&pass, &node) == BES_OK && node == (uint64_t)i);
        CHECK(bes_set_int32(&pass, node, "size", -i) == BES_OK);
    }
    CHECK(bes_find(&pass, "size<0", nodes, 4, &count) == BES_NOT_PINNED);
    CHECK(bes_pin(&pass, &number) == BES_OK && number == 7);
    CHECK(bes_find(&pass, "size<0", nodes, 2, &count) == BES_OK && count == 3);
    CHECK(nodes[0] == 1 && nodes[1] == 2 && nodes[2] == 7);
    CHECK(bes_find(&pass, "size<-1", nodes, 4, &count) == BES_OK && count == 2 && nodes[0] == 2 && nodes[1] == 3);
    CHECK(nodes[2] == 7);
    CHECK(bes_query_items(&pass, less, 3, (const uint8_t *)"size", 4, nodes, 4, &count) == BES_OK && count == 2 && nodes[0] == 2);
    CHECK(bes_query_items(&pass, less, 2, (const uint8_t *)"size", 4, nodes, 4, &count) == BES_BAD_RPN && count == 2);
    CHECK(bes_query_items(&pass, less, 3, (const uint8_t *)"size", 3, nodes, 4, &count) == BES_BAD_PART && count == 0);
    count = 7;
    CHECK(bes_query_items(&pass, &none, 1, (const uint8_t *)"", 0, nodes, 4, &count) == BES_NO_ITEM && count == 0);
    CHECK(bes_find(&pass, "size<", nodes, 4, &count) == BES_SYNTAX && count == 5);
    CHECK(bes_explain(&pass, (const uint8_t *)"size<0", 6, text, 2, &length) == BES_OK && length == 18 && text[2] == 7);
    CHECK(bes_explain(&pass, (const uint8_t *)"size<0", 6, text, 32, &length) == BES_OK && length == 18);
    CHECK(memcmp(text, "\"size\"<\"0\" score 3\7", 19) == 0);
    CHECK(bes_explain(&pass, (const uint8_t *)"name==1", 7, text, 32, &length) == BES_NOT_COVERED && length == 0);
    memset(text, 7, sizeof text);
    CHECK(bes_ways(&pass, (const uint8_t *)"size<-1", 7, text, 2, &length) == BES_OK && length == 39 && text[2] == 7);
    CHECK(bes_ways(&pass, (const uint8_t *)"size<-1", 7, text, sizeof text, &length) == BES_OK && length == 39);
    CHECK(memcmp(text, "\"size\"  .. <-1  about 2 keys, 2 walked\n\7", 40) == 0);
    CHECK(bes_ways(&pass, (const uint8_t *)"name==1", 7, text, 32, &length) == BES_NOT_COVERED && length == 0);
    CHECK(bes_find(&pass, "name==1", nodes, 4, &count) == BES_NOT_COVERED && count == 0);
    count = 7;
    CHECK(bes_find(&pass, "\xff", nodes, 4, &count) == BES_NOT_UTF8 && count == 0);
    CHECK(bes_remove_index(&pass, "size") == BES_OK && bes_remove_index(&pass, "size") == BES_NO_INDEX);
    CHECK(bes_find(&pass, "size<-1", nodes, 4, &count) == BES_OK && count == 2);
    CHECK(bes_close(&pass) == BES_OK);
}

/* Passes an invalid query text to each call that takes one. Each call must return the error, and write only the byte offset. */
static void no_query(bes_pass *pass, const char *text, size_t length, uint32_t answer, uint64_t byte)
{
    const uint8_t *query = (const uint8_t *)text;
    bes_prepared prepared = BES_PREPARED_INIT;
    uint64_t count = 7, said_count = 7, place = 7, nodes[2] = {7, 7};
    uint8_t said[2] = {7, 7};
    LEAVES(pass, bes_query(pass, query, length, nodes, 2, &count), answer);
    LEAVES(pass, bes_explain(pass, query, length, said, 2, &said_count), answer);
    CHECK(count == byte && said_count == byte && nodes[0] == 7 && said[0] == 7);
    said_count = 7;
    LEAVES(pass, bes_ways(pass, query, length, said, 2, &said_count), answer);
    CHECK(said_count == byte && said[0] == 7);
    CHECK(bes_prepare(query, length, &prepared, &place) == answer && place == byte && bes_release(&prepared) == BES_CLOSED);
}

/* Does the same with items. `item` is the index of the invalid one. */
static void no_items(bes_pass *pass, const bes_item *items, size_t items_count, const char *bytes, uint32_t answer, uint64_t item)
{
    const uint8_t *parts = (const uint8_t *)bytes;
    bes_prepared prepared = BES_PREPARED_INIT;
    uint64_t count = 7, place = 7, nodes[2] = {7, 7};
    LEAVES(pass, bes_query_items(pass, items, items_count, parts, 64, nodes, 2, &count), answer);
    CHECK(count == item && nodes[0] == 7);
    CHECK(bes_prepare_items(items, items_count, parts, 64, &prepared, &place) == answer && place == item);
    CHECK(bes_release(&prepared) == BES_CLOSED);
}

/* Opens and pins a store with one node, which has size 0. */
static void open_size(bes_pass *pass)
{
    uint64_t number = 0;
    CHECK(bes_open(64, 1, 100, pass) == BES_OK && bes_make_index(pass, "size", BES_INT32_TYPE) == BES_OK);
    CHECK(bes_new_node(pass, &number) == BES_OK && bes_set_int32(pass, number, "size", 0) == BES_OK);
    CHECK(bes_pin(pass, &number) == BES_OK);
}

static void no_queries(void)
{
    static char text[4098];
    bes_pass pass = BES_PASS_INIT;
    uint64_t count = 7, nodes[2];
    size_t length = 0;
    open_size(&pass);
    no_query(&pass, "size<", 5, BES_SYNTAX, 5);
    no_query(&pass, "", 0, BES_SYNTAX, 0);
    no_query(&pass, "h\xc3\xa9==\"\xc3\xa9\"||!", 12, BES_SYNTAX, 12);
    no_query(&pass, "\xff", 1, BES_NOT_UTF8, 0);
    no_query(&pass, "size<1\0", 7, BES_SYNTAX, 6);
    no_query(&pass, "size==[a", 8, BES_BAD_PATTERN, 6);
    memset(text, ' ', sizeof text);
    memcpy(text, "size<1", 6);
    CHECK(bes_query(&pass, (const uint8_t *)text, 4096, nodes, 2, &count) == BES_OK && count == 1);
    no_query(&pass, text, 4097, BES_TOO_LONG, 0);
    memset(text, '(', 65);
    memcpy(text + 65, "size<1", 6);
    memset(text + 71, ')', 65);
    CHECK(bes_query(&pass, (const uint8_t *)text + 1, 64 + 6 + 64, nodes, 2, &count) == BES_OK && count == 1);
    no_query(&pass, text, 65 + 6 + 65, BES_TOO_DEEP, 0);
    for (int i = 0; i < 257; i++, length += 8)
        memcpy(text + length, "size<1||", 8);
    CHECK(bes_query(&pass, (const uint8_t *)text, 256 * 8 - 2, nodes, 2, &count) == BES_OK && count == 1);
    no_query(&pass, text, 257 * 8 - 2, BES_TOO_MANY, 0);
    CHECK(bes_close(&pass) == BES_OK);
}

/* Invalid items: a value that isn't a valid pattern, 65 nested items, 257 comparisons, and parts that aren't within the bytes. */
static void no_query_of_items(void)
{
    static const bes_item size = {BES_ITEM_ATTRIBUTE, 0, 4, 0}, one = {BES_ITEM_UINT64, 0, 0, 1}, less = {BES_ITEM_LT, 0, 0, 0};
    static bes_item items[4 * 257];
    static const char bytes[64] = "size[a\xff";
    bes_pass pass = BES_PASS_INIT;
    uint64_t count = 7, nodes[2];
    open_size(&pass);
    items[0] = size, items[1] = (bes_item){BES_ITEM_TEXT, 4, 2, 0}, items[2] = (bes_item){BES_ITEM_EQ, 0, 0, 0};
    no_items(&pass, items, 3, bytes, BES_BAD_PATTERN, 2);
    items[1].at = 6, items[1].length = 1;
    no_items(&pass, items, 3, bytes, BES_NOT_UTF8, 1);
    items[1].at = 64;
    no_items(&pass, items, 3, bytes, BES_BAD_PART, 1);
    items[1] = one, items[2].kind = 16;
    no_items(&pass, items, 3, bytes, BES_NO_ITEM, 2);
    items[0].length = 0;
    no_items(&pass, items, 3, bytes, BES_NAME_LENGTH, 0);
    items[0].at = 7, items[0].length = 1;
    no_items(&pass, items, 3, bytes, BES_HAS_NUL, 0);
    no_items(&pass, &size, 1, bytes, BES_BAD_RPN, 1);
    no_items(&pass, &less, 1, bytes, BES_BAD_RPN, 0);
    for (int i = 0; i < 65; i++)
        items[i] = size;
    no_items(&pass, items, 65, bytes, BES_TOO_DEEP, 0);
    for (int i = 0; i < 257; i++) {
        items[4 * i] = size, items[4 * i + 1] = one, items[4 * i + 2] = less;
        items[4 * i + 3] = (bes_item){BES_ITEM_OR, 0, 0, 0};
    }
    /* There is nothing before the first comparison to join it with, so negate it instead. */
    items[3] = (bes_item){BES_ITEM_NOT, 0, 0, 0};
    CHECK(bes_query_items(&pass, items, 4 * 256, (const uint8_t *)bytes, 64, nodes, 2, &count) == BES_OK && count == 1);
    no_items(&pass, items, 4 * 257, bytes, BES_TOO_MANY, 0);
    CHECK(bes_close(&pass) == BES_OK);
}

/* Prepares `size < -1` from items. */
static void prepare_less(bes_prepared *prepared)
{
    const bes_item less[3] = {{BES_ITEM_ATTRIBUTE, 0, 4, 0}, {BES_ITEM_INT64, 0, 0, (uint64_t)-1}, {BES_ITEM_LT, 0, 0, 0}};
    uint64_t place = 7;
    CHECK(bes_prepare_items(less, 2, (const uint8_t *)"size", 4, prepared, &place) == BES_BAD_RPN && place == 2);
    CHECK(bes_prepare_items(less, 3, (const uint8_t *)"size", 3, prepared, &place) == BES_BAD_PART && place == 0);
    place = 7;
    CHECK(bes_prepare_items(less, 3, (const uint8_t *)"size", 4, prepared, &place) == BES_OK && place == 0);
    place = 7;
    CHECK(bes_prepare_items(less, 3, (const uint8_t *)"size", 4, prepared, &place) == BES_OPEN && place == 0);
}

/* Rereads the nodes that a prepared query found, a part at a time. A refresh doesn't change them. */
static void read_found(bes_pass *pass, bes_prepared *query)
{
    bes_prepared uncovered = BES_PREPARED_INIT;
    bes_updates updates = {7, 7};
    uint64_t count = 7, place = 7, nodes[4] = {7, 7, 7, 7};
    CHECK(bes_prepare_text("none==1", &uncovered, &place) == BES_OK);
    CHECK(bes_found(&uncovered, 0, nodes, 4, &count) == BES_OK && count == 0);
    CHECK(bes_query_prepared(pass, &uncovered, nodes, 4, &count) == BES_NOT_COVERED);
    CHECK(bes_found(&uncovered, 0, nodes, 4, &count) == BES_OK && count == 0 && nodes[0] == 7);
    CHECK(bes_query_prepared(pass, query, nodes, 0, &count) == BES_OK && count == 3 && nodes[0] == 7);
    CHECK(bes_found(query, 0, nodes, 2, &count) == BES_OK && count == 3 && nodes[0] == 1 && nodes[1] == 2 && nodes[2] == 7);
    CHECK(bes_found(query, 2, nodes, 4, &count) == BES_OK && count == 3 && nodes[0] == 3 && nodes[1] == 2);
    CHECK(bes_found(query, 3, nodes, 4, &count) == BES_OK && count == 3 && nodes[0] == 3);
    CHECK(bes_found(query, UINT64_MAX, nodes, 4, &count) == BES_OK && count == 3 && nodes[0] == 3);
    CHECK(bes_refresh(pass, query, &updates) == BES_OK && bes_refresh(pass, query, &updates) == BES_OK && updates.created == 0);
    CHECK(bes_found(query, 1, nodes, 1, &count) == BES_OK && count == 3 && nodes[0] == 2);
    CHECK(bes_release(&uncovered) == BES_OK);
}

/* Queries that are parsed once, from text or from items, and the nodes that enter and leave their results. */
static void prepared_queries(void)
{
    bes_pass pass = BES_PASS_INIT;
    bes_prepared small = BES_PREPARED_INIT, other = BES_PREPARED_INIT;
    bes_updates updates = {7, 7};
    uint64_t node = 0, number = 0, count = 7, place = 7, nodes[4] = {7, 7, 7, 7}, came[2] = {7, 7}, went[2] = {7, 7};
    CHECK(bes_open(64, 1, 100, &pass) == BES_OK);
    CHECK(bes_prepare_text("size<0", &small, &place) == BES_OK);
    prepare_less(&other);
    CHECK(bes_query_prepared(&pass, &small, nodes, 4, &count) == BES_NOT_PINNED && count == 0);
    CHECK(bes_refresh(&pass, &small, &updates) == BES_NOT_PINNED && updates.created == 7);
    CHECK(bes_pin(&pass, &number) == BES_OK);
    CHECK(bes_refresh(&pass, &small, &updates) == BES_NOT_COVERED && updates.created == 7);
    CHECK(bes_unpin(&pass) == BES_OK);
    CHECK(bes_make_index(&pass, "size", BES_INT32_TYPE) == BES_OK);
    for (int i = 1; i <= 3; i++)
        CHECK(bes_new_node(&pass, &node) == BES_OK && bes_set_int32(&pass, node, "size", -i) == BES_OK);
    CHECK(bes_pin(&pass, &number) == BES_OK);
    CHECK(bes_query_prepared(&pass, &small, nodes, 2, &count) == BES_OK && count == 3 && nodes[1] == 2 && nodes[2] == 7);
    CHECK(bes_query_prepared(&pass, &other, nodes, 4, &count) == BES_OK && count == 2 && nodes[0] == 2 && nodes[1] == 3);
    CHECK(bes_changes(&small, came, 2, went, 2) == BES_OK && came[0] == 7 && went[0] == 7);
    CHECK(bes_refresh(&pass, &small, &updates) == BES_OK && updates.created == 3 && updates.removed == 0);
    CHECK(bes_changes(&small, came, 2, went, 2) == BES_OK && came[0] == 1 && came[1] == 2 && went[0] == 7);
    CHECK(bes_changes(&small, nodes, 4, went, 0) == BES_OK && nodes[2] == 3);
    CHECK(bes_refresh(&pass, &small, &updates) == BES_OK && updates.created == 0 && updates.removed == 0);
    read_found(&pass, &small);
    CHECK(bes_unpin(&pass) == BES_OK);
    CHECK(bes_query_prepared(&pass, &small, nodes, 4, &count) == BES_NOT_PINNED && count == 0);
    CHECK(bes_found(&small, 0, nodes, 4, &count) == BES_OK && count == 0);
    CHECK(bes_remove_node(&pass, 2) == BES_OK && bes_set_int32(&pass, 3, "size", 3) == BES_OK);
    CHECK(bes_new_node(&pass, &node) == BES_OK && bes_set_int32(&pass, node, "size", -4) == BES_OK);
    CHECK(bes_pin(&pass, &number) == BES_OK);
    CHECK(bes_refresh(&pass, &small, &updates) == BES_OK && updates.created == 1 && updates.removed == 2);
    CHECK(bes_changes(&small, came, 2, went, 2) == BES_OK && came[0] == 4 && came[1] == 2 && went[0] == 2 && went[1] == 3);
    CHECK(bes_close(&pass) == BES_OK);
    CHECK(bes_changes(&small, came, 2, went, 2) == BES_OK && came[0] == 4);
    CHECK(bes_release(&small) == BES_OK && bes_release(&other) == BES_OK);
}

int main(void)
{
    closed_prepared();
    queries();
    no_queries();
    no_query_of_items();
    prepared_queries();
    return 0;
}
