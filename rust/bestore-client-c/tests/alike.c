/* Makes the same calls on a store of this process and on a server's, by libbestore and libbestore-client in one program. Both return the
 * same errors, with the same numbers, and the same values. */
#include "tests.h"
#include "bestore.h"

static server own;
static bes_pass pass = BES_PASS_INIT;
static bec_client *client;

/* Applies one operation to both. */
static void apply(bes_operation operation, const char *bytes, size_t length)
{
    uint64_t made[2] = {0, 0}, number[2] = {0, 0};
    const uint32_t error = bes_apply(&pass, &operation, 1, (const uint8_t *)bytes, length, &made[0], 1, &number[0]);
    GIVES(bec_apply(client, &operation, 1, (const uint8_t *)bytes, length, &made[1], 1, &number[1]), error);
    CHECK(made[0] == made[1] && number[0] == number[1]);
    CHECK(strcmp(bec_strerror(error), bes_strerror(error)) == 0 && strcmp(bec_error_name(error), bes_error_name(error)) == 0);
    CHECK(bec_class(error) == bes_class(error));
}

/* Applies each operation with names and values of several lengths, some of which are invalid. */
static void operations(void)
{
    static const char bytes[400] = "size\0name\xc3\xa9\xff";
    static const uint32_t codes[] = {BES_STRING_TYPE, BES_INT32_TYPE, BES_INT64_TYPE, BES_MIME_STRING_TYPE, BES_RAW_TYPE, BES_UINT32_TYPE,
                                     BES_UINT64_TYPE, 0};
    static const uint32_t lengths[] = {0, 2, 4, 5, 63, 64, 255, 256, 395, UINT32_MAX};
    static const uint64_t numbers[] = {0, INT32_MAX, 1ull << 31, UINT32_MAX, 1ull << 32, UINT64_MAX, (uint64_t)INT64_MIN};
    unsigned seed = 7;
    for (int i = 0; i < 4000; i++) {
        const bes_operation operation = {
            (uint32_t)rand_r(&seed) % 7,   codes[(unsigned)rand_r(&seed) % 8],    (unsigned)rand_r(&seed) % 40,
            numbers[(unsigned)rand_r(&seed) % 7], (unsigned)rand_r(&seed) % 14, lengths[(unsigned)rand_r(&seed) % 10],
            (unsigned)rand_r(&seed) % 14,  lengths[(unsigned)rand_r(&seed) % 10],
        };
        apply(operation, bytes, sizeof bytes);
    }
}

/* Runs a query on both. */
static void find(const char *query)
{
    uint64_t nodes[2][500], count[2] = {0, 0}, number = 0;
    size_t place = 0;
    OK(bes_pin(&pass, &number));
    const uint32_t error = bes_find(&pass, query, nodes[0], 500, &count[0]);
    if (error == BES_NOT_COVERED) {
        OK(bes_uncovered(&pass, query, strlen(query), &place));
        count[0] = place;
    }
    OK(bes_unpin(&pass));
    GIVES(bec_find(client, query, nodes[1], 500, &count[1]), error);
    CHECK(count[0] == count[1]);
    CHECK(error != BES_OK || memcmp(nodes[0], nodes[1], 8 * count[0]) == 0);
}

static void queries(void)
{
    static const char *const texts[] = {
        "", "size", "size>", "size>=0", "size==[", "name==*", "name==a && size<5 || size>7", "(size==1", "!name==a",
        "missing==1 && size==1", "missing==1", "size==1 || missing==1", "na\\me==\"a\"", "name==[z-a]", "name==a)",
        "(((((((((((((size==5)))))))))))))", "gr\xc3\xb6\xc3\x9f==1",
    };
    char deep[200], many[8 * 300];
    uint64_t node = 0;
    apply((bes_operation){BES_MAKE_INDEX, BES_INT64_TYPE, 0, 0, 0, 4, 0, 0}, "size", 4);
    apply((bes_operation){BES_MAKE_INDEX, BES_STRING_TYPE, 0, 0, 0, 4, 0, 0}, "name", 4);
    for (uint64_t number = 0; number < 20; number++) {
        OK(bes_new_node(&pass, &node));
        OK(bec_new_node(client, NULL));
        apply((bes_operation){BES_SET, BES_INT64_TYPE, node, number, 0, 4, 0, 0}, "size", 4);
        apply((bes_operation){BES_SET, BES_STRING_TYPE, node, 0, 0, 4, 4, (uint32_t)(number % 3)}, "nameaa", 6);
    }
    for (size_t i = 0; i < sizeof texts / sizeof *texts; i++)
        find(texts[i]);
    memset(deep, '!', sizeof deep);
    strcpy(deep + 100, "size==5");
    find(deep);
    for (int i = 0; i < 300; i++)
        memcpy(many + 8 * i, i ? "||size>5" : "  size>5", 8);
    many[8 * 300 - 1] = 0;
    find(many);
}

/* Reads each attribute of each node on both. */
static void reads(void)
{
    static const char *const names[] = {"size", "name", "si", "ze", "e", "na"};
    uint64_t number = 0, next = 0, found = 0;
    OK(bes_pin(&pass, &number));
    OK(bes_next(&pass, &next));
    for (uint64_t node = 0; node <= next; node++)
        for (size_t i = 0; i < sizeof names / sizeof *names; i++) {
            bes_attribute read[2] = {{0, 0, 0}, {0, 0, 0}};
            uint8_t bytes[2][255] = {{0}, {0}};
            const uint32_t error = bes_read(&pass, node, names[i], &read[0], bytes[0], 255);
            GIVES(bec_read(client, node, names[i], &read[1], bytes[1], 255), error);
            CHECK(memcmp(&read[0].length, &read[1].length, 16) == 0 && read[0].code == read[1].code);
            CHECK(memcmp(bytes[0], bytes[1], 255) == 0);
            found += error == BES_OK;
        }
    OK(bes_unpin(&pass));
    CHECK(found >= 40);
}

/* Runs a predicate on both. */
static void find_items(const bes_item *items, size_t count, const char *bytes, size_t length)
{
    uint64_t nodes[2][500], numbers[2] = {0, 0}, number = 0;
    OK(bes_pin(&pass, &number));
    const uint32_t error = bes_query_items(&pass, items, count, (const uint8_t *)bytes, length, nodes[0], 500, &numbers[0]);
    OK(bes_unpin(&pass));
    GIVES(bec_query_items(client, items, count, (const uint8_t *)bytes, length, nodes[1], 500, &numbers[1]), error);
    /* The client also knows which comparison has no index. */
    CHECK(numbers[0] == numbers[1] || error == BES_NOT_COVERED);
    CHECK(error != BES_OK || memcmp(nodes[0], nodes[1], 8 * numbers[0]) == 0);
}

/* Builds predicates of all items at random, most of which are invalid, and then valid ones with patterns of all kinds of characters. */
static void predicates(void)
{
    static const char bytes[300] = "sizenamea*[b-d]\\?\"'\xc3\xa9]^-\\]z\0\xff";
    static const char characters[] = "ab*?[]^-\\\"'\\[ab]";
    char pattern[16] = "name";
    bes_item items[12];
    unsigned seed = (unsigned)getpid();
    for (int i = 0; i < 4000; i++) {
        const size_t count = (unsigned)rand_r(&seed) % 6;
        for (size_t j = 0; j < count; j++)
            items[j] = (bes_item){(unsigned)rand_r(&seed) % (i % 2 ? 18 : 14), (unsigned)rand_r(&seed) % 40, (unsigned)rand_r(&seed) % 5,
                                  (uint64_t)rand_r(&seed) % 9};
        if (i % 3 && count > 2) {
            items[0] = (bes_item){BES_ITEM_ATTRIBUTE, i % 2 ? 0 : 4, 4, 0};
            items[1].kind = BES_ITEM_TEXT;
            items[2].kind = BES_ITEM_EQ + (unsigned)rand_r(&seed) % 9;
        }
        find_items(items, count, bytes, sizeof bytes);
    }
    for (int i = 0; i < 4000; i++) {
        const unsigned length = (unsigned)rand_r(&seed) % 8;
        for (unsigned j = 0; j < length; j++)
            pattern[4 + j] = characters[(unsigned)rand_r(&seed) % (sizeof characters - 1)];
        items[0] = (bes_item){BES_ITEM_ATTRIBUTE, 0, 4, 0};
        items[1] = (bes_item){BES_ITEM_TEXT, 4, length, 0};
        items[2] = (bes_item){BES_ITEM_EQ + (unsigned)rand_r(&seed) % 9, 0, 0, 0};
        items[3] = (bes_item){BES_ITEM_NOT, 0, 0, 0};
        find_items(items, 3 + (size_t)i % 2, pattern, sizeof pattern);
    }
    find_items(items, 0, bytes, sizeof bytes);
}

/* Writes the text of random trees of comparisons, which is the library's canonical text. */
static void canonical_texts(void)
{
    bes_item items[64 * 4];
    unsigned seed = (unsigned)getpid();
    for (int round = 0; round < 500; round++) {
        bes_prepared prepared = BES_PREPARED_INIT;
        size_t count = 0, depth = 0;
        uint8_t texts[2][8192];
        uint64_t lengths[2] = {0, 0}, place = 0;
        for (int i = 0; i < 40; i++) {
            const int kind = rand_r(&seed) % 4;
            if (kind == 3 && depth > 0) {
                items[count++] = (bes_item){BES_ITEM_NOT, 0, 0, 0};
            } else if (kind == 2 && depth > 1) {
                items[count++] = (bes_item){rand_r(&seed) % 2 ? BES_ITEM_AND : BES_ITEM_OR, 0, 0, 0};
                depth--;
            } else {
                items[count++] = (bes_item){BES_ITEM_ATTRIBUTE, 0, 4, 0};
                items[count++] = (bes_item){BES_ITEM_INT64, 0, 0, (uint64_t)(int64_t)(rand_r(&seed) % 9 - 4)};
                items[count++] = (bes_item){BES_ITEM_EQ + (unsigned)rand_r(&seed) % 9, 0, 0, 0};
                depth++;
            }
        }
        for (; depth > 1; depth--)
            items[count++] = (bes_item){rand_r(&seed) % 2 ? BES_ITEM_AND : BES_ITEM_OR, 0, 0, 0};
        OK(bes_prepare_items(items, count, (const uint8_t *)"size", 4, &prepared, &place));
        OK(bes_prepared_text(&prepared, texts[0], sizeof texts[0], &lengths[0]));
        OK(bes_release(&prepared));
        OK(bec_items_text(items, count, (const uint8_t *)"size", 4, texts[1], sizeof texts[1], &lengths[1]));
        CHECK(lengths[0] == lengths[1] && memcmp(texts[0], texts[1], lengths[0]) == 0);
    }
}

/* Lists each node's attributes, all indices, and all nodes. */
static void lists(void)
{
    static bes_operation operations[2][64];
    static uint8_t bytes[2][64 * 318];
    static uint64_t nodes[2][1000];
    bes_counts counts[2];
    uint64_t number = 0, next = 0, count[2] = {0, 0};
    OK(bes_pin(&pass, &number));
    OK(bes_next(&pass, &next));
    OK(bec_next(client, &count[0]));
    CHECK(count[0] == next);
    memset(operations, 0, sizeof operations);
    for (uint64_t node = 0; node <= next; node++) {
        const uint32_t error = bes_attributes(&pass, node, &counts[0], operations[0], 64, bytes[0], sizeof bytes[0]);
        GIVES(bec_attributes(client, node, &counts[1], operations[1], 64, bytes[1], sizeof bytes[1]), error);
        CHECK(error != BES_OK || memcmp(&counts[0], &counts[1], sizeof counts[0]) == 0);
        CHECK(error != BES_OK || memcmp(bytes[0], bytes[1], counts[0].bytes) == 0);
        for (uint64_t i = 0; error == BES_OK && i < counts[0].operations; i++) {
            const bes_operation *one = &operations[0][i], *another = &operations[1][i];
            CHECK(one->kind == another->kind && one->code == another->code && one->node == another->node && one->number == another->number);
            CHECK(one->name_at == another->name_at && one->value_at == another->value_at && one->value_length == another->value_length);
        }
    }
    OK(bes_indices(&pass, &counts[0], operations[0], 64, bytes[0], sizeof bytes[0]));
    OK(bec_indices(client, &counts[1], operations[1], 64, bytes[1], sizeof bytes[1]));
    CHECK(memcmp(&counts[0], &counts[1], sizeof counts[0]) == 0 && memcmp(bytes[0], bytes[1], counts[0].bytes) == 0);
    OK(bes_nodes(&pass, 3, nodes[0], 1000, &count[0]));
    OK(bec_nodes(client, 3, nodes[1], 1000, &count[1]));
    CHECK(count[0] == count[1] && memcmp(nodes[0], nodes[1], 8 * count[0]) == 0);
    OK(bes_unpin(&pass));
}

/* Reads columns and pages of both. */
static void tables(void)
{
    static bes_cell cells[2][2 * 700];
    static uint8_t bytes[2][2 * 700 * 255];
    static uint64_t nodes[2][700];
    bes_name names[2];
    bes_prepared query = BES_PREPARED_INIT;
    bes_cursor cursor;
    bec_cursor other;
    uint64_t number = 0, count[2] = {0, 0};
    uint32_t more[2] = {0, 0};
    OK(bes_check_name_text("size", &names[0]));
    OK(bec_check_name_text("name", &names[1]));
    OK(bes_prepare_text("size>=0", &query, &number));
    OK(bes_pin(&pass, &number));
    for (uint64_t i = 0; i < 700; i++)
        nodes[0][i] = 700 - i;
    OK(bes_columns(&pass, nodes[0], 700, names, 2, cells[0], 1400, bytes[0], sizeof bytes[0], &count[0]));
    OK(bec_columns(client, nodes[0], 700, names, 2, cells[1], 1400, bytes[1], sizeof bytes[1], &count[1]));
    CHECK(count[0] == count[1] && memcmp(bytes[0], bytes[1], count[0]) == 0);
    for (size_t i = 0; i < 1400; i++) {
        cells[0][i].error = cells[0][i].error == BES_NO_NODE ? BES_NO_ATTRIBUTE : cells[0][i].error;
        CHECK(cells[0][i].error == cells[1][i].error && memcmp(&cells[0][i].code, &cells[1][i].code, 4) == 0);
        CHECK(memcmp(&cells[0][i].number, &cells[1][i].number, 24) == 0);
    }
    for (uint32_t descending = 0; descending < 2; descending++) {
        memset(&cursor, 0, sizeof cursor);
        memset(&other, 0, sizeof other);
        do {
            OK(bes_ordered(&pass, &query, &names[1], descending, &cursor, nodes[0], 3, &count[0], &more[0]));
            OK(bec_ordered(client, (const uint8_t *)"size>=0", 7, &names[1], descending, &other, nodes[1], 3, &count[1], &more[1]));
            CHECK(count[0] == count[1] && more[0] == more[1] && memcmp(nodes[0], nodes[1], 8 * count[0]) == 0);
        } while (more[0]);
    }
    OK(bes_unpin(&pass));
    OK(bes_release(&query));
}

/* Turns random bytes into text by both. */
static void texts(void)
{
    static const char parts[] = "a\xc3\xa9\xe2\x82\xac\xf0\x9f\x98\x80\xff\0\xc0\x80\xed\xa0\x80\xf4\x90\x80\x80";
    char text[20], out[2][20];
    unsigned seed = (unsigned)getpid();
    for (int i = 0; i < 100000; i++) {
        const size_t length = (unsigned)rand_r(&seed) % 20, room = (unsigned)rand_r(&seed) % 20;
        for (size_t j = 0; j < length; j++)
            text[j] = parts[(unsigned)rand_r(&seed) % sizeof parts];
        memset(out, 0, sizeof out);
        CHECK(bes_to_utf8(text, length, out[0], room) == bec_to_utf8(text, length, out[1], room));
        CHECK(memcmp(out[0], out[1], sizeof out[0]) == 0);
    }
}

int main(void)
{
    start(&own, NULL);
    client = connected(&own);
    OK(bes_open(16384, 1, 1000000, &pass));
    operations();
    queries();
    reads();
    predicates();
    canonical_texts();
    lists();
    tables();
    texts();
    OK(bec_close(client));
    OK(bes_close(&pass));
    return 0;
}
