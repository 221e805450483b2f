/* What the tests of sizes share: the sizes, the memory that calls read and write, and checks of what they have written. */
#ifndef SIZES_H
#define SIZES_H

#include "tests.h"

enum { MOST_NODES = 26000, MOST_ENTRIES = 1000000, MOST_BYTES = 1 << 26, LONGEST_NAME = 63, LONGEST_VALUE = 255, LONGEST_BATCH = 64 };

static uint64_t place, sizes[1 << 16], sizes_count, nodes[MOST_NODES + 1], others[MOST_NODES + 1];
static char text[4097], name[LONGEST_NAME + 1], expected[MOST_BYTES];
static uint8_t told[MOST_BYTES];
static bes_batch batch;
static bes_operation listed[LONGEST_BATCH];

/* The size being tested, which a failed check prints last. */
static uint64_t tried;

#define AT_EACH_SIZE for (uint64_t at_ = 0, size; at_ < sizes_count && (tried = size = sizes[at_], true); at_++)

static void print_size(void)
{
    if (tried > 0)
        fprintf(stderr, "at size %d\n", (int)tried);
}

static uint64_t write_list(bes_pass *pass)
{
    static uint64_t made[64];
    uint64_t number = 0;
    OK(bes_batch_apply(pass, &batch, 1, made, 64, &number));
    bes_batch_clear(&batch);
    return number;
}

static bool are_from_one(const uint64_t *list, uint64_t count)
{
    for (uint64_t i = 0; i < count; i++)
        if (list[i] != i + 1)
            return false;
    return true;
}

/* Checks a query that `count` nodes match: as text, as items, prepared, and refreshed. */
static void found(bes_pass *pass, const char *query, const bes_item *items, size_t items_count, uint64_t count)
{
    bes_prepared prepared = BES_PREPARED_INIT, other = BES_PREPARED_INIT;
    bes_updates updates = {7, 7};
    uint64_t told_count = 7, number = 0;
    OK(bes_pin(pass, &number));
    OK(bes_find(pass, query, nodes, MOST_NODES, &told_count));
    CHECK(told_count == count && are_from_one(nodes, count));
    OK(bes_prepare_text(query, &prepared, &place));
    OK(bes_query_prepared(pass, &prepared, nodes, MOST_NODES, &told_count));
    CHECK(told_count == count && are_from_one(nodes, count));
    nodes[0] = 0;
    OK(bes_found(&prepared, 0, nodes, MOST_NODES, &told_count));
    CHECK(told_count == count && are_from_one(nodes, count));
    for (uint64_t created = count, i = 0; i < 2; created = 0, i++) {
        OK(bes_refresh(pass, &prepared, &updates));
        CHECK(updates.created == created && updates.removed == 0);
        OK(bes_changes(&prepared, nodes, MOST_NODES, others, 0));
        CHECK(are_from_one(nodes, created));
    }
    if (items_count > 0) {
        OK(bes_query_items(pass, items, items_count, (const uint8_t *)"k", 1, nodes, MOST_NODES, &told_count));
        CHECK(told_count == count && are_from_one(nodes, count));
        OK(bes_prepare_items(items, items_count, (const uint8_t *)"k", 1, &other, &place));
        OK(bes_query_prepared(pass, &other, nodes, MOST_NODES, &told_count));
        CHECK(told_count == count && are_from_one(nodes, count));
        OK(bes_release(&other));
    }
    OK(bes_release(&prepared));
    OK(bes_unpin(pass));
}

/* Appends a comparison to the query in `text`, joining it with ||, and to `expected`. */
static void add_comparison(const char *attribute, uint64_t value)
{
    size_t at = strlen(text), length = strlen(expected);
    snprintf(text + at, sizeof text - at, "%s%s==%d", at > 0 ? "||" : "", attribute, (int)value);
    snprintf(expected + length, sizeof expected - length, "%s\"%s\"==\"%d\"", at > 0 ? " || " : "", attribute, (int)value);
}

/* Checks that bes_explain returns the expected canonical text and this score for the query in `text`. */
static void explained(bes_pass *pass, uint64_t score)
{
    bes_prepared prepared = BES_PREPARED_INIT;
    uint64_t count = 0, number = 0;
    size_t length = strlen(expected);
    memset(told, 7, length + 1);
    OK(bes_prepare_text(text, &prepared, &place) || bes_prepared_text(&prepared, told, sizeof told, &count) || bes_release(&prepared));
    CHECK(count == length && memcmp(told, expected, length) == 0 && told[length] == 7);
    length += (size_t)snprintf(expected + length, sizeof expected - length, " score %d", (int)score);
    OK(bes_pin(pass, &number));
    memset(told, 7, length + 1);
    OK(bes_explain(pass, (const uint8_t *)text, strlen(text), told, sizeof told, &count));
    CHECK(count == length && memcmp(told, expected, length) == 0 && told[length] == 7);
    OK(bes_unpin(pass));
}

/* Checks that bes_ways returns this many lines for the query in `text`. */
static void walked(bes_pass *pass, uint64_t lines)
{
    uint64_t count = 0, number = 0;
    OK(bes_pin(pass, &number));
    OK(bes_ways(pass, (const uint8_t *)text, strlen(text), told, sizeof told, &count));
    CHECK(count <= sizeof told);
    for (uint64_t i = 0; i < count; i++)
        lines -= told[i] == '\n';
    CHECK(lines == 0);
    OK(bes_unpin(pass));
}

/* Items of which the tests make queries. */
static const bes_item K = {BES_ITEM_ATTRIBUTE, 0, 1, 0}, EQ = {BES_ITEM_EQ, 0, 0, 0}, OR = {BES_ITEM_OR, 0, 0, 0};

/* Returns a name of three bytes, which is valid until the next call. */
static const char *name_of(char letter, uint64_t number)
{
    snprintf(name, sizeof name, "%c%02d", letter, (int)number);
    return name;
}

/* Checks that a call has written `size` names with this letter to `listed` and `told`. */
static void are_listed(const bes_counts *counts, uint32_t kind, char letter, uint64_t size)
{
    CHECK(counts->operations == size && counts->bytes == 3 * size);
    for (uint64_t i = 0; i < size; i++) {
        CHECK(listed[i].kind == kind && listed[i].name_length == 3);
        CHECK(memcmp(told + listed[i].name_at, name_of(letter, i), 3) == 0);
    }
}

/* Checks the only comparison of the query in `text`: its form, and how many bytes its value has. */
static void compares_with(uint32_t form, uint64_t length)
{
    bes_compared found;
    bes_counts counts = {7, 7};
    OK(bes_query_comparisons((const uint8_t *)text, strlen(text), &counts, &found, 1, told, sizeof told, &place));
    CHECK(counts.operations == 1 && place == 0 && found.form == form && found.kind == BES_ITEM_EQ);
    CHECK(found.plain_end == found.plain_value_at + length && counts.bytes == found.plain_end);
}

#endif
