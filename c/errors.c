/* Tests which error a call returns if two apply: the one that the header lists first. Each line gives a call two reasons to be
 * refused; test.c and queries.c test each reason separately. */
#include "tests.h"

#define RETURNS(error, call) CHECK((call) == (error))

enum { LONG_TEXT = 4097 };

static bes_pass closed, pass, single;
static bes_prepared unprepared, prepared;
static bes_place not_begun, begun;
static bes_witness unopened, witness;
static bes_draft unbegun, draft;
static uint64_t number, count, nodes[4];
static bes_attribute attribute;
static bes_counts counts;
static bes_updates updates;
static bes_operation listed[64];
static uint8_t bytes[64 * 318];
static const bes_item no_item = {99, 0, 0, 0};

/* A text of this length that isn't valid UTF-8, and one that contains a zero byte. */
static uint8_t no_text[LONG_TEXT], zero_text[LONG_TEXT];

#define NAME(text) (const uint8_t *)(text), strlen(text)

/* Returns an operation on a node. Its name and its value both begin at the first byte. */
static bes_operation operation_of(uint32_t kind, uint32_t code, uint64_t node, uint32_t name_length, uint32_t value_length)
{
    bes_operation one = {0, 0, 0, 0, 0, 0, 0, 0};
    one.kind = kind;
    one.code = code;
    one.node = node;
    one.name_length = name_length;
    one.value_length = value_length;
    return one;
}

/* Writes one operation whose name and value come from `parts`, which has 4097 bytes. */
static uint32_t write_one(uint32_t kind, uint32_t code, const uint8_t *parts, uint32_t name_length, uint32_t value_length,
                          uint64_t integer)
{
    bes_operation one = operation_of(kind, code, 9, name_length, value_length);
    one.number = integer;
    return bes_apply(&pass, &one, 1, parts, LONG_TEXT, nodes, 0, &number);
}

/* Errors for handles. */
static void of_handles(void)
{
    RETURNS(BES_OPEN, bes_open(7, 1, 1, &pass));
    RETURNS(BES_CLOSED, bes_another(&closed, &pass));
    RETURNS(BES_OPEN, bes_another(&pass, &single));
    RETURNS(BES_CLOSED, bes_move(&closed, &pass));
    RETURNS(BES_CLOSED, bes_move_prepared(&unprepared, &prepared));
    RETURNS(BES_CLOSED, bes_move_place(&not_begun, &begun));
    RETURNS(BES_CLOSED, bes_move_witness(&unopened, &witness));
    RETURNS(BES_CLOSED, bes_move_draft(&unbegun, &draft));
    RETURNS(BES_CLOSED, bes_begin_change(&closed, &draft, &number, &count));
    RETURNS(BES_CLOSED, bes_witness_of(&closed, &witness));
    RETURNS(BES_CLOSED, bes_join(&closed, &witness, &number));
    RETURNS(BES_CLOSED, bes_join(&pass, &unopened, &number));
    RETURNS(BES_OPEN, bes_prepare(no_text, 1, &prepared, &count));
    RETURNS(BES_OPEN, bes_prepare(NAME("=="), &prepared, &count));
    RETURNS(BES_OPEN, bes_prepare_items(&no_item, 0, bytes, 0, &prepared, &count));
}

/* Errors for writes: the number of operations is checked first, then the parts of each operation. The store's errors come
 * last. */
static void of_writes(void)
{
    static bes_operation many[65];
    bes_operation two[2] = {{0, 0, 0, 0, 0, 0, 0, 0}, {0, 0, 0, 0, 0, 0, 0, 0}};
    many[0].kind = 99;
    RETURNS(BES_CLOSED, bes_apply(&closed, many, 65, bytes, 0, nodes, 0, &number));
    RETURNS(BES_BAD_COUNT, bes_apply(&pass, many, 65, bytes, 0, nodes, 0, &number));
    RETURNS(BES_BAD_PART, write_one(99, 0, no_text, LONG_TEXT + 1, 0, 0));
    RETURNS(BES_NO_OPERATION, write_one(99, 0, no_text, 64, 0, 0));
    RETURNS(BES_NOT_UTF8, write_one(BES_SET, 99, no_text, 64, 0, 0));
    RETURNS(BES_NAME_LENGTH, write_one(BES_SET, 99, zero_text, 64, 0, 0));
    RETURNS(BES_HAS_NUL, write_one(BES_SET, 99, zero_text, 2, 0, 0));
    RETURNS(BES_NO_KIND, write_one(BES_SET, 99, (const uint8_t *)memset(bytes, 'a', LONG_TEXT), 2, 256, 0));
    no_text[0] = zero_text[0] = 'a';
    RETURNS(BES_NOT_UTF8, write_one(BES_SET, BES_STRING_TYPE, no_text, 1, 256, 0));
    RETURNS(BES_NOT_UTF8, write_one(BES_SET, BES_MIME_STRING_TYPE, no_text, 1, 256, 0));
    RETURNS(BES_DATA_LENGTH, write_one(BES_SET, BES_STRING_TYPE, zero_text, 1, 256, 0));
    RETURNS(BES_DATA_LENGTH, write_one(BES_SET, BES_MIME_STRING_TYPE, zero_text, 1, 256, 0));
    RETURNS(BES_HAS_NUL, write_one(BES_SET, BES_STRING_TYPE, zero_text, 1, 2, 0));
    RETURNS(BES_NO_VALUE, write_one(BES_SET, BES_INT32_TYPE, bytes, 1, 0, 1ull << 40));
    no_text[0] = 0xff;
    zero_text[0] = 0;
    /* If two operations are invalid, the first one's error is returned. The error for an invalid operation comes before the
     * store's. */
    two[0].kind = BES_REMOVE_NODE;
    two[0].node = 9;
    two[1].kind = 99;
    RETURNS(BES_NO_OPERATION, bes_apply(&pass, two, 2, bytes, 1, nodes, 0, &number));
    CHECK(number == 1);
    two[1].kind = BES_UNSET;
    two[1].node = 1;
    two[1].name_length = 1;
    RETURNS(BES_NO_NODE, bes_apply(&pass, two, 2, bytes, 1, nodes, 0, &number));
    /* BES_CONFLICT comes after errors for invalid operations, and before the store's errors. */
    RETURNS(BES_CONFLICT, bes_apply_if(&pass, 7, two, 2, bytes, 1, nodes, 0, &number));
    two[1].kind = 99;
    RETURNS(BES_NO_OPERATION, bes_apply_if(&pass, 7, two, 2, bytes, 1, nodes, 0, &number));
    RETURNS(BES_BAD_COUNT, bes_apply_if(&pass, 7, two, 0, bytes, 1, nodes, 0, &number));
    RETURNS(BES_CLOSED, bes_apply_if(&closed, 7, two, 0, bytes, 1, nodes, 0, &number));
    /* The store's limits come last: first that of the journal, then that of the pages. */
    RETURNS(BES_NO_NODE, bes_remove_node(&single, 9));
    RETURNS(BES_COMMITS_SPENT, bes_new_node(&single, &number));
}

/* Adds an operation to a change. The operation's parts are checked first, then its kind, then the number of operations. */
static uint32_t add_one(uint32_t kind, uint32_t code, const uint8_t *parts, uint32_t name_length, uint32_t value_length)
{
    bes_operation one = operation_of(kind, code, 1, name_length, value_length);
    return bes_change_add(&draft, &one, parts, LONG_TEXT, &number);
}

static void of_changes(void)
{
    const uint8_t *name = memset(bytes, 'a', LONG_TEXT);
    RETURNS(BES_CLOSED, bes_change_add(&unbegun, listed, bytes, 0, &number));
    RETURNS(BES_OK, add_one(BES_MAKE_INDEX, BES_INT64_TYPE, name, 1, 0));
    for (int i = 1; i < 64; i++)
        RETURNS(BES_OK, add_one(BES_NEW_NODE, 0, name, 0, 0));
    RETURNS(BES_BAD_PART, add_one(99, 0, name, LONG_TEXT + 1, 0));
    RETURNS(BES_NO_OPERATION, add_one(99, 0, no_text, 64, 0));
    RETURNS(BES_NOT_UTF8, add_one(BES_SET, 99, no_text, 64, 0));
    RETURNS(BES_NO_KIND, add_one(BES_SET, 99, name, 1, 256));
    RETURNS(BES_DATA_LENGTH, add_one(BES_SET, BES_STRING_TYPE, name, 1, 256));
    RETURNS(BES_WRONG_KIND, add_one(BES_SET, BES_STRING_TYPE, name, 1, 1));
    RETURNS(BES_BAD_COUNT, add_one(BES_SET, BES_INT64_TYPE, name, 1, 1));
    RETURNS(BES_CLOSED, bes_change_get(&closed, &draft, 1, no_text, 64, &attribute, bytes, 0));
    RETURNS(BES_CLOSED, bes_change_get(&pass, &unbegun, 1, no_text, 64, &attribute, bytes, 0));
    CHECK(bes_unpin(&pass) == BES_OK);
    RETURNS(BES_NOT_UTF8, bes_change_get(&pass, &draft, 1, no_text, 64, &attribute, bytes, 0));
    RETURNS(BES_NAME_LENGTH, bes_change_get(&pass, &draft, 1, zero_text, 64, &attribute, bytes, 0));
    RETURNS(BES_NOT_PINNED, bes_change_get(&pass, &draft, 9, NAME("a"), &attribute, bytes, 0));
    RETURNS(BES_OK, bes_new_node(&pass, &number));
    RETURNS(BES_NOT_PINNED, bes_end_change(&pass, &draft, &number));
    /* BES_CONFLICT comes before the store's errors. */
    RETURNS(BES_OK, bes_begin_change(&pass, &draft, &number, &count));
    RETURNS(BES_OK, add_one(BES_UNSET, 0, name, 1, 0));
    RETURNS(BES_OK, bes_new_node(&pass, &number));
    RETURNS(BES_CONFLICT, bes_end_change(&pass, &draft, &number));
}

/* Makes a change with one operation, in one call. */
static uint32_t change_one(bes_pass *by, uint32_t kind, uint32_t code)
{
    bes_operation one = {0, 0, 0, 0, 0, 0, 0, 0};
    one.kind = kind;
    one.code = code;
    one.node = 99;
    one.name_length = one.value_length = 1;
    return bes_apply_change(by, &one, 1, bytes, 2, &number);
}

/* Errors for changes in one call: the parts are checked first, then the pin, the kind, and the writes of others. The store's
 * errors come last. */
static void of_changes_at_once(void)
{
    bytes[0] = 'a';
    RETURNS(BES_OK, bes_make_index(&pass, "a", BES_INT64_TYPE));
    RETURNS(BES_CLOSED, change_one(&closed, 99, 0));
    RETURNS(BES_NO_OPERATION, change_one(&pass, 99, 0));
    RETURNS(BES_NOT_PINNED, change_one(&pass, BES_SET, BES_STRING_TYPE));
    RETURNS(BES_OK, bes_pin(&pass, &number));
    RETURNS(BES_OK, bes_new_node(&pass, &number));
    RETURNS(BES_WRONG_KIND, change_one(&pass, BES_SET, BES_STRING_TYPE));
    RETURNS(BES_CONFLICT, change_one(&pass, BES_SET, BES_INT64_TYPE));
    RETURNS(BES_OK, bes_unpin(&pass));
}

/* Errors for queries: the text is checked first, then the pin, then the indices. */
static void of_queries(void)
{
    const bes_item alone = {BES_ITEM_ATTRIBUTE, 0, 1, 0};
    const bes_item no_part[] = {{BES_ITEM_ATTRIBUTE, 9, 9, 0}, no_item}, lone_and_bad[] = {alone, alone, no_item};
    const bes_item uncovered[] = {alone, {BES_ITEM_INT64, 0, 0, 1}, {BES_ITEM_EQ, 0, 0, 0}};
    RETURNS(BES_CLOSED, bes_query(&closed, no_text, 1, nodes, 4, &count));
    RETURNS(BES_NOT_UTF8, bes_query(&pass, no_text, LONG_TEXT, nodes, 4, &count));
    RETURNS(BES_TOO_LONG, bes_query(&pass, zero_text, LONG_TEXT, nodes, 4, &count));
    RETURNS(BES_SYNTAX, bes_query(&pass, NAME("a=="), nodes, 4, &count));
    RETURNS(BES_BAD_PATTERN, bes_query(&pass, NAME("a==\"[\" && &&"), nodes, 4, &count));
    RETURNS(BES_NOT_PINNED, bes_query(&pass, NAME("a==1"), nodes, 4, &count));
    RETURNS(BES_CLOSED, bes_explain(&closed, no_text, 1, bytes, 4, &count));
    RETURNS(BES_NOT_UTF8, bes_explain(&pass, no_text, LONG_TEXT, bytes, 4, &count));
    RETURNS(BES_TOO_LONG, bes_explain(&pass, zero_text, LONG_TEXT, bytes, 4, &count));
    RETURNS(BES_SYNTAX, bes_explain(&pass, NAME("a=="), bytes, 4, &count));
    RETURNS(BES_NOT_PINNED, bes_explain(&pass, NAME("a==1"), bytes, 4, &count));
    RETURNS(BES_CLOSED, bes_ways(&closed, no_text, 1, bytes, 4, &count));
    RETURNS(BES_NOT_UTF8, bes_ways(&pass, no_text, LONG_TEXT, bytes, 4, &count));
    RETURNS(BES_TOO_LONG, bes_ways(&pass, zero_text, LONG_TEXT, bytes, 4, &count));
    RETURNS(BES_SYNTAX, bes_ways(&pass, NAME("a=="), bytes, 4, &count));
    RETURNS(BES_NOT_PINNED, bes_ways(&pass, NAME("a==1"), bytes, 4, &count));
    RETURNS(BES_CLOSED, bes_query_items(&closed, &no_item, 1, bytes, 0, nodes, 4, &count));
    RETURNS(BES_BAD_PART, bes_query_items(&pass, no_part, 2, (const uint8_t *)"a", 1, nodes, 4, &count));
    RETURNS(BES_NO_ITEM, bes_query_items(&pass, lone_and_bad, 3, (const uint8_t *)"a", 1, nodes, 4, &count));
    CHECK(count == 2);
    RETURNS(BES_BAD_RPN, bes_query_items(&pass, &alone, 1, (const uint8_t *)"a", 1, nodes, 4, &count));
    RETURNS(BES_NOT_PINNED, bes_query_items(&pass, uncovered, 3, (const uint8_t *)"a", 1, nodes, 4, &count));
    RETURNS(BES_CLOSED, bes_query_prepared(&pass, &unprepared, nodes, 4, &count));
    RETURNS(BES_NOT_PINNED, bes_query_prepared(&pass, &prepared, nodes, 4, &count));
    RETURNS(BES_CLOSED, bes_found(&unprepared, 0, nodes, 4, &count));
    RETURNS(BES_CLOSED, bes_refresh(&pass, &unprepared, &updates));
    RETURNS(BES_NOT_PINNED, bes_refresh(&pass, &prepared, &updates));
}

/* Errors for reads: the name is checked first, then the pin, then whether the node or attribute exists. */
static void of_reads(void)
{
    RETURNS(BES_CLOSED, bes_get(&closed, 9, no_text, 1, &attribute, bytes, 0));
    RETURNS(BES_NOT_UTF8, bes_get(&pass, 9, no_text, 64, &attribute, bytes, 0));
    RETURNS(BES_NAME_LENGTH, bes_get(&pass, 9, zero_text, 64, &attribute, bytes, 0));
    RETURNS(BES_HAS_NUL, bes_get(&pass, 9, zero_text, 1, &attribute, bytes, 0));
    RETURNS(BES_NOT_PINNED, bes_get(&pass, 9, NAME("a"), &attribute, bytes, 0));
    RETURNS(BES_CLOSED, bes_attributes(&closed, 9, &counts, listed, 64, bytes, sizeof bytes));
    RETURNS(BES_NOT_PINNED, bes_attributes(&pass, 9, &counts, listed, 64, bytes, sizeof bytes));
    RETURNS(BES_CLOSED, bes_indices(&closed, &counts, listed, 64, bytes, sizeof bytes));
    RETURNS(BES_CLOSED, bes_state(&closed, &not_begun, &counts, listed, 64, bytes, sizeof bytes));
    RETURNS(BES_NOT_PINNED, bes_state(&pass, &begun, &counts, listed, 64, bytes, sizeof bytes));
}

int main(void)
{
    bes_pass inits[] = {BES_PASS_INIT, BES_PASS_INIT, BES_PASS_INIT};
    bes_prepared unprepared_inits[] = {BES_PREPARED_INIT, BES_PREPARED_INIT};
    bes_place place_inits[] = {BES_PLACE_INIT, BES_PLACE_INIT};
    bes_witness witness_inits[] = {BES_WITNESS_INIT, BES_WITNESS_INIT};
    bes_draft draft_inits[] = {BES_DRAFT_INIT, BES_DRAFT_INIT};
    closed = inits[0], pass = inits[1], single = inits[2];
    unprepared = unprepared_inits[0], prepared = unprepared_inits[1];
    not_begun = place_inits[0], begun = place_inits[1];
    unopened = witness_inits[0], witness = witness_inits[1];
    unbegun = draft_inits[0], draft = draft_inits[1];
    memset(no_text, 0xff, sizeof no_text);
    CHECK(bes_open(64, 1, 10, &pass) == BES_OK && bes_open(8, 1, 1, &single) == BES_OK);
    CHECK(bes_new_node(&pass, &number) == BES_OK && bes_new_node(&single, &number) == BES_OK);
    CHECK(bes_prepare(NAME("a==1"), &prepared, &count) == BES_OK && bes_pin(&pass, &number) == BES_OK);
    CHECK(bes_state(&pass, &begun, &counts, listed, 64, bytes, sizeof bytes) == BES_OK && bes_unpin(&pass) == BES_OK);
    CHECK(bes_witness_of(&pass, &witness) == BES_OK);
    of_handles();
    of_writes();
    CHECK(bes_begin_change(&pass, &draft, &number, &count) == BES_OK);
    RETURNS(BES_OPEN, bes_begin_change(&pass, &draft, &number, &count));
    of_changes();
    of_changes_at_once();
    of_queries();
    of_reads();
    CHECK(bes_release(&prepared) == BES_OK && bes_leave(&begun) == BES_OK && bes_dismiss(&witness) == BES_OK);
    CHECK(bes_close(&pass) == BES_OK && bes_close(&single) == BES_OK);
    return 0;
}
