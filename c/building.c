/* Tests stores that are built. A store that random transactions have made is read through one pass and built again, in as few pages
 * as it takes. The built one then has the same nodes, attributes, indices with the same entries, next number, answers and pages. */
#include "tests.h"

enum { NODES = 200, INDICES = 3, NAMES = 5, PAGES = 512 };

/* A name, an attribute's kind, and whether it has an index. Text values under "count" don't fit the index. */
static const char *const names[NAMES] = {"MAIL:from", "big", "count", "raw", "word"};
static const uint32_t indexed[INDICES] = {BES_STRING_TYPE, BES_UINT64_TYPE, BES_INT32_TYPE};

static uint64_t state = 88172645463325252u;

/* Returns a random number from 0 to bound - 1. */
static uint64_t below(uint64_t bound)
{
    state ^= state << 13;
    state ^= state >> 7;
    state ^= state << 17;
    return state % bound;
}

static uint32_t give_index(bes_builder *builder, const char *name, uint32_t code)
{
    return bes_build_index(builder, (const uint8_t *)name, strlen(name), code);
}

/* Gives a number of this kind. */
static uint32_t give(bes_builder *builder, const char *name, uint32_t code, uint64_t number, uint32_t held)
{
    return bes_build_attribute(builder, (const uint8_t *)name, strlen(name), code, number, (const uint8_t *)"", 0, held);
}

static uint32_t give_text(bes_builder *builder, const char *name, const char *text, uint32_t held)
{
    return bes_build_attribute(builder, (const uint8_t *)name, strlen(name), BES_STRING_TYPE, 0, (const uint8_t *)text, strlen(text), held);
}

static bool is_held(bes_pass *pass, uint64_t node, const char *name)
{
    uint32_t held = 7;
    OK(bes_is_held(pass, node, (const uint8_t *)name, strlen(name), &held));
    CHECK(held <= 1);
    return held;
}

/* Each call on a closed handle does nothing. */
static void closed(void)
{
    bes_builder builder = BES_BUILDER_INIT, other = BES_BUILDER_INIT;
    bes_pass pass = BES_PASS_INIT;
    uint32_t held = 7;
    CHECK(give_index(&builder, "", 0) == BES_CLOSED && bes_build_node(&builder, 0) == BES_CLOSED);
    CHECK(give(&builder, "", 0, 0, 1) == BES_CLOSED && bes_build_finish(&builder, 0, &pass) == BES_CLOSED);
    CHECK(bes_build_close(&builder) == BES_CLOSED && bes_move_builder(&builder, &other) == BES_CLOSED);
    CHECK(bes_is_held(&pass, 1, (const uint8_t *)"", 0, &held) == BES_CLOSED && held == 7);
    CHECK(bes_build(7, 1, 1, &builder) == BES_BAD_LIMITS && bes_build(8, 65, 1, &builder) == BES_BAD_LIMITS);
    CHECK(bes_build(8, 1, 0, &builder) == BES_BAD_LIMITS && bes_build_node(&builder, 1) == BES_CLOSED);
    OK(bes_build(8, 1, 1, &builder));
    CHECK(bes_build(8, 1, 1, &builder) == BES_OPEN);
    OK(bes_move_builder(&builder, &other) || bes_build(8, 1, 1, &builder));
    CHECK(bes_move_builder(&builder, &other) == BES_OPEN);
    OK(bes_build_finish(&other, 1, &pass));
    CHECK(bes_build_finish(&other, 1, &pass) == BES_CLOSED && bes_build_finish(&builder, 0, &pass) == BES_OPEN);
    CHECK(bes_is_held(&pass, 1, (const uint8_t *)"", 0, &held) == BES_NAME_LENGTH);
    CHECK(bes_is_held(&pass, 1, (const uint8_t *)"a", 1, &held) == BES_NOT_PINNED && held == 7);
    OK(bes_build_close(&builder) || bes_close(&pass));
    CHECK(bes_build_close(&builder) == BES_CLOSED);
}

/* What may not come next is refused, and leaves the builder as it was. */
static void order(void)
{
    bes_builder builder = BES_BUILDER_INIT;
    bes_pass pass = BES_PASS_INIT;
    uint64_t number = 7, count = 0;
    OK(bes_build(PAGES, 2, UINT32_MAX, &builder));
    CHECK(give(&builder, "a", BES_INT32_TYPE, 1, 0) == BES_NO_NODE);
    OK(give_index(&builder, "b", BES_INT32_TYPE));
    CHECK(give_index(&builder, "b", BES_INT64_TYPE) == BES_INDEX_EXISTS && give_index(&builder, "a", BES_INT32_TYPE) == BES_INDEX_EXISTS);
    CHECK(give_index(&builder, "c", BES_RAW_TYPE) == BES_NOT_INDEXABLE && give_index(&builder, "c", 5) == BES_NO_KIND);
    CHECK(give_index(&builder, "", 5) == BES_NAME_LENGTH && give_index(&builder, "\xff", 5) == BES_NOT_UTF8);
    CHECK(bes_build_index(&builder, (const uint8_t *)"a\0b", 3, 5) == BES_HAS_NUL);
    CHECK(bes_build_node(&builder, 0) == BES_NO_NODE && bes_build_node(&builder, (uint64_t)1 << 63) == BES_NO_NODE);
    OK(bes_build_node(&builder, 3));
    CHECK(bes_build_node(&builder, 3) == BES_NO_NODE && give_index(&builder, "c", BES_INT32_TYPE) == BES_NO_NODE);
    OK(give(&builder, "b", BES_INT32_TYPE, 1, 7));
    CHECK(give(&builder, "b", BES_INT32_TYPE, 1, 0) == BES_NO_ATTRIBUTE && give(&builder, "a", BES_INT32_TYPE, 1, 0) == BES_NO_ATTRIBUTE);
    CHECK(give(&builder, "c", BES_INT32_TYPE, 1, 1) == BES_NO_INDEX && give(&builder, "c", 5, 1, 1) == BES_NO_KIND);
    CHECK(give(&builder, "c", BES_UINT32_TYPE, (uint64_t)1 << 32, 1) == BES_NO_VALUE && give_text(&builder, "c", "\xff", 1) == BES_NOT_UTF8);
    OK(bes_build_node(&builder, 9));
    CHECK(give(&builder, "b", BES_INT64_TYPE, 1, 1) == BES_NOT_INDEXABLE);
    OK(give(&builder, "b", BES_INT64_TYPE, 2, 0));
    OK(bes_build_finish(&builder, 12, &pass) || bes_pin(&pass, &number));
    CHECK(number == 0 && is_held(&pass, 3, "b") && !is_held(&pass, 9, "b") && !is_held(&pass, 4, "b") && !is_held(&pass, 3, "c"));
    OK(bes_next(&pass, &number) || bes_count(&pass, "b>-9", &count));
    CHECK(number == 12 && count == 1);
    OK(bes_unpin(&pass) || bes_new_node(&pass, &number));
    CHECK(number == 12);
    OK(bes_close(&pass));
}

/* The next number is 1 to 2^63, and above that of each node. A builder that refuses it is closed. */
static void next_numbers(void)
{
    static const struct {
        uint64_t node, next;
        uint32_t answer;
    } cases[] = {
        {0, 0, BES_NO_NODE}, {0, 1, BES_OK}, {5, 5, BES_NO_NODE}, {5, 6, BES_OK}, {5, (uint64_t)1 << 63, BES_OK},
        {5, ((uint64_t)1 << 63) + 1, BES_NO_NODE}, {((uint64_t)1 << 63) - 1, (uint64_t)1 << 63, BES_OK},
    };
    for (size_t at = 0; at < sizeof cases / sizeof *cases; at++) {
        bes_builder builder = BES_BUILDER_INIT;
        bes_pass pass = BES_PASS_INIT;
        uint64_t number = 7;
        OK(bes_build(8, 1, 1, &builder));
        OK(cases[at].node == 0 ? BES_OK : bes_build_node(&builder, cases[at].node));
        CHECK(bes_build_finish(&builder, cases[at].next, &pass) == cases[at].answer);
        CHECK(bes_build_close(&builder) == BES_CLOSED);
        if (cases[at].answer != BES_OK)
            continue;
        OK(bes_pin(&pass, &number) || bes_next(&pass, &number));
        CHECK(number == cases[at].next);
        OK(bes_close(&pass));
    }
}

/* A node has up to 64 attributes, and a store 32 indices. */
static void limits(void)
{
    bes_builder builder = BES_BUILDER_INIT;
    char name[16];
    OK(bes_build(PAGES, 1, 1, &builder));
    for (int at = 0; at < 33; at++) {
        snprintf(name, sizeof name, "n%02d", at);
        CHECK(give_index(&builder, name, BES_INT32_TYPE) == (at < 32 ? BES_OK : BES_TOO_MANY_INDICES));
    }
    OK(bes_build_node(&builder, 1));
    for (int at = 0; at < 65; at++) {
        snprintf(name, sizeof name, "n%02d", at);
        CHECK(give(&builder, name, BES_INT32_TYPE, 1, at < 32) == (at < 64 ? BES_OK : BES_TOO_MANY_ATTRS));
    }
    OK(bes_build_close(&builder));
}

/* Sets some attributes at random. Text under "count" isn't in its index. */
static void set_some(bes_pass *pass, uint64_t node)
{
    char text[4] = {(char)('a' + below(3)), (char)('a' + below(3)), 0, 0};
    OK(bes_set_text(pass, node, "MAIL:from", text));
    OK(below(3) == 0 ? BES_OK : bes_set_uint64(pass, node, "big", UINT64_MAX - below(9)));
    OK(below(5) == 0 ? bes_set_text(pass, node, "count", text) : bes_set_int32(pass, node, "count", (int32_t)below(9) - 4));
    OK(below(4) != 0 ? BES_OK : bes_set_raw(pass, node, "raw", "\0\1", 2));
    OK(below(2) == 0 ? BES_OK : bes_set_text(pass, node, "word", text));
}

/* Fills a store by transactions. "count" gets its index late, and some nodes are removed again. */
static void fill(bes_pass *pass)
{
    uint64_t node = 0;
    OK(bes_make_index(pass, names[0], indexed[0]) || bes_make_index(pass, names[1], indexed[1]));
    for (int made = 0; made < NODES; made++) {
        OK(made == NODES / 3 ? bes_make_index(pass, names[2], indexed[2]) : BES_OK);
        OK(bes_new_node(pass, &node));
        if (below(8) != 0)
            set_some(pass, node);
        OK(below(6) == 0 ? bes_remove_node(pass, node) : BES_OK);
        if (below(6) == 0)
            CHECK(bes_set_int32(pass, node / 2, "count", 1) != BES_FULL); /* the node may have been removed */
    }
}

/* Gives the builder what a call has listed of a node: its attributes, each with whether the index of its name has it. */
static uint32_t give_attributes(bes_builder *builder, bes_pass *pass, uint64_t node)
{
    bes_counts counts;
    bes_operation list[64];
    uint8_t bytes[64 * (63 + 255)];
    OK(bes_attributes(pass, node, &counts, list, 64, bytes, sizeof bytes));
    for (uint64_t at = 0; at < counts.operations; at++) {
        const bes_operation *it = &list[at];
        uint32_t held = 7, error;
        OK(bes_is_held(pass, node, bytes + it->name_at, it->name_length, &held));
        error = bes_build_attribute(builder, bytes + it->name_at, it->name_length, it->code, it->number, bytes + it->value_at,
                                    it->value_length, held);
        if (error != BES_OK)
            return error;
    }
    return BES_OK;
}

static uint32_t give_nodes(bes_builder *builder, bes_pass *pass)
{
    uint64_t nodes[NODES], count = 0;
    OK(bes_nodes(pass, 0, nodes, NODES, &count));
    for (uint64_t at = 0; at < count; at++) {
        uint32_t error = bes_build_node(builder, nodes[at]);
        if (error == BES_OK)
            error = give_attributes(builder, pass, nodes[at]);
        if (error != BES_OK)
            return error;
    }
    return BES_OK;
}

/* Builds a store of so many pages that begins with the pinned snapshot. */
static uint32_t build(bes_pass *pass, uint64_t pages, bes_builder *builder, bes_pass *built)
{
    bes_counts counts;
    bes_operation list[32];
    uint8_t bytes[32 * 63];
    uint64_t next = 0;
    uint32_t error;
    OK(bes_build(pages, 2, UINT32_MAX, builder) || bes_indices(pass, &counts, list, 32, bytes, sizeof bytes));
    for (uint64_t at = 0; at < counts.operations; at++)
        OK(bes_build_index(builder, bytes + list[at].name_at, list[at].name_length, list[at].code));
    OK(bes_next(pass, &next));
    error = give_nodes(builder, pass);
    return error != BES_OK ? error : bes_build_finish(builder, next, built);
}

/* Compares the operations that rebuild the two stores, which say what their indices hold. */
static void have_same_state(bes_pass *one, bes_pass *two)
{
    static bes_batch left, right;
    bes_place in_one = BES_PLACE_INIT, in_two = BES_PLACE_INIT;
    do {
        OK(bes_batch_state(one, &in_one, &left) || bes_batch_state(two, &in_two, &right));
        CHECK(left.count == right.count && left.used == right.used && memcmp(left.bytes, right.bytes, left.used) == 0);
        CHECK(memcmp(left.operations, right.operations, left.count * sizeof *left.operations) == 0);
    } while (left.count != 0);
    OK(bes_leave(&in_one) || bes_leave(&in_two));
}

static void have_same_answers(bes_pass *one, bes_pass *two)
{
    static const char *const texts[] = {"count>0", "count==\"*\"", "big>0 && count<2", "MAIL:from==\"a*\" || count==1", "MAIL:from!=aa"};
    uint64_t left[NODES], right[NODES], count = 0, other = 0;
    for (size_t at = 0; at < sizeof texts / sizeof *texts; at++) {
        OK(bes_find(one, texts[at], left, NODES, &count) || bes_find(two, texts[at], right, NODES, &other));
        CHECK(count == other && memcmp(left, right, count * sizeof *left) == 0);
    }
    for (uint64_t node = 0; node <= NODES + 1; node++)
        for (size_t at = 0; at < NAMES; at++)
            CHECK(is_held(one, node, names[at]) == is_held(two, node, names[at]));
}

/* Reads all pages in the order of an index from both stores. */
static void have_same_pages(bes_pass *one, bes_pass *two, const char *name, uint32_t descending)
{
    bes_prepared prepared = BES_PREPARED_INIT;
    bes_cursor left = {0, 0, {0}}, right = {0, 0, {0}};
    bes_name by;
    uint64_t place = 0, count = 0, other = 0, nodes[2][7];
    uint32_t more = 1, others = 1;
    OK(bes_prepare_text("MAIL:from==\"*\"", &prepared, &place) || bes_check_name_text(name, &by));
    while (more == 1) {
        OK(bes_ordered(one, &prepared, &by, descending, &left, nodes[0], 7, &count, &more));
        OK(bes_ordered(two, &prepared, &by, descending, &right, nodes[1], 7, &other, &others));
        CHECK(count == other && more == others && memcmp(nodes[0], nodes[1], count * sizeof **nodes) == 0);
        CHECK(memcmp(&left, &right, sizeof left) == 0);
    }
    OK(bes_release(&prepared));
}

/* Both stores take the same writes, with the same answers. The built one's journal begins empty. */
static void write_the_same(bes_pass *one, bes_pass *two)
{
    uint64_t left = 0, right = 0;
    bes_batch batch;
    uint64_t by = 0, length = 7;
    OK(bes_batch_entry(two, 0, &batch, &by, &length));
    CHECK(length == 0 && batch.count == 0);
    OK(bes_unpin(one) || bes_unpin(two));
    OK(bes_new_node(one, &left) || bes_new_node(two, &right));
    CHECK(left == right);
    OK(bes_set_int32(one, left, "count", 3) || bes_set_int32(two, left, "count", 3));
    OK(bes_reindex(one, "count", 9, &left) || bes_reindex(two, "count", 9, &right));
    CHECK(left == right);
    OK(bes_pin(one, &left) || bes_pin(two, &right));
    have_same_state(one, two);
}

/* A volume that fits into so many pages doesn't fit into one less: each call then returns BES_FULL, up to the last. */
static void fits_exactly(bes_pass *pass, uint64_t used)
{
    bes_builder builder = BES_BUILDER_INIT;
    bes_pass built = BES_PASS_INIT;
    OK(build(pass, used, &builder, &built) || bes_close(&built));
    CHECK(build(pass, used - 1, &builder, &built) == BES_FULL);
    CHECK(bes_build_finish(&builder, 1, &built) == BES_CLOSED); /* the indices were written last */
    CHECK(build(pass, 8, &builder, &built) == BES_FULL);
    CHECK(bes_build_node(&builder, NODES + 5) == BES_FULL && give(&builder, "x", BES_INT32_TYPE, 1, 0) == BES_FULL);
    CHECK(give_index(&builder, "x", BES_INT32_TYPE) == BES_FULL && bes_build_finish(&builder, 0, &built) == BES_FULL);
    CHECK(bes_build_close(&builder) == BES_CLOSED);
}

/* bes_carry_on opens the same store in one call. */
static void carries_on(bes_pass *pass, uint64_t used)
{
    bes_pass next = BES_PASS_INIT, closed = BES_PASS_INIT;
    uint64_t number = 1;
    CHECK(bes_carry_on(&closed, used, 2, 9, &next) == BES_CLOSED && bes_carry_on(pass, 7, 2, 9, &next) == BES_BAD_LIMITS);
    CHECK(bes_carry_on(pass, used, 2, 9, pass) == BES_OPEN && bes_carry_on(pass, used - 1, 2, 9, &next) == BES_FULL);
    OK(bes_carry_on(pass, used, 2, 9, &next));
    CHECK(bes_carry_on(&next, used, 2, 9, &closed) == BES_NOT_PINNED);
    OK(bes_pin(&next, &number));
    CHECK(number == 0);
    have_same_state(pass, &next);
    have_same_answers(pass, &next);
    OK(bes_close(&next));
}

static void is_the_same(void)
{
    bes_builder builder = BES_BUILDER_INIT;
    bes_pass pass = BES_PASS_INIT, built = BES_PASS_INIT, taken[64] = {BES_PASS_INIT};
    bes_usage usage, full;
    uint64_t number = 0;
    OK(bes_open(PAGES, 2, UINT32_MAX, &pass));
    fill(&pass);
    OK(bes_pin(&pass, &number) || build(&pass, PAGES, &builder, &built));
    OK(bes_pin(&built, &number) || bes_number(&built, &number));
    CHECK(number == 1);
    have_same_state(&pass, &built);
    have_same_answers(&pass, &built);
    for (int at = 0; at < INDICES * 2; at++)
        have_same_pages(&pass, &built, names[at / 2], (uint32_t)at % 2);
    OK(bes_status(&built, &usage, &number) || bes_status(&pass, &full, &number));
    CHECK(usage.pages == PAGES && usage.retired == 0 && usage.entries == 0 && usage.free > full.free);
    fits_exactly(&pass, usage.pages - usage.free);
    carries_on(&pass, usage.pages - usage.free);
    write_the_same(&pass, &built);
    CHECK(take_passes(&built, taken) == 1);
    close_passes(taken, 1);
    OK(bes_close(&pass) || bes_close(&built));
}

int main(void)
{
    closed();
    order();
    next_numbers();
    limits();
    is_the_same();
    return 0;
}
