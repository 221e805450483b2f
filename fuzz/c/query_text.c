/* Reads a query's text. The library and the helpers must read the same query, and its canonical text must be canonical itself. */
#include "fuzz.h"

enum { PREPARED, QUERIED, COMPARED, FOUND };

/* The maximum length of a canonical text. */
#define ROOM (1 << 16)

static bes_pass pass = BES_PASS_INIT;

/* Opens a store in which some comparisons find nodes, and pins a snapshot. */
static void open_store(void)
{
    uint64_t number = 0;
    open_indexed(&pass, "size");
    for (uint32_t i = 0; i < 20; i++) {
        char text[8];
        snprintf(text, sizeof text, "a%d*b", (int)i);
        CHECK(bes_set_text(&pass, i + 1, "a", text) == BES_OK && bes_set_uint32(&pass, i + 1, "b", i) == BES_OK);
    }
    CHECK(bes_pin(&pass, &number) == BES_OK);
}

static bool has_place(uint32_t error)
{
    return error == BES_SYNTAX || error == BES_BAD_PATTERN;
}

static bool is_of_text(uint32_t error)
{
    return has_place(error) || error == BES_NOT_UTF8 || error == BES_TOO_LONG || error == BES_TOO_MANY || error == BES_TOO_DEEP;
}

/* Returns a prepared query's canonical text, in a buffer of exactly its size. */
static char *canonical_of(bes_prepared *prepared, size_t *length)
{
    static uint8_t text[ROOM];
    uint64_t count = 0, again = 0;
    CHECK(bes_prepared_text(prepared, text, sizeof text, &count) == BES_OK && count > 0 && count <= sizeof text);
    text[count / 2] ^= 1;
    CHECK(bes_prepared_text(prepared, text, count / 2, &again) == BES_OK && again == count);
    text[count / 2] ^= 1;
    *length = (size_t)count;
    return copy_of(text, *length);
}

/* Checks that the helper reads arbitrary bytes up to their end and no further. Returns how many comparisons it finds. */
static size_t count_comparisons(const char *text, size_t length)
{
    bes_comparison found;
    size_t at = 0, count = 0;
    for (size_t before = 0; bes_next_comparison(text, length, &at, &found); before = at, count++) {
        CHECK(at > before && at <= length && found.at + found.length == at);
        CHECK(found.name_at >= found.at && found.name_at + found.name_length <= length);
        CHECK(found.value_at >= found.name_at && found.value_at + found.value_length <= length);
        saw(COMPARED, found.kind);
    }
    return count;
}

static uint32_t opposite(uint32_t kind)
{
    static const uint32_t kinds[] = {BES_ITEM_NE, BES_ITEM_EQ, BES_ITEM_GE, BES_ITEM_GT, BES_ITEM_LE, BES_ITEM_LT};
    return kinds[kind - BES_ITEM_EQ];
}

/* Returns whether these parts of two lists' bytes are the same. */
static bool is_same(const bes_comparison_list *mine, uint64_t at, uint64_t end, const bes_comparison_list *theirs, uint64_t their_at,
                    uint64_t their_end)
{
    return end - at == their_end - their_at && memcmp(mine->bytes + at, theirs->bytes + their_at, (size_t)(end - at)) == 0;
}

/* Checks that a query and its canonical text have the same comparisons in the same order, except that a ! negates their operators.
 * A canonical text may be too long for a query. */
static void compare(const char *text, size_t length, const char *canonical, size_t canonical_length)
{
    static bes_comparison_list mine, theirs;
    uint64_t place = 7;
    CHECK(bes_list_comparisons(text, length, &mine, &place) == BES_OK && place == 0);
    if (bes_list_comparisons(canonical, canonical_length, &theirs, &place) == BES_TOO_LONG)
        return;
    CHECK(mine.counts.operations == theirs.counts.operations && mine.counts.bytes <= sizeof mine.bytes);
    for (uint64_t i = 0; i < mine.counts.operations; i++) {
        const bes_compared *one = &mine.comparisons[i], *other = &theirs.comparisons[i];
        CHECK(one->kind == other->kind && other->kind == other->kind_in_text && one->form == other->form);
        CHECK(one->kind_in_text == one->kind || one->kind_in_text == opposite(one->kind));
        CHECK(is_same(&mine, one->plain_name_at, one->plain_value_at, &theirs, other->plain_name_at, other->plain_value_at));
        CHECK(is_same(&mine, one->plain_value_at, one->plain_end, &theirs, other->plain_value_at, other->plain_end));
    }
}

/* Checks that a canonical text, unless it is too long, is a query whose canonical text is the same. */
static void is_canonical(const char *canonical, size_t length)
{
    bes_prepared prepared = BES_PREPARED_INIT;
    uint64_t place = 7;
    size_t again_length = 0;
    uint32_t error = bes_prepare((const uint8_t *)canonical, length, &prepared, &place);
    CHECK(error == (length > 4096 ? BES_TOO_LONG : BES_OK) && place == 0);
    if (error == BES_OK) {
        char *again = canonical_of(&prepared, &again_length);
        CHECK(again_length == length && memcmp(again, canonical, length) == 0);
        free(again);
        CHECK(bes_release(&prepared) == BES_OK);
    }
}

/* Checks that a query finds the same nodes whether it is given as a text or prepared, and that nothing is written past the array. */
static void ask(const char *text, size_t length, bes_prepared *prepared)
{
    uint64_t nodes[21], again[21], count = 0, prepared_count = 0;
    size_t at = 0;
    uint32_t error;
    memset(nodes, 0x5a, sizeof nodes);
    memset(again, 0x5a, sizeof again);
    error = bes_query(&pass, (const uint8_t *)text, length, nodes, 20, &count);
    CHECK(bes_query_prepared(&pass, prepared, again, 20, &prepared_count) == error && count == prepared_count);
    CHECK(error == BES_OK || error == BES_NOT_COVERED);
    CHECK(memcmp(nodes, again, sizeof nodes) == 0 && count <= 20);
    for (size_t i = (size_t)count; i < 21; i++)
        CHECK(nodes[i] == 0x5a5a5a5a5a5a5a5a);
    CHECK(bes_uncovered(&pass, text, length, &at) == BES_OK && (error == BES_OK || at < length));
    saw(QUERIED, error);
    saw(FOUND, count);
}

static void is_prepared(const char *text, size_t length, bes_prepared *prepared)
{
    size_t canonical_length = 0;
    char *canonical = canonical_of(prepared, &canonical_length);
    CHECK(count_comparisons(text, length) == count_comparisons(canonical, canonical_length));
    compare(text, length, canonical, canonical_length);
    is_canonical(canonical, canonical_length);
    ask(text, length, prepared);
    free(canonical);
}

/* Checks that every call refuses a text with the same error at the same position. */
static void is_refused(const char *text, size_t length, uint32_t error, uint64_t place)
{
    uint64_t node = 7, count = 0;
    uint8_t bytes[8] = {7};
    CHECK(is_of_text(error) && (has_place(error) ? place <= length : place == 0));
    CHECK(bes_query(&pass, (const uint8_t *)text, length, &node, 1, &count) == error && count == place && node == 7);
    CHECK(bes_explain(&pass, (const uint8_t *)text, length, bytes, sizeof bytes, &count) == error && count == place && bytes[0] == 7);
    count_comparisons(text, length);
    saw(FOUND, 64 + size_of(place));
}

int LLVMFuzzerTestOneInput(const uint8_t *input, size_t length)
{
    bes_prepared prepared = BES_PREPARED_INIT;
    char *text = copy_of(input, length);
    uint64_t place = 7;
    uint32_t error;
    if (!pass.live)
        open_store();
    error = bes_prepare((const uint8_t *)text, length, &prepared, &place);
    saw(PREPARED, error);
    if (error == BES_OK) {
        CHECK(place == 0);
        is_prepared(text, length, &prepared);
        CHECK(bes_release(&prepared) == BES_OK);
    } else {
        is_refused(text, length, error, place);
    }
    free(text);
    return 0;
}
