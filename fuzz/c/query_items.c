/* Builds a predicate from items with arbitrary numbers and parts. All calls must agree on whether to accept it, and the canonical text
 * of an accepted predicate must be the same query. An item has six bytes: its kind, and its number or the position and length of its
 * bytes. These bytes follow the last item. */
#include "fuzz.h"

enum { PREPARED, QUERIED, PLACED };

#define MOST 300
#define ROOM (1 << 16)

static bes_pass pass = BES_PASS_INIT;

static void open_store(void)
{
    uint64_t number = 0;
    open_indexed(&pass, "b");
    for (uint64_t node = 1; node <= 20; node++)
        CHECK(bes_set_text(&pass, node, "a", node % 2 == 1 ? "ab*" : "[b]\"") == BES_OK);
    CHECK(bes_pin(&pass, &number) == BES_OK);
}

/* Reads the items from the input. Most of them have a valid kind, and most parts begin within the bytes. */
static size_t take_items(fuzz_input *input, bes_item *items)
{
    size_t count = (size_t)take(input, 2) % MOST, all = 0;
    for (; all < count && input->length > 6; all++) {
        uint64_t kind = take(input, 1), at = take(input, 2), length = take(input, 2), high = take(input, 1);
        items[all].kind = kind == 255 ? UINT32_MAX : (uint32_t)(kind % 18);
        items[all].at = at == UINT16_MAX ? UINT32_MAX : (uint32_t)at;
        items[all].length = length == UINT16_MAX ? UINT32_MAX : (uint32_t)length;
        items[all].number = high << 56 | length << 16 | at;
    }
    return all;
}

static bool has_place(uint32_t error)
{
    return error == BES_BAD_PART || error == BES_NOT_UTF8 || error == BES_NAME_LENGTH || error == BES_HAS_NUL ||
           error == BES_NO_ITEM || error == BES_BAD_RPN || error == BES_BAD_PATTERN;
}

/* Checks that a predicate's canonical text, unless it is too long, is a query that has the same canonical text and finds the same
 * nodes. */
static void is_same_query(bes_prepared *prepared, const uint64_t *nodes, uint64_t count, uint32_t error)
{
    static uint8_t text[ROOM], again[ROOM];
    bes_prepared other = BES_PREPARED_INIT;
    uint64_t found[20], length = 0, other_length = 0, other_count = 0;
    CHECK(bes_prepared_text(prepared, text, sizeof text, &length) == BES_OK && length > 0);
    if (length > 4096)
        return;
    CHECK(bes_prepare(text, (size_t)length, &other, &other_length) == BES_OK);
    CHECK(bes_prepared_text(&other, again, sizeof again, &other_length) == BES_OK && other_length == length);
    CHECK(memcmp(text, again, (size_t)length) == 0);
    CHECK(bes_query_prepared(&pass, &other, found, 20, &other_count) == error && other_count == count);
    CHECK(memcmp(nodes, found, (size_t)count * sizeof *nodes) == 0);
    CHECK(bes_release(&other) == BES_OK);
}

int LLVMFuzzerTestOneInput(const uint8_t *bytes, size_t length)
{
    static bes_item read[MOST];
    fuzz_input input = {bytes, length};
    bes_prepared prepared = BES_PREPARED_INIT;
    uint64_t nodes[21], place = 7, count = 0;
    size_t items_count = take_items(&input, read);
    bes_item *items = (bes_item *)copy_of(read, items_count * sizeof *read);
    uint8_t *parts = (uint8_t *)copy_of(input.bytes, input.length);
    uint32_t error, queried;
    if (!pass.live)
        open_store();
    memset(nodes, 0x5a, sizeof nodes);
    error = bes_prepare_items(items, items_count, parts, input.length, &prepared, &place);
    queried = bes_query_items(&pass, items, items_count, parts, input.length, nodes, 20, &count);
    saw(PREPARED, error);
    saw(QUERIED, queried);
    saw(PLACED, error == BES_OK ? count : 32 + size_of(place));
    CHECK(nodes[20] == 0x5a5a5a5a5a5a5a5a && prepared.live == (error == BES_OK));
    if (error == BES_OK) {
        CHECK(place == 0 && (queried == BES_OK || queried == BES_NOT_COVERED) && count <= 20);
        is_same_query(&prepared, nodes, count, queried);
        CHECK(bes_release(&prepared) == BES_OK);
    } else {
        CHECK(queried == error && count == place && (has_place(error) ? place <= items_count : place == 0));
        CHECK(has_place(error) || error == BES_TOO_MANY || error == BES_TOO_DEEP);
    }
    free(parts);
    free(items);
    return 0;
}
