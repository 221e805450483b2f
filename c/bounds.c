/* Queries strings by a pattern and a bound, trying every bound in a store of random size, and compares the results with the list
 * of strings. BESTORE_SEED repeats the size of an earlier run; `short` picks a smaller size. */
#include "tests.h"
#include <time.h>

enum { MOST = 700 };

static bes_pass pass = BES_PASS_INIT;
static uint64_t count, found[MOST], found_count, number;

/* Returns a node's string. The strings sort in the order of the nodes' numbers. */
static const char *text_of(uint64_t node)
{
    static char text[16];
    snprintf(text, sizeof text, "name-%06d", (int)node * 3);
    return text;
}

/* Queries the nodes whose string contains this digit and is within the bound. The bound equals one of the strings, or lies
 * between two of them. */
static void ask(char digit, uint64_t bound, bool is_upper, int past)
{
    char query[80], end[16];
    uint64_t place = 0, expected = 0;
    bes_prepared prepared = BES_PREPARED_INIT;
    snprintf(end, sizeof end, "name-%06d", (int)bound * 3 + past);
    snprintf(query, sizeof query, "t==\"*%c*\"&&t%s%s", digit, is_upper ? "<=" : ">=", end);
    CHECK(bes_find(&pass, query, found, MOST, &found_count) == BES_OK);
    for (uint64_t node = 1; node <= count; node++)
        if (strchr(text_of(node), digit) != NULL && (is_upper ? strcmp(text_of(node), end) <= 0 : strcmp(text_of(node), end) >= 0))
            CHECK(expected < found_count && found[expected++] == node);
    CHECK(expected == found_count && bes_prepare_text(query, &prepared, &place) == BES_OK);
    CHECK(bes_query_prepared(&pass, &prepared, found, MOST, &found_count) == BES_OK && found_count == expected);
    CHECK(bes_release(&prepared) == BES_OK);
}

int main(int argc, char **argv)
{
    const uint64_t most = argc > 1 && strcmp(argv[1], "short") == 0 ? 200 : MOST;
    const char *given = getenv("BESTORE_SEED");
    const uint64_t seed = given != NULL ? strtoull(given, NULL, 10) : (uint64_t)time(NULL);
    uint64_t node = 0;
    count = 100 + seed % (most - 100);
    printf("BESTORE_SEED=%d\n", (int)seed);
    CHECK(bes_open(1024, 1, 10000, &pass) == BES_OK && bes_make_index(&pass, "t", BES_STRING_TYPE) == BES_OK);
    for (uint64_t i = 1; i <= count; i++)
        CHECK(bes_new_node(&pass, &node) == BES_OK && bes_set_text(&pass, node, "t", text_of(i)) == BES_OK);
    CHECK(bes_pin(&pass, &number) == BES_OK);
    for (uint64_t bound = 0; bound <= count; bound++)
        for (int past = -1; past <= 1; past++) {
            ask((char)('0' + bound % 10), bound > 0 ? bound : 1, true, past);
            ask((char)('0' + bound % 10), bound > 0 ? bound : 1, false, past);
        }
    CHECK(bes_close(&pass) == BES_OK);
    return 0;
}
