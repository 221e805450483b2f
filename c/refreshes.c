/* Tests what a pass has seen after bes_refresh_changed. */
#include "tests.h"

/* If the result of the last refresh had 96 nodes or more, a refresh at an older snapshot makes the pass see what the last refresh
 * had seen. */
static void at_an_older_pin(int32_t count)
{
    bes_pass writer = BES_PASS_INIT, reader = BES_PASS_INIT, other = BES_PASS_INIT;
    bes_prepared live = BES_PREPARED_INIT;
    bes_witness witness = BES_WITNESS_INIT;
    bes_updates updates = {7, 7};
    uint64_t node = 0, place = 0, old = 0, last = 0, seen = 0;
    CHECK(bes_open(512, 3, 10000, &writer) == BES_OK && bes_make_index(&writer, "k", BES_INT32_TYPE) == BES_OK);
    for (int32_t k = 1; k <= count; k++)
        CHECK(bes_new_node(&writer, &node) == BES_OK && bes_set_int32(&writer, node, "k", k) == BES_OK);
    CHECK(bes_another(&writer, &reader) == BES_OK && bes_another(&writer, &other) == BES_OK && bes_pin(&reader, &old) == BES_OK);
    CHECK(bes_unset(&writer, 1, "k") == BES_OK && bes_new_node(&writer, &node) == BES_OK);
    CHECK(bes_prepare_text("k>0", &live, &place) == BES_OK && bes_pin(&writer, &last) == BES_OK && last == old + 2);
    CHECK(bes_refresh(&writer, &live, &updates) == BES_OK && updates.created == (uint64_t)count - 1);
    CHECK(bes_refresh_changed(&reader, &live, &updates) == BES_OK && updates.created == 1 && updates.removed == 0);
    CHECK(bes_witness_of(&reader, &witness) == BES_OK && bes_join(&other, &witness, &seen) == BES_OK);
    CHECK(seen == (count > 96 ? last : old) && bes_dismiss(&witness) == BES_OK && bes_release(&live) == BES_OK);
    CHECK(bes_close(&reader) == BES_OK && bes_close(&other) == BES_OK && bes_close(&writer) == BES_OK);
}

int main(void)
{
    at_an_older_pin(96);
    at_an_older_pin(97);
    at_an_older_pin(500);
    return 0;
}
