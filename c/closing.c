/* Closes handles: one that has seen a newer version than it has pinned, and the last one, when the caller's array is too small
 * for the journal and when the journal is long. */
#include "tests.h"
#include <time.h>

/* Closing a pass that has written since it was pinned removes its pin. The store then frees the pages of the versions since the
 * pin, and hands out the pass again. The last handle closes the store. */
static void with_an_old_pin(void)
{
    bes_pass mine = BES_PASS_INIT, theirs = BES_PASS_INIT;
    bes_usage usage;
    uint64_t node = 0, number = 0, count = 0;
    uint8_t text[1 << 14];
    CHECK(bes_open(64, 2, 1000, &mine) == BES_OK && bes_another(&mine, &theirs) == BES_OK);
    CHECK(bes_pin(&theirs, &number) == BES_OK && number == 0 && bes_new_node(&theirs, &node) == BES_OK);
    CHECK(bes_set_int32(&theirs, node, "size", 1) == BES_OK && bes_close(&theirs) == BES_OK);
    for (int32_t i = 0; i < 300; i++)
        CHECK(bes_set_int32(&mine, node, "size", i) == BES_OK);
    CHECK(bes_status(&mine, &usage, &number) == BES_OK && !usage.is_held && usage.retired == 0);
    CHECK(bes_another(&mine, &theirs) == BES_OK && bes_pin(&theirs, &number) == BES_OK && number == 302);
    CHECK(bes_close(&theirs) == BES_OK && bes_finish(&mine, text, sizeof text, &count) == BES_OK && count < sizeof text);
}

/* If the array is too small, the call reports that another handle is open, or how long the text is. The handle isn't closed. */
static void without_room(void)
{
    bes_pass mine = BES_PASS_INIT, theirs = BES_PASS_INIT;
    uint64_t node = 0, count = 7;
    uint8_t text[64] = {7};
    CHECK(bes_open(64, 2, 10, &mine) == BES_OK && bes_another(&mine, &theirs) == BES_OK);
    CHECK(bes_finish(&mine, text, 0, &count) == BES_IN_USE && count == 0);
    CHECK(bes_new_node(&theirs, &node) == BES_OK);
    CHECK(bes_finish(&mine, text, 0, &count) == BES_IN_USE && count == 0 && bes_close(&theirs) == BES_OK);
    CHECK(bes_finish(&mine, text, 0, &count) == BES_OK && count == 21 && text[0] == 7);
    CHECK(bes_finish(&mine, text, sizeof text, &count) == BES_OK && count == 21 && text[0] == '1');
    CHECK(bes_close(&mine) == BES_CLOSED);
}

/* A journal of any length can be returned. A list of 64 values of maximum length makes a line of over 33 KB. */
static void with_a_long_journal(uint64_t lists)
{
    enum { LIST = 64, LONGEST = 255, LINE = LIST * 2 * LONGEST };
    static bes_batch batch;
    const uint8_t value[LONGEST] = {0xff};
    bes_pass mine = BES_PASS_INIT;
    uint64_t node = 0, number = 0, count = 0, length = 0;
    uint8_t *text;
    CHECK(bes_open(64, 1, 1 + lists, &mine) == BES_OK && bes_new_node(&mine, &node) == BES_OK);
    bes_batch_clear(&batch);
    for (int i = 0; i < LIST; i++) {
        char name[12];
        snprintf(name, sizeof name, "%02d", i);
        CHECK(bes_batch_set_raw(&batch, 1, name, value, LONGEST) == BES_OK);
    }
    for (uint64_t i = 0; i < lists; i++)
        CHECK(bes_batch_apply(&mine, &batch, 1, &node, 0, &number) == BES_OK);
    CHECK(bes_finish(&mine, NULL, 0, &length) == BES_OK && length > lists * LINE);
    text = malloc(length);
    CHECK(text != NULL && bes_finish(&mine, text, length, &count) == BES_OK && count == length && text[length - 1] == '\n');
    free(text);
    CHECK(bes_close(&mine) == BES_CLOSED);
}

/* `short` skips the journal of over 64 MiB. BESTORE_SEED repeats the journal of an earlier run. */
int main(int argc, char **argv)
{
    const char *given = getenv("BESTORE_SEED");
    const uint64_t seed = given != NULL ? strtoull(given, NULL, 10) : (uint64_t)time(NULL);
    const bool is_short = argc > 1 && strcmp(argv[1], "short") == 0;
    with_an_old_pin();
    without_room();
    with_a_long_journal(1 + seed % 50);
    if (!is_short)
        with_a_long_journal(1900 + seed % 300);
    printf("ok, BESTORE_SEED=%d\n", (int)seed);
    return 0;
}
