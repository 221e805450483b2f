/* Tests parts of a result with their nodes' attributes, the journal read entry by entry, and what a snapshot contains. */
#include "tests.h"

enum { NODES = 3000 };

static server own;
static bec_client *client;
static uint64_t made[NODES], nodes[NODES + 1];
static bes_cell cells[2 * NODES];
static uint8_t bytes[256 * NODES];

static const uint8_t *bytes_of(const char *text)
{
    return (const uint8_t *)text;
}

/* Returns the text of a node, which takes a line of the server with about 8,000 others. */
static const char *text_of(size_t node)
{
    static char text[256];
    snprintf(text, sizeof text, "%zu %0240d", node, 0);
    return text;
}

/* Makes nodes with a number each. Every third has a text as well. */
static void fill(void)
{
    static bes_batch batch;
    OK(bec_make_index(client, "n", BES_INT64_TYPE));
    for (size_t i = 0; i < NODES; i += 30) {
        OK(bec_new_nodes(client, 30, made + i));
        bes_batch_clear(&batch);
        for (size_t j = i; j < i + 30; j++) {
            OK(bes_batch_set_int64(&batch, made[j], "n", -(int64_t)j));
            if (j % 3 == 0)
                OK(bes_batch_set_text(&batch, made[j], "text", text_of(j)));
        }
        OK(bec_batch_apply(client, &batch, NULL, 0, NULL));
    }
}

/* Checks the cells of nodes, of which the first is the one with this index, and each next has the next or the previous index. */
static void are_rows(size_t first, size_t count, int step, const bes_name *names, uint64_t bytes_count)
{
    CHECK(bytes_count <= sizeof bytes && names[0].length == 4);
    OK(bec_rows(client, cells, 2 * NODES, bytes, sizeof bytes));
    for (size_t i = 0; i < count; i++) {
        const size_t at = first + (size_t)((long)i * step);
        const bes_cell *text = &cells[2 * i], *number = text + 1;
        CHECK(nodes[i] == made[at] && number->error == BES_OK && (int64_t)number->number == -(int64_t)at);
        CHECK(text->error == (at % 3 == 0 ? BES_OK : BES_NO_ATTRIBUTE));
        if (text->error == BES_OK)
            CHECK(text->length == strlen(text_of(at)) && memcmp(bytes + text->offset, text_of(at), (size_t)text->length) == 0);
    }
}

static void rows(void)
{
    bes_name names[2], many[65], by;
    bec_cursor cursor = {0, {0}};
    uint64_t count = 7, bytes_count = 7, all = 0;
    uint32_t more = 1;
    OK(bec_check_name_text("text", &names[0]));
    OK(bec_check_name_text("n", &names[1]));
    by = names[1];
    OK(bec_first_rows(client, bytes_of("n<=0"), 4, 0, names, 2, nodes, NODES + 1, &count, &bytes_count));
    CHECK(count == NODES);
    are_rows(0, NODES, 1, names, bytes_count);
    OK(bec_first_rows(client, bytes_of("n<=0"), 4, made[7], names, 2, nodes, 5, &count, &bytes_count));
    CHECK(count == 5);
    are_rows(7, 5, 1, names, bytes_count);
    /* What was read stays until the next rows, whatever else is asked or refused. */
    GIVES(bec_first_rows(client, bytes_of("n<="), 3, 0, names, 2, nodes, 5, &count, NULL), BES_SYNTAX);
    CHECK(count == 3);
    are_rows(7, 5, 1, names, bytes_count);
    while (more) {
        OK(bec_ordered_rows(client, bytes_of("n<=0"), 4, &by, 1, &cursor, names, 2, nodes, 700, &count, &more, &bytes_count));
        CHECK(count == (all + 700 <= NODES ? 700 : NODES - all));
        are_rows(all, count, 1, names, bytes_count);
        all += count;
    }
    CHECK(all == NODES);
    memset(&cursor, 0, sizeof cursor);
    OK(bec_ordered_rows(client, bytes_of("n<=0"), 4, &by, 0, &cursor, names, 2, nodes, 9, &count, &more, &bytes_count));
    CHECK(count == 9 && more == 1);
    are_rows(NODES - 1, 9, -1, names, bytes_count);
    /* No names, no nodes, and too many names. */
    OK(bec_first_rows(client, bytes_of("n<=0"), 4, 0, NULL, 0, nodes, 9, &count, &bytes_count));
    CHECK(count == 9 && bytes_count == 0);
    OK(bec_first_rows(client, bytes_of("n>0"), 3, 0, names, 2, nodes, 9, &count, &bytes_count));
    CHECK(count == 0 && bytes_count == 0);
    for (size_t i = 0; i < 65; i++)
        many[i] = names[0];
    OK(bec_first_rows(client, bytes_of("n<=0"), 4, 0, many, 64, nodes, 1, &count, &bytes_count));
    CHECK(count == 1 && bytes_count == 64 * strlen(text_of(0)));
    GIVES(bec_first_rows(client, bytes_of("n<=0"), 4, 0, many, 65, nodes, 1, &count, NULL), BES_BAD_COUNT);
    GIVES(bec_first_rows(client, bytes_of("n<=0"), 4, 0, names, 2, nodes, 0, &count, NULL), BES_NO_ROOM);
    GIVES(bec_first_rows(client, bytes_of("n<=0"), 4, 0, NULL, 2, nodes, 9, &count, NULL), BES_BAD_PART);
    GIVES(bec_ordered_rows(client, bytes_of("n<=0"), 4, NULL, 0, &cursor, names, 2, nodes, 9, &count, &more, NULL), BES_BAD_PART);
    memset(&cursor, 0, sizeof cursor);
    GIVES(bec_ordered_rows(client, bytes_of("n<=0"), 4, names, 0, &cursor, names, 2, nodes, 9, &count, &more, NULL), BES_NO_INDEX);
}

/* Entries are the same whether they are read one after another, again or in any order. */
static void journal(void)
{
    static bes_batch batch;
    bes_counts counts;
    uint64_t by = 0, own_number = 0, length = 0, entry = 0, begin = 0;
    bec_client *other = connected(&own);
    OK(bec_number(client, &own_number));
    for (; entry == 0 || entry < length; entry++) {
        memset(&batch, 0, sizeof batch);
        for (int again = 0; again < 2; again++)
            OK(bec_journal_from(client, entry, &by, &counts, batch.operations, 64, batch.bytes, sizeof batch.bytes, &length));
        CHECK(by == own_number && counts.operations > 0);
        CHECK(entry == 0 ? batch.operations[0].kind == BES_MAKE_INDEX : batch.operations[0].kind == (entry % 2 ? BES_NEW_NODE : BES_SET));
        if (entry % 2)
            CHECK(batch.operations[0].node == made[entry / 2 * 30]);
    }
    CHECK(length == 1 + NODES / 30 * 2);
    OK(bec_journal_from(client, length, &by, &counts, NULL, 0, NULL, 0, &length));
    CHECK(counts.operations == 0);
    /* What is written meanwhile is found, and an earlier entry too. */
    OK(bec_new_node(other, NULL));
    OK(bec_journal_from(client, length, &by, &counts, NULL, 0, NULL, 0, &begin));
    CHECK(counts.operations == 1 && begin == length + 1 && by != own_number);
    OK(bec_journal_from(client, 0, &by, &counts, batch.operations, 64, NULL, 0, &begin));
    CHECK(batch.operations[0].kind == BES_MAKE_INDEX && by == own_number);
    OK(bec_journal_from(client, UINT64_MAX, &by, &counts, NULL, 0, NULL, 0, &begin));
    CHECK(counts.operations == 0);
    OK(bec_close(other));
}

/* Reads a listing. Returns how many nodes it has, and adds up its bytes. */
static size_t listed(uint64_t *sum)
{
    static uint8_t batch[1 << 17];
    size_t found = 0;
    uint64_t count = 1, again = 0;
    *sum = 0;
    for (uint64_t index = 0; count > 0; index++) {
        OK(bec_listing(client, index, batch, sizeof batch, &count));
        CHECK(count <= sizeof batch && (count == 0 || memcmp(batch, "BEV\x01", 4) == 0));
        OK(bec_listing(client, index, NULL, 0, &again));
        CHECK(again == count);
        *sum += count;
        for (uint64_t at = 4; at < count;) {
            const uint8_t kind = batch[at++];
            found += kind == 2;
            if (kind == 2) {
                at += 8;
                continue;
            }
            at += 1 + batch[at];
            const bool is_text = memcmp(batch + at, "RTSC", 4) == 0;
            at += 4;
            at += kind == 1 ? 0 : is_text ? 1 + (uint64_t)batch[at] : 8;
        }
    }
    return found;
}

static void listing(void)
{
    bec_client *other = connected(&own);
    uint64_t number = 0, count = 0, sum = 0, after = 0;
    GIVES(bec_listing(client, 0, NULL, 0, &count), BES_NOT_PINNED);
    OK(bec_pin(client, &number));
    const size_t before = listed(&sum);
    CHECK(before >= NODES);
    OK(bec_new_node(other, NULL));
    CHECK(listed(&after) == before && after == sum);
    OK(bec_unpin(client));
    OK(bec_pin(client, &number));
    CHECK(listed(&after) == before + 1 && after == sum + 9);
    OK(bec_unpin(client));
    GIVES(bec_listing(client, 0, NULL, 0, &count), BES_NOT_PINNED);
    OK(bec_close(other));
}

int main(void)
{
    const char *options[] = {"--pages", "65536", NULL};
    start(&own, options);
    client = connected(&own);
    fill();
    journal();
    rows();
    listing();
    OK(bec_close(client));
    return 0;
}
