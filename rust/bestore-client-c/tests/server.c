/* Tests what a server says about itself, about queries and about errors. */
#include "tests.h"

static server own;
static bec_client *client;

static const uint8_t *bytes_of(const char *text)
{
    return (const uint8_t *)text;
}

/* What was said when the client was connected. */
static void hello(void)
{
    bec_server said;
    bec_fault fault;
    bec_client *other = connected(&own);
    uint64_t first = 0, second = 0;
    char run[128];
    OK(bec_hello(client, &said));
    CHECK(strcmp(said.kept, "each") == 0 && strcmp(said.version, said.library) == 0 && strchr(said.version, '.'));
    CHECK(said.pages == 2048 && said.passes > 0 && said.commits > 0 && said.watches == 32);
    snprintf(run, sizeof run, "%s", said.run);
    OK(bec_hello(other, &said));
    CHECK(*run && strcmp(said.run, run) == 0);
    OK(bec_number(client, &first));
    OK(bec_number(other, &second));
    CHECK(first != second);
    OK(bec_hello(client, NULL));
    GIVES(bec_hello(NULL, &said), BES_CLOSED);
    OK(bec_close(other));
    /* The server is another one after it was started again. */
    kill_server(&own);
    start_again(&own);
    GIVES(bec_set_text(client, 1, "name", "a"), BEC_LOST);
    OK(bec_last_fault(client, &fault));
    CHECK(fault.may_be_made == 0);
    GIVES(bec_hello(client, &said), BEC_LOST);
    says(client, BEC_LOST, 0, "the connection was lost before, because");
    OK(bec_close(client));
    client = connected(&own);
    OK(bec_hello(client, &said));
    CHECK(strcmp(said.run, run) != 0);
}

/* What the server has sent with an error. */
static void details(void)
{
    uint64_t place = 0;
    bec_fault fault;
    CHECK(!bec_detail(client, "name") && !bec_detail(NULL, "name"));
    GIVES(bec_find(client, "size>5 && color==red", NULL, 0, &place), BES_NOT_COVERED);
    CHECK(strcmp(bec_detail(client, "missing"), "size") == 0);
    CHECK(strcmp(bec_detail(client, "name"), "NotCovered") == 0);
    CHECK(strstr(bec_message(client), bec_detail(client, "message")) == bec_message(client));
    OK(bec_last_fault(client, &fault));
    CHECK(fault.number == strtoull(bec_detail(client, "offset"), NULL, 10));
    CHECK(!bec_detail(client, "other") && !bec_detail(client, "") && !bec_detail(client, NULL) && !bec_detail(client, "\xff"));
    /* The client's own errors have none. */
    GIVES(bec_apply(client, NULL, 1, NULL, 0, NULL, 0, NULL), BES_BAD_PART);
    CHECK(!bec_detail(client, "missing") && !bec_detail(client, "name"));
}

static void comparison(const bes_compared *it, const uint8_t *bytes, const char *name, const char *value, uint32_t kind, uint32_t in_text)
{
    const size_t name_length = (size_t)(it->plain_value_at - it->plain_name_at), length = (size_t)(it->plain_end - it->plain_value_at);
    CHECK(name_length == strlen(name) && memcmp(bytes + it->plain_name_at, name, name_length) == 0);
    CHECK(length == strlen(value) && memcmp(bytes + it->plain_value_at, value, length) == 0);
    CHECK(it->kind == kind && it->kind_in_text == in_text);
}

/* What a query compares. */
static void comparisons(void)
{
    static bes_compared compared[256];
    static uint8_t bytes[64 * 256];
    const char *query = "size>=5 && !(name!=\"A*\" || size<1.5) && other<=x && !(size>18446744073709551615 || size==7)";
    bes_counts counts = {7, 7};
    uint64_t place = 7;
    OK(bec_query_comparisons(client, bytes_of(query), strlen(query), &counts, compared, 256, bytes, sizeof bytes, &place));
    CHECK(counts.operations == 6 && place == 0);
    comparison(&compared[0], bytes, "size", "5", BES_ITEM_GE, BES_ITEM_GE);
    comparison(&compared[1], bytes, "name", "A*", BES_ITEM_EQ, BES_ITEM_NE);
    comparison(&compared[2], bytes, "size", "1.5", BES_ITEM_GE, BES_ITEM_LT);
    comparison(&compared[3], bytes, "other", "x", BES_ITEM_LE, BES_ITEM_LE);
    comparison(&compared[4], bytes, "size", "18446744073709551615", BES_ITEM_LE, BES_ITEM_GT);
    comparison(&compared[5], bytes, "size", "7", BES_ITEM_NE, BES_ITEM_EQ);
    CHECK(compared[5].plain_end == counts.bytes && compared[0].at == 0 && compared[0].end == 7);
    CHECK(strncmp(query + compared[3].at, "other<=x", (size_t)(compared[3].end - compared[3].at)) == 0);
    CHECK(compared[0].form == BES_FORM_NUMBER && compared[1].form == BES_FORM_PATTERN && compared[2].form == BES_FORM_TEXT);
    CHECK(!compared[0].is_never_int32 && compared[2].is_never_int32 && compared[2].is_never_uint64);
    CHECK(compared[4].is_never_uint64 == compared[4].is_never_int64);
    /* With less room, and with none. */
    memset(compared, 7, sizeof compared);
    OK(bec_query_comparisons(client, bytes_of(query), strlen(query), &counts, compared, 1, bytes, 2, NULL));
    CHECK(counts.operations == 6 && compared[0].at == 0 && compared[1].at == 0x0707070707070707);
    OK(bec_query_comparisons(client, bytes_of(query), strlen(query), NULL, NULL, 0, NULL, 0, NULL));
    GIVES(bec_query_comparisons(client, bytes_of("size>"), 5, &counts, compared, 1, bytes, 2, &place), BES_SYNTAX);
    CHECK(counts.operations == 6 && place == 5);
    GIVES(bec_query_comparisons(client, bytes_of("\xff"), 1, &counts, compared, 1, bytes, 2, &place), BES_NOT_UTF8);
}

/* Which parts of the indices a query reads. */
static void ways(void)
{
    char text[256] = {0};
    uint64_t count = 0;
    OK(bec_ways(client, bytes_of("n>=5"), 4, (uint8_t *)text, sizeof text - 1, &count));
    CHECK(count == strlen(text) && strstr(text, "n"));
    OK(bec_explain(client, bytes_of("n>=5"), 4, (uint8_t *)text, 1, &count));
    CHECK(count > 1 && strstr(text + 1, "\n") != text + 1);
    GIVES(bec_ways(client, bytes_of("m>=5"), 4, (uint8_t *)text, sizeof text, &count), BES_NOT_COVERED);
    CHECK(count == 0);
}

static void compacting(void)
{
    const char *options[] = {"--pages", "2048", NULL};
    server other;
    bec_client *without;
    OK(bec_compact(client));
    start(&other, options);
    without = connected(&other);
    GIVES(bec_compact(without), BEC_NOT_KEPT);
    CHECK(strcmp(bec_detail(without, "name"), "NotKept") == 0 && bec_is_open(without));
    OK(bec_close(without));
    end(&other);
}

int main(void)
{
    char keep[128];
    const char *options[] = {"--pages", "2048", "--keep", keep, NULL};
    snprintf(keep, sizeof keep, "/tmp/bestore-client-c-%d.kept", (int)getpid());
    start(&own, options);
    client = connected(&own);
    hello();
    OK(bec_make_index(client, "n", BES_INT64_TYPE));
    details();
    comparisons();
    ways();
    compacting();
    OK(bec_close(client));
    end(&own);
    unlink(keep);
    return 0;
}
