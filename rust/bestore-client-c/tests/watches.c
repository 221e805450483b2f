/* Tests live queries: what is reported as it happens, and what a refresh adds up to. */
#include "tests.h"
#include <poll.h>

enum { MOST = 70000, A_WHILE = 300 };

static server own;
static bec_client *client, *other;
static uint64_t created[MOST], removed[MOST];

/* Waits for an update, and reads its nodes. */
static bec_update next_update(uint32_t within)
{
    bec_update update;
    OK(bec_wait(client, within, &update));
    OK(bec_changes(client, created, MOST, removed, MOST));
    return update;
}

static uint64_t sized(int64_t size)
{
    uint64_t node = 0;
    OK(bec_new_node(other, &node));
    OK(bec_set_int64(other, node, "size", size));
    return node;
}

static void reported(void)
{
    bec_update update, end;
    uint64_t first = sized(5), second = 0, number = 0;
    OK(bec_watch_text(client, "size>=5", &update));
    OK(bec_pin(other, &number));
    OK(bec_unpin(other));
    CHECK(update.watch == 1 && update.created == 1 && update.removed == 0 && update.error == BES_OK && update.number == number);
    OK(bec_changes(client, created, MOST, removed, MOST));
    CHECK(created[0] == first);
    CHECK(next_update(0).watch == 0 && next_update(A_WHILE).watch == 0);
    second = sized(6);
    update = next_update(PATIENCE);
    CHECK(update.watch == 1 && update.created == 1 && created[0] == second && update.removed == 0 && update.number > number);
    OK(bec_set_int64(other, first, "size", 4));
    update = next_update(PATIENCE);
    CHECK(update.created == 0 && update.removed == 1 && removed[0] == first);
    created[0] = removed[0] = 7;
    OK(bec_changes(client, created, 1, removed, 0));
    OK(bec_changes(client, NULL, 0, NULL, 0));
    CHECK(created[0] == 7 && removed[0] == 7);
    sized(1); /* not in the result, so nothing is reported */
    CHECK(next_update(A_WHILE).watch == 0);
    OK(bec_unwatch(client, 1));
    sized(9);
    CHECK(next_update(A_WHILE).watch == 0);
    GIVES(bec_unwatch(client, 1), BEC_NO_WATCH);
    GIVES(bec_refresh(client, 1, &update), BEC_NO_WATCH);
    GIVES(bec_watch_text(client, "size>", &end), BES_SYNTAX);
    CHECK(end.watch == 0 && end.number == 5);
    GIVES(bec_watch_text(client, "other==1", &end), BES_NOT_COVERED);
    GIVES(bec_watch(client, (const uint8_t *)"\xff", 1, &end), BES_NOT_UTF8);
}

/* A watch without a query reports commits. */
static void commits(void)
{
    bec_update update;
    uint64_t watch = 0, number = 0;
    OK(bec_watch(client, NULL, 0, &update));
    watch = update.watch;
    CHECK(watch > 0 && update.created == 0);
    sized(5);
    OK(bec_pin(other, &number));
    OK(bec_unpin(other));
    do {
        update = next_update(PATIENCE);
        CHECK(update.watch == watch && update.created == 0 && update.removed == 0 && update.number <= number);
    } while (update.number < number);
    OK(bec_unwatch(client, watch));
}

/* The descriptor becomes readable when something was sent. */
static void polled(void)
{
    bec_update update;
    struct pollfd polling = {-1, POLLIN, 0};
    GIVES(bec_descriptor(NULL, &polling.fd), BES_CLOSED);
    OK(bec_descriptor(client, &polling.fd));
    OK(bec_watch_text(client, "size==77", &update));
    const uint64_t watch = update.watch;
    CHECK(next_update(0).watch == 0 && poll(&polling, 1, 0) == 0);
    const uint64_t node = sized(77);
    CHECK(poll(&polling, 1, PATIENCE) == 1);
    update = next_update(0);
    CHECK(update.watch == watch && update.created == 1 && created[0] == node);
    CHECK(next_update(0).watch == 0 && poll(&polling, 1, 0) == 0);
    OK(bec_unwatch(client, watch));
}

/* A live query ends when its index is removed, and says why. */
static void ended(void)
{
    bec_update update;
    uint64_t watches[33] = {0};
    OK(bec_make_index(other, "short", BES_INT64_TYPE));
    OK(bec_watch_text(client, "short==1", &update));
    const uint64_t watch = update.watch;
    OK(bec_remove_index(other, "short"));
    update = next_update(PATIENCE);
    CHECK(update.watch == watch && update.error == BES_NOT_COVERED);
    says(client, BES_NOT_COVERED, 0, bec_strerror(BES_NOT_COVERED));
    GIVES(bec_refresh(client, watch, &update), BEC_NO_WATCH);
    /* If the end wasn't reported yet, the refresh says why. */
    OK(bec_make_index(other, "short", BES_INT64_TYPE));
    OK(bec_watch_text(client, "short==1", &update));
    OK(bec_remove_index(other, "short"));
    uint32_t error = BES_OK;
    for (const uint64_t begin = now(); error == BES_OK && now() - begin < PATIENCE;)
        error = bec_refresh(client, update.watch ? update.watch : watch, &update);
    CHECK(error == BES_NOT_COVERED);
    /* The server may still have that live query, and report its end later. The other client has none. */
    next_update(A_WHILE);
    for (size_t i = 0; i < 32; i++) {
        OK(bec_watch_text(other, "size==1", &update));
        watches[i] = update.watch;
    }
    GIVES(bec_watch_text(other, "size==1", &update), BEC_TOO_MANY_WATCHES);
    for (size_t i = 0; i < 32; i++)
        OK(bec_unwatch(other, watches[i]));
}

/* A result of more than one line is reported whole, when the watch begins and later. */
static void large(void)
{
    enum { NODES = 60000 };
    static uint64_t nodes[NODES];
    static bes_batch batch;
    bec_update update;
    for (size_t i = 0; i < NODES; i += 64)
        OK(bec_new_nodes(other, NODES - i < 64 ? NODES - i : 64, nodes + i));
    for (size_t i = 0; i < NODES;) {
        bes_batch_clear(&batch);
        for (; i < NODES && batch.count < 64; i++)
            OK(bes_batch_set_int64(&batch, nodes[i], "size", 1000));
        OK(bec_batch_apply(other, &batch, NULL, 0, NULL));
    }
    OK(bec_watch_text(client, "size==1000", &update));
    CHECK(update.created == NODES);
    OK(bec_changes(client, created, MOST, removed, MOST));
    CHECK(memcmp(created, nodes, sizeof nodes) == 0);
    OK(bec_remove_index(other, "size"));
    CHECK(next_update(PATIENCE).error == BES_NOT_COVERED);
    OK(bec_make_index(other, "size", BES_INT64_TYPE));
    OK(bec_watch_text(client, "size==1000", &update));
    CHECK(update.created == 0);
    const uint64_t watch = update.watch;
    for (size_t i = 0; i < NODES;) {
        bes_batch_clear(&batch);
        for (; i < NODES && batch.count < 64; i++)
            OK(bes_batch_set_int64(&batch, nodes[i], "size", 1000));
        OK(bec_batch_apply(other, &batch, NULL, 0, NULL));
    }
    OK(bec_refresh(client, watch, &update));
    CHECK(update.created == NODES && update.watch == watch);
    OK(bec_unwatch(client, watch));
}

/* The nodes that a live query has according to its updates. */
static bool has[200];

static void apply(const bec_update *update)
{
    OK(bec_changes(client, created, MOST, removed, MOST));
    for (uint64_t i = 0; i < update->removed; i++) {
        CHECK(has[removed[i]]);
        has[removed[i]] = false;
    }
    for (uint64_t i = 0; i < update->created; i++) {
        CHECK(!has[created[i]]);
        has[created[i]] = true;
    }
}

/* While another client writes at random, the sum of all updates is the result in the snapshot of each refresh. */
static void sums(int rounds)
{
    bec_update update;
    unsigned seed = (unsigned)getpid();
    uint64_t nodes[200], count = 0, number = 0;
    OK(bec_watch_text(client, "size<50", &update));
    const uint64_t watch = update.watch;
    apply(&update);
    for (int round = 0; round < rounds; round++) {
        const bool pins = rand_r(&seed) % 2;
        if (pins)
            OK(bec_pin(client, &number));
        for (int i = rand_r(&seed) % 5; i > 0; i--)
            OK(bec_set_int64(other, 1 + (uint64_t)rand_r(&seed) % 100, "size", rand_r(&seed) % 100));
        if (rand_r(&seed) % 3 == 0) {
            OK(bec_wait(client, (uint32_t)rand_r(&seed) % 10, &update));
            apply(&update);
        }
        if (!pins)
            OK(bec_pin(client, &number));
        OK(bec_refresh(client, watch, &update));
        CHECK(update.watch == watch && update.number == number);
        apply(&update);
        OK(bec_find(client, "size<50", nodes, 200, &count));
        uint64_t sum = 0;
        for (size_t i = 0; i < 200; i++)
            sum += has[i];
        CHECK(sum == count);
        for (uint64_t i = 0; i < count; i++)
            CHECK(has[nodes[i]]);
        OK(bec_unpin(client));
    }
    OK(bec_unwatch(client, watch));
}

int main(int argc, char **argv)
{
    const bool is_short = argc > 1 && strcmp(argv[1], "short") == 0;
    const char *options[] = {"--pages", "262144", NULL};
    start(&own, options);
    client = connected(&own);
    other = connected(&own);
    OK(bec_make_index(client, "size", BES_INT64_TYPE));
    reported();
    commits();
    polled();
    ended();
    for (int i = 0; i < 2; i++)
        for (int node = 0; node < 64; node++)
            sized(node);
    sums(is_short ? 20 : 300);
    if (!is_short)
        large();
    OK(bec_close(other));
    OK(bec_close(client));
    return 0;
}
