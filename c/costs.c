/* Measures what calls cost in instructions and memory writes. `costs CASE SIZE` runs a case in a store of that size. tests/costs
 * runs this program under valgrind's callgrind, which counts each step separately, and checks the limits. */
#include "tests.h"
#include <valgrind/callgrind.h>

enum { MOST_NODES = 13000, PAGES = 16384, LIST = 64, CALLS = 64, TEXT = 40 };

static bes_pass mine = BES_PASS_INIT;
static bes_prepared prepared = BES_PREPARED_INIT;
static bes_batch batch;
static uint64_t nodes_count, turn, number, found_count, found[MOST_NODES];

/* Makes this many calls, which are counted under the step's name. */
static void count(const char *step, void (*call)(void), int calls)
{
    CALLGRIND_DUMP_STATS_AT("between");
    CALLGRIND_START_INSTRUMENTATION;
    for (int i = 0; i < calls; i++)
        call();
    CALLGRIND_STOP_INSTRUMENTATION;
    CALLGRIND_DUMP_STATS_AT(step);
}

static void apply(void)
{
    OK(bes_batch_apply(&mine, &batch, 1, found, LIST, &number));
    bes_batch_clear(&batch);
}

/* Returns a string of 48 bytes. The strings sort in the order of their numbers. */
static const char *text_of(uint64_t n)
{
    static char text[TEXT + 10];
    memset(text, 'x', TEXT);
    snprintf(text + TEXT, sizeof text - TEXT, "%08d", (int)n);
    return text;
}

/* Opens a store in which each node has its number as `k`, a string for that number as `t`, both indexed, and a number `v`. */
static void open_filled(void)
{
    OK(bes_open(PAGES, 2, 1000000, &mine));
    OK(bes_make_index(&mine, "k", BES_INT32_TYPE) || bes_make_index(&mine, "t", BES_STRING_TYPE));
    OK(bes_make_index(&mine, "few", BES_INT32_TYPE));
    bes_batch_clear(&batch);
    for (uint64_t node = 1; node <= nodes_count; node++) {
        OK(bes_batch_new_node(&batch) || bes_batch_set_int32(&batch, node, "k", (int32_t)node));
        OK(bes_batch_set_int64(&batch, node, "v", 0) || bes_batch_set_text(&batch, node, "t", text_of(node)));
        if (batch.count + 4 > LIST || node == nodes_count)
            apply();
    }
}

/* Returns the nodes out of order. No node is repeated until all have been returned. */
static uint64_t some_node(void)
{
    turn += 1;
    return 1 + turn * 7919 % nodes_count;
}

static void set(void) { OK(bes_set_int64(&mine, some_node(), "v", (int64_t)turn)); }

/* Makes single writes, and the same writes again after one that was refused. */
static void sets(void)
{
    open_filled();
    set();
    turn = 0;
    count("set", set, CALLS);
    CHECK(bes_set_int64(&mine, nodes_count + 1, "v", 1) == BES_NO_NODE);
    turn = 0;
    count("set after a refusal", set, CALLS);
}

static void set_indexed(void) { OK(bes_set_int32(&mine, some_node(), "k", (int32_t)turn)); }

/* Adds 1 to a node's `k`. */
static uint32_t count_up(bes_pass *pass, bes_batch *batch, uint64_t next, void *with)
{
    const uint64_t node = some_node();
    bes_attribute read = {0, 0, 0};
    uint8_t none = 0;
    (void)next;
    (void)with;
    OK(bes_read(pass, node, "k", &read, &none, 0));
    return bes_batch_set_int32(batch, node, "k", (int32_t)read.number + 1);
}

static void change(void) { OK(bes_change(&mine, 1, count_up, NULL, &number)); }

/* Sets an indexed attribute with a single write, and in a change that reads it first. */
static void changes(void)
{
    open_filled();
    set_indexed();
    count("indexed set", set_indexed, CALLS);
    change();
    count("change", change, CALLS);
}

/* Sets an indexed attribute before another pass is pinned, and after that pass has kept the pages of many versions. */
static void kept(void)
{
    enum { KEPT = 8000, FIRST = 8 };
    bes_pass reader = BES_PASS_INIT;
    bes_usage usage = {0};
    open_filled();
    set_indexed();
    count("indexed set", set_indexed, CALLS);
    OK(bes_another(&mine, &reader) || bes_pin(&reader, &number));
    while (usage.retired < KEPT) {
        set_indexed();
        OK(bes_status(&mine, &usage, &number));
    }
    OK(bes_unpin(&reader));
    count("indexed set after a pin", set_indexed, FIRST);
    OK(bes_close(&reader));
}

static void ask(void) { OK(bes_query_prepared(&mine, &prepared, found, MOST_NODES, &found_count)); }

/* Prepares a query that this many nodes match, and runs it once. */
static void prepare(const char *query, uint64_t count_met)
{
    uint64_t place = 0;
    bes_release(&prepared);
    OK(bes_prepare_text(query, &prepared, &place));
    ask();
    CHECK(found_count == count_met);
}

/* Runs a prepared query that is decided by a range and matched by half of the nodes. */
static void ranges(void)
{
    char query[40];
    open_filled();
    OK(bes_pin(&mine, &number));
    snprintf(query, sizeof query, "k<=%d", (int)nodes_count / 2);
    prepare(query, nodes_count / 2);
    count("range", ask, 1);
}

/* Reads the first page of a result in an index's order. */
static void ask_page(void)
{
    enum { PAGE = 50 };
    bes_cursor cursor = {0, 0, {0}};
    bes_name by = {0, {0}};
    uint32_t more = 0;
    OK(bes_check_name_text("t", &by));
    OK(bes_ordered(&mine, &prepared, &by, 1, &cursor, found, PAGE, &found_count, &more));
    CHECK(found_count == PAGE && more == 1);
}

static void ask_any(void)
{
    OK(bes_any(&mine, &prepared, found, 1, &found_count));
    CHECK(found_count == 1);
}

/* Runs prepared queries in a large store. Two find few nodes: one uses a range of strings, and one must check 70 nodes for an
 * attribute that all nodes have. The others match all nodes: one reads a page, one reads any one node, and one reads a page while
 * a second index finds some of the nodes too. */
static void queries(void)
{
    char query[200], after[TEXT + 10];
    open_filled();
    for (uint64_t node = 1; node <= 70; node++)
        OK(bes_set_int32(&mine, node * 3, "few", 1));
    OK(bes_pin(&mine, &number));
    memcpy(after, text_of(nodes_count / 2), sizeof after);
    snprintf(query, sizeof query, "t>=%s&&t<%s", after, text_of(nodes_count / 2 + 20));
    prepare(query, 20);
    count("range of texts", ask, 1);
    prepare("few==1&&k>0", 70);
    count("two indices", ask, 1);
    prepare("k>0", nodes_count);
    count("page in order", ask_page, 1);
    count("any node", ask_any, 1);
    prepare("few==1||k>0", nodes_count);
    count("page by two indices", ask_page, 1);
}

static void refresh(void)
{
    bes_updates updates = {0, 0};
    OK(bes_refresh(&mine, &prepared, &updates));
}

static void refresh_changed(void)
{
    bes_updates updates = {0, 0};
    OK(bes_refresh_changed(&mine, &prepared, &updates));
}

/* Writes to one node this many times, and then pins the current version. */
static void write_one(uint64_t times)
{
    OK(bes_unpin(&mine));
    for (uint64_t i = 0; i < times; i++)
        OK(bes_set_int64(&mine, 7, "v", (int64_t)i));
    OK(bes_pin(&mine, &number));
}

/* Refreshes a large result: by running the whole query, after one write to a node, and after one write for each node in the
 * result, all to the same node. */
static void live(void)
{
    open_filled();
    OK(bes_pin(&mine, &number));
    write_one(20);
    prepare("k>0", nodes_count);
    refresh();
    count("refresh", refresh, 1);
    write_one(1);
    count("refresh by one node", refresh_changed, 1);
    write_one(nodes_count);
    count("refresh by many writes", refresh_changed, 1);
}

static const struct row {
    const char *name;
    void (*run)(void);
} cases[] = {{"sets", sets}, {"changes", changes}, {"kept", kept}, {"ranges", ranges}, {"queries", queries}, {"live", live}};

int main(int argc, char **argv)
{
    for (size_t i = 0; argc == 3 && i < sizeof cases / sizeof *cases; i++)
        if (strcmp(cases[i].name, argv[1]) == 0) {
            nodes_count = strtoull(argv[2], NULL, 10);
            CHECK(nodes_count >= 300 && nodes_count <= MOST_NODES);
            cases[i].run();
            OK(bes_close(&mine));
            return 0;
        }
    fprintf(stderr, "usage: %s CASE SIZE\n", argv[0]);
    return 2;
}
