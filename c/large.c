/* Tests a store of more than two million nodes, and how much memory stores take: little once they are open, and later what their
 * pages in use take, however large the writes are. With an argument, it tests a smaller store, and measures no memory: it then runs
 * under a tool that needs memory itself. */
#include "tests.h"
#include <sys/resource.h>
#include <unistd.h>

enum { LIST = 64, PAGE = 4096, MEGABYTE = 1 << 20, STEP = 4, AT_ONCE = 1000, ALL_PAGES = 16777216 };

static bes_pass pass = BES_PASS_INIT;
static bes_batch batch;
static uint64_t pages = 524288, nodes_count = 2100000, number, *found;
static bool measures = true;

/* Returns how many bytes of the process are in memory. */
static uint64_t resident(void)
{
    FILE *file = fopen("/proc/self/statm", "r");
    unsigned long long total = 0, count = 0;
    CHECK(file != NULL && fscanf(file, "%llu %llu", &total, &count) == 2);
    fclose(file);
    return count * (uint64_t)sysconf(_SC_PAGESIZE);
}

/* Returns the highest number of bytes that have been in memory so far. */
static uint64_t peak(void)
{
    struct rusage usage;
    CHECK(getrusage(RUSAGE_SELF, &usage) == 0);
    return (uint64_t)usage.ru_maxrss * 1024;
}

/* An opened store takes at most 30 MB for up to 524,288 pages, and the size of its pages, only while it is being opened. */
static void opens(void)
{
    const uint64_t before = resident();
    CHECK(bes_open(ALL_PAGES + 1, 1, UINT32_MAX, &pass) == BES_BAD_LIMITS);
    OK(bes_open(pages, 1, UINT32_MAX, &pass));
    if (measures) {
        CHECK(resident() - before <= 30u * MEGABYTE);
        CHECK(peak() - before <= pages * PAGE + 40u * MEGABYTE);
    }
}

/* A store that is being built takes what it was given so far, and later what its pages in use take. */
static void builds(void)
{
    bes_builder builder = BES_BUILDER_INIT;
    const uint64_t before = resident();
    OK(bes_build(pages / 4, 1, UINT32_MAX, &builder) || bes_build_node(&builder, 7));
    CHECK(!measures || resident() - before <= 10u * MEGABYTE);
    OK(bes_build_finish(&builder, 8, &pass));
    CHECK(!measures || resident() - before <= 10u * MEGABYTE);
    OK(bes_new_node(&pass, &number));
    CHECK(number == 8);
    OK(bes_close(&pass));
}

/* Creates the nodes. Each STEP-th node has its number as the indexed `k`. */
static void fill(void)
{
    OK(bes_make_index(&pass, "k", BES_INT32_TYPE));
    for (uint64_t node = 1; node <= nodes_count; node++) {
        OK(bes_batch_new_node(&batch));
        OK(node % STEP == 0 ? bes_batch_set_int32(&batch, node, "k", (int32_t)node) : BES_OK);
        if (batch.count + 2 > LIST || node == nodes_count) {
            OK(bes_batch_apply(&pass, &batch, 1, found, LIST, &number));
            bes_batch_clear(&batch);
        }
    }
}

/* A filled store takes what its pages in use take, and its journal. */
static void takes_its_pages(uint64_t before)
{
    bes_usage usage;
    uint64_t used, journal;
    OK(bes_status(&pass, &usage, &number));
    used = (usage.pages - usage.free) * PAGE;
    journal = usage.entries * (LIST * 16 + 64);
    printf("%d nodes, %d MB of pages, %d MB resident\n", (int)nodes_count, (int)(used / MEGABYTE), (int)((resident() - before) / MEGABYTE));
    CHECK(!measures || resident() - before <= used / 20 * 21 + journal + 30u * MEGABYTE);
}

/* Returns whether these are the numbers from `first` on, at this distance. */
static bool are_from(uint64_t first, uint64_t step, uint64_t count)
{
    for (uint64_t i = 0; i < count; i++)
        if (found[i] != first + i * step)
            return false;
    return true;
}

/* All nodes can be listed. Queries find all nodes with a `k`, those near the end, and a page of these. */
static void finds(void)
{
    bes_prepared prepared = BES_PREPARED_INIT;
    bes_cursor cursor = {0, 0, {0}};
    bes_name by;
    const uint64_t from = nodes_count - AT_ONCE * STEP;
    uint64_t count = 0;
    uint32_t more = 7;
    char text[64];
    OK(bes_pin(&pass, &number) || bes_nodes(&pass, 0, found, nodes_count, &count));
    CHECK(count == nodes_count && are_from(1, 1, count));
    OK(bes_find(&pass, "k>0", found, nodes_count, &count));
    CHECK(count == nodes_count / STEP && are_from(STEP, STEP, count));
    snprintf(text, sizeof text, "k>%d", (int)from);
    OK(bes_find(&pass, text, found, nodes_count, &count));
    CHECK(count == AT_ONCE && are_from(from + STEP, STEP, count));
    OK(bes_prepare_text(text, &prepared, &number) || bes_check_name_text("k", &by));
    OK(bes_ordered(&pass, &prepared, &by, 0, &cursor, found, LIST, &count, &more));
    CHECK(count == LIST && more == 1 && are_from(from + STEP, STEP, count));
    OK(bes_release(&prepared) || bes_unpin(&pass));
}

/* The last node can be changed, and one before it removed. */
static void changes(void)
{
    uint64_t count = 0;
    OK(bes_set_int32(&pass, nodes_count, "k", -1) || bes_remove_node(&pass, nodes_count - STEP) || bes_pin(&pass, &number));
    OK(bes_find(&pass, "k<=0", found, nodes_count, &count));
    CHECK(count == 1 && found[0] == nodes_count);
    OK(bes_find(&pass, "k>0", found, nodes_count, &count) || bes_unpin(&pass));
    CHECK(count == nodes_count / STEP - 2 && are_from(STEP, STEP, count));
}

/* Returns a number that looks random, always the same for one node and name. */
static int64_t mixed(uint64_t node, uint64_t name)
{
    uint64_t number = (node * 3 + name) * 0x9e3779b97f4a7c15u;
    number ^= number >> 29;
    return (int64_t)(number * 0xbf58476d1ce4e5b9u >> 16);
}

/* Writes of 64 operations, whose values are far apart in three indices, change many pages each. They use the same pages again instead
 * of more and more of a pool that is much larger. A page that is in use may have another one for its next copy. */
static void reuses_pages(void)
{
    static const char *const names[] = {"a", "b", "c"};
    const uint64_t before = resident();
    bes_usage usage;
    OK(bes_open(65536, 1, UINT32_MAX, &pass));
    for (int i = 0; i < 3; i++)
        OK(bes_make_index(&pass, names[i], BES_INT64_TYPE));
    for (uint64_t node = 1; node <= 16000; node++) {
        OK(bes_batch_new_node(&batch));
        for (uint64_t i = 0; i < 3; i++)
            OK(bes_batch_set_int64(&batch, node, names[i], mixed(node, i)));
        if (batch.count == LIST) {
            OK(bes_batch_apply(&pass, &batch, 1, found, LIST, &number));
            bes_batch_clear(&batch);
        }
    }
    OK(bes_status(&pass, &usage, &number));
    printf("%d MB of pages in use, %d MB resident\n", (int)((usage.pages - usage.free) * PAGE / MEGABYTE),
           (int)((resident() - before) / MEGABYTE));
    CHECK(!measures || resident() - before <= 2 * (usage.pages - usage.free) * PAGE + 20u * MEGABYTE);
    OK(bes_close(&pass));
}

int main(int argc, char **argv)
{
    uint64_t before;
    (void)argv;
    if (argc > 1) {
        pages = 4096;
        nodes_count = 10000;
        measures = false;
    }
    builds();
    before = resident();
    opens();
    found = malloc(nodes_count * sizeof *found);
    CHECK(found != NULL);
    fill();
    takes_its_pages(before);
    finds();
    changes();
    OK(bes_close(&pass));
    reuses_pages();
    free(found);
    return 0;
}
