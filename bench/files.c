/* Fills a store with files of five attributes, three of them indexed, and makes some calls that callgrind counts, each kind as a step of
 * its own. bench/files.py runs it. The arguments are the number of pages and the number of files. */
#include "../c/tests.h"
#include <valgrind/callgrind.h>

enum { CALLS = 500, IN_BATCH = 10, PAGE_OF_FILES = 50, IN_RANGE = 30, SIZES = 10000000 };

static bes_pass pass = BES_PASS_INIT;
static bes_batch batch;
static bes_prepared all = BES_PREPARED_INIT;
static bes_name by;
static uint64_t files, number, turn, found[64];

/* Returns a number that looks random, always the same for one seed. */
static uint64_t mixed(uint64_t seed)
{
    seed *= 0x9E3779B97F4A7C15u;
    seed = (seed ^ seed >> 29) * 0xBF58476D1CE4E5B9u;
    return seed ^ seed >> 32;
}

static const char *name_of(uint64_t file)
{
    static char name[48];
    snprintf(name, sizeof name, "%08x file %d.jpg", (unsigned)(mixed(file) & 0xffffffff), (int)file);
    return name;
}

static void add(uint64_t file)
{
    char path[64];
    snprintf(path, sizeof path, "/home/ann/pictures/%d/%d", (int)(file % 100), (int)file);
    OK(bes_batch_new_node(&batch) || bes_batch_set_text(&batch, file, "name", name_of(file)));
    OK(bes_batch_set_int64(&batch, file, "size", (int64_t)(mixed(file) % SIZES)) || bes_batch_set_text(&batch, file, "path", path));
    OK(bes_batch_set_int64(&batch, file, "last_modified", 1700000000 + (int64_t)(mixed(mixed(file)) % 100000000)));
    OK(bes_batch_set_int64(&batch, file, "inode", (int64_t)file));
}

static void fill(void)
{
    OK(bes_make_index(&pass, "name", BES_STRING_TYPE) || bes_make_index(&pass, "size", BES_INT64_TYPE));
    OK(bes_make_index(&pass, "last_modified", BES_INT64_TYPE));
    for (uint64_t file = 1; file <= files; file++) {
        add(file);
        if (file % IN_BATCH == 0 || file == files) {
            OK(bes_batch_apply(&pass, &batch, 1, found, 64, &number));
            bes_batch_clear(&batch);
        }
    }
}

static uint64_t some_file(void) { return 1 + mixed(turn++) % files; }

static void one_hit(void)
{
    char query[64];
    uint64_t count = 0;
    snprintf(query, sizeof query, "name==\"%s\"", name_of(some_file()));
    OK(bes_find(&pass, query, found, 64, &count));
    CHECK(count == 1);
}

/* Another index than the one that orders the page finds the files. */
static void newest(void)
{
    bes_cursor cursor = {0, 0, {0}};
    uint64_t count = 0;
    uint32_t more = 0;
    OK(bes_ordered(&pass, &all, &by, 1, &cursor, found, PAGE_OF_FILES, &count, &more));
    CHECK(count == PAGE_OF_FILES);
}

static void range(void)
{
    char query[64];
    uint64_t count = 0, from = mixed(turn++) % (SIZES / 10 * 9), width = (uint64_t)SIZES * IN_RANGE / files;
    snprintf(query, sizeof query, "size>=%d && size<%d", (int)from, (int)(from + width));
    OK(bes_find(&pass, query, found, 64, &count));
}

static void set(void)
{
    const uint64_t file = some_file();
    OK(bes_set_int64(&pass, file, "size", (int64_t)(mixed(turn) % SIZES)));
}

/* Makes the calls, which are counted under the step's name. */
static void count(const char *step, void (*call)(void))
{
    call();
    turn = 0;
    CALLGRIND_DUMP_STATS_AT("between");
    CALLGRIND_START_INSTRUMENTATION;
    for (int i = 0; i < CALLS; i++)
        call();
    CALLGRIND_STOP_INSTRUMENTATION;
    CALLGRIND_DUMP_STATS_AT(step);
}

int main(int argc, char **argv)
{
    const char *query = "size>=0";
    CHECK(argc == 3);
    files = strtoull(argv[2], NULL, 10);
    OK(bes_open(strtoull(argv[1], NULL, 10), 1, UINT32_MAX, &pass));
    fill();
    OK(bes_prepare_text(query, &all, &number) || bes_check_name_text("last_modified", &by) || bes_pin(&pass, &number));
    count("one hit, parsed", one_hit);
    count("the newest 50 of all", newest);
    count("about 30 of a range", range);
    OK(bes_unpin(&pass));
    count("set, indexed", set);
    OK(bes_release(&all) || bes_close(&pass));
    printf("%d\n", CALLS);
    return 0;
}
