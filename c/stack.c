/* Measures how much stack each call takes: runs it in a thread whose stack was painted before, and counts the bytes that are no longer so.
 * No call may take more than bestore.h says. */
#ifndef _GNU_SOURCE
#define _GNU_SOURCE
#endif
#include "tests.h"
#include <pthread.h>
#include <sys/mman.h>

enum { KB = 1024, STACK = 1024 * KB, PAINT = 0xa5, NODES = 200, QUERY = 0, PLAIN = 32 * KB, BATCH = 64 * KB };

static bes_pass pass = BES_PASS_INIT, other = BES_PASS_INIT;
static bes_prepared prepared = BES_PREPARED_INIT;
static bes_draft draft = BES_DRAFT_INIT;
static bes_batch batch;
static bes_name by;
static char text[4096]; /* a query */
static uint64_t nodes[NODES], made[64], number, count, place;

/* Fills the batch with 64 operations on the indexed attributes. */
static void fill(void)
{
    static int64_t turn;
    bes_batch_clear(&batch);
    for (uint64_t node = 1; node <= 32; node++, turn++)
        OK(bes_batch_set_int64(&batch, node, "size", turn % 7) || bes_batch_set_text(&batch, node, "name", turn % 2 ? "ann" : "bob"));
}

static uint32_t fill_change(bes_pass *it, bes_batch *to, uint64_t next, void *with)
{
    (void)it;
    (void)next;
    (void)with;
    *to = batch;
    return BES_OK;
}

static void open_store(void) { OK(bes_open(1024, 3, 100000, &pass) || bes_another(&pass, &other)); }
static void apply(void) { OK(bes_batch_apply(&pass, &batch, 1, made, 64, &number)); }
static void apply_if(void) { CHECK(bes_batch_apply_if(&pass, 0, &batch, 1, made, 64, &number) == BES_CONFLICT); }
static void change(void) { OK(bes_change(&other, 1, fill_change, NULL, &number)); }
static void reindex(void) { OK(bes_reindex(&other, "size", 1, &count)); }
static void set(void) { OK(bes_set_text(&pass, 1, "name", "carol")); }
static void new_nodes(void) { OK(bes_new_nodes(&pass, 64, made)); }
static void make_index(void) { OK(bes_make_index(&pass, "later", BES_INT64_TYPE) || bes_remove_index(&pass, "later")); }
static void pin(void) { OK(bes_pin(&pass, &number) || bes_unpin(&pass) || bes_pin(&pass, &number)); }
static void query(void) { OK(bes_find(&pass, text, nodes, NODES, &count)); }
static void prepare(void) { OK(bes_prepare_text(text, &prepared, &place)); }
static void release(void) { OK(bes_release(&prepared)); }
static void query_prepared(void) { OK(bes_query_prepared(&pass, &prepared, nodes, NODES, &count)); }

static void parts(void)
{
    bes_cursor cursor = {0, 0, {0}};
    uint32_t more = 0;
    OK(bes_ordered(&pass, &prepared, &by, 1, &cursor, nodes, 10, &count, &more));
    OK(bes_first(&pass, &prepared, 0, nodes, 10, &count) || bes_any(&pass, &prepared, nodes, 10, &count));
}

static void refresh(void)
{
    bes_updates updates = {0, 0};
    OK(bes_refresh(&pass, &prepared, &updates) || bes_refresh_changed(&pass, &prepared, &updates));
}

static void explain(void)
{
    static uint8_t said[1 << 16];
    OK(bes_explain(&pass, (const uint8_t *)text, strlen(text), said, sizeof said, &count));
}

static void ways(void)
{
    static uint8_t said[1 << 16];
    OK(bes_ways(&pass, (const uint8_t *)text, strlen(text), said, sizeof said, &count));
}

static void uncovered(void)
{
    size_t at = 0;
    OK(bes_uncovered(&pass, text, strlen(text), &at));
    CHECK(at == strlen(text));
}

static void comparisons(void)
{
    static bes_index_list list;
    bes_comparison found;
    size_t at = 0, again = 0;
    CHECK(bes_next_comparison(text, strlen(text), &at, &found));
    OK(bes_list_indices(&pass, &list));
    CHECK(!bes_next_never_true(&list, text, strlen(text), &again, &found));
}

static void texts(void)
{
    char out[100];
    CHECK(bes_escape("[a]", out, sizeof out) > 0 && bes_any_case("draft", out, sizeof out) > 0);
    CHECK(bes_to_utf8("a\xff", 2, out, sizeof out) == 2 && *bes_strerror(BES_FULL) != 0);
}

static void pairs(void) { OK(bes_pairs(&pass, "size", &count)); }

static void reads(void)
{
    static uint8_t bytes[64 * (63 + 255)];
    static bes_operation operations[64];
    static bes_cell cells[NODES];
    bes_attribute value = {0, 0, 0};
    bes_counts counts = {0, 0};
    uint32_t held = 0;
    OK(bes_nodes(&pass, 0, nodes, NODES, &count) || bes_read(&pass, 1, "name", &value, bytes, 255));
    OK(bes_columns(&pass, nodes, 100, &by, 1, cells, NODES, bytes, sizeof bytes, &count));
    OK(bes_attributes(&pass, 1, &counts, operations, 64, bytes, sizeof bytes));
    OK(bes_indices(&pass, &counts, operations, 64, bytes, sizeof bytes) || bes_is_held(&pass, 1, (const uint8_t *)"size", 4, &held));
}

static void state(void)
{
    bes_place at = BES_PLACE_INIT;
    OK(bes_batch_state(&pass, &at, &batch) || bes_leave(&at));
}

static void journal(void)
{
    static uint8_t text[1 << 20];
    bes_usage usage;
    OK(bes_journal(&pass, text, sizeof text, &count) || bes_batch_entry(&pass, 1, &batch, &place, &count));
    OK(bes_status(&pass, &usage, &number));
}

static void to_bytes(void)
{
    static uint8_t bytes[BES_BATCH_BYTES];
    OK(bes_batch_to_bytes(&batch, bytes, sizeof bytes, &count) || bes_batch_from_bytes(&batch, bytes, (size_t)count, &place));
}

static void draft_changes(void)
{
    uint64_t next = 0, node = 0;
    bes_attribute value = {0, 0, 0};
    uint8_t bytes[255];
    OK(bes_begin_change(&other, &draft, &number, &next));
    for (size_t i = 0; i < batch.count; i++)
        OK(bes_change_add(&draft, &batch.operations[i], batch.bytes, batch.used, &node));
    OK(bes_change_get(&other, &draft, 1, (const uint8_t *)"size", 4, &value, bytes, sizeof bytes));
    OK(bes_end_change(&other, &draft, &number));
}

static void witness(void)
{
    bes_witness it = BES_WITNESS_INIT;
    OK(bes_witness_of(&other, &it) || bes_join(&pass, &it, &count) || bes_dismiss(&it));
}

static void finish(void)
{
    static uint8_t text[1 << 20];
    OK(bes_close(&other) || bes_finish(&pass, text, sizeof text, &count));
}

/* Builds a store whose trees have three levels. */
static void build(void)
{
    bes_builder builder = BES_BUILDER_INIT, moved = BES_BUILDER_INIT;
    bes_pass built = BES_PASS_INIT;
    const uint8_t *name = (const uint8_t *)"name";
    OK(bes_build(1024, 1, 1, &builder) || bes_build_index(&builder, name, 4, BES_STRING_TYPE) || bes_move_builder(&builder, &moved));
    for (uint64_t node = 1; node <= 2000; node++)
        OK(bes_build_node(&moved, node) || bes_build_attribute(&moved, name, 4, BES_STRING_TYPE, 0, name, 4, 1));
    OK(bes_build_finish(&moved, 2001, &built) || bes_close(&built));
}

typedef struct call {
    const char *name;
    void (*run)(void);
    size_t most; /* the bytes that bestore.h says */
} call;

static const call before[] = {
    {"bes_open", open_store, PLAIN}, {"bes_make_index", make_index, PLAIN}, {"bes_new_nodes", new_nodes, PLAIN},
    {"bes_apply", apply, PLAIN}, {"bes_apply_if", apply_if, PLAIN}, {"bes_set_text", set, PLAIN}, {"bes_change", change, BATCH},
    {"bes_begin_change", draft_changes, PLAIN}, {"bes_reindex", reindex, BATCH}, {"bes_pin", pin, PLAIN},
};
static const call of_queries[] = {
    {"bes_query", query, QUERY}, {"bes_prepare", prepare, QUERY}, {"bes_query_prepared", query_prepared, QUERY},
    {"bes_ordered, bes_first, bes_any", parts, QUERY}, {"bes_refresh", refresh, QUERY}, {"bes_explain", explain, QUERY}, {"bes_ways", ways, QUERY},
    {"bes_uncovered", uncovered, QUERY}, {"bes_next_comparison", comparisons, QUERY}, {"bes_release", release, PLAIN},
};
static const call after[] = {
    {"texts", texts, PLAIN}, {"bes_pairs", pairs, PLAIN}, {"bes_get, bes_columns", reads, PLAIN}, {"bes_state", state, PLAIN},
    {"bes_journal, bes_status", journal, PLAIN}, {"bes_batch_to_bytes", to_bytes, PLAIN}, {"bes_witness_of", witness, PLAIN},
    {"bes_build", build, PLAIN}, {"bes_finish", finish, PLAIN},
};

static const uint8_t *top; /* where the thread's stack was when it began its call */

static void *run_call(void *it)
{
    uint8_t here = 0;
    top = &here;
    ((const call *)it)->run();
    return NULL;
}

/* Runs a call in a thread of its own, and returns how many bytes of stack it took. */
static size_t taken_by(const call *it)
{
    size_t left = 0, taken;
    pthread_attr_t attributes;
    pthread_t thread;
    uint8_t *stack = mmap(NULL, STACK, PROT_READ | PROT_WRITE, MAP_PRIVATE | MAP_ANONYMOUS | MAP_STACK, -1, 0);
    CHECK(stack != MAP_FAILED);
    memset(stack, PAINT, STACK);
    CHECK(pthread_attr_init(&attributes) == 0 && pthread_attr_setstack(&attributes, stack, STACK) == 0);
    CHECK(pthread_create(&thread, &attributes, run_call, (void *)(uintptr_t)it) == 0 && pthread_join(thread, NULL) == 0);
    while (left < STACK && stack[left] == PAINT)
        left++;
    taken = (size_t)(top - stack) - left;
    pthread_attr_destroy(&attributes);
    munmap(stack, STACK);
    return taken;
}

static int faults;
static bool is_listed; /* whether to print each call's count */

/* Makes calls one after another. Those of a query may take 16 KB, and 1 KB for each of this many comparisons. */
static void measure(const call *calls, size_t calls_count, size_t comparisons_count)
{
    for (size_t i = 0; i < calls_count; i++) {
        const size_t most = calls[i].most != QUERY ? calls[i].most : (16 + comparisons_count) * KB;
        size_t taken;
        fill();
        taken = taken_by(&calls[i]);
        if (is_listed)
            printf("%s with %zu comparisons: %zu\n", calls[i].name, comparisons_count, taken);
        if (taken > most) {
            fprintf(stderr, "%s takes %zu bytes of stack, more than %zu\n", calls[i].name, taken, most);
            faults++;
        }
    }
}

/* Writes a query of this many comparisons: joined by &&, by ||, or by both with as many parentheses as a query may have. */
static void write_query(int comparisons_count, int shape)
{
    size_t at = 0, ends = 0;
    for (int i = 0; i < comparisons_count; i++) {
        const char *join = i == 0 ? "" : shape == 0 || (shape == 2 && i % 2 == 0) ? "&&" : "||";
        const bool opens = shape == 2 && i > 0 && i < 64;
        at += (size_t)sprintf(text + at, "%s%ssize>=%d", join, opens ? "(" : "", -(i % 7));
        ends += opens;
    }
    while (ends-- > 0)
        text[at++] = ')';
    text[at] = 0;
    CHECK(at < sizeof text);
}

int main(int argc, char **argv)
{
    static const int sizes[] = {1, 16, 256};
    is_listed = argc > 1 && strcmp(argv[1], "list") == 0;
    OK(bes_check_name_text("size", &by));
    measure(before, 1, 0);
    OK(bes_make_index(&pass, "size", BES_INT64_TYPE) || bes_make_index(&pass, "name", BES_STRING_TYPE));
    measure(before + 1, sizeof before / sizeof *before - 1, 0);
    for (int shape = 0; shape < 3; shape++)
        for (size_t i = 0; i < sizeof sizes / sizeof *sizes; i++) {
            write_query(sizes[i], shape);
            measure(of_queries, sizeof of_queries / sizeof *of_queries, (size_t)sizes[i]);
        }
    measure(after, sizeof after / sizeof *after, 0);
    return faults == 0 ? 0 : 1;
}
