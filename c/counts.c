/* Counts what calls store and allocate: the words of pages that a write changes, the bytes that a call requests from malloc, and
 * the blocks that are freed once a handle is closed. No contract limits these. The sizes are random; BESTORE_SEED repeats those
 * of an earlier run. Linked with -Wl,--wrap=malloc,--wrap=calloc,--wrap=realloc,--wrap=free, so that all of the library's requests
 * pass through here. */
#include "tests.h"
#include <time.h>

enum { LIST = 64, PAGE_WORDS = 512, LEAST_NODES = 1000, MOST_NODES = 2500, MOST_PAGES = 2048, MOST_FOUND = 26000, LEAST_FOUND = 200 };

void *__real_malloc(size_t bytes);
void *__real_calloc(size_t items, size_t bytes);
void *__real_realloc(void *old, size_t bytes);
void __real_free(void *block);
void *__wrap_malloc(size_t bytes);
void *__wrap_calloc(size_t items, size_t bytes);
void *__wrap_realloc(void *old, size_t bytes);
void __wrap_free(void *block);

static uint64_t asked;   /* how many bytes were requested */
static uint64_t longest; /* the size of the largest request in bytes */
static int64_t in_use;   /* the number of blocks in use */
static uint64_t *words;  /* the last block that is large enough for the words of all pages */
static size_t words_count;

static void ask(size_t bytes)
{
    asked += bytes;
    longest = bytes > longest ? bytes : longest;
}

/* Counts a request, and returns its block. */
static void *count_block(void *block, size_t bytes)
{
    ask(bytes);
    in_use += block != NULL;
    if (words_count > 0 && bytes >= 8 * words_count) {
        words = block;
        words_count = bytes / 8;
    }
    return block;
}

void *__wrap_malloc(size_t bytes) { return count_block(__real_malloc(bytes), bytes); }
void *__wrap_calloc(size_t items, size_t bytes) { return count_block(__real_calloc(items, bytes), items * bytes); }

void *__wrap_realloc(void *old, size_t bytes)
{
    void *block = __real_realloc(old, bytes);
    ask(bytes);
    in_use += old == NULL && block != NULL;
    return block;
}

void __wrap_free(void *block)
{
    in_use -= block != NULL;
    __real_free(block);
}

static uint64_t seed, drawn;

static void print_seed(void)
{
    if (drawn > 0)
        fprintf(stderr, "BESTORE_SEED=%d draws these sizes again\n", (int)seed);
}

/* Returns a uniformly distributed random number in this range. */
static uint64_t draw(uint64_t least, uint64_t most)
{
    drawn = drawn * 6364136223846793005u + 1442695040888963407u;
    return least + (drawn >> 33) % (most - least + 1);
}

/* Returns a random number in this range, in which small numbers are as likely as large ones. */
static uint64_t draw_by_power(uint64_t least, uint64_t most)
{
    uint64_t powers = 1, low = 0;
    while (least << powers < most)
        powers++;
    low = least << draw(0, powers - 1);
    return draw(low, 2 * low < most ? 2 * low : most);
}

static bes_pass pass = BES_PASS_INIT;
static bes_batch batch;
static uint64_t nodes_count, made[LIST], number, nodes[MOST_FOUND], found;

static void apply(void)
{
    if (batch.count > 0)
        OK(bes_batch_apply(&pass, &batch, 1, made, LIST, &number));
    bes_batch_clear(&batch);
}

/* Applies the batch if it has no room for this many more operations. */
static void apply_if_full(uint64_t more)
{
    if (batch.count + more > LIST)
        apply();
}

/* Opens a store in which each node has an indexed number `k`, a number `v`, and a string of random length. The store has the
 * maximum number of indices, with names of maximum length. */
static void open_filled(uint64_t pages)
{
    enum { INDICES = 32 };
    char text[256], name[64];
    words_count = PAGE_WORDS * pages;
    OK(bes_open(pages, 2, 1000000, &pass) || bes_make_index(&pass, "k", BES_INT32_TYPE));
    for (int i = 1; i < INDICES; i++) {
        snprintf(name, sizeof name, "n%062d", i);
        OK(bes_make_index(&pass, name, BES_INT32_TYPE));
    }
    bes_batch_clear(&batch);
    for (uint64_t node = 1; node <= nodes_count; node++) {
        memset(text, 'x', sizeof text);
        text[draw(0, 100)] = 0;
        apply_if_full(4);
        OK(bes_batch_new_node(&batch) || bes_batch_set_int32(&batch, node, "k", (int32_t)node));
        OK(bes_batch_set_int64(&batch, node, "v", 0) || bes_batch_set_text(&batch, node, "t", text));
    }
    apply();
}

static void set_one(void) { OK(bes_set_int64(&pass, 1, "v", (int64_t)draw(1, 1 << 30))); }
static void set_any(void) { OK(bes_set_int64(&pass, draw(1, nodes_count), "v", (int64_t)draw(1, 1 << 30))); }
static void set_indexed(void) { OK(bes_set_int32(&pass, draw(1, nodes_count), "k", (int32_t)draw(1, 1 << 30))); }
static void set_text(void) { OK(bes_set_text(&pass, draw(1, nodes_count), "t", "short")); }

/* Makes three kinds of writes in turn, each of which copies different pages. */
static void set_in_turn(void)
{
    static void (*const kinds[])(void) = {set_any, set_indexed, set_text};
    static unsigned turn;
    kinds[turn++ % 3]();
}

/* Returns the average number of words in pages that such a write changes. A word is stored only if it changes. */
static double words_of(void (*write)(void))
{
    enum { TIMES = 60 };
    static uint64_t before[PAGE_WORDS * (MOST_PAGES + 64)];
    uint64_t changed = 0;
    CHECK(words_count <= sizeof before / sizeof *before);
    for (int i = 0; i < TIMES; i++) {
        memcpy(before, words, 8 * words_count);
        write();
        for (size_t at = 0; at < words_count; at++)
            changed += words[at] != before[at];
    }
    return (double)changed / TIMES;
}

static void is_at_most(const char *what, double found, double most)
{
    if (found > most) {
        fprintf(stderr, "%s stores %.1f words where %.1f is the most, with %d nodes\n", what, found, most, (int)nodes_count);
        exit(1);
    }
}

/* Several times over, writes until a reader's pin holds every free page. After that, each page has been used for something
 * else. */
static void wear_out(void)
{
    bes_pass reader = BES_PASS_INIT;
    uint32_t answer = BES_OK;
    OK(bes_another(&pass, &reader));
    for (int cycle = 0; cycle < 100; cycle++) {
        OK(bes_pin(&reader, &number));
        do {
            bes_batch_clear(&batch);
            OK(bes_batch_set_int32(&batch, draw(1, nodes_count), "k", (int32_t)draw(1, 1 << 30)));
            answer = bes_batch_apply(&pass, &batch, 1, made, LIST, &number);
        } while (answer == BES_OK);
        CHECK(answer == BES_FULL);
        OK(bes_unpin(&reader));
        for (int i = 0; i < 20; i++)
            set_in_turn();
    }
    bes_batch_clear(&batch);
    OK(bes_close(&reader));
}

/* A single write copies each of its pages back to the page that it was once copied from, which still has most of the words. This
 * holds even after many writes, when each page in the pool has been used for something else. */
static void words_stored(uint64_t pages)
{
    static const struct kind {
        const char *name;
        void (*write)(void);
        double most;
    } kinds[] = {
        {"a set of one attribute", set_one, 8}, {"a set", set_any, 75}, {"an indexed set", set_indexed, 225},
        {"a set of three kinds by turns", set_in_turn, 140}
    };
    open_filled(pages);
    for (int round = 0; round < 2; round++) {
        for (size_t i = 0; i < sizeof kinds / sizeof *kinds; i++) {
            kinds[i].write();
            kinds[i].write();
            is_at_most(kinds[i].name, words_of(kinds[i].write), kinds[i].most);
        }
        if (round == 0)
            wear_out();
    }
}

/* Once everything is removed, only the empty version's page is in use, no matter what readers held in the meantime. */
static void all_pages_are_free(uint64_t pages)
{
    bes_pass reader = BES_PASS_INIT;
    bes_usage usage;
    OK(bes_another(&pass, &reader));
    for (uint64_t node = 1; node <= nodes_count; node++) {
        if (node % 97 == 0) {
            bes_unpin(&reader);
            OK(bes_pin(&reader, &number));
        }
        apply_if_full(1);
        OK(bes_batch_remove_node(&batch, node));
    }
    apply();
    OK(bes_close(&reader) || bes_remove_index(&pass, "k"));
    for (int i = 1; i < 32; i++) {
        char name[64];
        snprintf(name, sizeof name, "n%062d", i);
        OK(bes_remove_index(&pass, name));
    }
    OK(bes_status(&pass, &usage, &number));
    CHECK(!usage.is_held && usage.retired == 0 && usage.free == pages - 1);
}

/* Reading an entry allocates memory only for that entry, however long the journal is. */
static void entry_alone(void)
{
    uint64_t by = 0, next = 0;
    bes_counts counts = {0, 0};
    OK(bes_pin(&pass, &number) || bes_unpin(&pass));
    for (int i = 0; i < 20; i++) {
        uint64_t entry = i == 0 ? 0 : draw(0, number - 1);
        asked = 0;
        OK(bes_journal_from(&pass, entry, &by, &counts, NULL, 0, NULL, 0, &next));
        CHECK(asked < 100000 && counts.operations <= LIST);
    }
}

/* The state is read one list at a time, using memory for only one list and one node. */
static void lists_of_state(void)
{
    bes_place place = BES_PLACE_INIT;
    uint64_t operations = 0, most = 0;
    OK(bes_pin(&pass, &number));
    do {
        asked = 0;
        OK(bes_batch_state(&pass, &place, &batch));
        most = asked > most ? asked : most;
        operations += batch.count;
    } while (batch.count > 0);
    CHECK(operations == 32 + 4 * nodes_count && most < 400000);
    OK(bes_leave(&place) || bes_unpin(&pass));
    bes_batch_clear(&batch);
}

/* Opens a store with the maximum number of nodes in an answer, each with its number as the indexed `k`. */
static void open_large(void)
{
    words_count = 0;
    OK(bes_open(16384, 2, 100000, &pass) || bes_make_index(&pass, "k", BES_INT32_TYPE));
    bes_batch_clear(&batch);
    for (uint64_t node = 1; node <= MOST_FOUND; node++) {
        apply_if_full(2);
        OK(bes_batch_new_node(&batch) || bes_batch_set_int32(&batch, node, "k", (int32_t)node));
    }
    apply();
    OK(bes_pin(&pass, &number));
}

/* Prepares a query that this many nodes match. */
static void prepare(bes_prepared *query, uint64_t size)
{
    char text[20];
    snprintf(text, sizeof text, "k<=%d", (int)size);
    OK(bes_prepare_text(text, query, &number));
}

static void find(bes_prepared *query) { OK(bes_query_prepared(&pass, query, nodes, MOST_FOUND, &found)); }
static void find_first(bes_prepared *query) { OK(bes_first(&pass, query, 0, nodes, MOST_FOUND, &found)); }
static void find_any(bes_prepared *query) { OK(bes_any(&pass, query, nodes, MOST_FOUND, &found)); }

static void find_page(bes_prepared *query)
{
    bes_cursor cursor = {0, 0, {0}};
    bes_name by = {0, {0}};
    uint32_t more = 7;
    OK(bes_check_name_text("k", &by) || bes_ordered(&pass, query, &by, 1, &cursor, nodes, MOST_FOUND, &found, &more));
}

static void refresh(bes_prepared *query)
{
    bes_updates updates = {0, 0};
    OK(bes_refresh(&pass, query, &updates));
    found = updates.created;
}

/* A prepared query frees all its memory, however many nodes a call has found. */
static void queries_are_released(void)
{
    static void (*const calls[])(bes_prepared *) = {find, find_first, find_any, find_page, refresh};
    for (size_t i = 0; i < sizeof calls / sizeof *calls; i++)
        for (int time = 0; time < 4; time++) {
            bes_prepared query = BES_PREPARED_INIT, moved = BES_PREPARED_INIT;
            const int64_t before = in_use;
            const uint64_t size = time == 0 ? MOST_FOUND : draw_by_power(1, MOST_FOUND);
            prepare(&query, size);
            calls[i](&query);
            CHECK(found == size);
            OK(bes_move_prepared(&query, &moved) || bes_release(&moved));
            CHECK(in_use == before);
        }
}

/* An abandoned change frees all its memory, whatever it has collected. */
static void changes_are_abandoned(void)
{
    for (int time = 0; time < 8; time++) {
        bes_draft draft = BES_DRAFT_INIT;
        const int64_t before = in_use;
        uint64_t next = 0;
        OK(bes_begin_change(&pass, &draft, &number, &next));
        for (uint64_t left = time == 0 ? LIST : draw(1, LIST); left > 0; left--) {
            char value[256] = "";
            memset(value, 'x', draw(0, 255));
            bes_batch_clear(&batch);
            OK(bes_batch_set_text(&batch, draw(1, MOST_FOUND), "t", value));
            OK(bes_change_add(&draft, batch.operations, batch.bytes, batch.used, &number));
        }
        OK(bes_abandon_change(&pass, &draft));
        CHECK(in_use == before);
    }
    bes_batch_clear(&batch);
}

/* A place in the state, a witness and a returned pass also free all their memory. The place may be abandoned at any point. */
static void others_are_closed(void)
{
    for (int time = 0; time < 8; time++) {
        bes_place place = BES_PLACE_INIT;
        bes_witness witness = BES_WITNESS_INIT;
        bes_pass other = BES_PASS_INIT;
        int64_t before = in_use;
        for (uint64_t lists = time == 0 ? 2 * MOST_FOUND / LIST + 2 : draw_by_power(1, MOST_FOUND / LIST); lists > 0; lists--)
            OK(bes_batch_state(&pass, &place, &batch));
        OK(bes_leave(&place));
        CHECK(in_use == before);
        OK(bes_witness_of(&pass, &witness) || bes_dismiss(&witness));
        CHECK(in_use == before);
        OK(bes_another(&pass, &other) || bes_close(&other));
        before = in_use;
        OK(bes_another(&pass, &other) || bes_close(&other));
        CHECK(in_use == before);
    }
    bes_batch_clear(&batch);
}

/* Finding a few nodes of a large answer allocates memory only for those few. Growing the list requests at most four times its
 * size, which is less than the whole answer takes. */
static void any_few(void)
{
    const uint64_t most = MOST_FOUND / 4;
    for (int time = 0; time < 10; time++) {
        bes_prepared query = BES_PREPARED_INIT;
        const uint64_t few = time == 0 ? most : draw_by_power(1, most);
        prepare(&query, MOST_FOUND);
        asked = 0;
        OK(bes_any(&pass, &query, nodes, few, &found));
        CHECK(found == few && asked < sizeof nodes);
        OK(bes_release(&query));
    }
}

/* Up to the number of writes given in bestore.h, bes_refresh_changed makes no list of the whole answer. It may request memory for
 * one journal entry, so smaller answers aren't tested. */
static void refreshed_by_writes(void)
{
    for (int time = 0; time < 10; time++) {
        bes_prepared query = BES_PREPARED_INIT;
        bes_updates updates = {7, 7};
        const uint64_t size = time == 0 ? MOST_FOUND : time == 1 ? LEAST_FOUND : draw_by_power(LEAST_FOUND, MOST_FOUND);
        const uint64_t most = size / 32 < 60 ? 4 + size / 32 : 64;
        prepare(&query, size);
        refresh(&query);
        OK(bes_unpin(&pass));
        for (uint64_t left = time % 2 == 0 ? most : draw(1, most); left > 0; left--)
            OK(bes_set_int64(&pass, draw(1, size), "v", (int64_t)left));
        OK(bes_pin(&pass, &number));
        longest = 0;
        OK(bes_refresh_changed(&pass, &query, &updates));
        CHECK(updates.created == 0 && updates.removed == 0 && longest < 8 * size);
        OK(bes_release(&query));
    }
}

/* A write requests a new block for the journal only when the last one is full. */
static void blocks_of_journal(void)
{
    uint64_t first = 0;
    OK(bes_open(64, 1, 1000, &pass));
    asked = 0;
    OK(bes_new_node(&pass, &number));
    first = asked;
    for (int i = 0; i < 900; i++) {
        asked = 0;
        OK(bes_set_int64(&pass, 1, "v", i));
        CHECK(asked < first / 4);
    }
    OK(bes_close(&pass));
}

/* Returns how many pages are in use once the store is filled. */
static uint64_t pages_for_all(void)
{
    bes_usage usage;
    open_filled(MOST_PAGES);
    OK(bes_status(&pass, &usage, &number) || bes_close(&pass));
    return usage.pages - usage.free;
}

/* Closes the store, in one case after getting its journal's text. Afterwards, all memory has been freed. */
static void end(bool is_told)
{
    uint64_t length = 0, count = 0;
    if (is_told) {
        uint8_t *text = NULL;
        OK(bes_finish(&pass, NULL, 0, &length));
        text = malloc(length);
        OK(bes_finish(&pass, text, length, &count));
        free(text);
    } else {
        OK(bes_close(&pass));
    }
    CHECK(in_use == 0 && count == length);
}

int main(int argc, char **argv)
{
    const bool is_short = argc > 1 && strcmp(argv[1], "short") == 0;
    const char *given = getenv("BESTORE_SEED");
    uint64_t pages = 0;
    seed = given != NULL ? strtoull(given, NULL, 10) : (uint64_t)time(NULL) % 1000000000;
    drawn = seed;
    CHECK(atexit(print_seed) == 0);
    for (int i = 0; i < (is_short ? 2 : 4); i++) {
        nodes_count = draw(LEAST_NODES, MOST_NODES);
        pages = pages_for_all() + draw(450, 700);
        words_stored(pages);
        entry_alone();
        lists_of_state();
        all_pages_are_free(pages);
        end(i % 2 == 0);
    }
    open_large();
    queries_are_released();
    changes_are_abandoned();
    others_are_closed();
    any_few();
    refreshed_by_writes();
    end(false);
    blocks_of_journal();
    CHECK(in_use == 0);
    printf("ok, BESTORE_SEED=%d\n", (int)seed);
    drawn = 0;
    return 0;
}
