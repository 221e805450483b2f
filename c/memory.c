/* Tests what calls return if malloc returns NULL, and if they are made in the middle of another call. Linked with
 * -Wl,--wrap=malloc, --wrap=realloc,--wrap=sched_yield, so that all of the library's requests for memory, and all its yields,
 * pass through here. */
#define BES_WITHIN 20 /* milliseconds: a write that is in the middle of another call never gets its turn */
#define BES_CHANGE_WITHIN 20
#include "tests.h"

void *__real_malloc(size_t size);
void *__real_realloc(void *old, size_t size);
void *__wrap_malloc(size_t size);
void *__wrap_realloc(void *old, size_t size);
int __wrap_sched_yield(void);

static unsigned requests, refused; /* the number of requests so far, and the one to refuse, counting from 1 */
static void (*between)(void);      /* called at each request */

static bool is_refused(void)
{
    void (*done)(void) = between;
    if (done != NULL) {
        between = NULL;
        done();
        between = done;
    }
    return ++requests == refused;
}

void *__wrap_malloc(size_t size)
{
    return is_refused() ? NULL : __real_malloc(size);
}

void *__wrap_realloc(void *old, size_t size)
{
    return is_refused() ? NULL : __real_realloc(old, size);
}

static unsigned turns; /* how many times writes have yielded */

int __wrap_sched_yield(void)
{
    turns++;
    return 0;
}

static bes_pass mine, theirs, opened;
static bes_prepared by_text, by_items, kept, moved;
static bes_place place, elsewhere;
static bes_witness witness, handed;
static uint64_t journal_length;

/* The outputs of calls. */
typedef struct outs {
    uint64_t number, count, nodes[4], more[4];
    bes_updates updates;
    bes_usage usage;
    bes_counts counts;
    bes_attribute told;
    bes_operation listed[4];
    uint8_t bytes[64];
    uint64_t by;
} outs;

static outs out, untouched;
static view before;

static const uint8_t query[] = "size<5 || name==ann", parts[] = "sizenameann";
static const bes_item less[] = {{BES_ITEM_ATTRIBUTE, 0, 4, 0}, {BES_ITEM_UINT64, 0, 0, 5}, {BES_ITEM_LT, 0, 0, 0}};
static const bes_operation list[] = {
    {BES_NEW_NODE, 0, 0, 0, 0, 0, 0, 0}, {BES_SET, BES_STRING_TYPE, 1, 0, 4, 4, 8, 3}
};

static uint32_t call_open(void) { return bes_open(8, 1, 10, &opened); }
/* Builds a store with two nodes and an index. A builder that has run out of memory returns that error again, until it is closed. */
static uint32_t call_build(void)
{
    static const uint8_t size[] = "size";
    bes_builder builder = BES_BUILDER_INIT;
    uint32_t error = bes_build(8, 1, 10, &builder);
    if (error != BES_OK)
        return error;
    error = bes_build_index(&builder, size, 4, BES_INT32_TYPE);
    for (uint64_t node = 1; node <= 2 && error == BES_OK; node++) {
        error = bes_build_node(&builder, node);
        if (error == BES_OK)
            error = bes_build_attribute(&builder, size, 4, BES_INT32_TYPE, node, size, 0, 1);
    }
    CHECK(error == BES_OK || bes_build_node(&builder, 3) == error);
    error = bes_build_finish(&builder, 4, &opened);
    CHECK(bes_build_close(&builder) == BES_CLOSED);
    return error;
}
static uint32_t call_is_held(void)
{
    uint32_t held = 7, error = bes_is_held(&mine, 1, (const uint8_t *)"size", 4, &held);
    CHECK(held == 1);
    return error;
}
static uint32_t call_another(void) { return bes_another(&mine, &theirs); }
static uint32_t call_witness_of(void) { return bes_witness_of(&mine, &witness); }
static uint32_t call_prepare(void) { return bes_prepare(query, sizeof query - 1, &by_text, &out.count); }
static uint32_t call_prepare_items(void) { return bes_prepare_items(less, 3, parts, 11, &by_items, &out.count); }
static uint32_t call_apply(void) { return bes_apply(&mine, list, 2, parts, 11, out.nodes, 4, &out.number); }
static uint32_t call_retry(void) { return bes_apply_or_retry(&mine, list, 2, parts, 11, 3, out.nodes, 4, &out.number); }
static uint32_t call_apply_if(void)
{
    return bes_apply_if(&mine, journal_length, list, 2, parts, 11, out.nodes, 4, &out.number);
}
/* Makes a whole change on a pass that isn't pinned before or afterwards. */
static uint32_t call_change(void)
{
    bes_draft draft = BES_DRAFT_INIT;
    bes_counts counts = {0, 0};
    uint64_t number = 0, next = 0;
    uint32_t error;
    CHECK(bes_next(&theirs, &next) == BES_NOT_PINNED);
    error = bes_begin_change(&theirs, &draft, &number, &next);
    if (error == BES_OK)
        error = bes_change_add(&draft, &list[0], parts, 11, &next);
    if (error == BES_OK)
        error = bes_change_add(&draft, &list[1], parts, 11, &number);
    if (error == BES_OK)
        error = bes_change_batch(&draft, &counts, NULL, 0, NULL, 0);
    if (error == BES_OK)
        return bes_end_change(&theirs, &draft, &out.number);
    bes_abandon_change(&theirs, &draft);
    return error;
}
/* Makes a change in one call, on a pass that is pinned for it. */
static uint32_t call_change_at_once(void)
{
    uint64_t number = 0;
    uint32_t error;
    CHECK(bes_pin(&theirs, &number) == BES_OK);
    error = bes_apply_change(&theirs, list, 2, parts, 11, &out.number);
    CHECK(bes_unpin(&theirs) == BES_OK);
    return error;
}
static uint32_t call_query(void) { return bes_query(&mine, query, sizeof query - 1, out.nodes, 4, &out.count); }
static uint32_t call_items(void) { return bes_query_items(&mine, less, 3, parts, 11, out.nodes, 4, &out.count); }
static uint32_t call_prepared(void) { return bes_query_prepared(&mine, &kept, out.nodes, 4, &out.count); }
static uint32_t call_ordered(void)
{
    const bes_cursor begin = {0, 0, {0}};
    bes_cursor cursor = begin;
    bes_name by;
    uint32_t more = 9, error = bes_check_name_text("size", &by);
    if (error == BES_OK)
        error = bes_ordered(&mine, &kept, &by, 1, &cursor, out.nodes, 4, &out.count, &more);
    CHECK(error == BES_OK ? more == 0 && cursor.length > 0 : more == 9 && memcmp(&cursor, &begin, sizeof cursor) == 0);
    return error;
}
static uint32_t call_first(void) { return bes_first(&mine, &kept, 0, out.nodes, 4, &out.count); }
static uint32_t call_any(void) { return bes_any(&mine, &kept, out.nodes, 4, &out.count); }
static uint32_t call_refresh(void) { return bes_refresh(&mine, &kept, &out.updates); }
static uint32_t call_refresh_changed(void) { return bes_refresh_changed(&mine, &kept, &out.updates); }
static uint32_t call_uncovered(void)
{
    size_t at = 0;
    return bes_uncovered(&mine, (const char *)query, sizeof query - 1, &at);
}
static uint32_t call_ways(void) { return bes_ways(&mine, query, sizeof query - 1, out.bytes, 64, &out.count); }
static uint32_t call_explain(void) { return bes_explain(&mine, query, sizeof query - 1, out.bytes, 64, &out.count); }
static uint32_t call_attributes(void) { return bes_attributes(&mine, 1, &out.counts, out.listed, 4, out.bytes, 64); }
static uint32_t call_indices(void) { return bes_indices(&mine, &out.counts, out.listed, 4, out.bytes, 64); }
static uint32_t call_state(void)
{
    bes_leave(&place);
    return bes_state(&mine, &place, &out.counts, out.listed, 4, out.bytes, 64);
}
static uint32_t call_journal(void) { return bes_journal(&mine, out.bytes, 64, &out.count); }
static uint32_t call_nodes(void) { return bes_nodes(&mine, 0, out.nodes, 4, &out.count); }
static uint32_t call_status(void) { return bes_status(&mine, &out.usage, &out.number); }
static uint32_t call_changes(void) { return bes_changes(&kept, out.nodes, 4, out.more, 4); }
static uint32_t call_found(void) { return bes_found(&kept, 0, out.nodes, 4, &out.count); }
static uint32_t call_get(void) { return bes_read(&mine, 1, "size", &out.told, out.bytes, 64); }
static uint32_t call_columns(void)
{
    static const uint64_t nodes[] = {1, 9};
    bes_name held;
    bes_cell cells[2];
    uint32_t error = bes_check_name((const uint8_t *)"size", 4, &held);
    return error != BES_OK ? error : bes_columns(&mine, nodes, 2, &held, 1, cells, 2, out.bytes, 64, &out.count);
}
static uint32_t call_unpin(void) { return bes_unpin(&mine); }
static uint32_t call_pin(void) { return bes_pin(&mine, &out.number); }
static uint32_t call_prepared_text(void) { return bes_prepared_text(&kept, out.bytes, 64, &out.count); }
static uint32_t call_journal_from(void)
{
    return bes_journal_from(&mine, 0, &out.by, &out.counts, out.listed, 4, out.bytes, 64, &out.number);
}
static uint32_t call_next(void) { return bes_next(&mine, &out.by); }
static uint32_t call_number(void) { return bes_number(&mine, &out.by); }
static uint32_t call_move_prepared(void)
{
    return bes_move_prepared(&kept, &moved) == BES_OK ? bes_move_prepared(&moved, &kept) : BES_OPEN;
}
static uint32_t call_move_place(void)
{
    return bes_move_place(&place, &elsewhere) == BES_OK ? bes_move_place(&elsewhere, &place) : BES_OPEN;
}
static uint32_t call_join(void) { return bes_join(&mine, &witness, &out.number); }
static uint32_t call_move_witness(void)
{
    return bes_move_witness(&witness, &handed) == BES_OK ? bes_move_witness(&handed, &witness) : BES_OPEN;
}
static uint32_t call_move(void) { return bes_move(&mine, &opened) == BES_OK ? bes_move(&opened, &mine) : BES_OPEN; }

/* Returns whether the call wrote nothing except 0 as its number or count. */
static bool is_untouched(void)
{
    outs seen = out;
    if (seen.number == 0)
        seen.number = untouched.number;
    if (seen.count == 0)
        seen.count = untouched.count;
    return memcmp(&seen, &untouched, sizeof seen) == 0;
}

/* Refuses each of a call's requests in turn. The call must then do nothing or, if it may go on, succeed without that memory. In
 * the last round it gets all its memory. Returns how many requests it made. */
static unsigned refuse_each_of(uint32_t (*call)(void), bool may_go_on)
{
    look(&mine, &before);
    for (unsigned n = 1;; n++) {
        uint32_t answer;
        memset(&out, 7, sizeof out);
        requests = 0;
        refused = n;
        answer = call();
        refused = 0;
        if (requests < n) {
            CHECK(answer == BES_OK);
            return requests;
        }
        CHECK((answer == BES_NO_MEMORY && is_untouched()) || (may_go_on && answer == BES_OK));
        CHECK(is_as_it_was(&mine, &before));
    }
}

static unsigned refuse_each(uint32_t (*call)(void)) { return refuse_each_of(call, false); }

static void refuse_all(void)
{
    uint32_t (*const with_requests[])(void) = {
        call_another, call_witness_of, call_prepare, call_prepare_items, call_query, call_items, call_prepared, call_explain, call_ways,
        call_uncovered, call_attributes, call_indices, call_nodes, call_state, call_journal, call_journal_from, call_prepared_text, call_apply,
        call_retry
    };
    uint32_t (*const in_parts[])(void) = {call_ordered, call_first, call_any, call_refresh_changed};
    uint32_t (*const without[])(void) = {call_changes, call_found, call_get, call_is_held, call_columns, call_status, call_next,
                                         call_number, call_join, call_move_witness, call_move_prepared, call_move_place, call_unpin,
                                         call_pin, call_move};
    CHECK(bes_open(64, 2, 100, &mine) == BES_OK);
    CHECK(bes_make_index(&mine, "size", BES_INT32_TYPE) == BES_OK && bes_make_index(&mine, "name", BES_STRING_TYPE) == BES_OK);
    CHECK(bes_new_node(&mine, &out.number) == BES_OK && bes_set_int32(&mine, 1, "size", 1) == BES_OK);
    CHECK(bes_prepare(query, sizeof query - 1, &kept, &out.count) == BES_OK && bes_pin(&mine, &out.number) == BES_OK);
    CHECK(refuse_each(call_open) > 0 && bes_close(&opened) == BES_OK);
    CHECK(refuse_each(call_build) > 0 && bes_close(&opened) == BES_OK);
    CHECK(refuse_each(call_refresh) > 0 && out.updates.created == 1 && out.updates.removed == 0);
    for (size_t i = 0; i < sizeof with_requests / sizeof *with_requests; i++)
        CHECK(refuse_each(with_requests[i]) > 0);
    CHECK(out.number == 6 && out.nodes[0] == 3);
    for (size_t i = 0; i < sizeof in_parts / sizeof *in_parts; i++)
        refuse_each_of(in_parts[i], true);
    journal_length = 6;
    CHECK(refuse_each(call_apply_if) > 0 && out.number == 7 && out.nodes[0] == 4);
    CHECK(call_apply_if() == BES_CONFLICT && out.number == 7);
    CHECK(refuse_each(call_change) > 0 && out.number == 8);
    CHECK(refuse_each(call_change_at_once) > 0 && out.number == 9);
    for (size_t i = 0; i < sizeof without / sizeof *without; i++)
        CHECK(refuse_each(without[i]) == 0);
}

enum { MADE = 100, MOST = 4 * MADE };

/* Reads a whole state, refusing this request in the first attempt to read each list. Returns how many operations there were.
 * `vain` counts the failed attempts. */
static size_t read_state(bes_pass *pass, unsigned request, bes_operation *told, unsigned *vain)
{
    static bes_batch batch;
    size_t count = 0;
    *vain = 0;
    do {
        uint32_t answer;
        requests = 0;
        refused = request;
        answer = bes_batch_state(pass, &place, &batch);
        refused = 0;
        if (answer != BES_OK) {
            CHECK(answer == BES_NO_MEMORY && batch.count == 0);
            ++*vain;
            CHECK(bes_batch_state(pass, &place, &batch) == BES_OK);
        }
        CHECK(count + batch.count <= MOST);
        memcpy(told + count, batch.operations, batch.count * sizeof *told);
        count += batch.count;
    } while (batch.count > 0);
    CHECK(bes_leave(&place) == BES_OK);
    return count;
}

/* If an allocation fails between two lists, no operation is lost or repeated. */
static void refuse_between_lists(void)
{
    static bes_operation plain[MOST], told[MOST];
    bes_pass pass = BES_PASS_INIT;
    uint64_t number = 0;
    unsigned vain = 0;
    size_t count;
    CHECK(bes_open(256, 1, 1000, &pass) == BES_OK && bes_make_index(&pass, "size", BES_INT64_TYPE) == BES_OK);
    for (int64_t i = 1; i <= MADE; i++)
        CHECK(bes_new_node(&pass, &number) == BES_OK && bes_set_int64(&pass, number, i % 2 == 0 ? "size" : "n", i) == BES_OK);
    CHECK(bes_pin(&pass, &number) == BES_OK);
    count = read_state(&pass, 0, plain, &vain);
    CHECK(count == 1 + 2 * MADE && vain == 0);
    for (unsigned request = 1; request == 1 || vain > 0; request++)
        CHECK(read_state(&pass, request, told, &vain) == count && memcmp(plain, told, count * sizeof *plain) == 0);
    CHECK(bes_close(&pass) == BES_OK);
}

static unsigned accepted, busy;

/* A write is retried `retries` times, and yields `left` times in total: once before each of the next four tries. Before later ones it
 * sleeps. */
static void tries_again(uint32_t retries, unsigned left)
{
    bes_retry retry = {retries, 1, 0, 60000, NULL}; /* BES_WITHIN may be over before the second try on a busy machine */
    uint64_t number = 7, nodes[4];
    turns = 0;
    CHECK(bes_apply_retrying(&theirs, &retry, list, 2, parts, 11, nodes, 0, &number) == BES_BUSY && number == 1);
    CHECK(turns == left);
}

/* Ending a change makes only one attempt. It doesn't yield, and nothing of the change remains. */
static void ends_busy(void)
{
    bes_draft draft = BES_DRAFT_INIT;
    uint64_t number = 7, next = 0;
    CHECK(bes_begin_change(&theirs, &draft, &number, &next) == BES_OK);
    CHECK(bes_change_add(&draft, &list[0], parts, 11, &next) == BES_OK);
    turns = 0;
    CHECK(bes_end_change(&theirs, &draft, &number) == BES_BUSY && number == 1 && !draft.live);
    CHECK(turns == 0 && bes_next(&theirs, &next) == BES_NOT_PINNED);
}

/* A change in one call also makes only one attempt, and its pass stays pinned. */
static void change_is_busy(void)
{
    uint64_t number = 7;
    CHECK(bes_pin(&theirs, &number) == BES_OK);
    turns = 0;
    CHECK(bes_apply_change(&theirs, list, 2, parts, 11, &number) == BES_BUSY && number == 1);
    CHECK(turns == 0 && bes_unpin(&theirs) == BES_OK);
}

/* Makes calls through another pass while the first pass is writing. Writes return BES_BUSY with the number of the first pass, 1.
 * Reads work as usual. */
static void go_between(void)
{
    uint64_t number = 7, count = 7, nodes[4];
    uint8_t text[4];
    bes_counts counts = {0, 0};
    bes_operation list_room[1];
    uint32_t answer = bes_apply(&theirs, list, 2, parts, 11, nodes, 0, &number);
    if (answer == BES_BUSY) {
        CHECK(number == 1);
        tries_again(0, 0);
        tries_again(3, 3);
        tries_again(5, 4);
        ends_busy();
        CHECK(bes_journal(&theirs, text, 4, &count) == BES_BUSY && count == 1);
        CHECK(bes_apply_if(&theirs, 0, list, 2, parts, 11, nodes, 0, &number) == BES_BUSY && number == 1);
        change_is_busy();
        CHECK(bes_journal_from(&theirs, 0, &count, &counts, list_room, 1, text, 4, &number) == BES_BUSY && number == 1);
    }
    accepted += answer == BES_OK;
    busy += answer == BES_BUSY;
    CHECK(bes_pin(&theirs, &number) == BES_OK && bes_query(&theirs, query, sizeof query - 1, nodes, 4, &count) == BES_OK);
    CHECK(count == 1 && nodes[0] == 1 && bes_unpin(&theirs) == BES_OK);
}

/* A pass holds the lock while it produces the journal's text. A write makes some of its requests before taking the lock. */
static void meet_busy(void)
{
    between = go_between;
    CHECK(call_journal() == BES_OK);
    CHECK(busy > 0 && accepted == 0);
    busy = 0;
    CHECK(call_apply() == BES_OK);
    between = NULL;
    CHECK(accepted + busy > 0 && out.number == 10 + accepted);
    CHECK(bes_unpin(&mine) == BES_OK && bes_pin(&mine, &out.number) == BES_OK && out.number == 10 + accepted);
}

static bes_pass second;
static unsigned met;

/* Meets the returned pass while the first pass holds the lock. */
static void meet_between(void)
{
    uint64_t number = 7, node = 7;
    CHECK(bes_new_node(&second, &node) == BES_BUSY && bes_meet(&second, &number) == BES_OK && number == 1);
    met++;
}

/* bes_meet takes no lock: it returns even while another pass holds the lock. */
static void meet_while_locked(void)
{
    bes_pass first = BES_PASS_INIT, third = BES_PASS_INIT;
    uint64_t node = 0, count = 0;
    uint8_t text[64];
    CHECK(bes_open(64, 3, 100, &first) == BES_OK && bes_another(&first, &second) == BES_OK && bes_another(&first, &third) == BES_OK);
    CHECK(bes_new_node(&third, &node) == BES_OK && bes_close(&third) == BES_OK);
    between = meet_between;
    CHECK(bes_journal(&first, text, sizeof text, &count) == BES_OK && count > 0);
    between = NULL;
    CHECK(met > 0 && bes_close(&first) == BES_OK && bes_close(&second) == BES_OK);
}

/* If memory for the journal's text runs out, the last handle remains open and its store remains usable. */
static void finish_later(void)
{
    bes_pass pass = BES_PASS_INIT, other = BES_PASS_INIT;
    uint64_t node = 0, count = 7;
    uint8_t text[64];
    uint32_t answer = BES_NO_MEMORY;
    CHECK(bes_open(64, 2, 10, &pass) == BES_OK && bes_another(&pass, &other) == BES_OK && bes_new_node(&other, &node) == BES_OK);
    CHECK(bes_close(&pass) == BES_OK);
    for (unsigned turn = 1; answer == BES_NO_MEMORY; turn++) {
        CHECK(bes_pin(&other, &count) == BES_OK && count == 1 && bes_unpin(&other) == BES_OK);
        requests = 0;
        refused = turn;
        answer = bes_finish(&other, text, sizeof text, &count);
        refused = 0;
        CHECK(answer == BES_OK || (answer == BES_NO_MEMORY && count == 0 && turn < 100));
    }
    CHECK(count == 21 && memcmp(text, "1 by 0 new -> node 1\n", 21) == 0 && bes_close(&other) == BES_CLOSED);
}

/* Reads a state without a pin. The memory for the place in it is requested first. */
static void state_without_pin(void)
{
    bes_pass pass = BES_PASS_INIT;
    CHECK(bes_open(8, 1, 1, &pass) == BES_OK);
    requests = 0;
    refused = 1;
    CHECK(bes_state(&pass, &place, &out.counts, out.listed, 4, out.bytes, 64) == BES_NO_MEMORY);
    refused = 0;
    CHECK(bes_state(&pass, &place, &out.counts, out.listed, 4, out.bytes, 64) == BES_NOT_PINNED);
    bes_leave(&place);
    CHECK(bes_close(&pass) == BES_OK);
}

int main(void)
{
    memset(&untouched, 7, sizeof untouched);
    refuse_all();
    CHECK(bes_leave(&place) == BES_OK);
    refuse_between_lists();
    meet_busy();
    meet_while_locked();
    state_without_pin();
    finish_later();
    CHECK(bes_release(&kept) == BES_OK && bes_release(&by_text) == BES_OK && bes_release(&by_items) == BES_OK);
    CHECK(bes_dismiss(&witness) == BES_OK);
    /* If allocating a handle fails, the returned pass can be taken later. */
    CHECK(bes_close(&theirs) == BES_OK && refuse_each(call_another) > 0);
    CHECK(bes_close(&mine) == BES_OK && bes_close(&theirs) == BES_OK);
    puts("ok");
    return 0;
}
