/* Tests changes between bes_begin_change and bes_end_change: what they collect and refuse, how they read their own operations,
 * and how they end. Two threads use changes to move amounts. Also tests changes in one call, bes_apply_change: which kinds they
 * refuse, and how they end. */
#include "tests.h"
#include <pthread.h>

#define NAME(text) (const uint8_t *)(text), strlen(text)

/* A pass and a draft, through which a test reads and writes a store. */
typedef struct user {
    bes_pass pass;
    bes_draft draft;
    uint64_t number, next;
} user;

static bes_pass open_store(uint64_t passes)
{
    bes_pass pass = BES_PASS_INIT;
    CHECK(bes_open(1024, passes, 100000, &pass) == BES_OK);
    return pass;
}

static void begin(user *it)
{
    CHECK(bes_begin_change(&it->pass, &it->draft, &it->number, &it->next) == BES_OK);
}

static user open_user(void)
{
    const user none = {BES_PASS_INIT, BES_DRAFT_INIT, 0, 0};
    user it = none;
    it.pass = open_store(2);
    return it;
}

/* Adds the batch's last operation to the change. */
static uint32_t add_last(bes_draft *draft, const bes_batch *batch, uint64_t *node)
{
    return bes_change_add(draft, &batch->operations[batch->count - 1], batch->bytes, batch->used, node);
}

static uint32_t add_new(bes_draft *draft, uint64_t *node)
{
    bes_batch batch = BES_BATCH_INIT;
    CHECK(bes_batch_new_node(&batch) == BES_OK);
    return add_last(draft, &batch, node);
}

static uint32_t add_remove(bes_draft *draft, uint64_t removed)
{
    bes_batch batch = BES_BATCH_INIT;
    uint64_t node = 7;
    CHECK(bes_batch_remove_node(&batch, removed) == BES_OK);
    return add_last(draft, &batch, &node);
}

/* Adds the batch's last operation, which is a set. If the kind is wrong, the error must give the index's kind. */
static uint32_t add_set(bes_draft *draft, const bes_batch *batch, uint32_t indexed)
{
    uint64_t node = 7;
    uint32_t error = add_last(draft, batch, &node);
    CHECK(node == (error == BES_WRONG_KIND ? indexed : 0));
    return error;
}

static uint32_t add_number(bes_draft *draft, uint64_t changed, const char *name, int64_t number)
{
    bes_batch batch = BES_BATCH_INIT;
    CHECK(bes_batch_set_int64(&batch, changed, name, number) == BES_OK);
    return add_set(draft, &batch, BES_STRING_TYPE);
}

static uint32_t add_text(bes_draft *draft, uint64_t changed, const char *name, const char *text)
{
    bes_batch batch = BES_BATCH_INIT;
    CHECK(bes_batch_set_text(&batch, changed, name, text) == BES_OK);
    return add_set(draft, &batch, BES_INT64_TYPE);
}

static uint32_t add_unset(bes_draft *draft, uint64_t changed, const char *name)
{
    bes_batch batch = BES_BATCH_INIT;
    uint64_t node = 7;
    CHECK(bes_batch_unset(&batch, changed, name) == BES_OK);
    return add_last(draft, &batch, &node);
}

static uint32_t add_index(bes_draft *draft, const char *name, uint32_t code)
{
    bes_batch batch = BES_BATCH_INIT;
    uint64_t node = 7;
    CHECK(bes_batch_make_index(&batch, name, code) == BES_OK);
    return add_last(draft, &batch, &node);
}

static uint32_t add_no_index(bes_draft *draft, const char *name)
{
    bes_batch batch = BES_BATCH_INIT;
    uint64_t node = 7;
    CHECK(bes_batch_remove_index(&batch, name) == BES_OK);
    return add_last(draft, &batch, &node);
}

/* Returns how many operations the draft has. */
static uint64_t count_of(bes_draft *draft)
{
    bes_counts counts = {7, 7};
    bes_operation none;
    uint8_t byte = 0;
    CHECK(bes_change_batch(draft, &counts, &none, 0, &byte, 0) == BES_OK);
    return counts.operations;
}

/* Returns the value of a node's numeric attribute as the change sees it, or -1 if the node doesn't have the attribute. */
static int64_t number_in(user *it, uint64_t node, const char *name)
{
    bes_attribute read = {0, 0, 0};
    uint8_t none = 0;
    const uint32_t error = bes_change_get(&it->pass, &it->draft, node, NAME(name), &read, &none, 0);
    CHECK(error == BES_OK || error == BES_NO_ATTRIBUTE);
    return error == BES_OK ? (int64_t)read.number : -1;
}

/* Returns the value of a node's numeric attribute in the store. */
static int64_t number_of(bes_pass *pass, uint64_t node, const char *name)
{
    bes_attribute read = {0, 0, 0};
    uint64_t number = 0;
    uint8_t none = 0;
    uint32_t error;
    CHECK(bes_pin(pass, &number) == BES_OK);
    error = bes_read(pass, node, name, &read, &none, 0);
    CHECK(bes_unpin(pass) == BES_OK && (error == BES_OK || error == BES_NO_ATTRIBUTE));
    return error == BES_OK ? (int64_t)read.number : -1;
}

static bool is_pinned(bes_pass *pass)
{
    uint64_t node = 0;
    return bes_next(pass, &node) == BES_OK;
}

/* Uses closed handles, and opens a handle that is already open. */
static void handles(void)
{
    user it = {BES_PASS_INIT, BES_DRAFT_INIT, 7, 7};
    bes_draft moved = BES_DRAFT_INIT;
    bes_operation operation = {0, 0, 0, 0, 0, 0, 0, 0};
    bes_attribute read = {7, 7, 7};
    bes_counts counts = {7, 7};
    uint64_t node = 7;
    uint8_t byte = 7;
    CHECK(bes_begin_change(&it.pass, &it.draft, &it.number, &it.next) == BES_CLOSED && it.number == 0 && it.next == 7);
    CHECK(bes_change_any_kind(&it.draft) == BES_CLOSED && bes_move_draft(&it.draft, &moved) == BES_CLOSED);
    CHECK(bes_change_add(&it.draft, &operation, &byte, 0, &node) == BES_CLOSED && node == 0);
    CHECK(bes_change_batch(&it.draft, &counts, &operation, 1, &byte, 1) == BES_CLOSED && counts.bytes == 7);
    CHECK(bes_change_get(&it.pass, &it.draft, 1, NAME("a"), &read, &byte, 1) == BES_CLOSED && read.code == 7 && byte == 7);
    CHECK(bes_end_change(&it.pass, &it.draft, &node) == BES_CLOSED && node == 0);
    CHECK(bes_abandon_change(&it.pass, &it.draft) == BES_CLOSED);
    it = open_user();
    CHECK(bes_change_get(&it.pass, &it.draft, 1, NAME("a"), &read, &byte, 1) == BES_CLOSED);
    node = 7;
    CHECK(bes_end_change(&it.pass, &it.draft, &node) == BES_CLOSED && node == 0);
    CHECK(bes_abandon_change(&it.pass, &it.draft) == BES_CLOSED);
    begin(&it);
    it.number = it.next = 7;
    CHECK(bes_begin_change(&it.pass, &it.draft, &it.number, &it.next) == BES_OPEN && it.number == 0 && it.next == 7);
    CHECK(bes_move_draft(&it.draft, &moved) == BES_OK && !it.draft.live && bes_move_draft(&it.draft, &moved) == BES_CLOSED);
    CHECK(bes_begin_change(&it.pass, &it.draft, &it.number, &it.next) == BES_OK && bes_move_draft(&it.draft, &moved) == BES_OPEN);
    CHECK(bes_abandon_change(&it.pass, &it.draft) == BES_OK && is_pinned(&it.pass));
    CHECK(bes_abandon_change(&it.pass, &moved) == BES_OK && !is_pinned(&it.pass));
    CHECK(bes_close(&it.pass) == BES_OK);
}

/* New nodes get their numbers immediately, and a draft accepts up to 64 operations. */
static void sizes(uint64_t count)
{
    user it = open_user();
    uint64_t node = 7;
    CHECK(bes_new_node(&it.pass, &node) == BES_OK);
    begin(&it);
    CHECK(it.number == 1 && it.next == 2 && is_pinned(&it.pass));
    for (uint64_t i = 0; i < count && i < 64; i++)
        CHECK(add_new(&it.draft, &node) == BES_OK && node == 2 + i && count_of(&it.draft) == i + 1);
    if (count > 64)
        CHECK(add_new(&it.draft, &node) == BES_BAD_COUNT && node == 0 && count_of(&it.draft) == 64);
    CHECK(bes_end_change(&it.pass, &it.draft, &it.number) == BES_OK && it.number == (count == 0 ? 1 : 2));
    CHECK(!it.draft.live && !is_pinned(&it.pass));
    begin(&it);
    CHECK(it.next == 2 + (count > 64 ? 64 : count) && bes_abandon_change(&it.pass, &it.draft) == BES_OK);
    CHECK(bes_close(&it.pass) == BES_OK);
}

/* Adding an invalid operation leaves the draft unchanged, and returns the same error that a batch with this operation would. */
static void invalid(void)
{
    static const struct {
        bes_operation operation;
        uint32_t error;
    } rows[] = {
        {{BES_NEW_NODE, 0, 0, 0, 2, 4, 0, 0}, BES_BAD_PART},
        {{BES_NEW_NODE, 0, 0, 0, 0, 0, 5, 1}, BES_BAD_PART},
        {{6, 0, 0, 0, 0, 0, 0, 0}, BES_NO_OPERATION},
        {{BES_UNSET, 0, 1, 0, 4, 1, 0, 0}, BES_NOT_UTF8},
        {{BES_UNSET, 0, 1, 0, 0, 0, 0, 0}, BES_NAME_LENGTH},
        {{BES_REMOVE_INDEX, 0, 0, 0, 2, 2, 0, 0}, BES_HAS_NUL},
        {{BES_SET, 1, 1, 0, 0, 1, 0, 0}, BES_NO_KIND},
        {{BES_MAKE_INDEX, 1, 0, 0, 0, 1, 0, 0}, BES_NO_KIND},
        {{BES_SET, BES_STRING_TYPE, 1, 0, 0, 1, 4, 1}, BES_NOT_UTF8},
        {{BES_SET, BES_STRING_TYPE, 1, 0, 0, 1, 2, 2}, BES_HAS_NUL},
        {{BES_SET, BES_UINT32_TYPE, 1, 1ull << 32, 0, 1, 0, 0}, BES_NO_VALUE},
    };
    static const uint8_t bytes[5] = {'a', 'b', 'c', 0, 0xff};
    user it = open_user();
    uint64_t node;
    begin(&it);
    for (size_t i = 0; i < sizeof rows / sizeof *rows; i++) {
        node = 7;
        CHECK(bes_change_add(&it.draft, &rows[i].operation, bytes, sizeof bytes, &node) == rows[i].error && node == 0);
        CHECK(count_of(&it.draft) == 0);
    }
    CHECK(bes_abandon_change(&it.pass, &it.draft) == BES_OK && bes_close(&it.pass) == BES_OK);
}

/* A value must be of its index's kind, taking the change's earlier operations into account. */
static void kinds(void)
{
    user it = open_user();
    CHECK(bes_make_index(&it.pass, "from", BES_STRING_TYPE) == BES_OK && bes_make_index(&it.pass, "size", BES_INT64_TYPE) == BES_OK);
    begin(&it);
    CHECK(add_number(&it.draft, 1, "from", 5) == BES_WRONG_KIND && add_text(&it.draft, 1, "size", "5") == BES_WRONG_KIND);
    CHECK(count_of(&it.draft) == 0 && number_in(&it, 1, "from") == -1);
    CHECK(add_text(&it.draft, 1, "from", "ann") == BES_OK && add_number(&it.draft, 1, "size", 5) == BES_OK);
    CHECK(add_text(&it.draft, 1, "other", "5") == BES_OK && add_number(&it.draft, 1, "other", 5) == BES_OK);
    CHECK(add_index(&it.draft, "other", BES_STRING_TYPE) == BES_OK && add_number(&it.draft, 1, "other", 5) == BES_WRONG_KIND);
    CHECK(add_no_index(&it.draft, "other") == BES_OK && add_number(&it.draft, 1, "other", 5) == BES_OK);
    CHECK(add_no_index(&it.draft, "size") == BES_OK && add_text(&it.draft, 1, "size", "5") == BES_OK);
    CHECK(add_number(&it.draft, 1, "from", 5) == BES_WRONG_KIND && bes_change_any_kind(&it.draft) == BES_OK);
    CHECK(add_number(&it.draft, 1, "from", 5) == BES_OK && number_in(&it, 1, "from") == 5);
    CHECK(bes_abandon_change(&it.pass, &it.draft) == BES_OK && bes_close(&it.pass) == BES_OK);
}

/* A read returns the change's last write to the attribute or its node if there is one, and the snapshot's value otherwise. */
static void own_reads(void)
{
    user it = open_user();
    bes_attribute read = {0, 0, 0};
    uint64_t node = 0;
    uint8_t bytes[4] = "...";
    CHECK(bes_new_node(&it.pass, &node) == BES_OK && bes_set_int64(&it.pass, 1, "a", 1) == BES_OK);
    begin(&it);
    CHECK(number_in(&it, 1, "a") == 1 && number_in(&it, 1, "b") == -1 && number_in(&it, 2, "a") == -1);
    CHECK(add_number(&it.draft, 1, "a", 2) == BES_OK && number_in(&it, 1, "a") == 2);
    CHECK(add_unset(&it.draft, 1, "a") == BES_OK && number_in(&it, 1, "a") == -1);
    CHECK(add_number(&it.draft, 1, "a", 3) == BES_OK && number_in(&it, 1, "a") == 3);
    CHECK(add_new(&it.draft, &node) == BES_OK && node == 2 && number_in(&it, 2, "a") == -1);
    CHECK(add_number(&it.draft, 2, "a", 4) == BES_OK && number_in(&it, 2, "a") == 4 && number_in(&it, 1, "a") == 3);
    CHECK(add_text(&it.draft, 2, "name", "abcd") == BES_OK);
    CHECK(bes_change_get(&it.pass, &it.draft, 2, NAME("name"), &read, bytes, 2) == BES_OK && memcmp(bytes, "ab.", 4) == 0);
    CHECK(read.code == BES_STRING_TYPE && read.length == 4 && read.number == 0);
    CHECK(add_remove(&it.draft, 1) == BES_OK && number_in(&it, 1, "a") == -1 && number_in(&it, 2, "a") == 4);
    CHECK(bes_read(&it.pass, 1, "a", &read, bytes, 0) == BES_OK && read.number == 1);
    CHECK(bes_change_get(&it.pass, &it.draft, 1, NAME(""), &read, bytes, 0) == BES_NAME_LENGTH);
    CHECK(bes_change_get(&it.pass, &it.draft, 1, NAME("\xff"), &read, bytes, 0) == BES_NOT_UTF8);
    CHECK(bes_change_get(&it.pass, &it.draft, 1, (const uint8_t *)"a", 2, &read, bytes, 0) == BES_HAS_NUL);
    CHECK(bes_end_change(&it.pass, &it.draft, &it.number) == BES_OK && it.number == 3);
    CHECK(number_of(&it.pass, 1, "a") == -1 && number_of(&it.pass, 2, "a") == 4);
    CHECK(bes_close(&it.pass) == BES_OK);
}

/* bes_change_batch lists as many of the added operations as fit into the arrays. */
static void batches(void)
{
    static bes_batch added, listed;
    user it = open_user();
    bes_counts counts = {0, 0};
    uint64_t node = 0, number = 0;
    begin(&it);
    bes_batch_clear(&added);
    CHECK(bes_batch_new_node(&added) == BES_OK && add_last(&it.draft, &added, &node) == BES_OK);
    CHECK(bes_batch_set_raw(&added, 1, "bytes", "\0\1", 2) == BES_OK && add_last(&it.draft, &added, &node) == BES_OK);
    CHECK(bes_batch_make_index(&added, "size", BES_UINT64_TYPE) == BES_OK && add_last(&it.draft, &added, &node) == BES_OK);
    CHECK(bes_change_batch(&it.draft, &counts, listed.operations, 2, listed.bytes, 5) == BES_OK);
    CHECK(counts.operations == 3 && counts.bytes == 11 && memcmp(listed.bytes, "bytes", 6) == 0 && listed.operations[2].kind == 0);
    CHECK(bes_change_batch(&it.draft, &counts, listed.operations, 64, listed.bytes, sizeof listed.bytes) == BES_OK);
    CHECK(memcmp(listed.operations, added.operations, 3 * sizeof *added.operations) == 0);
    CHECK(memcmp(listed.bytes, added.bytes, added.used) == 0 && counts.bytes == added.used);
    CHECK(bes_end_change(&it.pass, &it.draft, &number) == BES_OK && number == 1);
    CHECK(bes_close(&it.pass) == BES_OK);
}

/* If another pass writes in between, nothing is written, and the next attempt sees that write. */
static void begins_anew(void)
{
    static view before;
    user it = open_user();
    bes_pass other = BES_PASS_INIT;
    uint64_t node = 0, number = 0;
    CHECK(bes_another(&it.pass, &other) == BES_OK && bes_new_node(&it.pass, &node) == BES_OK);
    begin(&it);
    CHECK(add_new(&it.draft, &node) == BES_OK && node == 2 && add_number(&it.draft, 1, "a", 8) == BES_OK);
    CHECK(bes_set_int64(&other, 1, "a", 7) == BES_OK && bes_pin(&other, &number) == BES_OK);
    look(&other, &before);
    CHECK(bes_end_change(&it.pass, &it.draft, &number) == BES_CONFLICT && number == 2);
    CHECK(is_as_it_was(&other, &before) && bes_unpin(&other) == BES_OK && !it.draft.live && !is_pinned(&it.pass));
    begin(&it);
    CHECK(it.number == 2 && it.next == 2 && number_in(&it, 1, "a") == 7 && add_number(&it.draft, 1, "a", 8) == BES_OK);
    CHECK(bes_end_change(&it.pass, &it.draft, &number) == BES_OK && number == 3 && number_of(&other, 1, "a") == 8);
    CHECK(bes_close(&it.pass) == BES_OK && bes_close(&other) == BES_OK);
}

/* If the store refuses an operation, ending the change reports this, and nothing is written. */
static void refused(void)
{
    user it = open_user();
    uint64_t node = 0, number = 7;
    begin(&it);
    CHECK(add_new(&it.draft, &node) == BES_OK && add_remove(&it.draft, 9) == BES_OK);
    CHECK(bes_end_change(&it.pass, &it.draft, &number) == BES_NO_NODE && number == 0 && !it.draft.live && !is_pinned(&it.pass));
    begin(&it);
    CHECK(it.next == 1 && add_new(&it.draft, &node) == BES_OK && add_unset(&it.draft, 1, "a") == BES_OK);
    CHECK(bes_end_change(&it.pass, &it.draft, &number) == BES_NO_ATTRIBUTE);
    begin(&it);
    CHECK(add_index(&it.draft, "a", BES_RAW_TYPE) == BES_OK);
    CHECK(bes_end_change(&it.pass, &it.draft, &number) == BES_NOT_INDEXABLE);
    CHECK(bes_close(&it.pass) == BES_OK);
}

/* Ending a change unpins the snapshot if the change pinned it. A snapshot that was already pinned stays pinned. */
static void pins(void)
{
    user it = open_user();
    bes_draft second = BES_DRAFT_INIT;
    bes_attribute read;
    uint64_t node = 0, number = 0;
    uint8_t none = 0;
    CHECK(bes_pin(&it.pass, &number) == BES_OK && bes_new_node(&it.pass, &node) == BES_OK);
    begin(&it);
    CHECK(it.number == 0 && it.next == 1 && bes_abandon_change(&it.pass, &it.draft) == BES_OK && is_pinned(&it.pass));
    begin(&it);
    CHECK(bes_end_change(&it.pass, &it.draft, &number) == BES_OK && number == 0 && is_pinned(&it.pass));
    begin(&it);
    CHECK(add_new(&it.draft, &node) == BES_OK && node == 1);
    CHECK(bes_end_change(&it.pass, &it.draft, &number) == BES_CONFLICT && number == 1 && is_pinned(&it.pass));
    /* A draft doesn't follow its pass to another snapshot. */
    begin(&it);
    CHECK(bes_unpin(&it.pass) == BES_OK);
    CHECK(bes_change_get(&it.pass, &it.draft, 1, NAME("a"), &read, &none, 0) == BES_NOT_PINNED);
    CHECK(bes_pin(&it.pass, &number) == BES_OK && number == 1);
    CHECK(bes_change_get(&it.pass, &it.draft, 1, NAME("a"), &read, &none, 0) == BES_NOT_PINNED);
    CHECK(add_new(&it.draft, &node) == BES_OK);
    CHECK(bes_end_change(&it.pass, &it.draft, &number) == BES_NOT_PINNED && number == 0 && !it.draft.live && is_pinned(&it.pass));
    CHECK(bes_unpin(&it.pass) == BES_OK);
    /* The second draft of a pass uses the pin made for the first. */
    begin(&it);
    CHECK(bes_begin_change(&it.pass, &second, &number, &node) == BES_OK && number == 1 && node == 2);
    CHECK(bes_abandon_change(&it.pass, &it.draft) == BES_OK && !is_pinned(&it.pass));
    CHECK(bes_abandon_change(&it.pass, &second) == BES_OK && !second.live);
    begin(&it);
    CHECK(bes_close(&it.pass) == BES_OK && bes_abandon_change(&it.pass, &it.draft) == BES_CLOSED && !it.draft.live);
}

/* A draft works only with the pass that began it, even if another pass is pinned to the same snapshot. */
static void own_pass(void)
{
    bes_pass pass = BES_PASS_INIT, other = BES_PASS_INIT;
    bes_draft draft = BES_DRAFT_INIT;
    bes_attribute read;
    uint64_t node = 0, next = 0, number = 0;
    uint8_t none = 0;
    CHECK(bes_open(64, 2, 16, &pass) == BES_OK && bes_another(&pass, &other) == BES_OK);
    CHECK(bes_new_node(&pass, &node) == BES_OK);
    CHECK(bes_begin_change(&pass, &draft, &number, &next) == BES_OK && number == 1);
    CHECK(bes_pin(&other, &number) == BES_OK && number == 1 && add_new(&draft, &node) == BES_OK);
    CHECK(bes_change_get(&other, &draft, 1, NAME("a"), &read, &none, 0) == BES_NOT_PINNED);
    CHECK(bes_end_change(&other, &draft, &number) == BES_NOT_PINNED && !draft.live && is_pinned(&pass) && is_pinned(&other));
    CHECK(bes_unpin(&pass) == BES_OK && bes_begin_change(&pass, &draft, &number, &next) == BES_OK && number == 1);
    CHECK(bes_abandon_change(&other, &draft) == BES_OK && !draft.live && is_pinned(&pass) && is_pinned(&other));
    CHECK(bes_close(&other) == BES_OK && bes_close(&pass) == BES_OK);
}

static uint32_t apply_change(bes_pass *pass, const bes_batch *batch, uint64_t *number)
{
    return bes_apply_change(pass, batch->operations, batch->count, batch->bytes, batch->used, number);
}

/* Opens a store with an index "a" of strings and with node 1, and pins it. */
static bes_pass open_indexed(void)
{
    bes_pass pass = open_store(1);
    uint64_t number = 0;
    CHECK(bes_make_index(&pass, "a", BES_STRING_TYPE) == BES_OK && bes_new_node(&pass, &number) == BES_OK);
    CHECK(bes_pin(&pass, &number) == BES_OK && number == 2);
    return pass;
}

/* Wherever the first set of the wrong kind is in the batch, the error gives its position. */
static void places_of_wrong_kinds(void)
{
    bes_pass pass = open_indexed();
    bes_usage usage = {0, 0, 0, 0, 0, false, 0, 0};
    uint64_t number = 0;
    for (uint64_t place = 0; place < 64; place++) {
        bes_batch batch = BES_BATCH_INIT;
        for (uint64_t i = 0; i < place; i++)
            CHECK((i % 2 == 0 ? bes_batch_set_text(&batch, 1, "a", "x") : bes_batch_set_int64(&batch, 1, "b", 1)) == BES_OK);
        while (batch.count < 64)
            CHECK(bes_batch_set_int64(&batch, 1, "a", 1) == BES_OK);
        number = 99;
        CHECK(apply_change(&pass, &batch, &number) == BES_WRONG_KIND && number == place && is_pinned(&pass));
    }
    CHECK(bes_status(&pass, &usage, &number) == BES_OK && usage.entries == 2);
    CHECK(bes_close(&pass) == BES_OK);
}

/* A set is checked against the index as left by the batch's earlier operations. A refused batch leaves no trace. */
static void kinds_of_own_indices(void)
{
    bes_pass pass = open_indexed();
    bes_batch batch = BES_BATCH_INIT, longer;
    uint64_t number = 0;
    CHECK(bes_batch_remove_index(&batch, "a") == BES_OK && bes_batch_set_int64(&batch, 1, "a", 5) == BES_OK);
    CHECK(bes_batch_make_index(&batch, "a", BES_INT64_TYPE) == BES_OK && bes_batch_set_int64(&batch, 1, "a", 6) == BES_OK);
    longer = batch;
    CHECK(bes_batch_set_text(&longer, 1, "a", "x") == BES_OK);
    CHECK(apply_change(&pass, &longer, &number) == BES_WRONG_KIND && number == 4);
    CHECK(bes_unpin(&pass) == BES_OK && number_of(&pass, 1, "a") == -1);
    CHECK(bes_pin(&pass, &number) == BES_OK && apply_change(&pass, &batch, &number) == BES_OK && number == 3);
    CHECK(bes_unpin(&pass) == BES_OK && number_of(&pass, 1, "a") == 6);
    CHECK(bes_close(&pass) == BES_OK);
}

/* New nodes get the snapshot's next numbers. If another write came in between, the call returns a conflict. Errors from the store
 * are reported last. */
static void writes_at_once(void)
{
    bes_pass pass = open_indexed();
    bes_batch batch = BES_BATCH_INIT;
    uint64_t next = 0, number = 0;
    CHECK(bes_next(&pass, &next) == BES_OK && next == 2);
    CHECK(bes_batch_new_node(&batch) == BES_OK && bes_batch_new_node(&batch) == BES_OK);
    CHECK(bes_batch_set_int64(&batch, next + 1, "b", 7) == BES_OK);
    CHECK(apply_change(&pass, &batch, &number) == BES_OK && number == 3 && is_pinned(&pass));
    CHECK(apply_change(&pass, &batch, &number) == BES_CONFLICT && number == 3);
    CHECK(bes_unpin(&pass) == BES_OK && number_of(&pass, 3, "b") == 7);
    CHECK(apply_change(&pass, &batch, &number) == BES_NOT_PINNED && number == 0);
    bes_batch_clear(&batch);
    CHECK(bes_pin(&pass, &number) == BES_OK && apply_change(&pass, &batch, &number) == BES_BAD_COUNT && number == 0);
    CHECK(bes_batch_unset(&batch, 1, "a") == BES_OK);
    CHECK(apply_change(&pass, &batch, &number) == BES_NO_ATTRIBUTE && number == 0);
    CHECK(bes_close(&pass) == BES_OK);
}

/* One of two threads that move amounts from one node to another. */
typedef struct mover {
    bes_pass pass;
    uint64_t from, to;
    int64_t amount;
    unsigned rounds, attempts;
} mover;

/* Makes one attempt to move an amount, based on what the change reads. */
static uint32_t move_once(mover *it, uint64_t *number)
{
    user change = {BES_PASS_INIT, BES_DRAFT_INIT, 0, 0};
    CHECK(bes_move(&it->pass, &change.pass) == BES_OK);
    begin(&change);
    CHECK(add_number(&change.draft, it->from, "a", number_in(&change, it->from, "a") - it->amount) == BES_OK);
    CHECK(add_number(&change.draft, it->to, "a", number_in(&change, it->to, "a") + it->amount) == BES_OK);
    it->attempts++;
    *number = 0;
    const uint32_t error = bes_end_change(&change.pass, &change.draft, number);
    CHECK(bes_move(&change.pass, &it->pass) == BES_OK);
    return error;
}

static void *move_often(void *with)
{
    mover *it = with;
    uint64_t number = 0;
    for (unsigned i = 0; i < it->rounds; i++) {
        bes_retry retry = {UINT32_MAX, 1, 0, 60000, NULL};
        uint32_t error;
        do
            error = move_once(it, &number);
        while (error == BES_CONFLICT ? bes_pause(&retry) : bes_again(&it->pass, error, number, &retry));
        CHECK(error == BES_OK);
    }
    return NULL;
}

static void moves(unsigned rounds)
{
    mover one = {open_store(2), 1, 2, 1, rounds, 0}, two = {BES_PASS_INIT, 2, 1, 3, rounds, 0};
    pthread_t running;
    uint64_t node = 0;
    CHECK(bes_another(&one.pass, &two.pass) == BES_OK);
    CHECK(bes_new_node(&one.pass, &node) == BES_OK && bes_set_int64(&one.pass, node, "a", 1000000) == BES_OK);
    CHECK(bes_new_node(&one.pass, &node) == BES_OK && bes_set_int64(&one.pass, node, "a", 1000000) == BES_OK);
    CHECK(pthread_create(&running, NULL, move_often, &two) == 0);
    move_often(&one);
    CHECK(pthread_join(running, NULL) == 0);
    CHECK(number_of(&one.pass, 1, "a") == 1000000 + 2 * (int64_t)rounds);
    CHECK(number_of(&two.pass, 2, "a") == 1000000 - 2 * (int64_t)rounds);
    CHECK(bes_close(&one.pass) == BES_OK && bes_close(&two.pass) == BES_OK);
}

int main(int argc, char **argv)
{
    const bool is_short = argc > 1 && strcmp(argv[1], "short") == 0;
    handles();
    for (uint64_t count = 0; count <= 65; count++)
        sizes(count);
    invalid();
    kinds();
    own_reads();
    batches();
    begins_anew();
    refused();
    pins();
    own_pass();
    places_of_wrong_kinds();
    kinds_of_own_indices();
    writes_at_once();
    moves(is_short ? 200 : 5000);
    return 0;
}
