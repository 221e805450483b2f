/* Tests conditional writes, changes, the journal's entries, batches as bytes, waiting after BES_FULL, and handles in a forked
 * child. */
#define _POSIX_C_SOURCE 199309L
#define BES_WITHIN 60000 /* milliseconds, so that another thread has time to unpin even on a loaded machine */
#define BES_CHANGE_WITHIN 60000
#include "tests.h"
#include <pthread.h>
#include <sys/wait.h>
#include <time.h>
#include <unistd.h>

static bes_batch batch, other_batch;

/* Opens a store with three passes, an index on "count", and node 1. */
static void open_three(bes_pass *passes, uint64_t pages)
{
    uint64_t node = 0;
    memset(passes, 0, 3 * sizeof *passes);
    CHECK(bes_open(pages, 3, 100000, &passes[0]) == BES_OK);
    CHECK(bes_another(&passes[0], &passes[1]) == BES_OK && bes_another(&passes[0], &passes[2]) == BES_OK);
    CHECK(bes_make_index(&passes[0], "count", BES_INT64_TYPE) == BES_OK);
    CHECK(bes_new_node(&passes[0], &node) == BES_OK && node == 1);
}

static void close_three(bes_pass *passes)
{
    for (int i = 0; i < 3; i++)
        CHECK(bes_close(&passes[i]) == BES_OK);
}

static void names(void)
{
    const char *unknown = bes_strerror(63);
    for (uint32_t error = 1; error <= 200; error++) {
        bool is_known = strcmp(bes_error_name(error), "BES_?") != 0;
        CHECK(is_known || error < BES_BUSY || (error > BES_BAD_RPN && error < BES_CLOSED) || error > BES_NESTED);
        CHECK(strncmp(bes_error_name(error), "BES_", 4) == 0 && (strcmp(bes_strerror(error), unknown) != 0) == is_known);
        CHECK(bes_class(error) >= BES_CLASS_RETRY && bes_class(error) <= BES_CLASS_GONE);
    }
    CHECK(strcmp(bes_error_name(63), "BES_?") == 0 && bes_class(63) == BES_CLASS_MINE);
    CHECK(bes_class(BES_OK) == BES_CLASS_NONE && bes_class(BES_BUSY) == BES_CLASS_RETRY);
    CHECK(bes_class(BES_SYNTAX) == BES_CLASS_MINE && bes_class(BES_FULL) == BES_CLASS_FULL);
    CHECK(bes_class(BES_CLOSED) == BES_CLASS_GONE && bes_class(BES_CONFLICT) == BES_CLASS_RETRY);
    CHECK(strcmp(bes_error_name(BES_BAD_RPN), "BES_BAD_RPN") == 0 && strcmp(bes_error_name(BES_BUSY), "BES_BUSY") == 0);
    CHECK(strcmp(bes_error_name(BES_CLOSED), "BES_CLOSED") == 0 && strcmp(bes_error_name(BES_NO_ITEM), "BES_NO_ITEM") == 0);
    CHECK(strcmp(bes_strerror(BES_CONFLICT), "the journal's length isn't what the write expects; "
                                               "read again, and base the write on that") == 0);
}

static void own_number(void)
{
    bes_pass passes[3], closed = BES_PASS_INIT;
    uint64_t number = 7;
    CHECK(bes_number(&closed, &number) == BES_CLOSED);
    open_three(passes, 64);
    for (uint64_t i = 0; i < 3; i++)
        CHECK(bes_number(&passes[i], &number) == BES_OK && number == 2 - i);
    CHECK(bes_move(&passes[2], &closed) == BES_OK && bes_number(&closed, &number) == BES_OK && number == 0);
    CHECK(bes_move(&closed, &passes[2]) == BES_OK);
    close_three(passes);
}

static void next_node(void)
{
    bes_pass passes[3], closed = BES_PASS_INIT;
    uint64_t node = 7, number = 0, made[64];
    CHECK(bes_next(&closed, &node) == BES_CLOSED && node == 0);
    open_three(passes, 64);
    CHECK(bes_next(&passes[0], &node) == BES_NOT_PINNED);
    CHECK(bes_pin(&passes[0], &number) == BES_OK && number == 2);
    CHECK(bes_new_nodes(&passes[1], 3, made) == BES_OK && made[0] == 2 && made[2] == 4);
    CHECK(bes_next(&passes[0], &node) == BES_OK && node == 2);
    CHECK(bes_unpin(&passes[0]) == BES_OK && bes_pin(&passes[0], &number) == BES_OK && number == 3);
    CHECK(bes_next(&passes[0], &node) == BES_OK && node == 5);
    CHECK(bes_new_nodes(&passes[1], 64, made) == BES_OK && made[63] == 68);
    CHECK(bes_new_nodes(&passes[1], 0, made) == BES_BAD_COUNT && bes_new_nodes(&passes[1], 65, made) == BES_BAD_COUNT);
    close_three(passes);
}

static void conditional(void)
{
    bes_pass passes[3], closed = BES_PASS_INIT;
    uint64_t number = 7, made[2] = {7, 7};
    bes_batch_clear(&batch);
    CHECK(bes_batch_set_int64(&batch, 1, "count", 1) == BES_OK && bes_batch_new_node(&batch) == BES_OK);
    CHECK(bes_batch_apply_if(&closed, 0, &batch, 1, made, 2, &number) == BES_CLOSED && number == 0);
    open_three(passes, 64);
    CHECK(bes_batch_apply_if(&passes[0], 1, &batch, 5, made, 2, &number) == BES_CONFLICT && number == 2 && made[1] == 7);
    CHECK(bes_batch_apply_if(&passes[0], 3, &batch, 5, made, 2, &number) == BES_CONFLICT && number == 2);
    CHECK(bes_batch_apply_if(&passes[1], 2, &batch, 5, made, 2, &number) == BES_OK && number == 3 && made[0] == 0 && made[1] == 2);
    CHECK(bes_batch_apply_if(&passes[1], 2, &batch, 5, made, 2, &number) == BES_CONFLICT && number == 3);
    /* This error comes after errors for invalid operations, and before the store's errors. */
    bes_batch_clear(&batch);
    CHECK(bes_batch_apply_if(&passes[1], 0, &batch, 1, made, 2, &number) == BES_BAD_COUNT && number == 0);
    CHECK(bes_batch_remove_node(&batch, 99) == BES_OK);
    CHECK(bes_batch_apply_if(&passes[1], 2, &batch, 1, made, 2, &number) == BES_CONFLICT && number == 3);
    CHECK(bes_batch_apply_if(&passes[1], 3, &batch, 1, made, 2, &number) == BES_NO_NODE && number == 0);
    CHECK(bes_batch_unset(&batch, 1, "\xff") == BES_OK);
    CHECK(bes_batch_apply_if(&passes[1], 2, &batch, 1, made, 2, &number) == BES_NOT_UTF8 && number == 1);
    close_three(passes);
}

/* The state of a function that increments a count, and how many times another write is to interfere with it. */
typedef struct counting {
    bes_pass *disturber;
    unsigned disturbances, runs;
    uint64_t next;
    uint32_t error;
} counting;

static uint32_t count_up(bes_pass *pass, bes_batch *it, uint64_t next, void *with)
{
    counting *counting = with;
    bes_attribute count = {0, 0, 0};
    uint8_t none = 0;
    uint32_t error = bes_read(pass, 1, "count", &count, &none, 0);
    counting->runs++;
    counting->next = next;
    if (counting->disturbances > 0) {
        counting->disturbances--;
        CHECK(bes_new_node(counting->disturber, &next) == BES_OK);
    }
    if (counting->error != BES_OK)
        return counting->error;
    CHECK(error == BES_OK || error == BES_NO_ATTRIBUTE);
    CHECK(it->count == 0 && bes_batch_set_int64(it, 1, "count", (int64_t)count.number + 1) == BES_OK);
    return BES_OK;
}

static uint32_t do_nothing(bes_pass *pass, bes_batch *it, uint64_t next, void *with)
{
    (void)it, (void)next, (void)with;
    return pass->live ? BES_OK : BES_CLOSED;
}

static uint64_t count_of(bes_pass *pass)
{
    bes_attribute count = {0, 0, 0};
    uint64_t number = 0;
    uint8_t none = 0;
    CHECK(bes_pin(pass, &number) == BES_OK && bes_read(pass, 1, "count", &count, &none, 0) == BES_OK && bes_unpin(pass) == BES_OK);
    return count.number;
}

static void changes(void)
{
    static const uint32_t own[] = {BES_BUSY, BES_CONFLICT, BES_FULL};
    bes_pass passes[3];
    uint64_t number = 7;
    counting it = {&passes[1], 0, 0, 0, BES_OK};
    open_three(passes, 256);
    CHECK(bes_change(&passes[0], 1, count_up, &it, &number) == BES_OK && number == 3 && it.runs == 1 && it.next == 2);
    it = (counting){&passes[1], 3, 0, 0, BES_OK};
    CHECK(bes_change(&passes[0], BES_TRIES, count_up, &it, &number) == BES_OK && number == 7 && it.runs == 4 && it.next == 5);
    it = (counting){&passes[1], 3, 0, 0, BES_OK};
    CHECK(bes_change(&passes[0], 3, count_up, &it, &number) == BES_CONFLICT && number == 10 && it.runs == 3);
    it = (counting){&passes[1], 0, 0, 0, BES_NOT_UTF8};
    CHECK(bes_change(&passes[0], 3, count_up, &it, &number) == BES_NOT_UTF8 && number == 0 && it.runs == 1);
    for (size_t i = 0; i < sizeof own / sizeof *own; i++) {
        it = (counting){&passes[1], 0, 0, 0, own[i]};
        CHECK(bes_change(&passes[0], 3, count_up, &it, &number) == own[i] && number == 0 && it.runs == 1);
    }
    CHECK(bes_change(&passes[0], 0, do_nothing, NULL, &number) == BES_OK && number == 10);
    CHECK(count_of(&passes[2]) == 2);
    CHECK(bes_remove_index(&passes[1], "count") == BES_OK && bes_make_index(&passes[1], "count", BES_INT32_TYPE) == BES_OK);
    it = (counting){&passes[1], 0, 0, 0, BES_OK};
    CHECK(bes_change(&passes[0], 3, count_up, &it, &number) == BES_WRONG_KIND && number == 0 && it.runs == 1);
    CHECK(bes_pin(&passes[0], &number) == BES_OK && bes_change(&passes[0], 3, count_up, &it, &number) == BES_PINNED && number == 0);
    CHECK(bes_unpin(&passes[0]) == BES_OK && bes_unpin(&passes[0]) == BES_NOT_PINNED);
    close_three(passes);
}

/* Writes through its own pass. */
static uint32_t stray(bes_pass *pass, bes_batch *it, uint64_t next, void *with)
{
    counting *counting = with;
    (void)next;
    counting->runs++;
    OK(bes_set_int64(pass, 1, "count", 7));
    return bes_batch_set_int64(it, 1, "count", 8);
}

/* Unpins the change's own pass. */
static uint32_t let_go(bes_pass *pass, bes_batch *it, uint64_t next, void *with)
{
    counting *counting = with;
    (void)next;
    counting->runs++;
    OK(bes_unpin(pass));
    return bes_batch_set_int64(it, 1, "count", 8);
}

/* A change ends at once if its function writes through the change's own pass, or unpins it. */
static void nested(void)
{
    bes_pass passes[3];
    uint64_t number = 0;
    counting it = {NULL, 0, 0, 0, BES_OK};
    open_three(passes, 64);
    CHECK(bes_change(&passes[0], BES_TRIES, stray, &it, &number) == BES_NESTED && it.runs == 1);
    CHECK(bes_change(&passes[0], BES_TRIES, let_go, &it, &number) == BES_NOT_PINNED && it.runs == 2);
    CHECK(bes_pin(&passes[0], &number) == BES_OK && number == 3 && bes_unpin(&passes[0]) == BES_OK && count_of(&passes[0]) == 7);
    close_three(passes);
}

/* Replays the journal's entries in an empty store, which then has the same journal. */
static void replay(bes_pass *pass)
{
    static uint8_t mine[1 << 16], theirs[1 << 16];
    bes_pass next = BES_PASS_INIT;
    uint64_t by = 0, length = 0, number = 0, count = 0, other_count = 0, made[64];
    CHECK(bes_open(256, 1, 1000, &next) == BES_OK);
    for (uint64_t from = 0;; from++) {
        CHECK(bes_batch_entry(pass, from, &batch, &by, &length) == BES_OK);
        if (batch.count == 0)
            break;
        CHECK(by < 3 && bes_batch_apply(&next, &batch, 1, made, 64, &number) == BES_OK && number == from + 1 && number <= length);
        for (size_t i = 0; i < batch.count; i++)
            CHECK(made[i] == (batch.operations[i].kind == BES_NEW_NODE ? batch.operations[i].node : 0));
    }
    CHECK(number == length);
    CHECK(bes_journal(pass, mine, sizeof mine, &count) == BES_OK && bes_journal(&next, theirs, sizeof theirs, &other_count) == BES_OK);
    for (uint64_t i = 0; i + 5 < count; i++)
        if (memcmp(mine + i, " by ", 4) == 0)
            mine[i + 4] = '0';
    CHECK(count == other_count && count <= sizeof mine && memcmp(mine, theirs, count) == 0);
    CHECK(bes_close(&next) == BES_OK);
}

static void entries(void)
{
    bes_pass passes[3], closed = BES_PASS_INIT;
    bes_counts counts = {7, 7};
    bes_operation listed[2];
    uint8_t bytes[4] = {7, 7, 7, 7};
    uint64_t by = 7, length = 7, node = 0, number = 0;
    memset(listed, 7, sizeof listed);
    CHECK(bes_journal_from(&closed, 0, &by, &counts, listed, 2, bytes, 4, &length) == BES_CLOSED && length == 0 && by == 7);
    CHECK(counts.operations == 7 && bes_batch_entry(&closed, 0, &batch, &by, &length) == BES_CLOSED && batch.count == 0);
    open_three(passes, 64);
    bes_batch_clear(&batch);
    CHECK(bes_batch_new_node(&batch) == BES_OK && bes_batch_set_text(&batch, 1, "name", "ann") == BES_OK);
    CHECK(bes_batch_set_raw(&batch, 2, "r", "\0\xff", 2) == BES_OK && bes_batch_set_int32(&batch, 2, "count", -5) == BES_OK);
    CHECK(bes_batch_new_node(&batch) == BES_OK && bes_batch_remove_node(&batch, 3) == BES_OK);
    CHECK(bes_batch_apply(&passes[2], &batch, 1, &node, 1, &number) == BES_OK && number == 3);
    CHECK(bes_journal_from(&passes[0], 2, &by, &counts, listed, 1, bytes, 2, &length) == BES_OK && by == 0 && length == 3);
    CHECK(counts.operations == 6 && counts.bytes == 4 + 3 + 1 + 2 + 5 && listed[0].kind == BES_NEW_NODE && listed[0].node == 2);
    CHECK(listed[1].kind == 0x07070707 && bytes[2] == 7);
    CHECK(bes_journal_from(&passes[0], 3, &by, &counts, listed, 1, bytes, 2, &length) == BES_OK && counts.operations == 0 && length == 3);
    CHECK(bes_journal_from(&passes[0], UINT64_MAX, &by, &counts, listed, 1, bytes, 2, &length) == BES_OK && counts.operations == 0);
    CHECK(bes_unset(&passes[1], 2, "r") == BES_OK && bes_remove_index(&passes[1], "count") == BES_OK);
    replay(&passes[0]);
    close_three(passes);
}

static uint64_t seed = 1;

static uint64_t below(uint64_t most)
{
    seed = seed * 6364136223846793005u + 1442695040888963407u;
    return (seed >> 33) % most;
}

static void fill(char *text, size_t length)
{
    for (size_t i = 0; i < length; i++)
        text[i] = (char)('a' + below(26));
    text[length] = 0;
}

/* Returns a random number of this type code, or 0 if its values aren't numbers. */
static uint64_t any_number(uint32_t code)
{
    switch (code) {
    case BES_INT32_TYPE: return below(1u << 31) - below(2) * (1u << 31);
    case BES_UINT32_TYPE: return below((uint64_t)1 << 32);
    default: return bes_is_number_code(code) ? below(1u << 30) << below(34) : 0;
    }
}

/* Fills a batch with random operations. */
static void any_batch(void)
{
    static const uint32_t codes[] = {BES_STRING_TYPE, BES_INT32_TYPE, BES_INT64_TYPE, BES_MIME_STRING_TYPE, BES_RAW_TYPE,
                                     BES_UINT32_TYPE, BES_UINT64_TYPE};
    char name[64], value[256];
    size_t count = 1 + below(64);
    bes_batch_clear(&batch);
    while (batch.count < count) {
        uint32_t code = codes[below(7)];
        uint64_t number = any_number(code);
        size_t length = bes_is_number_code(code) ? 0 : below(256);
        fill(name, 1 + below(63));
        fill(value, length);
        switch (batch.count % 6) {
        case 0: CHECK(bes_batch_add(&batch, BES_SET, below(1u << 20), name, code, number, value, length) == BES_OK); break;
        case 1: CHECK(bes_batch_new_node(&batch) == BES_OK); break;
        case 2: CHECK(bes_batch_remove_node(&batch, UINT64_MAX - below(9)) == BES_OK); break;
        case 3: CHECK(bes_batch_unset(&batch, below(99), name) == BES_OK); break;
        case 4: CHECK(bes_batch_make_index(&batch, name, code) == BES_OK); break;
        default: CHECK(bes_batch_remove_index(&batch, name) == BES_OK);
        }
    }
}

static bool are_same(const bes_batch *a, const bes_batch *b)
{
    return a->count == b->count && a->used == b->used && memcmp(a->bytes, b->bytes, a->used) == 0 &&
           memcmp(a->operations, b->operations, a->count * sizeof *a->operations) == 0;
}

/* The encoded bytes decode to the same batch. If they are truncated anywhere, the error has an offset within them. If a byte is
 * changed, they are either refused or decode to a different batch. */
static void bytes_come_back(void)
{
    static uint8_t bytes[BES_BATCH_BYTES + 1], again[BES_BATCH_BYTES];
    uint64_t count = 0, place = 7, again_count = 0;
    for (int round = 0; round < 200; round++) {
        any_batch();
        CHECK(bes_batch_to_bytes(&batch, bytes, sizeof bytes, &count) == BES_OK && count <= BES_BATCH_BYTES);
        CHECK(bes_batch_from_bytes(&other_batch, bytes, count, &place) == BES_OK && place == 0 && are_same(&batch, &other_batch));
        for (int i = 0; i < 50; i++) {
            size_t length = below(count);
            uint8_t *cut = malloc(length + 1);
            CHECK(cut != NULL);
            memcpy(cut, bytes, length);
            CHECK(bes_batch_from_bytes(&other_batch, cut, length, &place) == BES_BAD_PART && place <= length && other_batch.count == 0);
            free(cut);
        }
        bytes[count] = 0;
        CHECK(bes_batch_from_bytes(&other_batch, bytes, count + 1, &place) == BES_BAD_PART && place == count);
        for (int i = 0; i < 50; i++) {
            size_t at = below(count);
            uint8_t was = bytes[at];
            bytes[at] = (uint8_t)below(256);
            if (bes_batch_from_bytes(&other_batch, bytes, count, &place) == BES_OK) {
                CHECK(bes_batch_to_bytes(&other_batch, again, sizeof again, &again_count) == BES_OK);
                CHECK(again_count == count && memcmp(again, bytes, count) == 0);
            } else {
                CHECK(place <= count && other_batch.count == 0);
            }
            bytes[at] = was;
        }
    }
}

static void bytes_by_hand(void)
{
    uint8_t bytes[64] = {7};
    uint64_t count = 7, place = 7;
    bes_batch_clear(&batch);
    CHECK(bes_batch_to_bytes(&batch, bytes, 64, &count) == BES_BAD_COUNT && count == 0 && bytes[0] == 7);
    CHECK(bes_batch_new_node(&batch) == BES_OK && bes_batch_set_int32(&batch, 1, "n", -2) == BES_OK);
    CHECK(bes_batch_make_index(&batch, "name", BES_STRING_TYPE) == BES_OK);
    CHECK(bes_batch_to_bytes(&batch, bytes, 4, &count) == BES_OK && count == 47 && bytes[3] == 1 && bytes[4] == 0);
    CHECK(bes_batch_to_bytes(&batch, bytes, 64, &count) == BES_OK && count == 47 && bytes[4] == 3);
    bytes[23] = 64;
    CHECK(bes_batch_from_bytes(&other_batch, bytes, count, &place) == BES_BAD_PART && place == 23);
    batch.operations[2].kind = 6;
    CHECK(bes_batch_to_bytes(&batch, bytes, 64, &count) == BES_NO_OPERATION && count == 2);
    batch.operations[2].kind = BES_MAKE_INDEX, batch.operations[2].code = 1;
    CHECK(bes_batch_to_bytes(&batch, bytes, 64, &count) == BES_NO_KIND && count == 2);
    batch.operations[2].code = BES_INT64_TYPE, batch.operations[2].name_length = 0;
    CHECK(bes_batch_to_bytes(&batch, bytes, 64, &count) == BES_NAME_LENGTH && count == 2);
    batch.operations[1].number = 1u << 31;
    CHECK(bes_batch_to_bytes(&batch, bytes, 64, &count) == BES_NO_VALUE && count == 1);
    batch.operations[1].name_at = 0xffffffffu;
    CHECK(bes_batch_to_bytes(&batch, bytes, 64, &count) == BES_BAD_PART && count == 1);
}

/* Returns the error for a batch of one operation, whose name or text has two of these bytes. */
static uint32_t error_with(const char *name, const char *value, uint32_t code)
{
    uint8_t bytes[64];
    uint64_t count = 7;
    uint32_t error;
    bes_batch_clear(&batch);
    CHECK(bes_batch_add_bytes(&batch, BES_SET, 1, (const uint8_t *)name, 2, code, 0, (const uint8_t *)value, 2) == BES_OK);
    error = bes_batch_to_bytes(&batch, bytes, sizeof bytes, &count);
    CHECK(error == BES_OK || count == 0);
    return error;
}

static void texts_without_bytes(void)
{
    CHECK(error_with("\xc3\xa9", "\xc3\xa9", BES_STRING_TYPE) == BES_OK);
    CHECK(error_with("\xc3(", "ab", BES_STRING_TYPE) == BES_NOT_UTF8 && error_with("a\0", "ab", BES_STRING_TYPE) == BES_HAS_NUL);
    CHECK(error_with("ab", "a\xc3", BES_STRING_TYPE) == BES_NOT_UTF8 && error_with("ab", "a\xc3", BES_MIME_STRING_TYPE) == BES_NOT_UTF8);
    CHECK(error_with("ab", "\0\xc3", BES_STRING_TYPE) == BES_HAS_NUL && error_with("ab", "\0\xc3", BES_RAW_TYPE) == BES_OK);
}

/* Encodes into arrays and decodes into arrays: the counts tell how much space is needed, and nothing is written past the end of
 * an array. */
static void bytes_into_arrays(void)
{
    uint8_t bytes[200], parts[16];
    bes_operation operations[3];
    bes_counts counts = {7, 7};
    uint64_t count = 0, place = 7;
    bes_batch_clear(&batch);
    CHECK(bes_batch_new_node(&batch) == BES_OK && bes_batch_set_text(&batch, 1, "name", "ann") == BES_OK);
    CHECK(bes_batch_unset(&batch, 1, "size") == BES_OK);
    CHECK(bes_batch_to_bytes(&batch, bytes, sizeof bytes, &count) == BES_OK);
    for (size_t room = 0; room <= 3; room++) {
        memset(operations, 0x5a, sizeof operations);
        memset(parts, 0x5a, sizeof parts);
        CHECK(bes_operations_from_bytes(bytes, count, &counts, operations, room, parts, 4 * room, &place) == BES_OK && place == 0);
        CHECK(counts.operations == 3 && counts.bytes == 11);
        CHECK(memcmp(operations, batch.operations, room * sizeof *operations) == 0);
        CHECK(memcmp(parts, batch.bytes, room < 3 ? 4 * room : 11) == 0 && parts[room < 3 ? 4 * room : 11] == 0x5a);
        CHECK(room == 3 || operations[room].kind == 0x5a5a5a5au);
    }
    CHECK(bes_operations_from_bytes(bytes, count - 1, &counts, operations, 3, parts, 16, &place) == BES_BAD_PART);
    CHECK(counts.operations == 0 && counts.bytes == 0 && place == count - 5);
    memcpy(bytes, "BEB\1\1\5\100", 7);
    memset(bytes + 7, 'n', 64);
    CHECK(bes_operations_from_bytes(bytes, 71, &counts, operations, 3, parts, 16, &place) == BES_NAME_LENGTH && place == 6);
    bytes[6] = 63;
    CHECK(bes_operations_from_bytes(bytes, 70, &counts, operations, 3, parts, 16, &place) == BES_OK && counts.bytes == 63);
}

static double seconds_since(const struct timespec *begin)
{
    struct timespec now;
    CHECK(clock_gettime(CLOCK_MONOTONIC, &now) == 0);
    return (double)(now.tv_sec - begin->tv_sec) + (double)(now.tv_nsec - begin->tv_nsec) / 1e9;
}

/* Unpins a pass after a short time. */
static void *unpin_later(void *pass)
{
    const struct timespec rest = {0, 50000000};
    nanosleep(&rest, NULL);
    CHECK(bes_unpin(pass) == BES_OK);
    return NULL;
}

/* Creates nodes until no page is free. */
static void fill_up(bes_pass *pass)
{
    uint64_t number = 0, made = 0;
    uint32_t error;
    bes_batch_clear(&batch);
    CHECK(bes_batch_new_node(&batch) == BES_OK);
    do
        error = bes_apply(pass, batch.operations, 1, batch.bytes, 0, &made, 1, &number);
    while (error == BES_OK);
    CHECK(error == BES_FULL);
}

/* While another pass has an older snapshot pinned, a write is retried until it runs out of tries or time. */
static void waits_only_so_long(bes_pass *pass, uint64_t number)
{
    bes_retry retry = {2, 1, 0, BES_WITHIN, NULL}, late = {2, 1, 1, BES_WITHIN, NULL};
    CHECK(bes_waits_for_other(pass, number));
    CHECK(bes_again(pass, BES_FULL, number, &retry) && retry.left == 1 && retry.turns == 2 && retry.until > 0);
    CHECK(bes_again(pass, BES_FULL, number, &retry) && !bes_again(pass, BES_FULL, number, &retry));
    CHECK(!bes_again(pass, BES_FULL, number, &late) && !bes_again(pass, BES_BUSY, 0, &late) && !bes_pause(&late) && late.left == 2);
    CHECK(!bes_again(pass, BES_OK, 0, &retry) && !bes_again(pass, BES_CONFLICT, 0, &retry));
}

/* After BES_FULL, a write waits for another pass to unpin, but not for ever. It doesn't wait for its own pass, or if no pin holds
 * pages. */
static void waiting(void)
{
    bes_pass passes[3];
    struct timespec begin;
    pthread_t running;
    uint64_t number = 0, node = 0;
    counting it = {&passes[1], 0, 0, 0, BES_OK};
    open_three(passes, 16);
    CHECK(bes_pin(&passes[1], &number) == BES_OK);
    fill_up(&passes[0]);
    CHECK(pthread_create(&running, NULL, unpin_later, &passes[1]) == 0);
    CHECK(bes_new_node(&passes[0], &node) == BES_OK && pthread_join(running, NULL) == 0);
    CHECK(bes_pin(&passes[1], &number) == BES_OK);
    fill_up(&passes[0]);
    CHECK(pthread_create(&running, NULL, unpin_later, &passes[1]) == 0);
    CHECK(bes_change(&passes[0], BES_TRIES, count_up, &it, &number) == BES_OK && pthread_join(running, NULL) == 0);
    CHECK(clock_gettime(CLOCK_MONOTONIC, &begin) == 0);
    CHECK(bes_pin(&passes[0], &number) == BES_OK);
    fill_up(&passes[0]);
    CHECK(bes_new_node(&passes[0], &node) == BES_FULL && bes_unpin(&passes[0]) == BES_OK);
    CHECK(bes_new_node(&passes[0], &node) == BES_OK && seconds_since(&begin) < BES_WITHIN / 1000);
    CHECK(bes_pin(&passes[1], &number) == BES_OK);
    fill_up(&passes[0]);
    CHECK(bes_apply_or_retry(&passes[0], batch.operations, 1, batch.bytes, 0, 0, &node, 1, &number) == BES_FULL);
    CHECK(bes_batch_apply(&passes[0], &batch, 9, &node, 1, &number) == BES_FULL);
    waits_only_so_long(&passes[0], number);
    close_three(passes);
}

/* If no page is free and no older snapshot is pinned, waiting doesn't help. */
static void full_for_good(void)
{
    bes_pass pass = BES_PASS_INIT;
    struct timespec begin;
    uint64_t number = 0, made[64];
    char value[256];
    uint32_t error;
    CHECK(bes_open(16, 2, 100000, &pass) == BES_OK && clock_gettime(CLOCK_MONOTONIC, &begin) == 0);
    fill(value, 255);
    do {
        uint64_t node = 0;
        CHECK(bes_pin(&pass, &number) == BES_OK && bes_next(&pass, &node) == BES_OK && bes_unpin(&pass) == BES_OK);
        bes_batch_clear(&batch);
        CHECK(bes_batch_new_node(&batch) == BES_OK && bes_batch_set_text(&batch, node, "k", value) == BES_OK);
        error = bes_batch_apply(&pass, &batch, BES_TRIES, made, 64, &number);
    } while (error == BES_OK);
    CHECK(error == BES_FULL && seconds_since(&begin) < BES_WITHIN / 1000 && bes_close(&pass) == BES_OK);
}

static void moves(void)
{
    bes_pass pass = BES_PASS_INIT;
    bes_prepared prepared = BES_PREPARED_INIT, other = BES_PREPARED_INIT;
    bes_place place = BES_PLACE_INIT, elsewhere = BES_PLACE_INIT;
    bes_updates updates = {7, 7};
    uint64_t number = 0, node = 0, nodes[2] = {0, 0};
    CHECK(bes_move_prepared(&prepared, &other) == BES_CLOSED && bes_move_place(&place, &elsewhere) == BES_CLOSED);
    CHECK(bes_open(64, 1, 100, &pass) == BES_OK && bes_make_index(&pass, "n", BES_INT64_TYPE) == BES_OK);
    CHECK(bes_new_node(&pass, &node) == BES_OK && bes_set_int64(&pass, node, "n", 1) == BES_OK);
    CHECK(bes_prepare_text("n==1", &prepared, &number) == BES_OK && bes_pin(&pass, &number) == BES_OK);
    CHECK(bes_refresh(&pass, &prepared, &updates) == BES_OK && updates.created == 1);
    CHECK(bes_move_prepared(&prepared, &other) == BES_OK && bes_release(&prepared) == BES_CLOSED);
    CHECK(bes_changes(&other, nodes, 2, nodes + 1, 0) == BES_OK && nodes[0] == node);
    CHECK(bes_prepare_text("n==2", &prepared, &number) == BES_OK && bes_move_prepared(&prepared, &other) == BES_OPEN);
    CHECK(bes_refresh(&pass, &other, &updates) == BES_OK && updates.created == 0 && updates.removed == 0);
    CHECK(bes_release(&prepared) == BES_OK && bes_release(&other) == BES_OK);
    CHECK(bes_batch_state(&pass, &place, &batch) == BES_OK && batch.count == 3);
    CHECK(bes_move_place(&place, &elsewhere) == BES_OK && bes_leave(&place) == BES_CLOSED);
    CHECK(bes_batch_state(&pass, &elsewhere, &batch) == BES_OK && batch.count == 0);
    CHECK(bes_batch_state(&pass, &place, &batch) == BES_OK && batch.count == 3 && bes_move_place(&place, &elsewhere) == BES_OPEN);
    CHECK(bes_leave(&place) == BES_OK && bes_leave(&elsewhere) == BES_OK && bes_close(&pass) == BES_OK);
}

/* A forked child clears the handles that its parent opened, and opens a store of its own. */
static void in_child(void)
{
    bes_pass passes[3];
    bes_prepared prepared = BES_PREPARED_INIT;
    bes_place place = BES_PLACE_INIT;
    bes_witness witness = BES_WITNESS_INIT;
    bes_draft draft = BES_DRAFT_INIT;
    bes_builder builder = BES_BUILDER_INIT;
    uint64_t number = 0, node = 0;
    int status = 0;
    pid_t child;
    open_three(passes, 64);
    CHECK(bes_prepare_text("count>0", &prepared, &number) == BES_OK && bes_pin(&passes[0], &number) == BES_OK);
    CHECK(bes_batch_state(&passes[0], &place, &batch) == BES_OK && bes_witness_of(&passes[0], &witness) == BES_OK);
    CHECK(bes_begin_change(&passes[2], &draft, &number, &node) == BES_OK && bes_build(8, 1, 1, &builder) == BES_OK);
    fflush(NULL);
    child = fork();
    CHECK(child >= 0);
    if (child == 0) {
        for (int i = 0; i < 3; i++)
            bes_forget(&passes[i]);
        bes_forget_prepared(&prepared);
        bes_forget_place(&place);
        bes_forget_witness(&witness);
        bes_forget_draft(&draft);
        bes_forget_builder(&builder);
        CHECK(bes_new_node(&passes[0], &node) == BES_CLOSED && bes_release(&prepared) == BES_CLOSED && bes_leave(&place) == BES_CLOSED);
        CHECK(bes_dismiss(&witness) == BES_CLOSED && bes_abandon_change(&passes[2], &draft) == BES_CLOSED);
        CHECK(bes_build_close(&builder) == BES_CLOSED);
        open_three(passes, 64);
        close_three(passes);
        execlp("true", "true", (char *)NULL); /* exits without a leak report */
        _exit(1);
    }
    CHECK(waitpid(child, &status, 0) == child && WIFEXITED(status) && WEXITSTATUS(status) == 0);
    CHECK(bes_new_node(&passes[1], &node) == BES_OK && node == 2);
    CHECK(bes_leave(&place) == BES_OK && bes_release(&prepared) == BES_OK && bes_dismiss(&witness) == BES_OK);
    CHECK(bes_abandon_change(&passes[2], &draft) == BES_OK && bes_build_close(&builder) == BES_OK);
    close_three(passes);
}

int main(void)
{
    names();
    own_number();
    next_node();
    conditional();
    nested();
    changes();
    entries();
    bytes_by_hand();
    texts_without_bytes();
    bytes_into_arrays();
    bytes_come_back();
    moves();
    in_child();
    full_for_good();
    waiting();
    return 0;
}
