/* Applies random batches. A batch that bes_apply accepts must be in the journal as it was given, one that it refuses must leave no
 * trace, and the store's state must rebuild the same store. An input is a sequence of batches. Each consists of the number of
 * operations, 12 bytes for each operation, the length of their bytes, and these bytes. */
#include "fuzz.h"

enum { APPLIED, APPLIED_WHAT, JOURNAL };

/* One operation more than a batch can have. */
#define MOST 65

/* A batch's operations, and the bytes that hold their parts. */
typedef struct fuzz_batch {
    bes_operation operations[MOST];
    size_t count;
    uint8_t *bytes;
    size_t used;
} fuzz_batch;

static const uint32_t codes[] = {BES_STRING_TYPE, BES_INT32_TYPE, BES_INT64_TYPE, BES_MIME_STRING_TYPE, BES_RAW_TYPE,
                                 BES_UINT32_TYPE, BES_UINT64_TYPE, 0x53545243};

static void take_operation(fuzz_input *input, bes_operation *it)
{
    uint64_t kind = take(input, 1), number = take(input, 3);
    memset(it, 0, sizeof *it);
    it->kind = (uint32_t)(kind % 7);
    it->code = codes[kind / 7 % 8];
    it->node = take(input, 1);
    it->number = number < 1 << 23 ? number : (uint64_t)(int64_t)((int32_t)(number << 8));
    if (number % 16 == 15)
        it->number <<= 40;
    it->name_at = (uint32_t)take(input, 2);
    it->name_length = (uint32_t)take(input, 1);
    it->value_at = (uint32_t)take(input, 2);
    it->value_length = (uint32_t)take(input, 2);
    if (it->value_at == UINT16_MAX)
        it->value_at = UINT32_MAX;
}

static void take_batch(fuzz_input *input, fuzz_batch *batch)
{
    batch->count = (size_t)take(input, 1) % (MOST + 1);
    for (size_t i = 0; i < batch->count; i++)
        take_operation(input, &batch->operations[i]);
    batch->used = (size_t)take(input, 2);
    if (batch->used > input->length)
        batch->used = input->length;
    batch->bytes = (uint8_t *)copy_of(input->bytes, batch->used);
    input->bytes += batch->used;
    input->length -= batch->used;
}

static uint64_t journal_length(bes_pass *pass)
{
    bes_counts counts = {0, 0};
    uint64_t by = 0, length = 0;
    CHECK(bes_journal_from(pass, UINT64_MAX, &by, &counts, NULL, 0, NULL, 0, &length) == BES_OK && counts.operations == 0);
    return length;
}

static bool is_part(const bes_batch *entry, uint32_t at, uint32_t length, const uint8_t *expected, uint32_t expected_length)
{
    return length == expected_length && (uint64_t)at + length <= entry->used &&
           memcmp(entry->bytes + at, expected, expected_length) == 0;
}

/* Checks that an operation in the journal has the same values as the one that was applied, in the fields that it uses. */
static void is_kept(const bes_batch *entry, const bes_operation *kept, const fuzz_batch *batch, const bes_operation *it, uint64_t made)
{
    bool has_name = it->kind >= BES_SET, has_node = it->kind <= BES_UNSET, sets = it->kind == BES_SET;
    CHECK(kept->kind == it->kind);
    CHECK(!has_node || kept->node == (it->kind == BES_NEW_NODE ? made : it->node));
    CHECK(!has_name || is_part(entry, kept->name_at, kept->name_length, batch->bytes + it->name_at, it->name_length));
    CHECK((!sets && it->kind != BES_MAKE_INDEX) || kept->code == it->code);
    if (sets && bes_is_number_code(it->code))
        CHECK(kept->number == it->number);
    else if (sets)
        CHECK(is_part(entry, kept->value_at, kept->value_length, batch->bytes + it->value_at, it->value_length));
}

/* Checks that the journal's last entry is this batch, and that it can be encoded and decoded again. */
static void is_last_entry(bes_pass *pass, const fuzz_batch *batch, const uint64_t *made, uint64_t number)
{
    static bes_batch entry, again;
    static uint8_t bytes[BES_BATCH_BYTES], other[BES_BATCH_BYTES];
    uint64_t by = 7, length = 0, count = 0, place = 7, other_count = 0;
    bes_batch_clear(&entry);
    CHECK(bes_batch_entry(pass, number - 1, &entry, &by, &length) == BES_OK && by == 0 && length == number);
    CHECK(entry.count == batch->count);
    for (size_t i = 0; i < batch->count; i++)
        is_kept(&entry, &entry.operations[i], batch, &batch->operations[i], made[i]);
    CHECK(bes_batch_to_bytes(&entry, bytes, sizeof bytes, &count) == BES_OK && count <= sizeof bytes);
    CHECK(bes_batch_from_bytes(&again, bytes, (size_t)count, &place) == BES_OK && place == 0);
    CHECK(bes_batch_to_bytes(&again, other, sizeof other, &other_count) == BES_OK && other_count == count);
    CHECK(memcmp(bytes, other, (size_t)count) == 0);
}

static void apply(bes_pass *pass, const fuzz_batch *batch)
{
    uint64_t made[MOST + 1], before = journal_length(pass), number = 7;
    bes_operation *operations = (bes_operation *)copy_of(batch->operations, batch->count * sizeof *operations);
    uint32_t error;
    memset(made, 0x5a, sizeof made);
    error = bes_apply(pass, operations, batch->count, batch->bytes, batch->used, made, batch->count, &number);
    free(operations);
    saw(APPLIED, error);
    for (size_t i = error == BES_OK ? batch->count : 0; i < MOST + 1; i++)
        CHECK(made[i] == 0x5a5a5a5a5a5a5a5a);
    CHECK(journal_length(pass) == before + (error == BES_OK));
    if (error == BES_OK) {
        CHECK(number == before + 1);
        is_last_entry(pass, batch, made, number);
    }
    saw(JOURNAL, 64 * (error != BES_OK) + size_of(number));
    for (size_t i = 0; i < batch->count && error == BES_OK; i++)
        saw(APPLIED_WHAT, batch->operations[i].kind * 8 + batch->operations[i].code % 8);
}

/* Encodes all batches of a pass's state, one after another. */
static size_t state_of(bes_pass *pass, uint8_t *bytes, size_t room)
{
    static bes_batch batch;
    bes_place place = BES_PLACE_INIT;
    uint64_t number = 0, count = 0;
    size_t all = 0;
    CHECK(bes_pin(pass, &number) == BES_OK);
    for (bes_batch_clear(&batch); bes_batch_state(pass, &place, &batch) == BES_OK && batch.count > 0; all += (size_t)count) {
        CHECK(bes_batch_to_bytes(&batch, bytes + all, room - all, &count) == BES_OK && all + count <= room);
    }
    CHECK(batch.count == 0 && bes_leave(&place) == BES_OK && bes_unpin(pass) == BES_OK);
    return all;
}

/* Checks that applying the store's state to an empty store gives a store with the same state. */
static void carries_on(bes_pass *pass)
{
    static uint8_t state[1 << 20], again[1 << 20];
    static bes_batch batch;
    bes_pass other = BES_PASS_INIT;
    bes_place place = BES_PLACE_INIT;
    uint64_t number = 0, made[64];
    size_t length = state_of(pass, state, sizeof state);
    CHECK(bes_open(64, 1, 100, &other) == BES_OK && bes_pin(pass, &number) == BES_OK);
    for (bes_batch_clear(&batch); bes_batch_state(pass, &place, &batch) == BES_OK && batch.count > 0;)
        CHECK(bes_apply(&other, batch.operations, batch.count, batch.bytes, batch.used, made, 64, &number) == BES_OK);
    CHECK(bes_leave(&place) == BES_OK && bes_unpin(pass) == BES_OK);
    CHECK(state_of(&other, again, sizeof again) == length && memcmp(state, again, length) == 0);
    CHECK(bes_close(&other) == BES_OK);
}

int LLVMFuzzerTestOneInput(const uint8_t *bytes, size_t length)
{
    static fuzz_batch batch;
    fuzz_input input = {bytes, length};
    bes_pass pass = BES_PASS_INIT;
    CHECK(bes_open(32, 1, 20, &pass) == BES_OK);
    while (input.length > 0) {
        take_batch(&input, &batch);
        apply(&pass, &batch);
        free(batch.bytes);
    }
    carries_on(&pass);
    CHECK(bes_close(&pass) == BES_OK);
    return 0;
}
