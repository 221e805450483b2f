/* Helpers built on the calls in bestore.h. Include bestore.h, which includes this file.
 *
 * Helpers whose bodies are here are inline functions. The others are plain C functions in libbestore, alongside the formally verified
 * calls. A helper whose comment lists no errors returns the errors of the call that it makes. Names that end with _ are internal to these
 * headers. */
#include "bestore.h" /* bestore.h includes this file again, and the second inclusion is skipped */

#ifndef BESTORE_HELPERS_H
#define BESTORE_HELPERS_H

#include "bestore_batch.h"

#ifdef __cplusplus
extern "C" {
#endif

/* Returns a description of an error, in English, with a hint on how to fix it. */
const char *bes_strerror(uint32_t error);

/* Returns an error's name, such as "BES_BUSY", or "BES_?" for an unknown number. */
const char *bes_error_name(uint32_t error);

/* Returns what a program can do about an error: BES_CLASS_RETRY, BES_CLASS_MINE, BES_CLASS_FULL or BES_CLASS_GONE. For BES_OK it returns
 * BES_CLASS_NONE; for an unknown number it returns BES_CLASS_MINE, on the assumption that repeating the call won't help. */
uint32_t bes_class(uint32_t error);

/* Returns whether this type code is that of an integer kind. */
bool bes_is_number_code(uint32_t code);

/* Clears a handle in a forked child without freeing anything. The copy of the parent's store occupies memory until the child exits or calls
 * exec. */
static inline void bes_forget(bes_pass *pass)
{
    pass->live = false;
    pass->at = NULL;
}

/* Like bes_forget, for a prepared query. */
static inline void bes_forget_prepared(bes_prepared *prepared)
{
    prepared->live = false;
    prepared->at = NULL;
}

/* Like bes_forget, for a place. */
static inline void bes_forget_place(bes_place *place)
{
    place->live = false;
    place->at = NULL;
}

/* Like bes_forget, for a witness. */
static inline void bes_forget_witness(bes_witness *witness)
{
    witness->live = false;
    witness->at = NULL;
}

/* Like bes_forget, for a draft. */
static inline void bes_forget_draft(bes_draft *draft)
{
    draft->live = false;
    draft->at = NULL;
}

/* Like bes_forget, for a builder. */
static inline void bes_forget_builder(bes_builder *builder)
{
    builder->live = false;
    builder->at = NULL;
}

/* How many milliseconds after its first failed try a helper gives up, counted by the monotonic clock: after BES_BUSY and BES_FULL, and for
 * bes_change, which also starts over after BES_CONFLICT. bes_reindex always uses 5,000. */
#ifndef BES_WITHIN
#define BES_WITHIN 2000u
#endif
#ifndef BES_CHANGE_WITHIN
#define BES_CHANGE_WITHIN 5000u
#endif

/* How many tries a helper below makes at most if it has no parameter for the number of tries. The time is usually up first. */
#ifndef BES_TRIES
#define BES_TRIES 10000u
#endif

/* Whose turn it is to write to a store. A thread that finds another thread's write in progress sleeps until that write is over, instead of
 * trying again and again. Initialise it with BES_TURN_INIT, and name it in the bes_retry of each helper that writes to the store, in every
 * thread. It must outlive those calls, and needs no cleanup. Without a bes_turn the helpers work too, but when several threads write at
 * once, some writes take much longer. C++, Python and Rust have one for each store. */
typedef struct bes_turn {
    uint32_t state;  /* private: 0 if nobody's, 1 if taken, 2 if a thread may be waiting too, 3 if kept for one that has waited long */
    uint32_t urgent; /* private: how many threads have waited long */
} bes_turn;

#define BES_TURN_INIT { 0, 0 }

/* The state of a helper between tries. Initialise it with {tries - 1, 1, 0, BES_WITHIN, NULL}, before each call. */
typedef struct bes_retry {
    uint32_t left;   /* the number of tries that are left */
    unsigned turns;  /* for bes_stand_back */
    uint64_t until;  /* when to give up, in nanoseconds of the monotonic clock, or 0 before the first failed try */
    uint32_t within; /* how many milliseconds after the first failed try to give up; 0 stands for 2,000 */
    bes_turn *turn;  /* whose turn it is to write to the store, or NULL */
} bes_retry;

/* Pauses before the next try. If `turns` is below 16, the thread yields the processor, and otherwise it sleeps for `turns` microseconds.
 * Returns the argument for the next pause, which is twice `turns` but at most 1,024. */
unsigned bes_stand_back(unsigned turns);

/* Returns whether tries and time are left after a failed try. If so, it first counts the try and calls bes_stand_back. */
bool bes_pause(bes_retry *retry);

/* Returns whether a write that returned BES_FULL with this number may succeed later because another pass has an older snapshot pinned, or
 * had one pinned a moment ago. If the caller's own pin is the oldest, the result is false. */
bool bes_waits_for_other(bes_pass *pass, uint64_t oldest);

/* Returns whether to repeat a call that returned this error and number, and pauses first, as bes_pause does. The result is true after
 * BES_BUSY, and after BES_FULL while bes_waits_for_other returns true, as long as bes_pause returns true. */
bool bes_again(bes_pass *pass, uint32_t error, uint64_t number, bes_retry *retry);

/* Waits until the turn is free and takes it, but no longer than the retry allows. Returns whether it was taken. */
bool bes_wait_for_turn_(bes_retry *retry);

/* Gives the turn to a thread that waits for it. */
void bes_wake_next_(bes_turn *turn);

/* Takes the turn, if the retry has one. Returns whether it was taken; if so, call bes_end_turn. If not, the try may fail with BES_BUSY. */
static inline bool bes_take_turn(bes_retry *retry)
{
    uint32_t nobodys = 0;
    if (retry->turn == NULL)
        return false;
    if (__atomic_compare_exchange_n(&retry->turn->state, &nobodys, 1, false, __ATOMIC_ACQUIRE, __ATOMIC_RELAXED))
        return true;
    return bes_wait_for_turn_(retry);
}

static inline void bes_end_turn(bes_turn *turn)
{
    uint32_t taken = 1;
    if (!__atomic_compare_exchange_n(&turn->state, &taken, 0, false, __ATOMIC_RELEASE, __ATOMIC_RELAXED))
        bes_wake_next_(turn);
}

/* Like bes_apply, but retries while bes_again returns true. */
static inline uint32_t bes_apply_retrying(bes_pass *pass, bes_retry *retry, const bes_operation *operations, size_t operations_count,
                                          const uint8_t *bytes, size_t bytes_count, uint64_t *made, size_t made_room,
                                          uint64_t *number)
{
    uint32_t error;
    do {
        const bool has_turn = bes_take_turn(retry);
        error = bes_apply(pass, operations, operations_count, bytes, bytes_count, made, made_room, number);
        if (has_turn)
            bes_end_turn(retry->turn);
    } while (bes_again(pass, error, *number, retry));
    return error;
}

/* Like bes_apply_retrying, but calls bes_apply_if. It doesn't retry after BES_CONFLICT, because what the caller read is no longer
 * current. */
static inline uint32_t bes_apply_if_retrying(bes_pass *pass, bes_retry *retry, uint64_t expected, const bes_operation *operations,
                                             size_t operations_count, const uint8_t *bytes, size_t bytes_count, uint64_t *made,
                                             size_t made_room, uint64_t *number)
{
    uint32_t error;
    do {
        const bool has_turn = bes_take_turn(retry);
        error = bes_apply_if(pass, expected, operations, operations_count, bytes, bytes_count, made, made_room, number);
        if (has_turn)
            bes_end_turn(retry->turn);
    } while (bes_again(pass, error, *number, retry));
    return error;
}

/* Like bes_apply, but if the first try fails, it retries up to `retries` times, for BES_WITHIN at most, as long as bes_again returns true.
 * With 0 retries it is the same as bes_apply. */
static inline uint32_t bes_apply_or_retry(bes_pass *pass, const bes_operation *operations, size_t operations_count,
                                          const uint8_t *bytes, size_t bytes_count, uint32_t retries, uint64_t *made,
                                          size_t made_room, uint64_t *number)
{
    bes_retry retry = {retries, 1, 0, BES_WITHIN, NULL};
    return bes_apply_retrying(pass, &retry, operations, operations_count, bytes, bytes_count, made, made_room, number);
}

/* Like bes_apply_or_retry, but calls bes_apply_if. */
static inline uint32_t bes_apply_if_or_retry(bes_pass *pass, uint64_t expected, const bes_operation *operations,
                                             size_t operations_count, const uint8_t *bytes, size_t bytes_count, uint32_t retries,
                                             uint64_t *made, size_t made_room, uint64_t *number)
{
    bes_retry retry = {retries, 1, 0, BES_WITHIN, NULL};
    return bes_apply_if_retrying(pass, &retry, expected, operations, operations_count, bytes, bytes_count, made, made_room, number);
}

/* Applies a batch as bes_apply_or_retry does, making up to `tries` tries in all, and at least one. */
static inline uint32_t bes_batch_apply(bes_pass *pass, const bes_batch *batch, unsigned tries, uint64_t *made,
                                       size_t made_room, uint64_t *number)
{
    return bes_apply_or_retry(pass, batch->operations, batch->count, batch->bytes, batch->used, tries > 0 ? tries - 1 : 0, made,
                              made_room, number);
}

/* Applies a batch as bes_apply_if_or_retry does, making up to `tries` tries in all, and at least one. */
static inline uint32_t bes_batch_apply_if(bes_pass *pass, uint64_t expected, const bes_batch *batch, unsigned tries,
                                          uint64_t *made, size_t made_room, uint64_t *number)
{
    return bes_apply_if_or_retry(pass, expected, batch->operations, batch->count, batch->bytes, batch->used,
                                 tries > 0 ? tries - 1 : 0, made, made_room, number);
}

/* A function for bes_change to run. It reads the pass's pinned snapshot, and adds operations to the batch, which is empty at first. The
 * nodes that it creates get the numbers next, next + 1 and so on. bes_change may run the function several times, so each run should
 * overwrite what the previous run stored in *with. The function returns BES_OK or an error; bes_change passes the error on. */
typedef uint32_t bes_changer(bes_pass *pass, bes_batch *batch, uint64_t next, void *with);

/* Returns whether the pass wrote one of the journal's entries from this snapshot on, up to this length. */
bool bes_wrote_since_(bes_pass *pass, uint64_t snapshot, uint64_t length);

/* Writes the batch of a change to this snapshot. */
static inline uint32_t bes_end_attempt_(bes_pass *pass, bes_retry *retry, const bes_batch *batch, uint64_t snapshot, uint64_t *number)
{
    const bool has_turn = bes_take_turn(retry);
    uint32_t error = bes_apply_change(pass, batch->operations, batch->count, batch->bytes, batch->used, number);
    if (has_turn)
        bes_end_turn(retry->turn);
    if (error == BES_CONFLICT && bes_wrote_since_(pass, snapshot, *number))
        error = BES_NESTED;
    return error;
}

/* One attempt of bes_change. *is_over says whether the change is over before anything is written. If the changer exits through a longjmp or
 * an exception, only the pin remains. */
static inline uint32_t bes_change_once_(bes_pass *pass, bes_retry *retry, bes_changer *changer, void *with, uint64_t *number, bool *is_over)
{
    bes_batch batch;
    uint64_t snapshot = 0, next = 0;
    uint32_t error = bes_pin(pass, &snapshot);
    *number = 0;
    *is_over = true;
    if (error != BES_OK)
        return error;
    bes_batch_clear(&batch);
    error = bes_next(pass, &next);
    if (error == BES_OK)
        error = changer(pass, &batch, next, with);
    *is_over = error != BES_OK || batch.count == 0;
    if (!*is_over)
        error = bes_end_attempt_(pass, retry, &batch, snapshot, number);
    else if (error == BES_OK)
        *number = snapshot;
    bes_unpin(pass);
    return error;
}

/* Like bes_change, but with a retry of the caller's: it starts over after BES_CONFLICT while bes_pause returns true. */
static inline uint32_t bes_change_retrying(bes_pass *pass, bes_retry *retry, bes_changer *changer, void *with, uint64_t *number)
{
    for (;;) {
        bool is_over = false;
        uint32_t error = bes_change_once_(pass, retry, changer, with, number, &is_over);
        if (is_over || !(error == BES_CONFLICT ? bes_pause(retry) : bes_again(pass, error, *number, retry)))
            return error;
    }
}

/* Reads and writes atomically: pins the current snapshot, runs the changer, applies its batch if no other transaction has been committed in
 * the meantime, and unpins. If another transaction has been committed, or if bes_again returns true, bes_change starts over. It gives up
 * BES_CHANGE_WITHIN after the first failed attempt, or after `attempts` attempts, of which it makes at least one. If the batch is empty,
 * nothing is written. An error that the changer returns ends the change, even if it is one after which bes_change would start over.
 *
 * The changer must not unpin the pass. If it unpins it and pins it again, its batch is written even if another transaction has been
 * committed since its first reads: bes_change doesn't check this, because the check would make each change slower. bes_end_change does
 * check it.
 * [in] pass      a pass that isn't pinned
 * [out] number   the commit number; for an empty batch, the snapshot's number
 * BES_CONFLICT: another transaction committed first on the last attempt. BES_NESTED: the changer wrote through the change's own pass; what
 * it wrote itself is in the store, and its batch isn't. BES_NOT_PINNED: the changer unpinned the pass; its batch isn't in the store.
 * BES_PINNED, the changer's errors, and the errors of bes_apply_change except BES_BAD_COUNT, with number set as there. */
static inline uint32_t bes_change(bes_pass *pass, uint32_t attempts, bes_changer *changer, void *with, uint64_t *number)
{
    bes_retry retry = {attempts > 0 ? attempts - 1 : 0, 1, 0, BES_CHANGE_WITHIN, NULL};
    return bes_change_retrying(pass, &retry, changer, with, number);
}

/* Replaces the batch with the next operations in the sequence that rebuilds the pinned snapshot. Apply the batch to another store with
 * bes_batch_apply. When no operations are left, and after an error, the batch is empty. The errors are those of bes_state. */
static inline uint32_t bes_batch_state(bes_pass *pass, bes_place *place, bes_batch *batch)
{
    bes_counts counts = {0, 0};
    uint32_t error = bes_state(pass, place, &counts, batch->operations, 64, batch->bytes, sizeof batch->bytes);
    batch->count = (size_t)counts.operations;
    batch->used = (size_t)counts.bytes;
    return error;
}

/* Opens a store that begins with the pinned snapshot: with its next node number, and with the same nodes, attributes and indices. The journal
 * is empty. Prepared queries can be used with both stores.
 * [in] pass      a pinned pass of the old store
 * [out] next     a closed handle, which becomes the new store's first pass, as in bes_open
 * BES_BAD_LIMITS, BES_OPEN: next is open. BES_FULL: the new store has too few pages; no store with as many pages has room for the snapshot.
 * The errors of bes_next and bes_build_finish.
 * Cost: two descents for each node and each indexed attribute, and what bes_build_finish costs. */
uint32_t bes_carry_on(bes_pass *pass, uint64_t pages, uint64_t passes, uint64_t commits, bes_pass *next);

/* Replaces the batch with an entry of the journal, as read by bes_journal_from. After BES_BUSY it retries, making up to BES_TRIES tries in
 * all. If the entry doesn't exist yet, and after an error, the batch is empty.
 * [in] from      the entry's index, counting from 0
 * [out] by       the pass that wrote the entry
 * [out] length   the journal's length; after an error, the number reported with the error */
static inline uint32_t bes_batch_entry(bes_pass *pass, uint64_t from, bes_batch *batch, uint64_t *by, uint64_t *length)
{
    bes_retry retry = {BES_TRIES > 0 ? BES_TRIES - 1 : 0, 1, 0, BES_WITHIN, NULL};
    bes_counts counts;
    uint32_t error;
    do {
        counts.operations = counts.bytes = 0;
        error = bes_journal_from(pass, from, by, &counts, batch->operations, 64, batch->bytes, sizeof batch->bytes, length);
    } while (bes_again(pass, error, *length, &retry));
    batch->count = (size_t)counts.operations;
    batch->used = (size_t)counts.bytes;
    return error;
}

/* Like bes_batch_to_bytes, but takes its operations in the same form as bes_apply. It also returns BES_BAD_COUNT if there are more than 64
 * operations, and BES_DATA_LENGTH if a text or raw value has more than 255 bytes. */
uint32_t bes_operations_to_bytes(const bes_operation *operations, size_t operations_count, const uint8_t *parts, size_t parts_count,
                                 uint8_t *bytes, size_t bytes_room, uint64_t *count);

/* Like bes_batch_from_bytes, but reads into arrays.
 * [out] counts, operations, parts  as for bes_attributes; 64 operations and 64 * (63 + 255) bytes suffice. After an error, the counts are
 *                0, and the contents of the arrays are unspecified. */
uint32_t bes_operations_from_bytes(const uint8_t *bytes, size_t length, bes_counts *counts, bes_operation *operations,
                                   size_t operations_room, uint8_t *parts, size_t parts_room, uint64_t *place);

/* The maximum number of bytes that bes_batch_to_bytes writes. */
#define BES_BATCH_BYTES (5 + 64 * (1 + 8 + 1 + 63 + 4 + 1 + 255))

/* Encodes a batch as bytes that can be stored or sent, in the format described in bestore's KEPT.md. bes_batch_from_bytes decodes them.
 * [out] bytes    the first bytes; at most bytes_room, and BES_BATCH_BYTES suffice
 * [out] count    how many bytes there are; after an error in an operation, its index
 * BES_BAD_COUNT: the batch is empty. BES_BAD_PART, BES_NO_OPERATION, BES_NAME_LENGTH (empty, or more than 63 bytes), BES_NO_KIND,
 * BES_NO_VALUE, BES_NOT_UTF8, BES_HAS_NUL: the batch contains an operation that no call accepts. */
static inline uint32_t bes_batch_to_bytes(const bes_batch *batch, uint8_t *bytes, size_t bytes_room, uint64_t *count)
{
    return bes_operations_to_bytes(batch->operations, batch->count, batch->bytes, batch->used, bytes, bytes_room, count);
}

/* Decodes a batch that bes_batch_to_bytes encoded, and replaces the contents of *batch with it. After an error, the batch is empty.
 * [out] place    the byte offset of the error; otherwise 0
 * BES_BAD_PART: the bytes don't begin as an encoded batch does or are of another format version; a part is cut off (place is its first
 * byte); or more bytes follow the end of the batch.
 * BES_BAD_COUNT, BES_NO_OPERATION, BES_NAME_LENGTH (0, or more than 63), BES_NO_KIND, BES_NO_VALUE: place is the offset of the invalid
 * number.
 * BES_NOT_UTF8, BES_HAS_NUL: place is the first wrong byte of a name or a text.
 * All other errors in an operation are reported when the batch is applied. */
static inline uint32_t bes_batch_from_bytes(bes_batch *batch, const uint8_t *bytes, size_t length, uint64_t *place)
{
    bes_counts counts = {0, 0};
    uint32_t error = bes_operations_from_bytes(bytes, length, &counts, batch->operations, 64, batch->bytes, sizeof batch->bytes, place);
    batch->count = (size_t)counts.operations;
    batch->used = (size_t)counts.bytes;
    return error;
}

/* Creates 1 to 64 nodes in one transaction, and writes their numbers. No other pass gets the same numbers. */
static inline uint32_t bes_new_nodes(bes_pass *pass, size_t count, uint64_t *nodes)
{
    bes_operation operations[64];
    uint64_t number = 0;
    uint8_t none = 0;
    if (count > 64)
        return BES_BAD_COUNT;
    memset(operations, 0, sizeof operations);
    return bes_apply_or_retry(pass, operations, count, &none, 0, BES_TRIES > 0 ? BES_TRIES - 1 : 0, nodes, count, &number);
}

/* Each helper below writes one operation as a transaction, as bes_batch_apply does with BES_TRIES tries. They don't return the number
 * reported with an error. made may be NULL. */
static inline uint32_t bes_apply_one(bes_pass *pass, uint32_t kind, uint64_t node, const char *name, uint32_t code,
                                     uint64_t number, const void *value, size_t value_length, uint64_t *made)
{
    bes_operation operation;
    uint8_t bytes[63 + 255];
    uint64_t none = 0, commit = 0;
    size_t used = 0;
    uint32_t error = bes_put_operation_(&operation, bytes, &used, kind, node, name, strlen(name), code, number, value, value_length);
    if (error != BES_OK)
        return error;
    return bes_apply_or_retry(pass, &operation, 1, bytes, used, BES_TRIES > 0 ? BES_TRIES - 1 : 0, made != NULL ? made : &none, 1,
                              &commit);
}

/* Creates a node, and writes its number. */
static inline uint32_t bes_new_node(bes_pass *pass, uint64_t *node)
{
    return bes_apply_one(pass, BES_NEW_NODE, 0, "", 0, 0, NULL, 0, node);
}

static inline uint32_t bes_remove_node(bes_pass *pass, uint64_t node)
{
    return bes_apply_one(pass, BES_REMOVE_NODE, node, "", 0, 0, NULL, 0, NULL);
}

static inline uint32_t bes_set_text(bes_pass *pass, uint64_t node, const char *name, const char *text)
{
    return bes_apply_one(pass, BES_SET, node, name, BES_STRING_TYPE, 0, text, strlen(text), NULL);
}

static inline uint32_t bes_set_mime(bes_pass *pass, uint64_t node, const char *name, const char *text)
{
    return bes_apply_one(pass, BES_SET, node, name, BES_MIME_STRING_TYPE, 0, text, strlen(text), NULL);
}

static inline uint32_t bes_set_raw(bes_pass *pass, uint64_t node, const char *name, const void *value, size_t length)
{
    return bes_apply_one(pass, BES_SET, node, name, BES_RAW_TYPE, 0, value, length, NULL);
}

/* surface.toml: setters */
static inline uint32_t bes_set_int32(bes_pass *pass, uint64_t node, const char *name, int32_t value)
{
    return bes_apply_one(pass, BES_SET, node, name, BES_INT32_TYPE, (uint64_t)(int64_t)value, NULL, 0, NULL);
}

static inline uint32_t bes_set_int64(bes_pass *pass, uint64_t node, const char *name, int64_t value)
{
    return bes_apply_one(pass, BES_SET, node, name, BES_INT64_TYPE, (uint64_t)value, NULL, 0, NULL);
}

static inline uint32_t bes_set_uint32(bes_pass *pass, uint64_t node, const char *name, uint32_t value)
{
    return bes_apply_one(pass, BES_SET, node, name, BES_UINT32_TYPE, value, NULL, 0, NULL);
}

static inline uint32_t bes_set_uint64(bes_pass *pass, uint64_t node, const char *name, uint64_t value)
{
    return bes_apply_one(pass, BES_SET, node, name, BES_UINT64_TYPE, value, NULL, 0, NULL);
}
/* surface.toml: end */

static inline uint32_t bes_unset(bes_pass *pass, uint64_t node, const char *name)
{
    return bes_apply_one(pass, BES_UNSET, node, name, 0, 0, NULL, 0, NULL);
}

static inline uint32_t bes_make_index(bes_pass *pass, const char *name, uint32_t code)
{
    return bes_apply_one(pass, BES_MAKE_INDEX, 0, name, code, 0, NULL, 0, NULL);
}

static inline uint32_t bes_remove_index(bes_pass *pass, const char *name)
{
    return bes_apply_one(pass, BES_REMOVE_INDEX, 0, name, 0, 0, NULL, 0, NULL);
}

/* Like bes_query, for text that ends with a zero byte. */
static inline uint32_t bes_find(bes_pass *pass, const char *text, uint64_t *nodes, size_t nodes_room, uint64_t *count)
{
    return bes_query(pass, (const uint8_t *)text, strlen(text), nodes, nodes_room, count);
}

/* Counts the nodes that match the query, without listing them. Errors and cost are as for bes_query. */
static inline uint32_t bes_count(bes_pass *pass, const char *text, uint64_t *count)
{
    uint64_t none = 0;
    return bes_find(pass, text, &none, 0, count);
}

/* Like bes_prepare, for text that ends with a zero byte. */
static inline uint32_t bes_prepare_text(const char *text, bes_prepared *prepared, uint64_t *place)
{
    return bes_prepare((const uint8_t *)text, strlen(text), prepared, place);
}

/* Like bes_check_name, for a name that ends with a zero byte. */
static inline uint32_t bes_check_name_text(const char *name, bes_name *checked)
{
    return bes_check_name((const uint8_t *)name, strlen(name), checked);
}

/* Like bes_get, for a name that ends with a zero byte. */
static inline uint32_t bes_read(bes_pass *pass, uint64_t node, const char *name, bes_attribute *attribute, uint8_t *bytes,
                                size_t bytes_room)
{
    return bes_get(pass, node, (const uint8_t *)name, strlen(name), attribute, bytes, bytes_room);
}

#ifdef __cplusplus
}
#endif
#endif
