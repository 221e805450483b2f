/* bestore: a shared, multi-version, in-memory store of nodes with attributes, indices and queries.
 *
 * Link with libbestore.a or -lbestore (pkg-config bestore); add -lpthread if your program creates threads.
 *
 * HANDLES. A bes_pass is a session: one thread's handle to a store. Through its pass, a thread writes to the store, pins a snapshot and
 * reads that snapshot. A bes_prepared is a parsed query. It isn't tied to a store, and any pass may run it. A bes_place is a position in
 * the list of operations that rebuild a snapshot. A bes_witness carries a record of what a pass has seen to a pass of the same store in
 * another thread. A bes_draft is a change: the operations that a pass will write, based on what it has read. A bes_builder is a store that
 * is being built. You own the memory that a handle occupies. Initialise each handle with BES_PASS_INIT, BES_PREPARED_INIT, BES_PLACE_INIT,
 * BES_WITNESS_INIT, BES_DRAFT_INIT or BES_BUILDER_INIT, each of which sets every byte to zero. Never copy a handle or change its fields;
 * move it with bes_move, bes_move_prepared, bes_move_place, bes_move_witness, bes_move_draft or bes_move_builder. Close a handle with
 * bes_close, bes_release, bes_leave or bes_dismiss; close a draft with bes_end_change or bes_abandon_change, and a builder with
 * bes_build_finish or bes_build_close. Closing a store's last open pass frees the store.
 *
 * THREADS. Give each thread its own pass. Calls on different passes run concurrently, and no call waits for another. A pass, a prepared
 * query, a place, a witness, a draft or a builder may be used by only one call at a time. You may hand any of these handles to another
 * thread if a join, a lock or a thread start ensures that the other thread's calls come after yours. Never call these functions from a
 * signal handler. None of them is a cancellation point. With deferred cancellation, which is the default, a thread ends only between calls,
 * so close its pass in a cleanup handler. If a thread ends inside a call, through asynchronous cancellation or a longjmp, its handle must
 * not be used again, and its pin is never released. If the thread was writing, every later write to the store returns BES_BUSY.
 *
 * FORK. A forked child has its own copy of the store, and no other process sees what the child writes there. If another thread was inside a
 * call at the time of the fork, the copy may be locked or half written. So a child must not pass a handle that its parent opened to any of
 * these functions. Instead, it clears each such handle with bes_forget, bes_forget_prepared, bes_forget_place, bes_forget_witness,
 * bes_forget_draft or bes_forget_builder, which free nothing. Then it may open a store of its own.
 *
 * ERRORS. Each call returns BES_OK or an error number. A function's comment lists its errors in the order in which it checks for them; if
 * two apply, it returns the first. After an error, the store, the handles and your memory are unchanged, unless the comment says otherwise.
 * The exceptions are the parameters number, count, seen and place, and node in bes_next and bes_change_add: they are set to the value that
 * the comment gives for the error, or to 0. The pass may also have seen more of the journal. Pointers must be valid, and the memory areas
 * that they point to must not overlap. A pointer must not be null, even if its length is 0; in that case it may point to any variable.
 *
 * STACK. A call takes up to 32 KB of its thread's stack; bes_change and bes_reindex take up to 64 KB, because of their batch. A call that
 * parses or runs a query takes up to 16 KB, and up to 1 KB for each of the query's comparisons. So 272 KB are enough for any call.
 *
 * SNAPSHOTS. The journal is the commit log: all committed transactions, numbered from 1. Pin a pass before you read through it. A pinned
 * pass reads the snapshot that was current when it was pinned, whatever is written in the meantime. The snapshot's number is the commit
 * number of its last transaction. The snapshot includes everything that the pass has written or seen. A pin prevents its snapshot's pages
 * from being reused, so unpin as soon as you can. If a thread never returns its handle, its snapshot stays pinned.
 */
#ifndef BESTORE_H
#define BESTORE_H

#include "bestore_types.h"

#ifdef __cplusplus
extern "C" {
#endif

#define BES_VERSION_MAJOR 0
#define BES_VERSION_MINOR 4
#define BES_VERSION_PATCH 0
#define BES_VERSION "0.4.0"
#define BES_VERSION_NUMBER (BES_VERSION_MAJOR * 1000000 + BES_VERSION_MINOR * 1000 + BES_VERSION_PATCH)

/* Opens a store in memory and makes the handle its first pass. Passes are numbered from 0; the first pass has the number passes - 1.
 * [in] pages     how many pages of 4 KiB the store has, 8 to 16,777,216
 * [in] passes    how many passes it has, 1 to 64
 * [in] commits   how many transactions its journal can have, 1 to 2^32 - 1
 * [out] pass     a closed handle, which is opened
 * BES_OPEN, BES_BAD_LIMITS, BES_NO_MEMORY.
 * Cost: this call writes all pages, which take memory meanwhile. Afterwards, only pages that have been used take memory, and 1 % of the
 * size of the others. If the system then has no memory left for another page, it ends the process. */
uint32_t bes_open(uint64_t pages, uint64_t passes, uint64_t commits, bes_pass *pass);

/* Opens another handle, for another pass of the same store. The handle from bes_open holds the unused passes, and hands them out in
 * descending order of their numbers, down to 0. If it has none left, the new handle gets a pass that bes_close returned to the store. That
 * pass keeps its number and the record of what it has seen. The new pass meets the existing one: afterwards both have seen what either had
 * seen, so everything that the existing pass has written is visible to the new one.
 * [in,out] pass  any open handle of the store; only the handle from bes_open holds passes that were never used
 * [out] other    a closed handle, which is opened
 * Returns BES_CLOSED if pass is closed, BES_OPEN if other is open, BES_NO_PASS or BES_NO_MEMORY. A call that fails doesn't use up a pass.
 * Cost: some memory and three steps, and a check of each pass if no unused pass is left. */
uint32_t bes_another(bes_pass *pass, bes_pass *other);

/* Moves the handle's contents, including its pin, into other, and closes the handle.
 * [in,out] pass  the handle to close
 * [out] other    a closed handle, which is opened
 * Returns BES_CLOSED if pass is closed, BES_OPEN if other is open.
 * Cost: constant.
 * Threads: when one thread has finished with a pass, you can keep the pass in memory, still pinned, until another thread takes it. */
uint32_t bes_move(bes_pass *pass, bes_pass *other);

/* Closes the handle and unpins it. The pass goes back to the store, along with any unused passes that the handle still holds. bes_another
 * hands them out again, through any handle of the store. Closing the last open handle frees the store.
 * BES_CLOSED.
 * Cost: one step for each pass that goes back; for the last handle, the time to free all pages and the journal. */
uint32_t bes_close(bes_pass *pass);

/* Closes the store through its last handle, and writes the whole journal as text, as bes_journal does: each transaction with its commit
 * number and the pass that wrote it. If bytes_room is less than count, nothing is written and the handle stays open; call again with a
 * larger array. The handle may be pinned.
 * [in,out] pass  the store's last open handle, which this call closes
 * [out] bytes    the text. No zero byte follows it.
 * [out] count    how many bytes the text has
 * BES_CLOSED. BES_IN_USE: another handle is open. BES_NO_MEMORY. After BES_IN_USE and BES_NO_MEMORY the handle stays open: tests check
 * this, but no contract states it.
 * Cost: time and memory for the whole text, and the time to free all pages. */
uint32_t bes_finish(bes_pass *pass, uint8_t *bytes, size_t bytes_room, uint64_t *count);

/* Begins to build a store from a volume that you already have, such as a saved one. A store that is built takes fewer pages and much less
 * time than the same volume written in transactions, and its journal begins empty. Give the builder the indices first, in ascending order
 * of the bytes of their names. Then give it each node, in ascending order of their numbers, which may have gaps. After each node, give it
 * the node's attributes, in ascending order of the bytes of their names. bes_build_finish then opens the store.
 * [in] pages, passes, commits  as for bes_open
 * [out] builder  a closed handle, which is opened
 * BES_OPEN, BES_BAD_LIMITS, BES_NO_MEMORY.
 * Cost: memory for all pages. */
uint32_t bes_build(uint64_t pages, uint64_t passes, uint64_t commits, bes_builder *builder);

/* Gives the builder an index without entries. Attributes that are held, which come later, are its entries.
 * [in] name      the name, name_length bytes
 * [in] code      the type code of its kind
 * BES_CLOSED, BES_NOT_UTF8, BES_NAME_LENGTH, BES_HAS_NUL, BES_NO_KIND. If an earlier call returned BES_FULL or BES_NO_MEMORY: that error.
 * BES_NO_NODE: a node has already been given. BES_NOT_INDEXABLE. BES_TOO_MANY_INDICES: the builder has 32 indices. BES_INDEX_EXISTS: the
 * name isn't above that of the last index. BES_NO_MEMORY. After BES_NO_MEMORY, only bes_build_close is of use. After any other error, the
 * builder is unchanged.
 * Cost: constant. */
uint32_t bes_build_index(bes_builder *builder, const uint8_t *name, size_t name_length, uint32_t code);

/* Gives the builder a node without attributes.
 * [in] node      its number, 1 to 2^63 - 1
 * BES_CLOSED. If an earlier call returned BES_FULL or BES_NO_MEMORY: that error. BES_NO_NODE: the number isn't above that of the last node,
 * or is 0, or is 2^63 or more. BES_NO_MEMORY. BES_FULL: the store has too few pages for the volume. After BES_NO_MEMORY and BES_FULL, only
 * bes_build_close is of use. After any other error, the builder is unchanged.
 * Cost: constant, and a new page for every few nodes and attributes. */
uint32_t bes_build_node(bes_builder *builder, uint64_t node);

/* Gives the builder an attribute of its last node.
 * [in] name      the name, name_length bytes
 * [in] code      the type code of the value
 * [in] number    the value, if it is a number; (uint64_t)(int64_t)n if it is signed
 * [in] value     the bytes of a text or raw value, value_length bytes
 * [in] held      0 if no index has the attribute; any other number if the index of its name has it. An index has an attribute that was set
 *                after the index was created, and is of the index's kind; see bes_is_held.
 * BES_CLOSED, BES_NOT_UTF8, BES_NAME_LENGTH, BES_HAS_NUL (the name), BES_NO_KIND; then for the value BES_NOT_UTF8, BES_DATA_LENGTH,
 * BES_HAS_NUL or BES_NO_VALUE. If an earlier call returned BES_FULL or BES_NO_MEMORY: that error.
 * BES_NO_NODE: no node has been given. BES_TOO_MANY_ATTRS: the node has 64 attributes. BES_NO_ATTRIBUTE: the name isn't above that of the
 * node's last attribute. For an attribute that is held, BES_NO_INDEX: no index has its name; BES_NOT_INDEXABLE: the index is of
 * another kind. BES_NO_MEMORY. BES_FULL: the store has too few pages for the volume. After BES_NO_MEMORY and BES_FULL, only bes_build_close
 * is of use. After any other error, the builder is unchanged.
 * Cost: constant, and a new page for every few nodes and attributes; for one that is held, memory for its key until the store is opened. */
uint32_t bes_build_attribute(bes_builder *builder, const uint8_t *name, size_t name_length, uint32_t code, uint64_t number,
                             const uint8_t *value, size_t value_length, uint32_t held);

/* Opens the store that was built, and makes the handle its first pass, as bes_open does. The journal is empty. Unless the call returns
 * BES_CLOSED or BES_OPEN, it closes the builder, even after an error.
 * [in] next      the number of the next new node, up to 2^63. It must be above that of each node; bes_next writes it.
 * [out] pass     a closed handle, which is opened
 * Returns BES_CLOSED if builder is closed, BES_OPEN if pass is open. If an earlier call returned BES_FULL or BES_NO_MEMORY: that error.
 * BES_NO_NODE: next isn't above the number of the last node, or is 0, or is above 2^63. BES_NO_MEMORY. BES_FULL: the store has too few
 * pages for the volume, whose indices are written now.
 * Cost: a sort of the keys of each index, the time to write the indices, and, meanwhile, memory for a second copy of all pages. */
uint32_t bes_build_finish(bes_builder *builder, uint64_t next, bes_pass *pass);

/* Closes a builder and frees what it was given. BES_CLOSED. */
uint32_t bes_build_close(bes_builder *builder);

/* Moves a builder into other, and closes the original handle.
 * [out] other    a closed handle, which is opened
 * Returns BES_CLOSED if builder is closed, BES_OPEN if other is open. */
uint32_t bes_move_builder(bes_builder *builder, bes_builder *other);

/* Writes the pass's number, by which the journal, BES_BUSY and bes_status refer to it.
 * [out] number   the number, 0 to passes - 1
 * BES_CLOSED.
 * Cost: constant. */
uint32_t bes_number(bes_pass *pass, uint64_t *number);

/* Meets a pass that bes_close returned to the store: afterwards both have seen what either had seen. So two threads can share what they
 * have seen if each meets that pass in turn.
 * [out] seen     how many transactions both have now seen
 * BES_CLOSED, BES_NO_PASS (no pass has been returned to the store, or another thread is meeting it).
 * Cost: three steps, and a check of each pass. */
uint32_t bes_meet(bes_pass *pass, uint64_t *seen);

/* Opens a witness that records all transactions that the pass has seen so far, including its own. Hand the witness to another thread, whose
 * pass joins it. No pin is needed. A witness contains no part of the store and keeps no page in use.
 * [out] witness  a closed handle, which is opened
 * Returns BES_CLOSED if pass is closed, BES_OPEN if witness is open, BES_NO_MEMORY.
 * Cost: one step, and some memory until bes_dismiss. */
uint32_t bes_witness_of(bes_pass *pass, bes_witness *witness);

/* Joins a witness, whether the pass is pinned or not: afterwards the pass and the witness have both seen what either had seen. So each
 * later snapshot of the pass includes everything that the witness had seen. Each transaction that the pass commits later has a higher
 * number than any that the witness had seen. A pinned pass keeps its snapshot. The witness stays open, so you may pass it on and join it
 * again.
 * [in,out] witness  a witness from a pass of the same store. The library can't check that: with a witness from another store the
 *                behaviour is undefined.
 * [out] seen     how many transactions both have now seen
 * Returns BES_CLOSED if pass or witness is closed (pass is checked first).
 * Cost: three steps. */
uint32_t bes_join(bes_pass *pass, bes_witness *witness, uint64_t *seen);

/* Closes a witness and frees its memory. BES_CLOSED. */
uint32_t bes_dismiss(bes_witness *witness);

/* Moves a witness into other, and closes the original handle.
 * [out] other    a closed handle, which is opened
 * Returns BES_CLOSED if witness is closed, BES_OPEN if other is open. */
uint32_t bes_move_witness(bes_witness *witness, bes_witness *other);

/* Pins the current snapshot.
 * [out] number   the snapshot's number: how many transactions it includes
 * BES_CLOSED, BES_PINNED.
 * Cost: three steps, regardless of what other passes are doing. */
uint32_t bes_pin(bes_pass *pass, uint64_t *number);

/* Unpins the pass. BES_CLOSED, BES_NOT_PINNED.
 * Cost: one step. */
uint32_t bes_unpin(bes_pass *pass);

/* Writes a batch of 1 to 64 operations as one transaction: either all of them take effect, in order, or none does. A pinned pass keeps its
 * snapshot.
 * [in] operations  an array of operations_count operations
 * [in] bytes     the bytes that contain their names and values
 * [out] made     for each operation, the node that it created, or 0; at most made_room entries
 * [out] number   the commit number
 * BES_CLOSED, BES_BAD_COUNT, BES_NO_MEMORY.
 * BES_BAD_PART, BES_NO_OPERATION; then for the name BES_NOT_UTF8, BES_NAME_LENGTH, BES_HAS_NUL; then BES_NO_KIND; then for the value
 * BES_NOT_UTF8, BES_DATA_LENGTH, BES_HAS_NUL or BES_NO_VALUE: an operation is invalid, and number is the index of the first invalid
 * operation. BES_BUSY: another pass is writing, and number is that pass. Call again, as bes_apply_or_retry does.
 * BES_NO_NODE, BES_NO_ATTRIBUTE, BES_TOO_MANY_ATTRS, BES_INDEX_EXISTS, BES_NO_INDEX, BES_TOO_MANY_INDICES, BES_NOT_INDEXABLE: the store
 * refused an operation, and the error is that of the first operation refused.
 * BES_COMMITS_SPENT, BES_NO_MEMORY.
 * BES_FULL: no page is free, and number is the oldest version that a pass can still read; bes_status names the pass that holds it. If that
 * version is an older snapshot, unpin it and write again; bes_apply_or_retry keeps trying for a while. The same batch may return BES_FULL
 * again, with the number of the next snapshot, or because the store is too small even without snapshots. In that case, write a smaller
 * batch, remove nodes a few at a time, or copy the state into a larger store.
 * Cost: memory for the operations and for their journal entry, and new pages along the path to each change in a tree. The call scans for
 * pages to reuse if no page is free, or if a page has been retired since the last scan (or 32 pages, if that scan had to leave some to
 * readers). A scan checks each pass, and does some work for each page that becomes free. If the call returns BES_BUSY, it costs one step
 * and the memory for the operations. */
uint32_t bes_apply(bes_pass *pass, const bes_operation *operations, size_t operations_count, const uint8_t *bytes,
                   size_t bytes_count, uint64_t *made, size_t made_room, uint64_t *number);

/* Like bes_apply, but writes only if the journal has exactly `expected` entries. If a pass that is pinned to snapshot n calls with expected
 * = n, no other transaction can come between its snapshot and its write. bes_change does this, and starts over after BES_CONFLICT.
 * [in] expected  how many transactions the journal must have
 * BES_CONFLICT: the journal's length differs, and number is that length. This is checked after BES_BUSY and before the store's own errors.
 * The other errors and parameters are as for bes_apply. The cost, too, is as for bes_apply; a call that returns BES_CONFLICT costs the same
 * as one that returns BES_BUSY. */
uint32_t bes_apply_if(bes_pass *pass, uint64_t expected, const bes_operation *operations, size_t operations_count,
                      const uint8_t *bytes, size_t bytes_count, uint64_t *made, size_t made_room, uint64_t *number);

/* Writes the number that the next new node will get, as of the pinned snapshot. If you write a batch with bes_apply_if and the snapshot's
 * number, the batch may refer to the nodes that it creates by this number and the following numbers. With bes_apply, another pass might
 * take the number first.
 * [out] node     the number
 * BES_CLOSED, BES_NOT_PINNED.
 * Cost: constant. */
uint32_t bes_next(bes_pass *pass, uint64_t *node);

/* Writes a batch as a change to the pinned snapshot. It does what bes_apply_if does with the snapshot's number, but first checks each
 * BES_SET operation: if its name has an index, taking the batch's earlier operations into account, the value must be of the index's kind.
 * The store would accept a value of another kind, but no query on that name would find the node. Without an index, a value of any kind is
 * accepted. New nodes are numbered from the number that bes_next returns. bes_change writes its batch with this call.
 * [in] operations, bytes  as for bes_apply
 * [out] number   the commit number
 * BES_CLOSED, BES_BAD_COUNT, BES_NO_MEMORY, and the errors for an invalid operation, as for bes_apply.
 * BES_NOT_PINNED. BES_WRONG_KIND: number is the index of the first operation with a value of the wrong kind. From BES_BUSY on, the errors
 * are as for bes_apply_if.
 * Cost: as for bes_apply_if; in addition, each BES_SET costs a scan of the earlier operations and a search of the list of indices. */
uint32_t bes_apply_change(bes_pass *pass, const bes_operation *operations, size_t operations_count, const uint8_t *bytes,
                          size_t bytes_count, uint64_t *number);

/* Begins a change. The draft reads the pinned snapshot and collects up to 64 operations; bes_end_change writes them if no other transaction
 * has been committed since that snapshot. If the pass isn't pinned, this call pins it, and bes_end_change or bes_abandon_change unpins it.
 * You may use the pass for other reads and queries, which see the snapshot without the draft's operations. bes_change does the same with a
 * batch, in a loop.
 *
 * A draft works with the pass that began it for as long as that pass is pinned to the draft's snapshot. With any other pass of the store, or
 * once the pass is pinned to another snapshot, bes_change_get and bes_end_change return BES_NOT_PINNED. A pass may have several drafts.
 * Don't use a draft with a pass of another store: the operations might be written to that store.
 * [out] draft    a closed handle, which is opened
 * [out] number   the snapshot's number
 * [out] next     the number that the first new node will get
 * Returns BES_CLOSED if pass is closed, BES_OPEN if draft is open, BES_NO_MEMORY. After an error the pass is pinned only if it was pinned
 * before.
 * Cost: that of bes_pin if the pass isn't pinned, two page reads, and memory for the draft and the list of indices. */
uint32_t bes_begin_change(bes_pass *pass, bes_draft *draft, uint64_t *number, uint64_t *next);

/* Makes the draft accept values of any kind from now on. Before this call, the draft refuses a value whose kind differs from that of the
 * index of the same name: the store would accept the attribute, but no query on that name would find the node. BES_CLOSED. */
uint32_t bes_change_any_kind(bes_draft *draft);

/* Adds an operation to the draft. Nothing is written to the store yet. After an error, the draft is unchanged.
 * [in] operation the operation
 * [in] bytes     the bytes that contain its name and value
 * [out] node     for BES_NEW_NODE, the number of the new node, which later operations may use; otherwise 0
 * BES_CLOSED. For an invalid operation, BES_BAD_PART or one of the errors listed with it under bes_apply.
 * BES_WRONG_KIND: the operation sets an attribute, and the index of that name, taking the earlier operations into account, holds another
 * kind of value. node is that kind's type code. Without an index, a value of any kind is accepted. This error can't occur after
 * bes_change_any_kind. BES_BAD_COUNT: the draft already has 64 operations. BES_NO_MEMORY.
 * The store's own errors, such as BES_NO_NODE, are returned by bes_end_change.
 * Cost: memory for the operation; for BES_SET, a scan of the earlier operations and of the list of indices. */
uint32_t bes_change_add(bes_draft *draft, const bes_operation *operation, const uint8_t *bytes, size_t bytes_count,
                        uint64_t *node);

/* Reads a node's attribute as it will be after the draft's operations. The result is determined by the last operation that sets or removes
 * the attribute, or that creates or removes its node. If there is no such operation, the result is read from the snapshot. If the store
 * would refuse the operations, the result is meaningless.
 * [in] name      the name, name_length bytes
 * [out] attribute, bytes  as for bes_get
 * Returns BES_CLOSED if pass or draft is closed (pass is checked first), BES_NOT_UTF8, BES_NAME_LENGTH, BES_HAS_NUL,
 * BES_NOT_PINNED (the pass didn't begin the draft, or isn't pinned to its snapshot), BES_NO_ATTRIBUTE (also if there is no such node).
 * Cost: a scan of the draft's operations, and at most one tree descent. */
uint32_t bes_change_get(bes_pass *pass, bes_draft *draft, uint64_t node, const uint8_t *name, size_t name_length,
                        bes_attribute *attribute, uint8_t *bytes, size_t bytes_room);

/* Lists the draft's operations as a batch for bes_apply.
 * [out] counts, operations, bytes  as for bes_attributes; 64 operations and 64 * (63 + 255) bytes suffice
 * BES_CLOSED, BES_NO_MEMORY.
 * Cost: memory for the list. */
uint32_t bes_change_batch(bes_draft *draft, bes_counts *counts, bes_operation *operations, size_t operations_room, uint8_t *bytes,
                          size_t bytes_room);

/* Ends a change: writes the draft's operations as one transaction if no other transaction has been committed since the draft's snapshot.
 * Even after an error, it closes the draft, and unpins the pass if bes_begin_change pinned it. A draft without operations writes nothing.
 * [out] number   the commit number; for a draft without operations, the snapshot's number. The new nodes have the numbers that
 *                bes_change_add returned.
 * Returns BES_CLOSED if pass or draft is closed (pass is checked first). BES_NOT_PINNED: the pass didn't begin the draft, or isn't pinned
 * to its snapshot. It then stays pinned or unpinned as it was.
 * BES_BUSY: another pass is writing, and number is that pass. BES_CONFLICT: another transaction has been committed, and number is the
 * journal's current length. After either error, begin the change again; bes_again and bes_stand_back help you decide when.
 * The store's own errors, from BES_NO_NODE on, are as for bes_apply. After BES_FULL, too, you can begin the change again once other passes
 * have unpinned their snapshots. After an error, nothing is written.
 * Cost: as for bes_apply. A call that returns BES_CONFLICT costs the same as one that returns BES_BUSY. */
uint32_t bes_end_change(bes_pass *pass, bes_draft *draft, uint64_t *number);

/* Ends a change without writing it: closes the draft, and unpins the pass if bes_begin_change pinned it and it is still pinned to that
 * snapshot. If the pass is closed or didn't begin the draft, the call only closes the draft.
 * Returns BES_CLOSED if pass or draft is closed (pass is checked first).
 * Cost: one step. */
uint32_t bes_abandon_change(bes_pass *pass, bes_draft *draft);

/* Moves a draft into other, and closes the original handle.
 * [out] other    a closed handle, which is opened
 * Returns BES_CLOSED if draft is closed, BES_OPEN if other is open. */
uint32_t bes_move_draft(bes_draft *draft, bes_draft *other);

/* Runs a query in the pinned snapshot.
 * [in] text           the query; bestore's QUERIES.md describes the language
 * [out] nodes    the first nodes that match the query, in ascending order; at most nodes_room
 * [out] count    how many nodes match; if more than nodes_room match, run the query again with a larger array
 * BES_CLOSED, BES_NOT_UTF8, BES_TOO_LONG.
 * BES_SYNTAX, BES_BAD_PATTERN, BES_TOO_MANY, BES_TOO_DEEP: the leftmost error in the text. For BES_SYNTAX and BES_BAD_PATTERN, count is its
 * byte offset.
 * BES_NOT_PINNED.
 * BES_NOT_COVERED: no index can answer the query. bes_uncovered finds the first name without an index.
 * BES_NO_MEMORY, which can also occur while the text is being parsed.
 * Cost: the time to parse the text; for each comparison in the plan, a tree descent and a walk over the range of keys that can match; if
 * the range alone doesn't decide the query, look-ups of other attributes at each key; memory for the plan and the whole result. */
uint32_t bes_query(bes_pass *pass, const uint8_t *text, size_t text_length, uint64_t *nodes, size_t nodes_room,
                   uint64_t *count);

/* Like bes_query, but builds the query from items in reverse Polish order. No text is parsed.
 * [in] items     an array of items_count items
 * [in] bytes     the bytes that contain their names and text values
 * BES_CLOSED.
 * BES_BAD_PART, BES_NOT_UTF8, BES_NAME_LENGTH, BES_HAS_NUL, BES_NO_ITEM: count is the index of the first invalid item.
 * BES_BAD_RPN, BES_BAD_PATTERN: count is the index of the first item that makes the list invalid, or items_count if that shows only at the
 * end of the list. BES_TOO_MANY, BES_TOO_DEEP.
 * BES_NOT_PINNED, BES_NOT_COVERED. BES_NO_MEMORY, which can also occur while the query is being built. */
uint32_t bes_query_items(bes_pass *pass, const bes_item *items, size_t items_count, const uint8_t *bytes, size_t bytes_count,
                         uint64_t *nodes, size_t nodes_room, uint64_t *count);

/* Parses a query and opens a handle for it.
 * [in] text      the query
 * [out] prepared a closed handle, which is opened
 * [out] place    after BES_SYNTAX or BES_BAD_PATTERN, the byte offset of the error; otherwise 0
 * BES_OPEN, then the errors of bes_query that concern the text. After an error, the handle is still closed.
 * Cost: the time to parse the text, and memory until bes_release. */
uint32_t bes_prepare(const uint8_t *text, size_t text_length, bes_prepared *prepared, uint64_t *place);

/* Like bes_prepare, but builds the query from items, as bes_query_items does.
 * [out] place    after an error in an item, its index, like count in bes_query_items; otherwise 0
 * BES_OPEN, then the errors of bes_query_items that concern the items. */
uint32_t bes_prepare_items(const bes_item *items, size_t items_count, const uint8_t *bytes, size_t bytes_count,
                           bes_prepared *prepared, uint64_t *place);

/* Closes the handle, and frees the query and its result. BES_CLOSED. */
uint32_t bes_release(bes_prepared *prepared);

/* Moves a prepared query and its result into other, and closes the original handle.
 * [out] other    a closed handle, which is opened
 * Returns BES_CLOSED if prepared is closed, BES_OPEN if other is open. */
uint32_t bes_move_prepared(bes_prepared *prepared, bes_prepared *other);

/* Writes the canonical text of a prepared query. Each comparison in it has the form "name"op"value", without ! or redundant parentheses.
 * bes_next_comparison reads these comparisons.
 * [out] bytes    the first bytes of the text; at most bytes_room. No zero byte follows them.
 * [out] count    how many bytes the text has, which may be more than the original query had
 * BES_CLOSED, BES_NO_MEMORY.
 * Cost: memory for the text. */
uint32_t bes_prepared_text(bes_prepared *prepared, uint8_t *bytes, size_t bytes_room, uint64_t *count);

/* Like bes_query, but runs a prepared query, so nothing is parsed. The handle keeps the result for bes_found until the query is run again.
 * The result of the last refresh isn't affected.
 * Returns BES_CLOSED if pass or prepared is closed (pass is checked first), BES_NOT_PINNED, BES_NOT_COVERED, BES_NO_MEMORY. After any error
 * except BES_CLOSED, the handle has no result.
 * Cost: that of bes_query without the parsing. If all comparisons are on one attribute and none is under ||, the range of keys that can
 * match is computed only once, and most queries cost one tree descent and a walk over that range. The handle reuses the memory of its
 * previous result. */
uint32_t bes_query_prepared(bes_pass *pass, bes_prepared *prepared, uint64_t *nodes, size_t nodes_room, uint64_t *count);

/* Writes the nodes that the handle's last bes_query_prepared found, starting from a given index. If a result didn't fit, this call reads it
 * without running the query again. You can also use it to read a long result in parts. No pin is needed.
 * [in] from      the index of the first node to write, counting from 0
 * [out] nodes    the nodes, in ascending order; at most nodes_room
 * [out] count    how many nodes the whole result has; 0 before the query is first run, and after an error
 * BES_CLOSED.
 * Cost: the time to copy the nodes. */
uint32_t bes_found(bes_prepared *prepared, uint64_t from, uint64_t *nodes, size_t nodes_room, uint64_t *count);

/* Runs a prepared query in the pinned snapshot, and returns a page of its result in the order of an index: by the value of one attribute,
 * then by node number among equal values. The order is either ascending or exactly the reverse. A page has the first nodes_room nodes after
 * the cursor. A node that has no value in this index isn't on any page, although bes_query_prepared finds it. The handle keeps the page for
 * bes_found.
 *
 * A cursor is a position, not a count. If you unpin the pass and pin it again between two pages, the second page, read from the new
 * snapshot, continues where the first ended, whatever was written in between. A node is missed if its value has moved to before the cursor,
 * and is returned again if its value has moved to after the cursor. Within one snapshot, each node is returned once.
 * [in] by        the name of the index, from bes_check_name
 * [in] descending  0 for ascending order; any other number for the reverse
 * [in,out] cursor  where the page begins; on return, the position of the page's last node. If the page is empty, the cursor is unchanged.
 *                Use all zeros for the first page. A cursor works with any index of its kind, in either direction.
 * [out] nodes    the page; at most nodes_room nodes
 * [out] count    how many nodes the page has
 * [out] more     1 if more nodes follow the page, otherwise 0
 * Returns BES_CLOSED if pass or prepared is closed (pass is checked first), BES_NOT_PINNED, BES_NO_ROOM (nodes_room is 0), BES_NO_INDEX
 * (the snapshot has no index with this name), BES_BAD_CURSOR (the cursor's kind isn't the index's, or its key doesn't have 8 to 264
 * bytes), BES_NOT_COVERED, BES_NO_MEMORY. After an error, count is 0, and nodes, more and cursor are unchanged. After any error except
 * BES_CLOSED, the handle has no result.
 * Cost: if comparisons on this attribute decide the whole query, a tree descent and a walk over the page's keys. Otherwise, that of the
 * cheaper of two ways, or up to about twice as much: a walk over the index from the cursor, which tests the query at each node until the
 * page is full; or the cost of bes_query_prepared, two descents for each node in the result, a sort, and memory for the keys. */
uint32_t bes_ordered(bes_pass *pass, bes_prepared *prepared, const bes_name *by, uint32_t descending, bes_cursor *cursor,
                     uint64_t *nodes, size_t nodes_room, uint64_t *count, uint32_t *more);

/* Runs a prepared query in the pinned snapshot, and returns the first nodes of its result whose numbers are at least a given number, in
 * ascending order. To continue, call again with the number after the last node. The handle keeps these nodes for bes_found.
 * [in] from      the number
 * [out] nodes    the nodes; at most nodes_room of them
 * [out] count    how many nodes were written. If this number is less than nodes_room, there are no more nodes.
 * Returns BES_CLOSED if pass or prepared is closed (pass is checked first), BES_NOT_PINNED, BES_NO_ROOM (nodes_room is 0), BES_NOT_COVERED,
 * BES_NO_MEMORY. After any error except BES_CLOSED, the handle has no result.
 * Cost: as for bes_query_prepared; but if most nodes satisfy the query, two descents for each comparison and each node that is tested until
 * there are enough. */
uint32_t bes_first(bes_pass *pass, bes_prepared *prepared, uint64_t from, uint64_t *nodes, size_t nodes_room, uint64_t *count);

/* Runs a prepared query in the pinned snapshot, and returns arbitrary nodes of its result, each at most once, in no particular order. The
 * handle keeps these nodes for bes_found. Different calls may return different nodes.
 * [out] nodes    the nodes; nodes_room of them, or all of them if there are fewer
 * [out] count    how many nodes were written
 * Returns the same errors as bes_first.
 * Cost: if the range of one index decides the query, a walk over as many keys as nodes are written. If a side of an || has enough nodes,
 * about that of bes_ordered by the name in it with the fewest keys. Otherwise, that of bes_query_prepared. */
uint32_t bes_any(bes_pass *pass, bes_prepared *prepared, uint64_t *nodes, size_t nodes_room, uint64_t *count);

/* Refreshes a prepared query: runs it in the pinned snapshot, and compares the result with that of the previous refresh, or with an empty
 * result the first time. Until the next refresh, the handle keeps the nodes that were added and removed, and bes_changes writes them. Nodes
 * are compared by number, so a node that changed but is in both results isn't reported. For one query, always use passes of the same store,
 * or of another store into which the first store's state was copied.
 * [out] updates  how many nodes were added and how many were removed
 * Returns BES_CLOSED if pass or prepared is closed (pass is checked first), BES_NOT_PINNED, BES_NOT_COVERED, BES_NO_MEMORY. After an error,
 * the query keeps the result of its last refresh.
 * Cost: as for bes_query_prepared; in addition, a walk over both results, and memory for the added and removed nodes. */
uint32_t bes_refresh(bes_pass *pass, bes_prepared *prepared, bes_updates *updates);

/* Like bes_refresh, but reads the journal entries written since the last refresh, and checks only the nodes named in those entries. Use it
 * for a large result that changes little. It runs the whole query, as bes_refresh does, if the last result has fewer than 96 nodes, if
 * another pass is writing, if the snapshot is older than that of the last refresh, if an index has been created or removed since the last
 * refresh, or if too many nodes have been written. The limit is 4 plus one for every 32 nodes in the last result, but at most 64.
 * [in,out] prepared  a query whose last refresh, if any, was in this store. The library can't check this, and the behaviour is undefined if
 *                the last refresh was in another store.
 * [out] updates  how many nodes were added and how many were removed
 * Returns BES_CLOSED if pass or prepared is closed (pass is checked first), BES_NOT_PINNED, BES_NOT_COVERED, BES_NO_MEMORY. After an error,
 * the query keeps its last result.
 * Cost: one step for each entry written since the last refresh, and one look-up for each comparison at each node that the entries name. The
 * call holds the write lock, so writes by other passes return BES_BUSY while it runs. If it runs the whole query, the cost is as for
 * bes_refresh. */
uint32_t bes_refresh_changed(bes_pass *pass, bes_prepared *prepared, bes_updates *updates);

/* Writes the nodes that the last refresh added and those that it removed, both in ascending order. No pin is needed.
 * [out] created  the first added nodes; at most created_room
 * [out] removed  the first removed nodes; at most removed_room
 * BES_CLOSED.
 * Cost: the time to copy the nodes. */
uint32_t bes_changes(bes_prepared *prepared, uint64_t *created, size_t created_room, uint64_t *removed, size_t removed_room);

/* Explains a query: writes comparisons whose indices cover it, joined by " || ", and a score that depends only on the operators, such as
 * "size"<"0" score 3. A call that runs the query may read other indices instead: those whose ranges have the fewest keys, by an estimate.
 * [out] bytes    the first bytes of the explanation; at most bytes_room. No zero byte follows them.
 * [out] count    how many bytes the explanation has
 * Returns the errors that bes_query returns.
 * Cost: the time to parse the query and find the indices of its names; memory for the plan and the text. No node is read. */
uint32_t bes_explain(bes_pass *pass, const uint8_t *text, size_t text_length, uint8_t *bytes, size_t bytes_room, uint64_t *count);

/* Runs a query, and says why it takes as long as it does: writes a line for each range of index keys that the answer walked, such as
 * "size"  500 .. <600  about 90 keys, 100 walked
 * which has the name of the index, the lowest and the highest value of the range, about how many keys the range was estimated to have, and
 * how many it has. A value that the range excludes has < or > before it, an open end is left out, and "ann"* stands for the last string
 * that begins with ann. The range none has no keys, because the kind of the index has no value for which the query is true. A range that
 * is walked key by key includes the key that ends it.
 * [out] bytes    the first bytes of the lines; at most bytes_room. No zero byte follows them.
 * [out] count    how many bytes the lines have
 * Returns the errors that bes_query returns.
 * Cost: that of bes_query, then the time to list each range once more, and memory for the nodes of one range and for the text. */
uint32_t bes_ways(bes_pass *pass, const uint8_t *text, size_t text_length, uint8_t *bytes, size_t bytes_room, uint64_t *count);

/* Lists the pinned snapshot's nodes in ascending order, starting from a given number. Nodes without attributes are included.
 * [in] from      the number
 * [out] nodes    the nodes; at most nodes_room of them
 * [out] count    how many nodes were written. If this number is less than nodes_room, there are no more nodes; otherwise continue from the
 *                number after the last node.
 * BES_CLOSED, BES_NOT_PINNED, BES_NO_MEMORY.
 * Cost: one tree descent, one step for each node and for each of its attributes, and memory for the list. */
uint32_t bes_nodes(bes_pass *pass, uint64_t from, uint64_t *nodes, size_t nodes_room, uint64_t *count);

/* Reads a node's attribute in the pinned snapshot.
 * [in] name      the name, name_length bytes
 * [out] attribute  its type code, number and length
 * [out] bytes    the first bytes of a text or raw value; at most bytes_room, and 255 suffice
 * BES_CLOSED, BES_NOT_UTF8, BES_NAME_LENGTH, BES_HAS_NUL, BES_NOT_PINNED, BES_NO_ATTRIBUTE (also if there is no such node).
 * Cost: one tree descent. */
uint32_t bes_get(bes_pass *pass, uint64_t node, const uint8_t *name, size_t name_length, bes_attribute *attribute,
                 uint8_t *bytes, size_t bytes_room);

/* Writes whether the index with a name has a node's attribute in the pinned snapshot. A query on that name finds only such nodes. The
 * attribute may not be in the index because it was set before the index was created, or is of another kind; bes_reindex adds the former.
 * [in] name      the name, name_length bytes
 * [out] held     1 if the index has the attribute; 0 if it doesn't, or if the index, the node or the attribute doesn't exist
 * BES_CLOSED, BES_NOT_UTF8, BES_NAME_LENGTH, BES_HAS_NUL, BES_NOT_PINNED.
 * Cost: one tree descent, and a second one if the node has an attribute of this name. */
uint32_t bes_is_held(bes_pass *pass, uint64_t node, const uint8_t *name, size_t name_length, uint32_t *held);

/* Checks a name once, for use in bes_get_named, bes_columns and bes_ordered. No pass is needed.
 * [in] name      the name, name_length bytes
 * [out] checked  the checked name; unchanged after an error
 * BES_NOT_UTF8, BES_NAME_LENGTH, BES_HAS_NUL.
 * Cost: the time to read the name. */
uint32_t bes_check_name(const uint8_t *name, size_t name_length, bes_name *checked);

/* Reads a node's attribute in the pinned snapshot, like bes_get, but with a name from bes_check_name.
 * [in] name      the name
 * [out] attribute  its type code, number and length
 * [out] bytes    the first bytes of a text or raw value; at most bytes_room, and 255 suffice
 * BES_CLOSED, BES_NOT_PINNED, BES_NO_ATTRIBUTE (also if there is no such node).
 * Cost: one tree descent. */
uint32_t bes_get_named(bes_pass *pass, uint64_t node, const bes_name *name, bes_attribute *attribute, uint8_t *bytes,
                       size_t bytes_room);

/* Reads attributes of many nodes in the pinned snapshot: for each node, the value of each named attribute. The bytes of all text and raw
 * values are written one after another, in the order of their cells.
 * [in] nodes     an array of nodes_count nodes, in any order
 * [in] names     an array of names_count names. Reading is fastest if the names are in ascending byte order.
 * [out] cells    the cells of the first node, one for each name, then those of the second node, and so on; at most cells_room. If a node or
 *                attribute is missing, the call still succeeds, and the cell contains the error number.
 * [out] bytes    the first bytes; at most bytes_room
 * [out] bytes_count  how many bytes there are; if there are more than bytes_room, call again with a larger array
 * BES_CLOSED, BES_NOT_PINNED, BES_BAD_COUNT (more than 2^32 cells). After an error, cells and bytes are unchanged, and bytes_count is 0.
 * Cost: one tree descent for a node if the names are in ascending order and at most five other attributes lie between each and the next.
 * Any other named attribute takes one more descent, and so may each name that the node lacks. No memory. */
uint32_t bes_columns(bes_pass *pass, const uint64_t *nodes, size_t nodes_count, const bes_name *names, size_t names_count,
                     bes_cell *cells, size_t cells_room, uint8_t *bytes, size_t bytes_room, uint64_t *bytes_count);

/* Lists a node's attributes in the pinned snapshot, in ascending order of their names, as the operations that would set them.
 * [out] counts   how many operations and bytes there are; if they don't fit, call again with larger arrays
 * [out] operations  the first operations; at most operations_room, and 64 suffice
 * [out] bytes    the first of the bytes that contain their names and values; at most bytes_room, and 64 * (63 + 255) suffice
 * BES_CLOSED, BES_NOT_PINNED, BES_NO_NODE, BES_NO_MEMORY.
 * Cost: one tree descent, a walk over the node's attributes, and memory for the list. */
uint32_t bes_attributes(bes_pass *pass, uint64_t node, bes_counts *counts, bes_operation *operations, size_t operations_room,
                        uint8_t *bytes, size_t bytes_room);

/* Lists the pinned snapshot's indices, in ascending order of their names, as the operations that would create them. The parameters are
 * those of bes_attributes; 32 operations and 32 * 63 bytes suffice.
 * BES_CLOSED, BES_NOT_PINNED, BES_NO_MEMORY.
 * Cost: one page read, and memory for the list. */
uint32_t bes_indices(bes_pass *pass, bes_counts *counts, bes_operation *operations, size_t operations_room, uint8_t *bytes,
                     size_t bytes_room);

/* Lists the next operations in the sequence that rebuilds the pinned snapshot in an empty store: the snapshot's next node number, its nodes
 * with their attributes, and its indices with their entries. Each list is a batch for bes_apply. An empty list means that the snapshot is
 * complete.
 * [in,out] place where the list begins. If the place is closed, the call opens it at the first operation. A place belongs to one pin; use a
 *                new place for another pin. If a list didn't fit, the next call returns it again; otherwise the next call returns the next
 *                list.
 * [out] counts, operations, bytes  as for bes_attributes; 64 operations and 64 * (63 + 255) bytes suffice
 * Returns BES_CLOSED if pass is closed, BES_NO_MEMORY, BES_NOT_PINNED. After an error, no operation is skipped, but the place may have been
 * opened.
 * Cost: for each node in the list, a walk over its attributes and two tree descents for each of them. Memory for the list, for the
 * operations of one node, and, until bes_leave, for the place. */
uint32_t bes_state(bes_pass *pass, bes_place *place, bes_counts *counts, bes_operation *operations, size_t operations_room,
                   uint8_t *bytes, size_t bytes_room);

/* Closes a place and frees its memory. A call of bes_state with a closed place starts at the first operation. BES_CLOSED. */
uint32_t bes_leave(bes_place *place);

/* Moves a place into other, and closes the original handle.
 * [out] other    a closed handle, which is opened
 * Returns BES_CLOSED if place is closed, BES_OPEN if other is open. */
uint32_t bes_move_place(bes_place *place, bes_place *other);

/* Writes the journal as text, whether the pass is pinned or not. Each transaction takes one line, such as 2 by 0 set 1 "size" LONG 5 -> ok:
 * its commit number, the pass that wrote it, and its operations with their outcomes. The journal only grows, so the text that a later call
 * writes begins with this one.
 * [out] bytes    the first bytes of the text; at most bytes_room. No zero byte follows them.
 * [out] count    how many bytes the text has
 * BES_CLOSED. BES_BUSY: another pass is writing, and count is that pass. BES_NO_MEMORY.
 * Cost: time and memory for the whole text. Writes by other passes return BES_BUSY while the call runs. */
uint32_t bes_journal(bes_pass *pass, uint8_t *bytes, size_t bytes_room, uint64_t *count);

/* Reads one entry of the journal, whether the pass is pinned or not. The entry is a batch in the form that bes_apply takes; in a
 * BES_NEW_NODE operation, node is the node that the operation created. bes_batch_entry calls this function.
 * [in] from      the entry's index, counting from 0: the entry has the commit number from + 1
 * [out] by       the number of the pass that wrote the entry
 * [out] counts   how many operations and bytes the entry has; 0 operations if from isn't less than the journal's length
 * [out] operations, bytes  as for bes_attributes
 * [out] number   the journal's length
 * BES_CLOSED. BES_BUSY: another pass is writing, and number is that pass. BES_NO_MEMORY.
 * Cost: time and memory for the entry. Writes by other passes return BES_BUSY while the call runs. */
uint32_t bes_journal_from(bes_pass *pass, uint64_t from, uint64_t *by, bes_counts *counts, bes_operation *operations,
                          size_t operations_room, uint8_t *bytes, size_t bytes_room, uint64_t *number);

/* Writes how full the store is and which pass holds its oldest version, whether the calling pass is pinned or not. The call first frees the
 * pages that no pass can read. Use it to predict BES_FULL and BES_COMMITS_SPENT, and to find the pass whose pin holds pages.
 * [out] usage    the figures
 * [out] number   0
 * BES_CLOSED. BES_BUSY: another pass is writing, and number is that pass.
 * Cost: a check of each pass and each page. Writes by other passes return BES_BUSY while the call runs. */
uint32_t bes_status(bes_pass *pass, bes_usage *usage, uint64_t *number);

/* Calls on text, which list the comparisons in a query and escape strings for use in a query. These calls take no pass, and any thread may
 * make them. */

/* Lists the comparisons in a query's text, up to 256, from left to right.
 * [out] counts   how many comparisons there are (in counts->operations), and how many bytes
 * [out] compared the first comparisons; at most compared_room
 * [out] bytes    the first of the bytes with plain names and values; at most bytes_room. 64 bytes for each comparison and 4 for each byte
 *                of the text are enough
 * [out] place    after an error in the text, its byte offset, as in bes_prepare; otherwise 0
 * BES_NOT_UTF8. The errors that bes_query returns for text that isn't a query: BES_TOO_LONG, BES_SYNTAX, BES_BAD_PATTERN, BES_TOO_MANY,
 * BES_TOO_DEEP. BES_NO_MEMORY. After an error, counts, compared and bytes are unchanged.
 * Cost: the time to parse the text twice, and memory for the query and the list. */
uint32_t bes_query_comparisons(const uint8_t *text, size_t text_length, bes_counts *counts, bes_compared *compared,
                               size_t compared_room, uint8_t *bytes, size_t bytes_room, uint64_t *place);

/* Escapes a string so that a query reads it literally, as a name, as a value or as part of a pattern. The result can be put inside either
 * kind of quotes. Unless the string is empty, it can also be used without quotes. bes_escape calls this function.
 * [out] bytes    the first bytes; at most bytes_room. No zero byte follows them. Twice the string's length is enough
 * [out] count    how many bytes there are; 0 after an error
 * BES_NOT_UTF8, BES_NO_MEMORY. A string with a zero byte can't be used in any query. */
uint32_t bes_escape_bytes(const uint8_t *text, size_t text_length, uint8_t *bytes, size_t bytes_room, uint64_t *count);

/* Writes a pattern, for use with == and !=, that matches exactly the strings equal to this one, character by character, under Unicode
 * simple case folding: draft becomes [dD][rR][aA][fF][tT]. You can use the pattern wherever you can use a string from bes_escape_bytes.
 * bes_any_case calls this function.
 * [out] bytes, count  as for bes_escape_bytes. 12 times the string's length is enough
 * BES_NOT_UTF8, BES_NO_MEMORY.
 * Cost: for each character, a search in a table of 3,134 pairs. */
uint32_t bes_any_case_bytes(const uint8_t *text, size_t text_length, uint8_t *bytes, size_t bytes_room, uint64_t *count);

/* Returns the version of the running library. BES_VERSION_NUMBER is the version of this header; a program that loads the library at startup
 * can compare the two. */
uint32_t bes_version(void);

#ifdef __cplusplus
}
#endif

#include "bestore_helpers.h"
#include "bestore_text.h"
#endif
