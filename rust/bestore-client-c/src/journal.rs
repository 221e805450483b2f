//! The journal, and what a snapshot contains. Both are read from the first entry or batch to the last, so a line from the server is kept
//! until the program has asked for all of it.

use crate::faults::Fault;
use crate::memory::{fill, put};
use crate::numbers::BEC_BAD_LINE;
use crate::session::{bec_client, call, State};
use crate::values::{bes_counts, bes_operation, ListRoom};
use bestore_client::wire::{self, Command, Journal, JournalEntry, JournalFrom};
use bestore_client::Batch;
use std::collections::VecDeque;

/// Entries of the journal that were read ahead. The first may be the one that the program was given last.
#[derive(Debug, Default)]
pub(crate) struct Entries {
    entries: VecDeque<JournalEntry>,
    /// The journal's length when they were read.
    length: u64,
    /// The index after that of the entry that the program was given last.
    next: Option<u64>,
    /// The run of the server that they come from.
    run: Option<String>,
}

impl Entries {
    /// Drops the entries before this index. Returns whether the next one is at this index.
    fn reaches(&mut self, from: u64) -> bool {
        while self.entries.front().map_or(false, |entry| entry.commit <= from) {
            self.entries.pop_front();
        }
        let first = self.entries.front().map(|entry| entry.commit);
        first.is_some() && first == from.checked_add(1)
    }
}

/// Reads entries from this index on: one or, if the program was given the one before, as many as the server sends on a line, unless they
/// were read ahead.
fn read_entries(state: &mut State, from: u64) -> Result<(), Fault> {
    let run = state.client()?.run().map(String::from);
    let is_next = state.entries.run == run && state.entries.next == Some(from);
    if is_next && state.entries.reaches(from) {
        return Ok(());
    }
    let limit = if is_next { None } else { Some(1) };
    let read: Journal = state.ask(|client| client.call(Command::Journal(JournalFrom { from, limit })))?;
    let mut entries = VecDeque::from(read.entries);
    // An entry that is read again doesn't replace those after it.
    if state.entries.run == run && entries.len() == 1 && state.entries.reaches(from.saturating_add(1)) {
        entries.append(&mut state.entries.entries);
    }
    state.entries = Entries {
        entries,
        length: read.length,
        next: None,
        run,
    };
    match state.entries.entries.is_empty() || state.entries.reaches(from) {
        true => Ok(()),
        false => Err(Fault::of(BEC_BAD_LINE)),
    }
}

/// Reads one entry of the journal, as a batch; in a BES_NEW_NODE operation, node is the node that the operation created.
/// [in] from      the entry's index, counting from 0: the entry has the commit number from + 1
/// [out] by       the number of the pass that wrote the entry
/// [out] counts   how many operations and bytes the entry has; 0 operations if from isn't less than the journal's length
/// [out] operations  the first operations; at most operations_room, and 64 suffice
/// [out] bytes    the first of the bytes that contain their names and values; at most bytes_room, and 64 * (63 + 255) suffice
/// [out] number   the journal's length
/// BEC_EXPIRED: the server has already freed the entry; bec_message says which is the first that it has.
/// Cost: one round trip. If you read one entry after another, the client asks for as many as the server sends on a line, up to 2 MiB; the
/// journal's length is then the one at that time.
#[no_mangle]
pub unsafe extern "C" fn bec_journal_from(
    client: *mut bec_client,
    from: u64,
    by: *mut u64,
    counts: *mut bes_counts,
    operations: *mut bes_operation,
    operations_room: usize,
    bytes: *mut u8,
    bytes_room: usize,
    number: *mut u64,
) -> u32 {
    let room = ListRoom {
        counts,
        operations: (operations, operations_room),
        bytes: (bytes, bytes_room),
    };
    // SAFETY: the header says what the pointers are.
    unsafe {
        call(client, |state| {
            put(number, 0);
            read_entries(state, from)?;
            put(number, state.entries.length);
            match state.entries.entries.front() {
                Some(entry) => {
                    put(by, entry.pass);
                    room.put(&entry.operations.batch);
                    state.entries.next = from.checked_add(1);
                }
                None => room.put(&Batch::new()),
            }
            Ok(())
        })
    }
}

/// Batches of a snapshot's listing that were read ahead.
#[derive(Debug, Default)]
pub(crate) struct Listing {
    batches: Vec<Vec<u8>>,
    /// The index of the first of them.
    first: u64,
}

impl Listing {
    fn batch(&self, index: u64) -> Option<&[u8]> {
        let at = usize::try_from(index.checked_sub(self.first)?).ok()?;
        self.batches.get(at).map(Vec::as_slice)
    }
}

/// Reads a batch of what the pinned snapshot contains: its indices, and its nodes with their attributes. The batches are those of kept
/// files and backups; bestore's KEPT.md describes them. They don't have the number of the next node, which bec_next returns.
/// [in] index     the batch's index, counting from 0
/// [out] bytes    the first bytes of the batch; at most bytes_room, and 2^17 suffice
/// [out] count    how many bytes the batch has; 0 if the snapshot has no such batch
/// BES_NOT_PINNED, BEC_EXPIRED.
/// Cost: one round trip for each 2 MiB, if you read one batch after another.
#[no_mangle]
pub unsafe extern "C" fn bec_listing(
    client: *mut bec_client,
    index: u64,
    bytes: *mut u8,
    bytes_room: usize,
    count: *mut u64,
) -> u32 {
    // SAFETY: the header says what the pointers are.
    unsafe {
        call(client, |state| {
            put(count, 0);
            if state.listing.batch(index).is_none() {
                let asked = wire::From { from: index };
                let read: wire::State = state.ask(|client| client.call(Command::State(asked)))?;
                state.listing = Listing {
                    batches: read.batches,
                    first: index,
                };
            }
            let batch = state.listing.batch(index).unwrap_or_default();
            fill(bytes, bytes_room, batch);
            put(count, batch.len() as u64);
            Ok(())
        })
    }
}
