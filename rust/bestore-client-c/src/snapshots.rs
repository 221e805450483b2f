//! Snapshots.

use crate::journal::Listing;
use crate::memory::put;
use crate::reads::located;
use crate::session::{bec_client, call};
use std::time::Duration;

/// Pins the current snapshot: until bec_unpin, all reads see it, whatever is written in the meantime. The server takes it back after the
/// time that its --hold says, or after a second if a write needs its pages. Reads then return BEC_EXPIRED, until bec_unpin and another
/// bec_pin.
/// [out] number   the snapshot's number: how many transactions it includes
/// BES_PINNED.
/// Cost: one round trip.
#[no_mangle]
pub unsafe extern "C" fn bec_pin(client: *mut bec_client, number: *mut u64) -> u32 {
    // SAFETY: the header says what the pointers are.
    unsafe {
        call(client, |state| {
            put(number, 0);
            state.listing = Listing::default();
            let pinned = state.ask(|client| client.pin())?;
            state.next = Some(pinned.next);
            put(number, pinned.commit);
            Ok(())
        })
    }
}

/// Unpins the snapshot.
/// BES_NOT_PINNED. BES_NESTED: the function of a change makes the call.
/// Cost: one round trip.
#[no_mangle]
pub unsafe extern "C" fn bec_unpin(client: *mut bec_client) -> u32 {
    // SAFETY: the header says what the pointer is.
    unsafe {
        call(client, |state| {
            state.check_not_changing()?;
            state.listing = Listing::default();
            state.next = None;
            state.ask(|client| client.unpin())
        })
    }
}

/// Writes the number that the next new node will get, as of the snapshot. If you write a batch with bec_apply_if and the pinned
/// snapshot's number, the batch may refer to the nodes that it creates by this number and the following numbers.
/// [out] node     the number
/// BEC_EXPIRED (in the function of a change).
/// Cost: one round trip; none after bec_pin, which has read the number too.
#[no_mangle]
pub unsafe extern "C" fn bec_next(client: *mut bec_client, node: *mut u64) -> u32 {
    // SAFETY: the header says what the pointers are.
    unsafe {
        call(client, |state| {
            put(node, 0);
            let read = state.next;
            let next = match (state.client()?, read) {
                (_, Some(next)) => next,
                _ => state.ask(|client| client.next_node())?.next,
            };
            put(node, next);
            Ok(())
        })
    }
}

/// Waits until the journal has at least this many entries. Later reads of the current snapshot include them. To see another program's
/// write, wait for its commit number.
/// [in] commit    how many entries the journal must have. Commit numbers start again with each run of the server
/// [in] within_ms  how long to wait for them, in milliseconds, in addition to the client's timeout
/// [out] number   the journal's length
/// BEC_NOT_REACHED: the time is up, and number is the journal's length; or the client's snapshot has expired.
/// Cost: one round trip for each minute.
#[no_mangle]
pub unsafe extern "C" fn bec_reach(client: *mut bec_client, commit: u64, within_ms: u32, number: *mut u64) -> u32 {
    let within = Duration::from_millis(within_ms.into());
    // SAFETY: the header says what the pointers are.
    unsafe {
        call(client, |state| {
            put(number, 0);
            let time = state.timeout.saturating_add(within);
            let reached = state.ask_within(time, |client| client.reach(commit, within));
            put(number, reached.map_err(|fault| located(fault, number))?.commit);
            Ok(())
        })
    }
}
