//! Writes: batches of operations.

use crate::faults::Fault;
use crate::memory::{items, put};
use crate::reads::located;
use crate::session::{bec_client, call};
use crate::values::bes_operation;
use bestore_client::{Batch, Kind};
use bestore_types::raw::{List, OPERATIONS};
use bestore_types::sys;
use std::str;

/// Writes a batch of 1 to 64 operations as one transaction: either all of them take effect, in order, or none does. A pinned snapshot
/// stays pinned.
/// [in] operations  an array of operations_count operations
/// [in] bytes     the bytes that contain their names and values
/// [out] made     for each operation, the node that it created, or 0; at most made_room entries
/// [out] number   the commit number; after an error, the number reported with it
/// BES_BAD_COUNT. BES_BAD_PART, BES_NO_OPERATION; then for the name BES_NOT_UTF8, BES_NAME_LENGTH, BES_HAS_NUL; then BES_NO_KIND; then
/// for the value BES_NOT_UTF8, BES_DATA_LENGTH, BES_HAS_NUL or BES_NO_VALUE: an operation is invalid, nothing was sent, and number is
/// the index of the first invalid operation.
/// BES_NO_NODE, BES_NO_ATTRIBUTE, BES_TOO_MANY_ATTRS, BES_INDEX_EXISTS, BES_NO_INDEX, BES_TOO_MANY_INDICES, BES_NOT_INDEXABLE,
/// BES_COMMITS_SPENT, BES_NO_MEMORY, BES_BUSY, BES_FULL: as for bes_apply. The server itself retries after BES_BUSY and BES_FULL.
/// BEC_NOT_SAVED: the write may or may not be kept. BEC_STOPPED, BEC_NOT_LEADER: nothing was written.
/// Cost: one round trip. With --keep but without --every, the server replies once the write is in its file.
#[no_mangle]
pub unsafe extern "C" fn bec_apply(
    client: *mut bec_client,
    operations: *const bes_operation,
    operations_count: usize,
    bytes: *const u8,
    bytes_count: usize,
    made: *mut u64,
    made_room: usize,
    number: *mut u64,
) -> u32 {
    // SAFETY: the header says what the pointers are.
    unsafe {
        apply(
            client,
            None,
            (operations, operations_count),
            (bytes, bytes_count),
            (made, made_room),
            number,
        )
    }
}

/// Like bec_apply, but writes only if the journal has exactly `expected` entries. If a client that is pinned to snapshot n calls with
/// expected = n, no other transaction can come between its snapshot and its write. bec_change does this, and starts over after
/// BES_CONFLICT.
/// [in] expected  how many transactions the journal must have. Commit numbers start again with each run of the server
/// BES_CONFLICT: the journal's length differs, and number is that length. The other errors, parameters and the cost are as for
/// bec_apply.
#[no_mangle]
pub unsafe extern "C" fn bec_apply_if(
    client: *mut bec_client,
    expected: u64,
    operations: *const bes_operation,
    operations_count: usize,
    bytes: *const u8,
    bytes_count: usize,
    made: *mut u64,
    made_room: usize,
    number: *mut u64,
) -> u32 {
    // SAFETY: the header says what the pointers are.
    unsafe {
        apply(
            client,
            Some(expected),
            (operations, operations_count),
            (bytes, bytes_count),
            (made, made_room),
            number,
        )
    }
}

unsafe fn apply(
    client: *mut bec_client,
    expected: Option<u64>,
    operations: (*const bes_operation, usize),
    bytes: (*const u8, usize),
    made: (*mut u64, usize),
    number: *mut u64,
) -> u32 {
    // SAFETY: the header says what the pointers are.
    unsafe {
        call(client, |state| {
            put(number, 0);
            let operations = items(operations.0, operations.1)?;
            let batch = items(bytes.0, bytes.1).and_then(|bytes| batch_of(operations, bytes));
            let written = batch.and_then(|batch| state.write(|client| client.write_batch(batch, expected)));
            let written = written.map_err(|fault| located(fault, number))?;
            put_made(operations, &written.nodes, made);
            put(number, written.number);
            Ok(())
        })
    }
}

/// Writes the node that each operation created, or 0.
///
/// # Safety
/// `made` is null, or points to room for this many numbers.
unsafe fn put_made(operations: &[bes_operation], nodes: &[u64], (made, room): (*mut u64, usize)) {
    let mut nodes = nodes.iter().copied();
    for (index, operation) in operations.iter().enumerate().take(room) {
        let node = match operation.kind {
            sys::BES_NEW_NODE => nodes.next().unwrap_or_default(),
            _ => 0,
        };
        // SAFETY: as above.
        unsafe { put(if made.is_null() { made } else { made.add(index) }, node) };
    }
}

/// Returns the batch of these operations. The error is that of the first invalid operation.
pub(crate) fn batch_of(operations: &[bes_operation], bytes: &[u8]) -> Result<Batch, Fault> {
    if !(1..=OPERATIONS).contains(&operations.len()) {
        return Err(Fault::of(sys::BES_BAD_COUNT));
    }
    for (index, operation) in operations.iter().enumerate() {
        check(operation, bytes).map_err(|error| Fault::with(error, index as u64))?;
    }
    let mut list = List {
        operations: operations.to_vec(),
        bytes: bytes.to_vec(),
    };
    for operation in &mut list.operations {
        if operation.kind == sys::BES_NEW_NODE {
            operation.node = 0;
        }
    }
    Ok(list.into())
}

/// Checks an operation as bes_apply does.
fn check(operation: &bes_operation, bytes: &[u8]) -> Result<(), u32> {
    let part = |at: u32, length: u32| bytes.get(at as usize..at as usize + length as usize);
    let name = part(operation.name_at, operation.name_length).ok_or(sys::BES_BAD_PART)?;
    let value = part(operation.value_at, operation.value_length).ok_or(sys::BES_BAD_PART)?;
    match operation.kind {
        sys::BES_NEW_NODE | sys::BES_REMOVE_NODE => return Ok(()),
        sys::BES_SET | sys::BES_UNSET | sys::BES_MAKE_INDEX | sys::BES_REMOVE_INDEX => {
            check_text(name, 1..=63, sys::BES_NAME_LENGTH)?
        }
        _ => return Err(sys::BES_NO_OPERATION),
    }
    let kind = Kind::from_code(operation.code).ok_or(sys::BES_NO_KIND);
    match operation.kind {
        sys::BES_MAKE_INDEX => kind.map(drop),
        sys::BES_SET => check_value(kind?, operation.number, value),
        _ => Ok(()),
    }
}

/// Checks a text that has as many bytes as this.
pub(crate) fn check_text(text: &[u8], lengths: std::ops::RangeInclusive<usize>, other_length: u32) -> Result<(), u32> {
    match text {
        _ if str::from_utf8(text).is_err() => Err(sys::BES_NOT_UTF8),
        _ if !lengths.contains(&text.len()) => Err(other_length),
        _ if text.contains(&0) => Err(sys::BES_HAS_NUL),
        _ => Ok(()),
    }
}

fn check_value(kind: Kind, number: u64, bytes: &[u8]) -> Result<(), u32> {
    let fits = match kind {
        Kind::Text | Kind::Mime => return check_text(bytes, 0..=255, sys::BES_DATA_LENGTH),
        Kind::Raw if bytes.len() > 255 => return Err(sys::BES_DATA_LENGTH),
        Kind::Raw | Kind::Int64 | Kind::Uint64 => true,
        Kind::Int32 => i32::try_from(number as i64).is_ok(),
        Kind::Uint32 => u32::try_from(number).is_ok(),
    };
    match fits {
        true => Ok(()),
        false => Err(sys::BES_NO_VALUE),
    }
}
