//! What a server says about a query.

use crate::faults::Fault;
use crate::memory::{fill, put, text};
use crate::reads::located;
use crate::session::{bec_client, call};
use crate::values::{bes_compared, bes_counts};
use bestore_client::wire::{Command, Comparison, Comparisons, Explained, Form, QueryText};
use bestore_client::Kind;
use bestore_types::sys;

/// Explains a query: writes the comparisons for which the query reads an index, joined by " || ", and the query's cost.
/// [out] bytes    the first bytes of the explanation; at most bytes_room. No zero byte follows them.
/// [out] count    how many bytes the explanation has
/// Returns the errors that bec_query returns, with their places.
/// Cost: one round trip.
#[no_mangle]
pub unsafe extern "C" fn bec_explain(
    client: *mut bec_client,
    query: *const u8,
    query_length: usize,
    bytes: *mut u8,
    bytes_room: usize,
    count: *mut u64,
) -> u32 {
    // SAFETY: the header says what the pointers are.
    unsafe {
        explain(
            client,
            Command::Explain,
            (query, query_length),
            (bytes, bytes_room),
            count,
        )
    }
}

/// Writes which parts of the indices the answer to a query reads: a line for each range of keys, as bes_ways does.
/// [out] bytes    the first bytes of the text; at most bytes_room. No zero byte follows them.
/// [out] count    how many bytes the text has
/// Returns the errors that bec_query returns, with their places.
/// Cost: one round trip, in which the server runs the query.
#[no_mangle]
pub unsafe extern "C" fn bec_ways(
    client: *mut bec_client,
    query: *const u8,
    query_length: usize,
    bytes: *mut u8,
    bytes_room: usize,
    count: *mut u64,
) -> u32 {
    // SAFETY: the header says what the pointers are.
    unsafe { explain(client, Command::Ways, (query, query_length), (bytes, bytes_room), count) }
}

unsafe fn explain<'a>(
    client: *mut bec_client,
    command: fn(QueryText<'a>) -> Command<'a>,
    query: (*const u8, usize),
    (bytes, room): (*mut u8, usize),
    count: *mut u64,
) -> u32 {
    // SAFETY: the header says what the pointers are.
    unsafe {
        call(client, |state| {
            put(count, 0);
            let query = text(query.0, query.1)?.into();
            let read: Result<Explained, Fault> = state.ask(|client| client.call(command(QueryText { query })));
            let explanation = read.map_err(|fault| located(fault, count))?.text;
            fill(bytes, room, explanation.as_bytes());
            put(count, explanation.len() as u64);
            Ok(())
        })
    }
}

/// Lists the comparisons in a query, from left to right, as bes_query_comparisons does; but name_at, name_end, value_at and value_end are 0,
/// because servers don't send these places.
/// [out] counts   how many comparisons there are (in counts->operations), and how many bytes
/// [out] compared the first comparisons; at most compared_room, and 256 suffice
/// [out] bytes    the first of the bytes with plain names and values; at most bytes_room. 64 bytes for each comparison and 4 for each byte
///                of the query are enough
/// [out] place    after an error with a place in the query, the place; otherwise 0
/// Returns the errors that bec_query returns, except BES_NOT_COVERED.
/// Cost: one round trip. The server doesn't read its store.
#[no_mangle]
pub unsafe extern "C" fn bec_query_comparisons(
    client: *mut bec_client,
    query: *const u8,
    query_length: usize,
    counts: *mut bes_counts,
    compared: *mut bes_compared,
    compared_room: usize,
    bytes: *mut u8,
    bytes_room: usize,
    place: *mut u64,
) -> u32 {
    // SAFETY: the header says what the pointers are.
    unsafe {
        call(client, |state| {
            put(place, 0);
            let query = text(query, query_length)?.into();
            let read = state.ask(|client| client.call(Command::Text(QueryText { query })));
            let read: Comparisons = read.map_err(|fault| located(fault, place))?;
            let mut plain = Vec::new();
            let list: Vec<_> = read.comparisons.iter().map(|one| list_one(one, &mut plain)).collect();
            put(
                counts,
                bes_counts {
                    operations: list.len() as u64,
                    bytes: plain.len() as u64,
                },
            );
            fill(compared, compared_room, &list);
            fill(bytes, bytes_room, &plain);
            Ok(())
        })
    }
}

/// Returns a comparison in the form of C, and adds its name and value to the bytes.
fn list_one(one: &Comparison, plain: &mut Vec<u8>) -> bes_compared {
    let plain_name_at = plain.len() as u64;
    plain.extend_from_slice(one.name.as_bytes());
    let plain_value_at = plain.len() as u64;
    plain.extend_from_slice(one.value.as_bytes());
    let (kind_in_text, negated) = operator_of(&one.operator);
    bes_compared {
        at: one.offset,
        end: one.offset + one.length,
        plain_name_at,
        plain_value_at,
        plain_end: plain.len() as u64,
        kind: if one.negated { negated } else { kind_in_text },
        kind_in_text,
        form: match one.form {
            Form::Text => sys::BES_FORM_TEXT,
            Form::Number => sys::BES_FORM_NUMBER,
            Form::Pattern => sys::BES_FORM_PATTERN,
        },
        is_never_int32: one.is_never(Kind::Int32),
        is_never_int64: one.is_never(Kind::Int64),
        is_never_uint32: one.is_never(Kind::Uint32),
        is_never_uint64: one.is_never(Kind::Uint64),
        ..bes_compared::default()
    }
}

/// Returns an operator's number, and the number of the operator that is true where it is false.
fn operator_of(operator: &str) -> (u32, u32) {
    match operator {
        "!=" => (sys::BES_ITEM_NE, sys::BES_ITEM_EQ),
        "<" => (sys::BES_ITEM_LT, sys::BES_ITEM_GE),
        "<=" => (sys::BES_ITEM_LE, sys::BES_ITEM_GT),
        ">" => (sys::BES_ITEM_GT, sys::BES_ITEM_LE),
        ">=" => (sys::BES_ITEM_GE, sys::BES_ITEM_LT),
        _ => (sys::BES_ITEM_EQ, sys::BES_ITEM_NE),
    }
}
