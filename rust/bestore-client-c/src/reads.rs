//! Reads: attributes and queries.

use crate::faults::Fault;
use crate::memory::{fill, put, text};
use crate::session::{bec_client, call, State};
use crate::values::{bes_attribute, put_value};
use bestore_client::wire::NODES;
use bestore_client::{Client, Error, Query};
use bestore_types::sys;

/// Reads a node's attribute.
/// [in] name      the name, name_length bytes
/// [out] attribute  its type code, number and length
/// [out] bytes    the first bytes of a text or raw value; at most bytes_room, and 255 suffice
/// BES_NOT_UTF8, BES_NO_ATTRIBUTE (also if there is no such node, or none can have such a name).
/// Cost: one round trip.
#[no_mangle]
pub unsafe extern "C" fn bec_get(
    client: *mut bec_client,
    node: u64,
    name: *const u8,
    name_length: usize,
    attribute: *mut bes_attribute,
    bytes: *mut u8,
    bytes_room: usize,
) -> u32 {
    // SAFETY: the header says what the pointers are.
    unsafe {
        call(client, |state| {
            let name = text(name, name_length)?;
            let value = state.ask(|client| client.get(node, name))?;
            let value = value.ok_or_else(|| Fault::of(sys::BES_NO_ATTRIBUTE))?;
            put_value(&value, attribute, bytes, bytes_room);
            Ok(())
        })
    }
}

/// Runs a query.
/// [in] query     the query, query_length bytes; bestore's QUERIES.md describes the language
/// [out] nodes    the first nodes that match the query, in ascending order; at most nodes_room
/// [out] count    how many nodes match; if more than nodes_room match, run the query again with a larger array. With an error that has a
///                place in the query, the place: its byte offset
/// BES_NOT_UTF8, BES_TOO_LONG, BES_SYNTAX, BES_BAD_PATTERN, BES_TOO_MANY, BES_TOO_DEEP, BES_NOT_COVERED (count is the offset of the
/// first comparison whose name has no index, if the server says it).
/// Cost: one round trip for each 50,000 nodes. Without a pin, the nodes of each round trip come from a snapshot of their own.
#[no_mangle]
pub unsafe extern "C" fn bec_query(
    client: *mut bec_client,
    query: *const u8,
    query_length: usize,
    nodes: *mut u64,
    nodes_room: usize,
    count: *mut u64,
) -> u32 {
    // SAFETY: the header says what the pointers are.
    unsafe {
        call(client, |state| {
            put(count, 0);
            let found = text(query, query_length).and_then(|query| find(state, query, nodes_room));
            let found = found.map_err(|fault| located(fault, count))?;
            fill(nodes, nodes_room, &found.nodes);
            put(count, found.count);
            Ok(())
        })
    }
}

/// Writes the place of an error to where the caller wants it.
///
/// # Safety
/// `place` is null, or points to a number.
pub(crate) unsafe fn located(fault: Fault, place: *mut u64) -> Fault {
    // SAFETY: as above.
    unsafe { put(place, fault.fault.number) };
    fault
}

/// The first nodes that match a query, and how many match.
struct Found {
    nodes: Vec<u64>,
    count: u64,
}

fn find(state: &mut State, query: &str, room: usize) -> Result<Found, Fault> {
    state.ask(|client| match room {
        0 => {
            let count = client.count(query)?;
            Ok(Found {
                nodes: Vec::new(),
                count,
            })
        }
        _ => find_first(client, query, room),
    })
}

/// Asks for page after page, until there is no room or no more nodes.
fn find_first(client: &mut Client, query: &str, room: usize) -> Result<Found, Error> {
    let mut found = Found {
        nodes: Vec::new(),
        count: 0,
    };
    let mut from = 0;
    loop {
        let limit = (room - found.nodes.len()).min(NODES) as u64;
        let page = client.hits(Query {
            text: query,
            from,
            limit: Some(limit),
            ..Query::default()
        })?;
        let nodes = page.nodes.unwrap_or_default();
        let before = found.nodes.len() as u64;
        found.count = before + page.count.unwrap_or(nodes.len() as u64);
        found.nodes.extend(nodes);
        match page.more {
            Some(more) if found.nodes.len() < room => from = more,
            _ => return Ok(found),
        }
    }
}
