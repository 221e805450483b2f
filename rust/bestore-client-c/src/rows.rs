//! Parts of a query's result with attributes of each node.

use crate::faults::Fault;
use crate::lists::cells_of;
use crate::memory::{fill, items, put, text};
use crate::numbers::BEC_BAD_LINE;
use crate::pages::{bec_cursor, read_page, with_room, PageRoom};
use crate::reads::located;
use crate::session::{bec_client, call};
use crate::values::{bes_cell, bes_name};
use bestore_client::wire::{Json, NODES};
use bestore_client::{Client, Error, PageOfRows, Query, Value};
use bestore_types::sys;

/// The most names that a server takes with a query.
const NAMES: usize = 64;

/// The attributes that bec_first_rows or bec_ordered_rows has read last.
#[derive(Debug, Default)]
pub(crate) struct Rows {
    cells: Vec<bes_cell>,
    bytes: Vec<u8>,
}

impl Rows {
    /// Returns the rows of this many nodes. The error is BEC_BAD_LINE if the server has sent others.
    fn of(rows: Vec<Vec<Option<Value>>>, nodes: usize, names: usize) -> Result<Self, Fault> {
        if names > 0 && (rows.len() != nodes || rows.iter().any(|row| row.len() != names)) {
            return Err(Fault::of(BEC_BAD_LINE));
        }
        let (cells, bytes) = cells_of(rows);
        Ok(Self { cells, bytes })
    }
}

/// Like bec_ordered, but also reads attributes of each node, in the same round trip. bec_rows writes them.
/// [in] names     an array of names_count names from bec_check_name
/// [out] bytes_count  how many bytes their text and raw values have
/// The other parameters and the errors are those of bec_ordered; also BES_BAD_COUNT (there are more than 64 names).
/// Cost: that of bec_ordered, and more round trips if the values take more than 2 MiB on a line.
#[no_mangle]
pub unsafe extern "C" fn bec_ordered_rows(
    client: *mut bec_client,
    query: *const u8,
    query_length: usize,
    by: *const bes_name,
    descending: u32,
    cursor: *mut bec_cursor,
    names: *const bes_name,
    names_count: usize,
    nodes: *mut u64,
    nodes_room: usize,
    count: *mut u64,
    more: *mut u32,
    bytes_count: *mut u64,
) -> u32 {
    // SAFETY: the header says what the pointers are.
    unsafe {
        let room = PageRoom {
            by,
            descending,
            cursor,
            nodes: (nodes, nodes_room),
            count,
            more,
        };
        call(client, |state| {
            put(count, 0);
            put(bytes_count, 0);
            let columns = columns_of(names, names_count)?;
            let PageOfRows { page, rows } = read_page(state, (query, query_length), &columns, &room)?;
            state.rows = Rows::of(rows, page.nodes.len(), names_count)?;
            room.put(&page)?;
            put(bytes_count, state.rows.bytes.len() as u64);
            Ok(())
        })
    }
}

/// Like bec_first, but also reads attributes of each node, in the same round trip. bec_rows writes them.
/// [in] names     an array of names_count names from bec_check_name
/// [out] bytes_count  how many bytes their text and raw values have
/// The other parameters and the errors are those of bec_first; also BES_BAD_COUNT (there are more than 64 names).
/// Cost: that of bec_first, and more round trips if the values take more than 2 MiB on a line.
#[no_mangle]
pub unsafe extern "C" fn bec_first_rows(
    client: *mut bec_client,
    query: *const u8,
    query_length: usize,
    from: u64,
    names: *const bes_name,
    names_count: usize,
    nodes: *mut u64,
    nodes_room: usize,
    count: *mut u64,
    bytes_count: *mut u64,
) -> u32 {
    // SAFETY: the header says what the pointers are.
    unsafe {
        call(client, |state| {
            put(count, 0);
            put(bytes_count, 0);
            let columns = columns_of(names, names_count)?;
            let query = Query {
                text: text(query, query_length)?,
                columns: &columns,
                from,
                uncounted: true,
                limit: None,
            };
            let room = with_room(nodes_room)?;
            let read = state.ask(|client| first_rows(client, query, room));
            let (found, rows) = read.map_err(|fault| located(fault, count))?;
            state.rows = Rows::of(rows, found.len(), names_count)?;
            fill(nodes, nodes_room, &found);
            put(count, found.len().min(nodes_room) as u64);
            put(bytes_count, state.rows.bytes.len() as u64);
            Ok(())
        })
    }
}

/// Returns the names that the caller passes.
///
/// # Safety
/// As for [`items`].
unsafe fn columns_of<'a>(names: *const bes_name, count: usize) -> Result<Vec<&'a str>, Fault> {
    if count > NAMES {
        return Err(Fault::of(sys::BES_BAD_COUNT));
    }
    // SAFETY: as above.
    let names = unsafe { items(names, count) }?;
    Ok(names.iter().map(bes_name::as_str).collect())
}

type NodesAndRows = (Vec<u64>, Vec<Vec<Option<Value>>>);

/// Asks for page after page, until there is no room or no more nodes.
fn first_rows(client: &mut Client, mut query: Query<'_>, room: usize) -> Result<NodesAndRows, Error> {
    let (mut nodes, mut rows) = (Vec::new(), Vec::new());
    loop {
        query.limit = Some((room - nodes.len()).min(NODES) as u64);
        let page = client.hits(query)?;
        nodes.extend(page.nodes.unwrap_or_default());
        let read = page.rows.unwrap_or_default().into_iter();
        rows.extend(read.map(|row| row.into_iter().map(|value| value.map(|Json(value)| value)).collect()));
        match page.more {
            Some(more) if nodes.len() < room => query.from = more,
            _ => return Ok((nodes, rows)),
        }
    }
}

/// Writes the attributes that bec_ordered_rows or bec_first_rows has read, whichever has succeeded last.
/// [out] cells    the cells of the first node, one for each name, then those of the second node, and so on; at most cells_room. If a
///                node has no such attribute, the cell contains BES_NO_ATTRIBUTE.
/// [out] bytes    the first bytes of all text and raw values, in the order of their cells; at most bytes_room
/// Cost: the time to copy them. Nothing is asked of the server.
#[no_mangle]
pub unsafe extern "C" fn bec_rows(
    client: *mut bec_client,
    cells: *mut bes_cell,
    cells_room: usize,
    bytes: *mut u8,
    bytes_room: usize,
) -> u32 {
    // SAFETY: the header says what the pointers are.
    unsafe {
        call(client, |state| {
            fill(cells, cells_room, &state.rows.cells);
            fill(bytes, bytes_room, &state.rows.bytes);
            Ok(())
        })
    }
}
