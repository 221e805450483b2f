//! The library's calls on handles that close themselves. All of the crate's unsafe code is in this module.
//!
//! Every block relies on the following:
//! - a pointer to a handle comes from a `Handle`, which keeps the handle at one address until it closes it;
//! - a handle is used by one call at a time: `Handle` isn't `Sync`, and the library never calls back;
//! - a slice's pointer isn't null, even if its length is 0;
//! - the library writes the number of items that it reports, up to the capacity that it is given.
#![allow(unsafe_code)]
#![deny(unsafe_op_in_unsafe_fn)]

mod building;
mod cursors;
mod handle;
mod texts;

pub(crate) use building::RawBuilder;
pub(crate) use cursors::{cursor_of, of_cursor};
pub(crate) use handle::Birthplace;
pub(crate) use texts::{any_case, comparisons, Comparisons};

use crate::Order;
use bestore_sys as sys;
use bestore_types::raw::{List, OPERATIONS};
use handle::Handle;
use std::cell::Cell;
use std::ptr::NonNull;
use std::sync::atomic::{AtomicU64, Ordering};
use sys::{
    bes_attribute, bes_counts, bes_cursor, bes_draft, bes_operation, bes_pass, bes_prepared, bes_updates, bes_witness,
};

/// The code that a call returns in a forked child. The library itself never returns it.
pub(crate) const FORKED: u32 = u32::MAX;

/// The maximum total size in bytes of a batch's names and values.
const BYTES: usize = OPERATIONS * (63 + 255);

/// A code other than `BES_OK`, and the number reported with it.
#[derive(Clone, Copy, Debug, PartialEq, Eq)]
pub(crate) struct Refused {
    pub(crate) code: u32,
    pub(crate) carried: u64,
}

pub(crate) type Answer<T> = Result<T, Refused>;

/// The nodes that a result has gained, and those that it has lost.
pub(crate) type RawUpdates = Answer<(Vec<u64>, Vec<u64>)>;

fn check(code: u32, carried: u64) -> Answer<()> {
    if code == sys::BES_OK {
        Ok(())
    } else {
        Err(Refused { code, carried })
    }
}

/// Returns an empty list with room for this many items.
fn with_room<T>(room: usize) -> Answer<Vec<T>> {
    let mut list = Vec::new();
    match list.try_reserve_exact(room) {
        Ok(()) => Ok(list),
        Err(_) => Err(Refused {
            code: sys::BES_NO_MEMORY,
            carried: 0,
        }),
    }
}

/// Returns all items from a function that counts them all but writes only as many as fit. If they don't all fit, calls the function again
/// with a larger buffer.
fn whole<T>(mut room: usize, mut call: impl FnMut(*mut T, usize, &mut u64) -> u32) -> Answer<Vec<T>>
where
    T: Copy,
{
    loop {
        let mut list = with_room(room)?;
        let mut count = 0;
        let code = call(list.as_mut_ptr(), room, &mut count);
        check(code, count)?;
        let count = usize::try_from(count).unwrap_or(usize::MAX);
        if count <= room {
            // SAFETY: the library has written `count` items.
            unsafe { list.set_len(count) };
            return Ok(list);
        }
        room = count;
    }
}

/// A name that has been checked.
pub(crate) fn checked_name(name: &str) -> Answer<sys::bes_name> {
    let mut checked = sys::bes_name {
        length: 0,
        bytes: [0; 64],
    };
    // SAFETY: see the top of this module.
    let code = unsafe { sys::bes_check_name(name.as_ptr(), name.len(), &mut checked) };
    check(code, 0).map(|()| checked)
}

/// Returns a list of operations from a function.
fn listed(
    room: (usize, usize),
    call: impl FnMut(&mut bes_counts, *mut bes_operation, usize, *mut u8, usize) -> Answer<()>,
) -> Answer<List> {
    let mut list = List {
        operations: with_room(room.0)?,
        bytes: with_room(room.1)?,
    };
    list_into(&mut list, call).map(|()| list)
}

/// Replaces the list with the operations from a function. If they don't fit, calls the function again with larger buffers.
fn list_into(
    list: &mut List,
    mut call: impl FnMut(&mut bes_counts, *mut bes_operation, usize, *mut u8, usize) -> Answer<()>,
) -> Answer<()> {
    let List { operations, bytes } = list;
    operations.clear();
    bytes.clear();
    loop {
        let room = (operations.capacity(), bytes.capacity());
        let mut counts = bes_counts::default();
        call(&mut counts, operations.as_mut_ptr(), room.0, bytes.as_mut_ptr(), room.1)?;
        let count = (counts.operations as usize, counts.bytes as usize);
        if count.0 <= room.0 && count.1 <= room.1 {
            // SAFETY: the library has written the numbers of operations and bytes that it counted.
            unsafe {
                operations.set_len(count.0);
                bytes.set_len(count.1);
            }
            return Ok(());
        }
        *operations = with_room(count.0)?;
        *bytes = with_room(count.1)?;
    }
}

/// Calls `bes_apply` or, if `expected` is given, `bes_apply_if`.
///
/// # Safety
/// `pass` points to a handle that no other call uses.
unsafe fn apply(pass: *mut bes_pass, expected: Option<u64>, list: &List, made: &mut [u64], number: &mut u64) -> u32 {
    let (operations, count) = (list.operations.as_ptr(), list.operations.len());
    let (bytes, length) = (list.bytes.as_ptr(), list.bytes.len());
    let (nodes, room) = (made.as_mut_ptr(), made.len());
    // SAFETY: these are three separate slices, and they outlive the call.
    unsafe {
        match expected {
            None => sys::bes_apply(pass, operations, count, bytes, length, nodes, room, number),
            Some(expected) => sys::bes_apply_if(pass, expected, operations, count, bytes, length, nodes, room, number),
        }
    }
}

/// The buffer's capacity for the first query, in nodes.
const NODES: usize = 256;

/// Returns the nodes that a query finds. The buffer has room for somewhat more nodes than the last query found, so that few queries must be
/// run twice.
fn found(room: &Cell<usize>, call: impl FnMut(*mut u64, usize, &mut u64) -> u32) -> Answer<Vec<u64>> {
    let nodes = whole(room.get(), call)?;
    room.set((nodes.len() + nodes.len() / 4).max(NODES));
    Ok(shrunk(nodes))
}

/// Frees the memory that the nodes don't need, if it is more than half of the list.
fn shrunk(mut nodes: Vec<u64>) -> Vec<u64> {
    if nodes.capacity() > 2 * nodes.len() + NODES {
        nodes.shrink_to_fit();
    }
    nodes
}

/// The buffer's capacity for part of an answer, in nodes, unless fewer are wanted. If more nodes are there, it is larger at the next attempt.
const SOME_NODES: usize = 1 << 16;

/// Returns up to `most` nodes from a call that writes only as many as fit. There can't be more than `all` nodes. The call is repeated with
/// more room if it may have left out nodes.
fn some(all: u64, most: usize, mut call: impl FnMut(*mut u64, usize, &mut u64) -> u32) -> Answer<Vec<u64>> {
    // The buffer has room for at least one node, so that a page from a store without nodes is empty and not an error.
    let most = usize::try_from(all).unwrap_or(usize::MAX).max(1).min(most);
    let mut room = most.min(SOME_NODES);
    loop {
        let mut nodes = with_room(room)?;
        let mut count = 0;
        let code = call(nodes.as_mut_ptr(), room, &mut count);
        check(code, count)?;
        let count = room.min(count as usize);
        if count < room || room == most {
            // SAFETY: the library has written `count` nodes.
            unsafe { nodes.set_len(count) };
            return Ok(shrunk(nodes));
        }
        room = most.min(room.saturating_mul(4));
    }
}

/// Returns the attribute that a call reads. The call stores the attribute's bytes in `bytes`.
fn attribute(
    bytes: &mut [u8; 255],
    call: impl FnOnce(&mut bes_attribute, *mut u8, usize) -> u32,
) -> Answer<bes_attribute> {
    let mut attribute = bes_attribute::default();
    let code = call(&mut attribute, bytes.as_mut_ptr(), bytes.len());
    check(code, 0).map(|()| attribute)
}

/// The number of stores that this process has tried to open.
static STORES: AtomicU64 = AtomicU64::new(0);

/// A pass of a store.
#[derive(Debug)]
pub(crate) struct RawPass {
    handle: Handle<bes_pass>,
    store: u64,
    room: Cell<usize>,
}

impl RawPass {
    fn new(store: u64) -> Self {
        Self {
            handle: Handle::new(),
            store,
            room: Cell::new(NODES),
        }
    }

    /// Returns the store's number, which is unique within this process.
    pub(crate) fn store(&self) -> u64 {
        self.store
    }

    /// Returns a closed handle for the first pass of another store.
    fn of_new_store() -> Self {
        Self::new(STORES.fetch_add(1, Ordering::Relaxed))
    }

    pub(crate) fn open(pages: u64, passes: u64, commits: u64) -> Answer<Self> {
        let pass = Self::of_new_store();
        // SAFETY: see the top of this module.
        let code = unsafe { sys::bes_open(pages, passes, commits, pass.handle.get()?) };
        check(code, 0).map(|()| pass)
    }

    pub(crate) fn another(&self) -> Answer<Self> {
        let other = Self::new(self.store);
        // SAFETY: see the top of this module; these are two different handles.
        let code = unsafe { sys::bes_another(self.handle.get()?, other.handle.get()?) };
        check(code, 0).map(|()| other)
    }

    /// Returns the number from a call whose only input is the pass.
    fn number_by(&self, call: unsafe extern "C" fn(*mut bes_pass, *mut u64) -> u32) -> Answer<u64> {
        let mut number = 0;
        // SAFETY: see the top of this module; `number` outlives the call.
        let code = unsafe { call(self.handle.get()?, &mut number) };
        check(code, number).map(|()| number)
    }

    pub(crate) fn number(&self) -> Answer<u64> {
        self.number_by(sys::bes_number)
    }

    pub(crate) fn meet(&self) -> Answer<u64> {
        self.number_by(sys::bes_meet)
    }

    pub(crate) fn witness(&self) -> Answer<RawWitness> {
        let witness = RawWitness {
            handle: Handle::new(),
            store: self.store,
        };
        // SAFETY: see the top of this module.
        let code = unsafe { sys::bes_witness_of(self.handle.get()?, witness.handle.get()?) };
        check(code, 0).map(|()| witness)
    }

    /// Joins a witness if it belongs to the same store.
    pub(crate) fn join(&self, witness: &mut RawWitness) -> Answer<Option<u64>> {
        let mut seen = 0;
        if witness.store != self.store {
            return Ok(None);
        }
        // SAFETY: see the top of this module; `seen` outlives the call.
        let code = unsafe { sys::bes_join(self.handle.get()?, witness.handle.get()?, &mut seen) };
        check(code, 0).map(|()| Some(seen))
    }

    pub(crate) fn pin(&self) -> Answer<u64> {
        self.number_by(sys::bes_pin)
    }

    pub(crate) fn next(&self) -> Answer<u64> {
        self.number_by(sys::bes_next)
    }

    pub(crate) fn unpin(&self) -> Answer<()> {
        // SAFETY: see the top of this module.
        check(unsafe { sys::bes_unpin(self.handle.get()?) }, 0)
    }

    /// Writes the list. If `expected` is given, writes only if the journal has that length. Returns the commit number.
    pub(crate) fn apply(&self, expected: Option<u64>, list: &List, made: &mut [u64]) -> Answer<u64> {
        let mut number = 0;
        // SAFETY: see the top of this module.
        let code = unsafe { apply(self.handle.get()?, expected, list, made, &mut number) };
        check(code, number).map(|()| number)
    }

    /// Begins a change on the snapshot that the pass has pinned. Returns its draft, and the number that the first new node will get.
    pub(crate) fn begin_change(&self) -> Answer<(RawDraft, u64)> {
        let draft = RawDraft(Handle::new());
        let (mut number, mut next) = (0, 0);
        // SAFETY: see the top of this module; these are two different handles.
        let code = unsafe { sys::bes_begin_change(self.handle.get()?, draft.0.get()?, &mut number, &mut next) };
        check(code, 0).map(|()| (draft, next))
    }

    /// Writes the draft and closes it, even after an error.
    pub(crate) fn end_change(&self, draft: &RawDraft) -> Answer<u64> {
        let mut number = 0;
        // SAFETY: see the top of this module; the draft belongs to this pass, because a change has both.
        let code = unsafe { sys::bes_end_change(self.handle.get()?, draft.0.get()?, &mut number) };
        check(code, number).map(|()| number)
    }

    /// Returns an attribute with the draft's operations applied, and stores its bytes in `bytes`.
    pub(crate) fn change_get(
        &self,
        draft: &RawDraft,
        node: u64,
        name: &str,
        bytes: &mut [u8; 255],
    ) -> Answer<bes_attribute> {
        let (pass, draft) = (self.handle.get()?, draft.0.get()?);
        attribute(bytes, |attribute, bytes, room| {
            // SAFETY: see the top of this module; the draft belongs to this pass, because a change has both.
            unsafe { sys::bes_change_get(pass, draft, node, name.as_ptr(), name.len(), attribute, bytes, room) }
        })
    }

    pub(crate) fn query(&self, text: &str) -> Answer<Vec<u64>> {
        let pass = self.handle.get()?;
        found(&self.room, |nodes, room, count| {
            // SAFETY: see the top of this module.
            unsafe { sys::bes_query(pass, text.as_ptr(), text.len(), nodes, room, count) }
        })
    }

    pub(crate) fn query_prepared(&self, prepared: &RawPrepared) -> Answer<Vec<u64>> {
        let (pass, prepared) = (self.handle.get()?, prepared.0.get()?);
        let mut is_asked = false;
        found(&self.room, |nodes, room, count| {
            // SAFETY: see the top of this module.
            unsafe {
                if is_asked {
                    return sys::bes_found(prepared, 0, nodes, room, count);
                }
                is_asked = true;
                sys::bes_query_prepared(pass, prepared, nodes, room, count)
            }
        })
    }

    /// Returns the number of nodes that the query finds.
    pub(crate) fn count(&self, text: &str) -> Answer<u64> {
        let (pass, mut count) = (self.handle.get()?, 0);
        // SAFETY: see the top of this module; the capacity is 0, so only the count is written.
        let code = unsafe {
            sys::bes_query(
                pass,
                text.as_ptr(),
                text.len(),
                NonNull::dangling().as_ptr(),
                0,
                &mut count,
            )
        };
        check(code, count).map(|()| count)
    }

    pub(crate) fn count_prepared(&self, prepared: &RawPrepared) -> Answer<u64> {
        let (pass, prepared, mut count) = (self.handle.get()?, prepared.0.get()?, 0);
        // SAFETY: see the top of this module; the capacity is 0, so only the count is written.
        let code = unsafe { sys::bes_query_prepared(pass, prepared, NonNull::dangling().as_ptr(), 0, &mut count) };
        check(code, count).map(|()| count)
    }

    /// Returns the next page in an order, and whether more nodes follow it. Moves the cursor to the end of the page.
    pub(crate) fn ordered(
        &self,
        prepared: &RawPrepared,
        order: &Order,
        cursor: &mut bes_cursor,
        most: usize,
    ) -> Answer<(Vec<u64>, bool)> {
        let (pass, prepared) = (self.handle.get()?, prepared.0.get()?);
        let by = checked_name(order.name())?;
        let (descending, mut more) = (u32::from(order.is_descending()), 0);
        let begin = *cursor;
        let nodes = some(self.next()?, most, |nodes, room, count| {
            *cursor = begin;
            // SAFETY: see the top of this module; the name and the cursor outlive the call.
            unsafe { sys::bes_ordered(pass, prepared, &by, descending, cursor, nodes, room, count, &mut more) }
        })?;
        Ok((nodes, more != 0))
    }

    /// Returns the first nodes that a query finds, starting at a given number.
    pub(crate) fn first(&self, prepared: &RawPrepared, from: u64, most: usize) -> Answer<Vec<u64>> {
        let (pass, prepared) = (self.handle.get()?, prepared.0.get()?);
        some(self.next()?, most, |nodes, room, count| {
            // SAFETY: see the top of this module.
            unsafe { sys::bes_first(pass, prepared, from, nodes, room, count) }
        })
    }

    /// Returns arbitrary nodes that a query finds.
    pub(crate) fn any(&self, prepared: &RawPrepared, most: usize) -> Answer<Vec<u64>> {
        let (pass, prepared) = (self.handle.get()?, prepared.0.get()?);
        some(self.next()?, most, |nodes, room, count| {
            // SAFETY: see the top of this module.
            unsafe { sys::bes_any(pass, prepared, nodes, room, count) }
        })
    }

    pub(crate) fn refresh(&self, prepared: &RawPrepared) -> RawUpdates {
        self.refresh_by(prepared, sys::bes_refresh)
    }

    pub(crate) fn refresh_changed(&self, prepared: &RawPrepared) -> RawUpdates {
        self.refresh_by(prepared, sys::bes_refresh_changed)
    }

    fn refresh_by(
        &self,
        prepared: &RawPrepared,
        call: unsafe extern "C" fn(*mut bes_pass, *mut bes_prepared, *mut bes_updates) -> u32,
    ) -> RawUpdates {
        let prepared = prepared.0.get()?;
        let mut updates = bes_updates::default();
        // SAFETY: see the top of this module.
        check(unsafe { call(self.handle.get()?, prepared, &mut updates) }, 0)?;
        let rooms = (updates.created as usize, updates.removed as usize);
        let mut created = Vec::with_capacity(rooms.0);
        let mut removed = Vec::with_capacity(rooms.1);
        // SAFETY: see the top of this module; the buffers hold as many nodes as the refresh counted, and all are written.
        unsafe {
            let code = sys::bes_changes(prepared, created.as_mut_ptr(), rooms.0, removed.as_mut_ptr(), rooms.1);
            check(code, 0)?;
            created.set_len(rooms.0);
            removed.set_len(rooms.1);
        }
        Ok((created, removed))
    }

    pub(crate) fn explain(&self, text: &str) -> Answer<Vec<u8>> {
        let pass = self.handle.get()?;
        whole(256, |bytes, room, count| {
            // SAFETY: see the top of this module.
            unsafe { sys::bes_explain(pass, text.as_ptr(), text.len(), bytes, room, count) }
        })
    }

    pub(crate) fn ways(&self, text: &str) -> Answer<Vec<u8>> {
        let pass = self.handle.get()?;
        whole(256, |bytes, room, count| {
            // SAFETY: see the top of this module.
            unsafe { sys::bes_ways(pass, text.as_ptr(), text.len(), bytes, room, count) }
        })
    }

    /// Returns up to `room` nodes, starting at a given number.
    pub(crate) fn nodes(&self, from: u64, room: usize) -> Answer<Vec<u64>> {
        let mut nodes = with_room(room)?;
        let mut count = 0;
        // SAFETY: see the top of this module; the count is at most the capacity.
        unsafe {
            let code = sys::bes_nodes(self.handle.get()?, from, nodes.as_mut_ptr(), room, &mut count);
            check(code, count)?;
            nodes.set_len(room.min(count as usize));
        }
        Ok(nodes)
    }

    /// Returns an attribute, and stores its bytes in `bytes`.
    pub(crate) fn get(&self, node: u64, name: &str, bytes: &mut [u8; 255]) -> Answer<bes_attribute> {
        let pass = self.handle.get()?;
        attribute(bytes, |attribute, bytes, room| {
            // SAFETY: see the top of this module.
            unsafe { sys::bes_get(pass, node, name.as_ptr(), name.len(), attribute, bytes, room) }
        })
    }

    /// Returns the cells for all nodes and names, node by node, and the bytes that they refer to.
    pub(crate) fn columns(&self, nodes: &[u64], names: &[sys::bes_name]) -> Answer<(Vec<sys::bes_cell>, Vec<u8>)> {
        let pass = self.handle.get()?;
        let count = nodes.len().saturating_mul(names.len());
        let mut cells = with_room(count)?;
        cells.resize(count, sys::bes_cell::default());
        let bytes = whole(32 * cells.len(), |bytes, room, count| {
            // SAFETY: see the top of this module.
            unsafe {
                sys::bes_columns(
                    pass,
                    nodes.as_ptr(),
                    nodes.len(),
                    names.as_ptr(),
                    names.len(),
                    cells.as_mut_ptr(),
                    cells.len(),
                    bytes,
                    room,
                    count,
                )
            }
        })?;
        Ok((cells, bytes))
    }

    pub(crate) fn attributes(&self, node: u64) -> Answer<List> {
        let mut list = List {
            operations: with_room(16)?,
            bytes: with_room(1024)?,
        };
        self.attributes_into(node, &mut list).map(|()| list)
    }

    /// Replaces the list with the node's attributes.
    pub(crate) fn attributes_into(&self, node: u64, list: &mut List) -> Answer<()> {
        let pass = self.handle.get()?;
        list_into(list, |counts, operations, room, bytes, bytes_room| {
            // SAFETY: see the top of this module.
            let code = unsafe { sys::bes_attributes(pass, node, counts, operations, room, bytes, bytes_room) };
            check(code, 0)
        })
    }

    /// Returns whether the index of this name has the node's attribute.
    pub(crate) fn is_held(&self, node: u64, name: &str) -> Answer<bool> {
        let mut held = 0;
        // SAFETY: see the top of this module; `held` outlives the call.
        let code = unsafe { sys::bes_is_held(self.handle.get()?, node, name.as_ptr(), name.len(), &mut held) };
        check(code, 0).map(|()| held != 0)
    }

    pub(crate) fn indices(&self) -> Answer<List> {
        let pass = self.handle.get()?;
        listed((32, 32 * 63), |counts, operations, room, bytes, bytes_room| {
            // SAFETY: see the top of this module.
            let code = unsafe { sys::bes_indices(pass, counts, operations, room, bytes, bytes_room) };
            check(code, 0)
        })
    }

    pub(crate) fn journal(&self) -> Answer<Vec<u8>> {
        let pass = self.handle.get()?;
        whole(1 << 16, |bytes, room, count| {
            // SAFETY: see the top of this module.
            unsafe { sys::bes_journal(pass, bytes, room, count) }
        })
    }

    /// Closes the store and the handle. After an error, both are unchanged.
    pub(crate) fn finish(&self) -> Answer<Vec<u8>> {
        let pass = self.handle.get()?;
        whole(1 << 16, |bytes, room, count| {
            // SAFETY: see the top of this module.
            unsafe { sys::bes_finish(pass, bytes, room, count) }
        })
    }

    /// Returns the entry at this index and the pass that wrote it. If the journal is shorter, the entry has no operations.
    pub(crate) fn entry(&self, from: u64) -> Answer<(u64, List)> {
        let pass = self.handle.get()?;
        let (mut by, mut number) = (0, 0);
        let list = listed((OPERATIONS, BYTES), |counts, operations, room, bytes, bytes_room| {
            // SAFETY: see the top of this module.
            let code = unsafe {
                sys::bes_journal_from(
                    pass,
                    from,
                    &mut by,
                    counts,
                    operations,
                    room,
                    bytes,
                    bytes_room,
                    &mut number,
                )
            };
            check(code, number)
        })?;
        Ok((by, list))
    }

    pub(crate) fn status(&self) -> Answer<sys::bes_usage> {
        let mut usage = sys::bes_usage::default();
        let mut number = 0;
        // SAFETY: see the top of this module.
        let code = unsafe { sys::bes_status(self.handle.get()?, &mut usage, &mut number) };
        check(code, number).map(|()| usage)
    }
}

/// A query that has been parsed.
#[derive(Debug)]
pub(crate) struct RawPrepared(Handle<bes_prepared>);

impl RawPrepared {
    pub(crate) fn parse(text: &str) -> Answer<Self> {
        let prepared = Self(Handle::new());
        let mut place = 0;
        // SAFETY: see the top of this module.
        let code = unsafe { sys::bes_prepare(text.as_ptr(), text.len(), prepared.0.get()?, &mut place) };
        check(code, place).map(|()| prepared)
    }

    pub(crate) fn build(items: &[sys::bes_item], bytes: &[u8]) -> Answer<Self> {
        let prepared = Self(Handle::new());
        let mut place = 0;
        // SAFETY: see the top of this module.
        let code = unsafe {
            sys::bes_prepare_items(
                items.as_ptr(),
                items.len(),
                bytes.as_ptr(),
                bytes.len(),
                prepared.0.get()?,
                &mut place,
            )
        };
        check(code, place).map(|()| prepared)
    }

    pub(crate) fn text(&self) -> Answer<Vec<u8>> {
        let prepared = self.0.get()?;
        whole(256, |bytes, room, count| {
            // SAFETY: see the top of this module.
            unsafe { sys::bes_prepared_text(prepared, bytes, room, count) }
        })
    }
}

/// The operations of a change.
#[derive(Debug)]
pub(crate) struct RawDraft(Handle<bes_draft>);

/// The parts of an operation.
pub(crate) struct Parts<'a> {
    pub(crate) kind: u32,
    pub(crate) node: u64,
    pub(crate) name: &'a str,
    pub(crate) code: u32,
    pub(crate) number: u64,
    pub(crate) value: &'a [u8],
}

impl RawDraft {
    /// Accepts values of any kind from now on.
    pub(crate) fn any_kind(&self) -> Answer<()> {
        // SAFETY: see the top of this module.
        check(unsafe { sys::bes_change_any_kind(self.0.get()?) }, 0)
    }

    /// Adds an operation. Returns the node that it creates, or 0. If the value's kind differs from that of its index, the error comes with
    /// the index's type code.
    pub(crate) fn add(&self, parts: &Parts<'_>) -> Answer<u64> {
        let (mut short, long);
        let (name, value) = (parts.name.as_bytes(), parts.value);
        let bytes: &[u8] = if name.len() <= 63 && value.len() <= 255 {
            short = [0; 63 + 255];
            short[..name.len()].copy_from_slice(name);
            short[name.len()..][..value.len()].copy_from_slice(value);
            &short[..name.len() + value.len()]
        } else {
            long = [name, value].concat();
            &long
        };
        let name_length = length_of(name);
        let operation = bes_operation {
            kind: parts.kind,
            code: parts.code,
            node: parts.node,
            number: parts.number,
            name_at: 0,
            name_length,
            value_at: name_length,
            value_length: length_of(value),
        };
        let mut made = 0;
        // SAFETY: see the top of this module; the operation and the bytes outlive the call.
        let code = unsafe { sys::bes_change_add(self.0.get()?, &operation, bytes.as_ptr(), bytes.len(), &mut made) };
        check(code, made).map(|()| made)
    }
}

/// Converts a length to the type that the library takes. The library refuses anything longer.
fn length_of(bytes: &[u8]) -> u32 {
    u32::try_from(bytes.len()).unwrap_or(u32::MAX)
}

/// A record of what a pass has seen.
#[derive(Debug)]
pub(crate) struct RawWitness {
    handle: Handle<bes_witness>,
    store: u64,
}

/// Returns the version of the running library, in the form of `BES_VERSION_NUMBER` in its header.
pub(crate) fn version() -> u32 {
    // SAFETY: the call takes no arguments.
    unsafe { sys::bes_version() }
}

#[cfg(test)]
mod tests {
    use super::*;

    #[test]
    fn a_part_gets_more_room_until_all_its_nodes_fit() {
        let rooms_for = |there: usize, all, most| {
            let mut rooms = Vec::new();
            let nodes = some(all, most, |nodes, room, count| {
                rooms.push(room);
                *count = there.min(room) as u64;
                // SAFETY: there is room for as many nodes.
                (0..*count).for_each(|it| unsafe { *nodes.add(it as usize) = it });
                sys::BES_OK
            });
            (nodes.unwrap().len(), rooms)
        };
        assert_eq!(rooms_for(0, 0, 5), (0, vec![1]));
        assert_eq!(rooms_for(9, 7, 5), (5, vec![5]));
        assert_eq!(rooms_for(5, 5, 7), (5, vec![5]));
        assert_eq!(rooms_for(3, u64::MAX, usize::MAX), (3, vec![SOME_NODES]));
        let more = 5 * SOME_NODES;
        assert_eq!(
            rooms_for(more, u64::MAX, usize::MAX),
            (more, vec![SOME_NODES, 4 * SOME_NODES, 16 * SOME_NODES])
        );
        assert_eq!(
            rooms_for(more, u64::MAX, 2 * SOME_NODES),
            (2 * SOME_NODES, vec![SOME_NODES, 2 * SOME_NODES])
        );
    }

    #[test]
    fn a_list_that_memory_is_too_short_for_is_refused() {
        let refused = |answer: Answer<Vec<u64>>| answer.unwrap_err().code;
        let more = |count: &mut u64| {
            *count = 1 << 63;
            sys::BES_OK
        };
        assert_eq!(refused(whole(1, |_, _, count| more(count))), sys::BES_NO_MEMORY);
        assert_eq!(
            refused(whole(usize::MAX, |_, _, count| more(count))),
            sys::BES_NO_MEMORY
        );
        let listed = listed((1, 1), |counts, _, _, _, _| {
            more(&mut counts.bytes);
            Ok(())
        });
        assert_eq!(listed.err().map(|refused| refused.code), Some(sys::BES_NO_MEMORY));
    }
}
