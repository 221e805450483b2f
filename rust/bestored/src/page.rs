//! Replies that come in pages, each as long as one line allows.

use crate::answer::View;
use crate::failure::Failure;
use crate::memory;
use crate::watcher;
use bestore::{Listing, Snapshot};
use bestore_client::wire::{self, Json, ShownOperations};

/// How many bytes of JSON a page may hold. Its last item may exceed this limit.
const BYTES: usize = 1 << 20;

/// The space left on a page.
#[derive(Debug)]
pub struct Room {
    pub nodes: usize,
    bytes: usize,
    /// How many bytes have been taken since the memory was last checked.
    unchecked: usize,
}

impl Room {
    pub fn new(limit: Option<u64>) -> Self {
        let limit = limit.and_then(|limit| usize::try_from(limit).ok());
        Self {
            nodes: limit.unwrap_or(usize::MAX).min(watcher::NODES),
            bytes: BYTES,
            unchecked: 0,
        }
    }

    /// Takes up space for an item. Returns whether there is space for another, or an error if memory is short.
    pub fn take(&mut self, bytes: usize) -> Result<bool, Failure> {
        self.bytes = self.bytes.saturating_sub(bytes);
        self.unchecked += bytes;
        if self.unchecked >= memory::STEP {
            self.unchecked = 0;
            memory::check()?;
        }
        Ok(self.bytes > 0)
    }
}

/// Returns each node's values in these columns, for as many nodes as fit on the page.
pub fn rows_of(
    snapshot: &Snapshot<'_>,
    nodes: &[u64],
    columns: &wire::Columns<'_>,
    room: &mut Room,
) -> Result<Vec<Vec<Option<Json>>>, Failure> {
    let mut rows = Vec::new();
    for node in nodes {
        let values = columns.0.iter().map(|name| snapshot.get(*node, name));
        let row = values
            .map(|value| value.map(|value| value.map(Json)))
            .collect::<Result<Vec<_>, _>>()?;
        let length = row
            .iter()
            .map(|value| 5 + value.as_ref().map_or(0, Json::length))
            .sum::<usize>();
        rows.push(row);
        if !room.take(24 + length)? {
            break;
        }
    }
    Ok(rows)
}

/// Returns the snapshot's number, and the number that the next new node gets.
pub fn next(snapshot: &Snapshot<'_>) -> Result<wire::Next, Failure> {
    Ok(wire::Next {
        commit: snapshot.number(),
        next: snapshot.next_node()?,
    })
}

/// Returns a page of the nodes.
pub fn nodes(snapshot: &Snapshot<'_>, from: &wire::NodesFrom) -> Result<wire::Nodes, Failure> {
    let room = Room::new(from.limit);
    let mut listed = snapshot.nodes_from(from.from);
    let nodes = listed.by_ref().take(room.nodes).collect::<Result<_, _>>()?;
    Ok(wire::Nodes {
        commit: snapshot.number(),
        nodes,
        more: listed.next().transpose()?,
    })
}

/// Returns a page of the journal.
pub fn journal(view: &View<'_, '_>, from: &wire::JournalFrom) -> Result<wire::Journal, Failure> {
    let pass = view.pass();
    let mut room = Room::new(from.limit);
    let mut page = wire::Journal::default();
    let mut next = from.from;
    for entry in pass.journal_from(from.from).take(room.nodes) {
        let entry = entry?;
        let length = ShownOperations(&entry.batch).length();
        next = entry.number;
        page.entries.push(wire::JournalEntry {
            commit: entry.number,
            pass: entry.pass,
            operations: entry.batch.into(),
        });
        if !room.take(64 + length)? {
            break;
        }
    }
    let begin = pass.journal_begin()?;
    if from.from < begin {
        return Err(Failure::journal_begins(begin));
    }
    page.length = pass.status()?.entries;
    page.more = (next < page.length).then_some(next);
    Ok(page)
}

/// Takes up the space of a state's batch, in base64.
pub fn take_batch(room: &mut Room, batch: &[u8]) -> Result<bool, Failure> {
    room.take(4 + batch.len() / 3 * 4)
}

/// A position in a snapshot's batches: the index of the next batch to read.
#[derive(Debug)]
pub struct Reading<'s> {
    next: u64,
    batches: Listing<'s>,
}

/// Returns a page of the batches that list a snapshot's contents, from index `from` on. `read` remembers how far they have been read.
pub fn state<'s>(
    snapshot: &'s Snapshot<'_>,
    read: &mut Option<Reading<'s>>,
    from: u64,
) -> Result<wire::State, Failure> {
    let mut reading = match read.take() {
        Some(reading) if reading.next <= from => reading,
        _ => Reading {
            next: 0,
            batches: snapshot.listing(),
        },
    };
    let wire::Next { commit, next } = self::next(snapshot)?;
    let mut page = wire::State {
        commit,
        next,
        ..wire::State::default()
    };
    let mut room = Room::new(None);
    while let Some(batch) = reading.batches.next().transpose()? {
        reading.next += 1;
        if reading.next <= from {
            continue;
        }
        let has_room = take_batch(&mut room, &batch)?;
        page.batches.push(batch);
        if !has_room {
            page.more = Some(reading.next);
            *read = Some(reading);
            break;
        }
    }
    Ok(page)
}
