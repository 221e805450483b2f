//! The log's state: batches that list a store's contents, so that a server doesn't have to apply every entry when it starts.

use super::database::Database;
use super::error::{Error, Result};
use crate::tokens::Tokens;
use crate::writes::shown;
use bestore::saved::Place;
use bestore::{Batch, Builder, Limits, Operation, Store, Written};

/// The first bytes of a state that 0.4.0 has written: it consists of ordinary batches.
const OPERATIONS: &[u8] = b"BEB";

/// Builds the store from the log's state. Also returns the number of the last entry that the state contains.
pub async fn load(database: &mut Database, limits: Limits) -> Result<(Store, u64)> {
    let (head, batches) = database.state().await?;
    let store = match batches.first() {
        Some(first) if first.starts_with(OPERATIONS) => repeat(&batches, head.next, limits)?,
        _ => build(&batches, head.next, limits)?,
    };
    Ok((store, head.entries))
}

fn build(batches: &[Vec<u8>], next: u64, limits: Limits) -> Result<Store> {
    let mut builder = Builder::new(limits)?;
    for (index, batch) in (0..).zip(batches) {
        let added = builder.batch(batch);
        added.map_err(|error| Error::refused(Place::State(index), error))?;
    }
    builder
        .finish(next)
        .map_err(|error| Error::refused(last(batches), error))
}

/// Applies the batches of a state that 0.4.0 has written.
fn repeat(batches: &[Vec<u8>], next: u64, limits: Limits) -> Result<Store> {
    let store = Store::open(limits)?;
    let mut pass = store.pass()?;
    for (index, bytes) in (0..).zip(batches) {
        let place = Place::State(index);
        let batch = Batch::from_bytes(bytes).map_err(|error| Error::differs(place, error))?;
        pass.apply(&batch).map_err(|error| Error::refused(place, error))?;
    }
    let found = pass.pin()?.next_node()?;
    drop(pass);
    match found == next {
        true => Ok(store),
        false => Err(Error::differs(
            last(batches),
            "the state's next node number differs from the recorded one",
        )),
    }
}

fn last(batches: &[Vec<u8>]) -> Place {
    Place::State((batches.len() as u64).saturating_sub(1))
}

/// Adds the tokens of the entries that the state contains. `entries` is the number of the last such entry, and `commit` is the
/// state's commit number.
pub async fn load_tokens(database: &Database, entries: u64, commit: u64, tokens: &Tokens) -> Result<()> {
    let mut after = 0;
    loop {
        let (found, is_more) = database.entries_with_token(after, entries).await?;
        for entry in &found {
            after = entry.number;
            let place = Place::Entry(entry.number);
            let batch = Batch::from_bytes(&entry.batch).map_err(|error| Error::differs(place, error))?;
            let made = batch.operations().filter_map(|operation| match operation {
                Operation::NewNode { node } => Some(node),
                _ => None,
            });
            let written = Written {
                number: commit,
                nodes: made.collect(),
            };
            let token = entry.token.as_deref().unwrap_or_default();
            tokens.add(token.into(), shown(&written));
        }
        if !is_more {
            return Ok(());
        }
    }
}
