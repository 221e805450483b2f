//! Builds the store of a file.

use super::{Error, Place, Result};
use crate::{Batch, Builder, Limits, Pass, Store};
use bestore_types::saved::file::File;
use bestore_types::saved::volume::Volume;

/// The most pages that a store can have.
const MOST_PAGES: u64 = 16_777_216;

/// A store that has been built from a file, and the number of the last entry that it has.
pub(super) struct Loaded {
    pub(super) store: Store,
    pub(super) number: u64,
}

/// Builds a store from the file's state, and applies the entries up to `until`.
///
/// The built store has as few pages in use as any with this state. A write to it can still need more pages than the same write to the store
/// that wrote the file. If an entry finds too few, the volume after all entries is built instead: that store had it in its pages.
pub(super) fn load(file: &File, limits: Limits, until: u64) -> Result<Loaded> {
    let loaded = build_state(file, limits).and_then(|store| {
        let number = apply_entries(file, &store, until)?;
        Ok(Loaded { store, number })
    });
    match loaded {
        Err(Error::TooLarge {
            error: crate::Error::Full { .. },
            ..
        }) => build_whole(file, limits, until),
        loaded => loaded,
    }
}

fn build_state(file: &File, limits: Limits) -> Result<Store> {
    let mut builder = Builder::new(limits)?;
    file.each_batch(|index, batch| add(&mut builder, index, batch))?;
    finish(builder, file.state()?.next)
}

fn add(builder: &mut Builder, index: u64, batch: &[u8]) -> Result<()> {
    let added = builder.batch(batch);
    added.map_err(|error| Error::refused(Place::State(index), error))
}

fn finish(builder: Builder, next: u64) -> Result<Store> {
    let finished = builder.finish(next);
    finished.map_err(|error| Error::refused(Place::About, error))
}

/// Applies the entries up to `until`. Returns the number of the last one applied.
fn apply_entries(file: &File, store: &Store, until: u64) -> Result<u64> {
    let own = store.own()?;
    let mut last = file.state()?.entries;
    file.each_entry(last, until, |number, batch| {
        last = number;
        let place = Place::Entry(number);
        let batch = Batch::from_bytes(batch).map_err(|error| Error::differs(place, error))?;
        repeat(&own, place, &batch)
    })?;
    Ok(last)
}

/// Applies an entry, and compares its outcome with the one in the file.
fn repeat(pass: &Pass, place: Place, batch: &Batch) -> Result<()> {
    match pass.repeat(batch) {
        Ok(true) => Ok(()),
        Ok(false) => Err(Error::differs(place, "it makes different nodes now")),
        Err(error) => Err(Error::refused(place, error)),
    }
}

/// Builds a store with the volume after all entries up to `until`. Its journal is empty.
fn build_whole(file: &File, limits: Limits, until: u64) -> Result<Loaded> {
    let (volume, number) = file.volume(until)?;
    let store = build(&volume, limits)?;
    Ok(Loaded { store, number })
}

/// Builds a store with this volume. If there are too few pages, the error says how many are enough.
pub(super) fn build(volume: &Volume, limits: Limits) -> Result<Store> {
    let mut builder = Builder::new(limits)?;
    let added = volume.each_batch(|index, batch| add(&mut builder, index, batch));
    let built = added.and_then(|()| finish(builder, volume.next()));
    built.map_err(|error| match error {
        Error::TooLarge {
            place,
            error: error @ crate::Error::Full { .. },
            ..
        } => {
            // The first writes need pages too.
            let used = volume.pages();
            let pages = Some(used + used / 16 + 16).filter(|pages| *pages <= MOST_PAGES);
            Error::TooLarge { place, error, pages }
        }
        error => error,
    })
}
