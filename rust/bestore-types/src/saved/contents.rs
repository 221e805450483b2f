//! The contents of a file, read without a store.

use super::file::File;
use super::joining;
use super::reading::batch;
use super::{About, Error, Place, Result};
use crate::listing::records;
use crate::Batch;
use std::path::Path;

/// The contents of a file: a listing from which its state is built, and the entries that are applied to it, in order.
#[derive(Clone, Debug, PartialEq, Eq)]
pub struct Contents {
    /// The numbers that the file records about its state.
    pub about: About,
    /// The batches of the state's [listing](crate::listing).
    pub state: Vec<Vec<u8>>,
    /// The entries after the state. Each new node has the number that it had in the store.
    pub entries: Vec<Batch>,
}

impl Contents {
    fn read(path: &Path, until: Option<u64>) -> Result<Self> {
        let file = File::open_to_read(path)?;
        let about = file.state()?;
        let (mut state, mut entries, mut last) = (Vec::new(), Vec::new(), about.entries);
        file.each_batch(|index, bytes| {
            check(bytes).map_err(|error| Error::differs(Place::State(index), error))?;
            state.push(bytes.to_vec());
            Ok(())
        })?;
        file.each_entry(last, until.unwrap_or(u64::MAX), |number, bytes| {
            last = number;
            entries.push(batch(Place::Entry(number), bytes)?);
            Ok(())
        })?;
        file.check_end(until, last)?;
        Ok(Self { about, state, entries })
    }
}

/// Checks that each record of the batch can be read.
fn check(batch: &[u8]) -> crate::Result<()> {
    records(batch)?.try_for_each(|record| record.map(drop))
}

/// Reads a file without changing it. Everything is read into memory. A folder of volumes of 0.4.0 is read like the file that opening it
/// would make of it.
///
/// # Errors
/// [`Error::Foreign`], [`Error::Newer`], [`Error::Held`], [`Error::Damaged`], [`Error::CutOff`], [`Error::Differs`], [`Error::Sqlite`]; for
/// a folder, these are wrapped in [`Error::OfVolume`]. [`Error::Folder`], [`Error::NoFile`], [`Error::OtherKind`].
pub fn read(path: impl AsRef<Path>) -> Result<Contents> {
    read_until(path, None)
}

/// Like [`read`], but if `until` is given, reads only up to this entry of the file, such as the last one before a damaged entry.
///
/// # Errors
/// The same errors as [`read`]. [`Error::NotWithin`] if the file doesn't have the entry. [`Error::NotOneFile`] if `until` is given for a
/// folder.
pub fn read_until(path: impl AsRef<Path>, until: Option<u64>) -> Result<Contents> {
    let path = path.as_ref();
    match joining::is_shelf(path)? {
        true if until.is_some() => Err(Error::NotOneFile { path: path.to_owned() }),
        true => joining::read(path),
        false => Contents::read(path, until),
    }
}
