//! Reading of a file's contents.

use super::file::File;
use super::volume::Volume;
use super::{Error, Place, Result};
use crate::Batch;

impl File {
    /// Passes each batch of the state's listing to the closure, in order, with its index. The state of a file in an earlier format is read
    /// into memory and listed.
    pub fn each_batch(&self, take: impl FnMut(u64, &[u8]) -> Result<()>) -> Result<()> {
        match self.is_of_earlier_format() {
            true => self.volume_of_state()?.each_batch(take),
            false => self.each_state(take),
        }
    }

    /// Reads the volume after the entry `until`, or after the last one before it. Returns it with the number of the last entry read. This
    /// needs no store, and about as much memory as the volume's values and names, and 60 bytes for each.
    pub fn volume(&self, until: u64) -> Result<(Volume, u64)> {
        let mut volume = self.volume_of_state()?;
        let mut last = self.state()?.entries;
        self.each_entry(last, until, |number, bytes| {
            last = number;
            let place = Place::Entry(number);
            let applied = volume.apply(&batch(place, bytes)?);
            applied.map_err(|error| Error::differs(place, error))
        })?;
        Ok((volume, last))
    }

    fn volume_of_state(&self) -> Result<Volume> {
        let mut volume = Volume::default();
        let next = self.state()?.next;
        if !self.is_of_earlier_format() {
            self.each_state(|index, bytes| {
                let added = volume.add(bytes);
                added.map_err(|error| Error::differs(Place::State(index), error))
            })?;
            let set = volume.set_next(next);
            set.map_err(|error| Error::differs(Place::About, error))?;
            return Ok(volume);
        }
        self.each_state(|index, bytes| {
            let place = Place::State(index);
            let applied = volume.apply(&batch(place, bytes)?);
            applied.map_err(|error| Error::differs(place, error))
        })?;
        match volume.next() == next {
            true => Ok(volume),
            false => Err(Error::differs(
                Place::State(0),
                "the state's next node number differs from the recorded one",
            )),
        }
    }
}

/// Decodes the batch at this position.
pub(super) fn batch(place: Place, bytes: &[u8]) -> Result<Batch> {
    Batch::from_bytes(bytes).map_err(|error| Error::differs(place, error))
}
