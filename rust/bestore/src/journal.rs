//! The journal: a store's committed transactions, in order.

use crate::{Batch, Pass, Result};

/// An entry of the journal: a committed transaction.
#[derive(Clone, Debug, PartialEq, Eq)]
pub struct Entry {
    /// The commit number. The first entry has number 1.
    pub number: u64,
    /// The number of the pass that wrote it.
    pub pass: u64,
    /// The operations with their outcomes: each new node's number is filled in.
    pub batch: Batch,
}

/// An iterator over a journal's entries, starting at a given one, returned by [`Pass::journal_from`].
///
/// It returns `None` at the end of the journal, and can be called again once the journal has grown. Entries are read one at a time, and
/// other passes can't write while one is being read. After an error, the next call reads the same entry again.
#[derive(Debug)]
pub struct Entries<'a> {
    pass: &'a Pass,
    from: u64,
}

impl<'a> Entries<'a> {
    pub(crate) fn new(pass: &'a Pass, from: u64) -> Self {
        Self { pass, from }
    }
}

impl Iterator for Entries<'_> {
    type Item = Result<Entry>;

    fn next(&mut self) -> Option<Result<Entry>> {
        let from = self.from;
        let entry = self.pass.tried(|| {
            self.pass.on_newest(|seat| {
                let from = from.max(seat.state());
                let (pass, list) = seat.raw().entry(seat.within(from))?;
                Ok((from, pass, list))
            })
        });
        match entry {
            Ok((_, _, list)) if list.operations.is_empty() => None,
            Ok((from, pass, mut list)) => {
                self.from = from + 1;
                list.operations.shrink_to_fit();
                list.bytes.shrink_to_fit();
                Some(Ok(Entry {
                    number: self.from,
                    pass,
                    batch: list.into(),
                }))
            }
            Err(refused) => Some(Err(refused.into())),
        }
    }
}
