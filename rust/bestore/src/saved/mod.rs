//! Stores whose writes are kept in a file.
//!
//! The store is in memory, and each transaction is also written to an SQLite file before its call returns. Opening the file builds the
//! store again.
//!
//! ```
//! use bestore::{saved, Kind};
//! # let folder = std::env::temp_dir().join(format!("bestore-doc-{}", std::process::id()));
//! # std::fs::create_dir_all(&folder)?;
//! # let path = folder.join("letters.bestore");
//! let saved = saved::open(&path)?;
//! let pass = saved.pass()?;
//! pass.make_index("MAIL:from", Kind::Text)?;
//! let letter = pass.new_node()?;
//! pass.set(letter, "MAIL:from", "Ada")?;
//! saved.close()?;
//!
//! let saved = saved::open(&path)?;
//! assert_eq!(saved.pass()?.pin()?.query("MAIL:from==Ada")?, [letter]);
//! # drop(saved);
//! # std::fs::remove_dir_all(&folder)?;
//! # Ok::<(), Box<dyn std::error::Error>>(())
//! ```
//!
//! A write that has returned is in the file, even after `kill -9`. A snapshot may show a write before it is in the file. The repository's
//! `docs/KEPT.md` describes the file's format and all guarantees.
//!
//! If a commit fails, for example because the disk is full, the writes that are waiting for it return [`NotSaved`](crate::Error::NotSaved),
//! and later writes return [`Stopped`](crate::Error::Stopped). Reads still work.
//!
//! Opening the file and calling [`Saved::compact`] rewrite its state, so that the file doesn't grow forever.

mod loading;
mod progress;
mod queue;

pub use bestore_types::saved::{About, Backup, Error, Place, Result, TOKENS};
pub use progress::Progress;

use crate::{Limits, Pass, Snapshot, Store};
use bestore_types::saved::file::{self, File};
use bestore_types::saved::joining;
use loading::{load, Loaded};
use queue::Queue;
use std::path::Path;
use std::sync::Arc;
use std::time::Duration;

/// Opens or creates the file with the default limits. Each write is saved before its call returns.
///
/// # Errors
/// The same errors as [`Options::open`].
pub fn open(path: impl AsRef<Path>) -> Result<Saved> {
    Options::new().open(path)
}

/// A write's token in the file; see [`Batch::set_token`](crate::Batch::set_token).
#[derive(Clone, Debug, PartialEq, Eq)]
pub struct Token {
    /// The token.
    pub text: String,
    /// A snapshot includes the write if its number is this or higher.
    pub commit: u64,
    /// The nodes that the write created.
    pub nodes: Vec<u64>,
}

/// The longest time for which a write waits to be saved.
const YEAR: Duration = Duration::from_secs(365 * 24 * 3600);

/// Options for opening a file.
#[derive(Clone, Debug, Default)]
pub struct Options {
    limits: Limits,
    every: Option<Duration>,
    until: Option<u64>,
}

impl Options {
    /// Returns the default options: the default limits, with each write saved before its call returns.
    #[must_use]
    pub fn new() -> Self {
        Self::default()
    }

    /// Sets the limits of the in-memory store. They must leave room for the entries with which opening the file begins its journal.
    pub fn limits(&mut self, limits: Limits) -> &mut Self {
        self.limits = limits;
        self
    }

    /// Saves each write within this time after its call returns. A crash within that time can lose the write.
    pub fn every(&mut self, time: Duration) -> &mut Self {
        self.every = Some(time.min(YEAR));
        self
    }

    /// Makes [`load`](Self::load) read the file only up to this entry, such as the last one before a damaged entry. All other methods read
    /// every entry.
    pub fn until(&mut self, entry: u64) -> &mut Self {
        self.until = Some(entry);
        self
    }

    /// Opens or creates the file, and builds the store: from its state, to which its entries are applied. If the file is refused, it isn't
    /// changed. A file in an earlier format is converted by a single transaction.
    ///
    /// If there is a folder of volumes at the path, as a shelf of version 0.4.0 has it (`0.bestore`, `1.bestore` and so on), a file is written
    /// that has the nodes and indices of all volumes, and takes the folder's place. The folder is kept, with `-0.4` after its name. Nodes get
    /// the numbers that they had in the shelf: 10^14 times the volume, plus the number in the volume.
    ///
    /// # Errors
    /// [`Error::NotAFile`], [`Error::NotPrivate`], [`Error::OtherWal`], [`Error::Foreign`], [`Error::Newer`], [`Error::Held`],
    /// [`Error::Damaged`], [`Error::CutOff`], [`Error::Differs`], [`Error::Moved`], [`Error::TooLarge`], [`Error::DiskFull`],
    /// [`Error::Sqlite`], [`Error::Store`]; for a folder of volumes [`Error::OtherKind`], [`Error::NoFile`], [`Error::Exists`],
    /// [`Error::Folder`], and the errors of a volume's file in [`Error::OfVolume`].
    pub fn open(&self, path: impl AsRef<Path>) -> Result<Saved> {
        joining::join(path.as_ref())?;
        let mut file = File::open(path.as_ref())?;
        let (Loaded { store, number }, tokens) = self.open_store(&mut file).map_err(|error| {
            file.leave();
            error
        })?;
        let of_state = file.state()?.entries;
        let in_memory = {
            let mut own = store.own()?;
            let snapshot = own.pin()?;
            renew(&mut file, &snapshot, number)?;
            snapshot.number()
        };
        file.keep_last(number)?;
        file.measure()?;
        let lacks_wal = file.lacks_wal() && number == 0;
        let token = |(entry, token): (u64, file::Token)| Token {
            text: token.text.into(),
            // The state's entries aren't in memory.
            commit: in_memory.saturating_sub(number.saturating_sub(entry.max(of_state))),
            nodes: token.nodes,
        };
        let tokens = tokens.into_iter().map(token).collect();
        let queue = Queue::start(file, number, in_memory, self.every)?;
        Ok(Saved {
            store,
            queue,
            tokens,
            lacks_wal,
        })
    }

    /// Creates the store for a file, and reads its tokens.
    fn open_store(&self, file: &mut File) -> Result<(Loaded, Vec<(u64, file::Token)>)> {
        let loaded = load(file, self.limits, u64::MAX)?;
        let tokens = file.tokens(loaded.number)?;
        file.check_end(None, loaded.number)?;
        Ok((loaded, tokens))
    }

    /// Builds a file's store without changing the file. Writes to the result aren't kept anywhere. A folder of volumes of version 0.4.0 is
    /// read as [`open`](Self::open) would.
    ///
    /// # Errors
    /// The same errors as [`open`](Self::open), except for a full disk. [`Error::NotWithin`] if the file doesn't have the entry that was
    /// given to [`until`](Self::until). [`Error::NotOneFile`] if an entry was given for a folder.
    pub fn load(&self, path: impl AsRef<Path>) -> Result<Store> {
        let path = path.as_ref();
        if joining::is_shelf(path)? {
            return match self.until {
                Some(_) => Err(Error::NotOneFile { path: path.to_owned() }),
                None => loading::build(&joining::read_volume(path)?, self.limits),
            };
        }
        let file = File::open_to_read(path)?;
        let Loaded { store, number } = load(&file, self.limits, self.until.unwrap_or(u64::MAX))?;
        file.check_end(self.until, number)?;
        Ok(store)
    }
}

/// Rewrites the state if entries follow it, or if the file is in an earlier format. If nothing can be written, for example because the disk
/// is full, the file isn't changed, and the next write reports the error.
fn renew(file: &mut File, snapshot: &Snapshot<'_>, number: u64) -> Result<()> {
    if number == file.state()?.entries && !file.is_of_earlier_format() {
        return Ok(());
    }
    match file.write_state(number, snapshot.next_node()?, snapshot.listing()) {
        Err(error) if error.is_of_writing() => Ok(()),
        answer => answer,
    }
}

/// A store whose writes are kept in a file. The file is closed on drop.
#[derive(Debug)]
pub struct Saved {
    store: Store,
    queue: Queue,
    tokens: Vec<Token>,
    lacks_wal: bool,
}

impl Saved {
    /// Returns the in-memory store. A write through a pass taken from it isn't saved, and leaves a gap in the file's entries: later writes
    /// return [`NotSaved`](crate::Error::NotSaved) and then [`Stopped`](crate::Error::Stopped), until the file is opened again.
    #[must_use]
    pub fn store(&self) -> &Store {
        &self.store
    }

    /// Returns `true` if the store is empty, and its file seems to be a copy of one that was in use, made without the WAL that had the
    /// writes.
    #[must_use]
    pub fn lacks_wal(&self) -> bool {
        self.lacks_wal
    }

    /// Takes a pass whose writes are saved.
    ///
    /// # Errors
    /// The same errors as [`Store::pass`].
    pub fn pass(&self) -> crate::Result<Pass> {
        Ok(self.store.pass()?.kept_by(self.queue.keeper()))
    }

    /// Returns the tokens that the file had when it was opened, in the order of their writes. A token is saved in the same commit as its
    /// write. Later calls return no tokens.
    pub fn take_tokens(&mut self) -> Vec<Token> {
        std::mem::take(&mut self.tokens)
    }

    /// Waits until everything written before the call is in the file.
    ///
    /// # Errors
    /// The error from the commit that failed, in [`Error::Stopped`]; [`Error::Moved`], [`Error::WalMoved`]; [`Error::Store`] in a forked
    /// child.
    pub fn flush(&self) -> Result<()> {
        self.store.check()?;
        self.queue.flush(None)
    }

    /// Returns the error from the commit that failed, if any. After that commit, memory is ahead of the file. In a forked child, returns
    /// `None`.
    #[must_use]
    pub fn failure(&self) -> Option<Arc<Error>> {
        self.queue.failure()
    }

    /// Returns how the saving is going, which can be asked without waiting for the file.
    #[must_use]
    pub fn progress(&self) -> Progress {
        self.queue.progress()
    }

    /// Returns an error if the file isn't at its path any more. Writes then return [`Stopped`](crate::Error::Stopped), until the file is back.
    ///
    /// # Errors
    /// [`Error::Moved`].
    pub fn check_file(&self) -> Result<()> {
        self.queue.check_file()
    }

    /// Writes a [copy](Store::copy_state) of the current snapshot to the file, where it replaces the state and the entries that the copy
    /// includes. Other writes can continue in the meantime, and are saved after it. This takes memory for the listing.
    ///
    /// # Errors
    /// The same errors as [`flush`](Self::flush); [`Error::DiskFull`] or [`Error::Sqlite`], which leave the file unchanged.
    pub fn compact(&self) -> Result<()> {
        let copy = self.store.copy_state()?;
        let number = self.queue.number_in_file(copy.number);
        self.queue.flush(Some(number))?;
        self.queue
            .with_file(|file| file.write_state(number, copy.next, copy.batches.into_iter().map(Ok)))
    }

    /// Returns `true` if it is time to call [`compact`](Self::compact), to make the file smaller and faster to open. This is the case if
    /// the entries since the state take more than half as many bytes as the state, and at least 256 KiB. After a failed call, another 256
    /// KiB must have been written.
    #[must_use]
    pub fn is_due(&self) -> bool {
        self.queue.is_due()
    }

    /// Converts a commit number to the entry's number in the file. Unlike commit numbers, numbers in the file continue when the file is
    /// opened again.
    #[must_use]
    pub fn number_in_file(&self, commit: u64) -> u64 {
        self.queue.number_in_file(commit)
    }

    /// Replaces the volume of an empty store, as [`Store::begin_with`] does. The file has the new volume before this returns.
    ///
    /// # Errors
    /// The same errors as `begin_with`, in [`Error::Store`], and [`Error::Moved`], which leave the store and the file unchanged. If the volume
    /// can't be written to the file, [`Error::Stopped`]: the store has the volume, and takes no more writes.
    pub fn begin_with<B: AsRef<[u8]>>(&self, batches: &[B], next: u64) -> Result<u64> {
        let begin = || self.store.begin_with(batches, next).map_err(Error::Store);
        self.queue.begin_with(begin, |file, number| {
            let batches = batches.iter().map(|batch| Ok(batch.as_ref().to_vec()));
            file.write_state(number, next, batches)
        })
    }

    /// Saves everything that has been written, and closes the file. Passes that are still open can only read.
    ///
    /// # Errors
    /// The same errors as [`flush`](Self::flush).
    pub fn close(self) -> Result<()> {
        self.end()
    }

    /// Does the same as [`close`](Self::close), even if other threads share the store.
    ///
    /// # Errors
    /// The same errors as `close`.
    pub fn end(&self) -> Result<()> {
        self.store.check()?;
        self.queue.close()
    }
}
