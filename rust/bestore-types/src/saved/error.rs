//! Why a file can't be opened, or a write can't be saved.

use crate::Kind;
use rusqlite::{ffi, ErrorCode};
use std::fmt;
use std::path::{Path, PathBuf};
use std::sync::Arc;

/// A position in a file.
#[derive(Clone, Copy, Debug, PartialEq, Eq)]
pub enum Place {
    /// The state's batch with this index, counting from 0.
    State(u64),
    /// The entry with this number, counting from 1.
    Entry(u64),
    /// The token of the entry with this number.
    Token(u64),
    /// The numbers that the file records about its state.
    About,
    /// SQLite's pages.
    Structure,
}

impl Place {
    /// The number of the entry before this one.
    pub(super) fn before(self) -> Option<u64> {
        match self {
            Place::Entry(number) => Some(number.saturating_sub(1)),
            _ => None,
        }
    }
}

impl fmt::Display for Place {
    fn fmt(&self, f: &mut fmt::Formatter<'_>) -> fmt::Result {
        match self {
            Place::State(index) => write!(f, "batch {index} of the state"),
            Place::Entry(number) => write!(f, "entry {number}"),
            Place::Token(number) => write!(f, "the token of entry {number}"),
            Place::About => f.write_str("what the file says about its state"),
            Place::Structure => f.write_str("the structure of SQLite's pages"),
        }
    }
}

/// Why a file can't be opened, or a write can't be saved.
#[non_exhaustive]
#[derive(Debug)]
pub enum Error {
    /// The file belongs to another program.
    Foreign {
        /// The file.
        path: PathBuf,
    },
    /// The file is in a newer format.
    Newer {
        /// The file.
        path: PathBuf,
        /// The version of its format.
        version: i64,
        /// The newest version that can be read.
        known: i64,
    },
    /// The file is open in another process, or in another store of this process.
    Held {
        /// The file.
        path: PathBuf,
    },
    /// The file has been removed, moved or replaced while it was open. Nothing is written until it is back at its path.
    Moved {
        /// The path at which the file was opened.
        path: PathBuf,
    },
    /// The file's WAL has been removed, moved or replaced while the file was open.
    WalMoved {
        /// The path at which the file was opened.
        path: PathBuf,
    },
    /// There is something other than a file at the path, such as a FIFO.
    NotAFile {
        /// The path.
        path: PathBuf,
    },
    /// The file belongs to another user, and every user may write to it.
    NotPrivate {
        /// The file.
        path: PathBuf,
    },
    /// The WAL beside the file belongs to another file, which was at this path before.
    OtherWal {
        /// The file.
        path: PathBuf,
    },
    /// A backup would replace something that exists at its path.
    Exists {
        /// The path.
        path: PathBuf,
    },
    /// The disk is full.
    DiskFull {
        /// The file.
        path: PathBuf,
    },
    /// Part of the file has changed since it was written.
    Damaged {
        /// The file.
        path: PathBuf,
        /// The first part that is known to be damaged.
        place: Place,
        /// The last entry that [`read_until`](super::read_until) can read, if any.
        until: Option<u64>,
        /// How the damage was detected.
        why: Box<dyn std::error::Error + Send + Sync>,
    },
    /// The file ends earlier than it used to, because its WAL is missing or a frame of it is damaged.
    CutOff {
        /// The file.
        path: PathBuf,
        /// The last entry in the file.
        last: u64,
        /// The last entry that the file ever had.
        had: u64,
    },
    /// The file doesn't have the entry at which reading was supposed to end.
    NotWithin {
        /// The file.
        path: PathBuf,
        /// The entry at which reading was supposed to end.
        until: u64,
        /// The last entry that the state contains.
        first: u64,
        /// The last entry that was read.
        last: u64,
    },
    /// The entry at which to stop reading was given for a folder with several volumes.
    NotOneFile {
        /// The folder.
        path: PathBuf,
    },
    /// The file's contents are incomplete, or replaying them has a different outcome.
    Differs {
        /// The first part that is wrong.
        place: Place,
        /// What is wrong at that position.
        why: Box<dyn std::error::Error + Send + Sync>,
    },
    /// The file's contents don't fit within the store's limits.
    TooLarge {
        /// The part that was being applied when the store refused it.
        place: Place,
        /// The store's error.
        error: crate::Error,
        /// If the store had too few pages, a number that is enough.
        pages: Option<u64>,
    },
    /// An SQLite error.
    Sqlite {
        /// The file.
        path: PathBuf,
        /// The error.
        error: rusqlite::Error,
    },
    /// The saving thread couldn't be started.
    Thread(std::io::Error),
    /// A folder of volumes can't be read or renamed, or a backup's file can't be created.
    Folder {
        /// The folder or file.
        path: PathBuf,
        /// The error.
        error: std::io::Error,
    },
    /// A folder of volumes has the file of a later volume, but not this one.
    NoFile {
        /// The file.
        path: PathBuf,
    },
    /// An index has different kinds in two volumes of a folder, which therefore can't become one store.
    OtherKind {
        /// The index's name.
        name: String,
        /// The first volume that has it, and its kind there.
        first: (u32, Kind),
        /// The first volume in which it has another kind, and that kind.
        second: (u32, Kind),
    },
    /// An error from one volume of a folder.
    OfVolume {
        /// The volume.
        volume: u32,
        /// The volume's error.
        error: Box<Error>,
    },
    /// An error from the store.
    Store(crate::Error),
    /// Saving failed earlier.
    Stopped(Arc<Error>),
    /// The file has been closed.
    Closed,
}

impl Error {
    /// Returns [`Error::Differs`] for this position.
    pub fn differs(place: Place, why: impl Into<Box<dyn std::error::Error + Send + Sync>>) -> Self {
        Error::Differs { place, why: why.into() }
    }

    /// Converts a store's refusal of the file's contents at this position.
    #[must_use]
    pub fn refused(place: Place, error: crate::Error) -> Self {
        match error {
            crate::Error::Full { .. } | crate::Error::CommitsSpent | crate::Error::OutOfMemory => {
                let pages = None;
                Error::TooLarge { place, error, pages }
            }
            error => Error::differs(place, error),
        }
    }

    /// Returns the error for a file that lacks the contents of this position.
    pub(super) fn missing(place: Place) -> Self {
        let why = match place {
            Place::State(_) => "the batch is missing",
            _ => "the entry is missing",
        };
        Error::differs(place, why)
    }

    /// Returns the error for a part of the file whose checksum doesn't match.
    pub(super) fn wrong_sum(path: &Path, place: Place, until: Option<u64>) -> Self {
        Error::Damaged {
            path: path.to_owned(),
            place,
            until,
            why: "its checksum doesn't match".into(),
        }
    }

    /// Returns the error for a part of the file that SQLite can't read.
    pub(super) fn of_reading(path: &Path, place: Place, until: Option<u64>, error: rusqlite::Error) -> Self {
        use ErrorCode::{
            CannotOpen, DatabaseBusy, DatabaseLocked, DiskFull, NotADatabase, OutOfMemory, ReadOnly, SystemIoFailure,
        };
        match error.sqlite_error_code() {
            Some(
                CannotOpen | DatabaseBusy | DatabaseLocked | DiskFull | NotADatabase | OutOfMemory | ReadOnly
                | SystemIoFailure,
            ) => Error::of_sqlite(path, error),
            _ => Error::Damaged {
                path: path.to_owned(),
                place,
                until,
                why: error.into(),
            },
        }
    }

    /// Converts an operating system's error about a folder or a backup's file.
    #[must_use]
    pub fn folder(path: &Path, error: std::io::Error) -> Self {
        let path = path.to_owned();
        Error::Folder { path, error }
    }

    /// Returns `true` if the system let nothing more be written: the disk is full or broken, the user's quota is used up, or the file has
    /// the greatest size that the process may give it. SQLite reports the last two like a broken disk.
    #[must_use]
    pub fn is_of_writing(&self) -> bool {
        match self {
            Error::DiskFull { .. } => true,
            Error::Sqlite {
                error: rusqlite::Error::SqliteFailure(failure, _),
                ..
            } => matches!(failure.extended_code, ffi::SQLITE_IOERR_WRITE | ffi::SQLITE_IOERR_FSYNC),
            _ => false,
        }
    }

    /// Attributes the error to this volume.
    #[must_use]
    pub fn of_volume(self, volume: u32) -> Self {
        let error = Box::new(self);
        Error::OfVolume { volume, error }
    }

    /// Converts SQLite's error about this file.
    #[must_use]
    pub fn of_sqlite(path: &Path, error: rusqlite::Error) -> Self {
        let path = path.to_owned();
        match error.sqlite_error_code() {
            Some(ErrorCode::NotADatabase) => Error::Foreign { path },
            Some(ErrorCode::DatabaseBusy | ErrorCode::DatabaseLocked) => Error::Held { path },
            Some(ErrorCode::DiskFull) => Error::DiskFull { path },
            Some(ErrorCode::DatabaseCorrupt) => Error::Damaged {
                path,
                place: Place::Structure,
                until: None,
                why: error.into(),
            },
            _ => Error::Sqlite { path, error },
        }
    }
}

impl From<crate::Error> for Error {
    fn from(error: crate::Error) -> Self {
        Error::Store(error)
    }
}

impl fmt::Display for Error {
    fn fmt(&self, f: &mut fmt::Formatter<'_>) -> fmt::Result {
        match self {
            Error::Foreign { path } => {
                write!(f, "{}: the file belongs to another program; name another one", path.display())
            }
            Error::Newer { path, version, known } => write!(
                f,
                "{}: the file has format {version}, and format {known} is the latest known here; use a newer version of bestore",
                path.display()
            ),
            Error::Held { path } => write!(f, "{}: the file is open in another process or store; close it there first", path.display()),
            Error::Moved { path } => write!(
                f,
                "{}: the file was removed, moved or replaced while it was open; move it back to this path. If it was removed, the \
                 store is only in memory: print it with be dump before it is closed",
                path.display()
            ),
            Error::WalMoved { path } => write!(
                f,
                "{0}-wal: this file was removed, moved or replaced while {0} was open; close the store, which writes everything to \
                 {0}, and open it again",
                path.display()
            ),
            Error::NotAFile { path } => {
                write!(f, "{}: this isn't a regular file; name one, or a path where nothing is yet", path.display())
            }
            Error::NotPrivate { path } => write!(
                f,
                "{}: this file belongs to another user, and every user may write to it; name a file of your own",
                path.display()
            ),
            Error::OtherWal { path } => write!(
                f,
                "{0}: {0}-wal belongs to another file that was at this path before; put that file back, or remove {0}-wal and {0}-last \
                 to go on without it",
                path.display()
            ),
            Error::Exists { path } => write!(
                f,
                "{}: this file or folder exists, and won't be overwritten; remove it, or name another",
                path.display()
            ),
            Error::DiskFull { path } => write!(f, "{}: the disk is full", path.display()),
            Error::Damaged { path, place, until, why } => {
                write!(f, "{}: {place} is damaged: {why}; ", path.display())?;
                match until {
                    Some(until) => write!(f, "be restore --until {until} restores what comes before it"),
                    None => f.write_str("restore a backup"),
                }
            }
            Error::CutOff { path, last, had } => write!(
                f,
                "{0}: the file ends with entry {last}, but it once had entry {had}: {0}-wal is damaged or missing; put it back, or \
                 restore what is left with be restore --until {last}. If the file is an older copy, remove {0}-last",
                path.display()
            ),
            Error::NotWithin { path, until, first, .. } if until < first => write!(
                f,
                "{}: entry {until} can't be the last one: the file has the state after entry {first}, so the lowest is {first}",
                path.display()
            ),
            Error::NotWithin { path, until, last, .. } => write!(
                f,
                "{}: entry {until} can't be the last one: the file ends with entry {last}",
                path.display()
            ),
            Error::NotOneFile { path } => write!(
                f,
                "{}: this folder has several volumes, and an entry to stop at can only be given for one file; name the file of a volume, such \
                 as 0.bestore",
                path.display()
            ),
            Error::Differs { place, why } => {
                write!(f, "{place}: the file contains something that no store wrote: {why}")
            }
            Error::TooLarge { place, error, pages } => {
                write!(f, "{place}: the file doesn't fit the limits of the store: {error}")?;
                match pages {
                    Some(pages) => write!(f, "; it can be opened with {pages} pages (--pages {pages}, or Limits::pages)"),
                    None => Ok(()),
                }
            }
            Error::OtherKind { name, first, second } => write!(
                f,
                "the index {name:?} holds {} in volume {} and {} in volume {}, so the volumes can't become one store; remove it in one of \
                 them with bestore 0.4.0, and open the folder again",
                first.1, first.0, second.1, second.0
            ),
            Error::Sqlite { path, error } => write!(f, "{}: {error}", path.display()),
            Error::Thread(error) => write!(f, "the thread that saves can't be started: {error}"),
            Error::Folder { path, error } => write!(f, "{}: {error}", path.display()),
            Error::NoFile { path } => write!(f, "{}: the file of this volume is missing, and a later volume has one; put it back", path.display()),
            Error::OfVolume { volume, error } => write!(f, "volume {volume}: {error}"),
            Error::Store(error) => error.fmt(f),
            Error::Stopped(error) => write!(f, "saving has failed: {error}"),
            Error::Closed => f.write_str("the file is closed"),
        }
    }
}

impl std::error::Error for Error {
    fn source(&self) -> Option<&(dyn std::error::Error + 'static)> {
        match self {
            Error::TooLarge { error, .. } | Error::Store(error) => Some(error),
            Error::Differs { why, .. } | Error::Damaged { why, .. } => Some(why.as_ref()),
            Error::Sqlite { error, .. } => Some(error),
            Error::Thread(error) => Some(error),
            Error::Stopped(error) => Some(error.as_ref()),
            Error::Folder { error, .. } => Some(error),
            Error::OfVolume { error, .. } => error.source(),
            _ => None,
        }
    }
}
