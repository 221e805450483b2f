//! The reasons why a log can't be read or written, and why a server stops using it.

use bestore::saved::Place;
use std::error::Error as _;
use std::fmt;
use std::io;
use std::path::PathBuf;
use std::sync::Arc;
use std::time::Duration;

/// PostgreSQL's error classes for a lost connection, for lack of resources, and for a database that is starting or stopping, and its
/// error for a transaction whose next statement didn't arrive in time.
const NOT_NOW: [&str; 4] = ["08", "53", "57", "25P03"];

/// The result type of this module.
pub type Result<T> = std::result::Result<T, Error>;

/// Why the log can't be read or written.
#[derive(Debug, thiserror::Error)]
pub enum Error {
    /// The URL isn't valid.
    #[error("the URL of the log: {}", Shown(.0))]
    Url(#[source] tokio_postgres::Error),
    /// The URL asks for TLS.
    #[error(
        "connections to the log don't support TLS, which sslmode={mode} requires; use a Unix socket or a tunnel, with sslmode=disable"
    )]
    NoTls { mode: String },
    /// The password file has no password for the URL, or other users may read the file.
    #[error("{path}: {why}")]
    Passfile { path: PathBuf, why: String },
    /// PostgreSQL, or the connection to it, returned an error.
    #[error("the database of the log: {}", Shown(.0))]
    Database(#[from] tokio_postgres::Error),
    /// PostgreSQL didn't reply within this time.
    #[error("the database of the log didn't reply within {} s", .0.as_secs_f64())]
    Slow(Duration),
    /// The database's encoding lacks characters that tokens may have.
    #[error(
        "the database of the log has the encoding {0}, which can't store every token; create the log in a database with ENCODING 'UTF8'"
    )]
    Encoding(String),
    /// The database has no log.
    #[error("the database has no log; --log makes one")]
    NoLog,
    /// A table with the log's name belongs to another program.
    #[error("the database has tables with the log's names that belong to another program")]
    Foreign,
    /// The log has a newer format.
    #[error("the log has format {format}, and format {known} is the one known here")]
    Newer { format: i32, known: i32 },
    /// Another server leads.
    #[error("{leader} already leads the log; use --follow to follow it")]
    Led { leader: String },
    /// An earlier session of this server still holds the lock.
    #[error("an earlier session of this server still has the leader's lock")]
    OldSession,
    /// A backup can't be the log's beginning, because the log has entries or another leader.
    #[error("the log has got entries or another leader, so the restored state isn't in it")]
    NotFirst,
    /// Another server has taken over from this one as leader.
    #[error(
        "{leader} leads the log now; {unsaved} writes of this server, none of them confirmed, may be missing there"
    )]
    Deposed { leader: String, unsaved: u64 },
    /// The database no longer has the same log as before.
    #[error("the database has a different log from before")]
    Replaced,
    /// The log has fewer entries than before, or more than any server can have added.
    #[error("the log has {found} entries, but this server has {known}")]
    Length { known: u64, found: u64 },
    /// The log's state has taken the place of an entry that this server needs next.
    #[error("the log no longer has entry {entry}, but the state after entry {state}; start this server again, and it begins there")]
    Removed { entry: u64, state: u64 },
    /// The log contains something that no store wrote.
    #[error("{place} of the log: it contains something that no store wrote: {why}")]
    Differs {
        place: Place,
        #[source]
        why: Box<dyn std::error::Error + Send + Sync>,
    },
    /// The log's contents don't fit within the store's limits.
    #[error("{place} of the log: it doesn't fit the limits of the store: {error}")]
    TooLarge {
        place: Place,
        #[source]
        error: bestore::Error,
    },
    /// The store returned an error.
    #[error("{0}")]
    Store(#[from] bestore::Error),
    /// The log's thread or runtime couldn't be created.
    #[error("the thread of the log can't be started: {0}")]
    Thread(#[source] io::Error),
    /// The log's thread has panicked.
    #[error("the thread of the log has panicked")]
    Fault,
}

impl Error {
    pub fn differs(place: Place, why: impl Into<Box<dyn std::error::Error + Send + Sync>>) -> Self {
        Error::Differs { place, why: why.into() }
    }

    /// Returns the error for a store that has refused what the log contains at this place.
    pub fn refused(place: Place, error: bestore::Error) -> Self {
        use bestore::Error::{CommitsSpent, Full, OutOfMemory};
        match error {
            Full { .. } | CommitsSpent | OutOfMemory => Error::TooLarge { place, error },
            error => Error::differs(place, error),
        }
    }

    /// Returns whether the same call may succeed later.
    pub fn is_passing(&self) -> bool {
        matches!(self, Error::Database(_) | Error::Slow(_) | Error::OldSession)
    }

    /// Returns whether the database can't be reached, or doesn't accept connections or statements at the moment, for example
    /// because it is starting.
    pub fn is_unreachable(&self) -> bool {
        match self {
            Error::Slow(_) => true,
            Error::Database(error) => match error.code() {
                Some(code) => NOT_NOW.iter().any(|class| code.code().starts_with(class)),
                None => error.is_closed() || error.source().map_or(false, |cause| cause.is::<io::Error>()),
            },
            _ => false,
        }
    }
}

/// Displays an error from PostgreSQL on one line, with its code.
struct Shown<'a>(&'a tokio_postgres::Error);

impl fmt::Display for Shown<'_> {
    fn fmt(&self, f: &mut fmt::Formatter<'_>) -> fmt::Result {
        match self.0.as_db_error() {
            Some(error) => write!(f, "{} ({})", error.message(), error.code().code()),
            None => self.0.fmt(f),
        }
    }
}

/// Why a write wasn't made, or can't be confirmed.
#[derive(Clone, Debug, thiserror::Error)]
pub enum Refused {
    /// This server is a follower.
    #[error("this server is a follower; {leader} leads the log")]
    NotLeader { leader: String },
    /// The write was made in memory, but may or may not be in the log.
    #[error("the write may or may not be in the log: {0}")]
    NotSaved(Arc<Error>),
    /// Nothing was written, because the log can't be written to.
    #[error("nothing was written: {0}")]
    Stopped(Arc<Error>),
    /// The state wasn't replaced. The log still has the state before it and the entries.
    #[error("the state couldn't be written to the log: {0}")]
    StateNotWritten(Arc<Error>),
}

impl From<Refused> for bestore::Error {
    fn from(refused: Refused) -> Self {
        bestore::Error::other(refused)
    }
}
