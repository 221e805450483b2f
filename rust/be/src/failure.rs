//! Why a command failed, and how the failure is reported.

use crate::import::follow;
use crate::kind::shown_name;
use crate::text::{escaped, pointed};
use crate::typed_query::BadDate;
use bestore_client::wire::Refusal;
use bestore_client::{Error, ErrorName, SocketPath};
use bestore_types::saved::{self, Place};
use std::collections::BTreeMap;
use std::io::Write as _;
use std::path::{Path, PathBuf};
use std::process::ExitCode;
use std::{fmt, io};

/// Why a command failed.
#[derive(Debug, thiserror::Error)]
pub enum Failure {
    /// No server is listening at the socket, or it is another user's.
    #[error("no server answers at {}: {1}\n  {}", shown(.0.path()), advice(.0, .1))]
    NoServer(SocketPath, io::Error),
    /// The server refused a request, or the connection failed.
    #[error("{}", message(.0))]
    Server(#[from] Error),
    /// A query was refused.
    #[error("{0}")]
    Query(Box<QueryRefused>),
    /// A date in a query isn't valid.
    #[error("{}{}", escaped(&.0.why.to_string()), pointed(&.0.typed, .0.offset))]
    Date(Box<BadDate>),
    /// The value isn't of this type.
    #[error("{}", value_fault(.0))]
    Value(&'static str),
    /// A file can't be read.
    #[error("{}: {1}", shown(.0))]
    File(PathBuf, io::Error),
    /// A file has no node.
    #[error("{}: the file has no node\n  be import FOLDER makes one for each file in a folder", shown(.0))]
    NotImported(PathBuf),
    /// A file has no node, because its name is too long for one.
    #[error("{}: the file has no node, because its name has more than 255 bytes", shown(.0))]
    LongName(PathBuf),
    /// The path is too long for an imported folder.
    #[error("{}: a path can have up to 255 bytes, and this one has more", shown(.0))]
    LongPath(PathBuf),
    /// A folder can't be watched.
    #[error("{}", follow::shown(.0, .1))]
    Watch(PathBuf, io::Error),
    /// The imported folder is gone.
    #[error("{} is gone, and nothing was removed from the store", shown(.0))]
    Gone(PathBuf),
    /// The folder isn't the same one as before, and is empty.
    #[error(
        "{} isn't the same folder as before, and is empty\n  nothing was removed from the store; be import --reread removes the \
         nodes of its files",
        shown(.0)
    )]
    Another(PathBuf),
    /// The output can't be written.
    #[error("the output can't be written: {0}")]
    Output(#[from] io::Error),
    /// A backup can't be written or read.
    #[error("{}", escaped(&.0.to_string()))]
    Backup(#[from] saved::Error),
    /// The server refused a batch of a backup.
    #[error(
        "{place}: {}\n  the server has only what comes before; restore into another one once this is fixed",
        escaped(&.refusal.message)
    )]
    Restore { place: Place, refusal: Box<Refusal> },
    /// A backup can't be restored because the store isn't empty.
    #[error(
        "the server's store isn't empty\n  a backup is restored into a new store; bestored --keep also opens a copy of it"
    )]
    NotEmpty,
    /// The command failed for some nodes, which have already been reported.
    #[error("")]
    Reported,
}

/// A query that was refused.
#[derive(Debug)]
pub struct QueryRefused {
    pub text: String,
    pub refusal: Refusal,
    /// The byte offset of the error in the text, if known.
    pub offset: Option<usize>,
    /// The names of the indices, with the names of their kinds, if the query lacks an index.
    pub indices: Option<BTreeMap<String, String>>,
}

impl Failure {
    /// Returns whether the server is gone or full, or refuses only for now. If so, the same may succeed later, on a new connection.
    pub fn is_passing(&self) -> bool {
        match self {
            Failure::NoServer(..) | Failure::Server(Error::Io(_) | Error::Closed | Error::TimedOut(_)) => true,
            Failure::Server(error) => is_passing(error) || error.is(ErrorName::NoPass) || error.is(ErrorName::Expired),
            _ => false,
        }
    }

    /// Prints the reason unless it has already been printed, and returns the exit status.
    pub fn report(&self) -> ExitCode {
        match self {
            Failure::Output(error) if error.kind() == io::ErrorKind::BrokenPipe => return ExitCode::SUCCESS,
            Failure::Reported => {}
            _ => complain(&self.to_string()),
        }
        match self {
            Failure::Value(_) => ExitCode::from(2),
            _ => ExitCode::FAILURE,
        }
    }
}

/// Server errors after which the same write may succeed if retried later.
const PASSING: [ErrorName; 7] = [
    ErrorName::Full,
    ErrorName::Busy,
    ErrorName::Conflict,
    ErrorName::OutOfMemory,
    ErrorName::NotSaved,
    ErrorName::Stopped,
    ErrorName::NotLeader,
];

/// Returns whether the server may later accept what it has refused with this error.
pub fn is_passing(error: &Error) -> bool {
    error.refusal().map_or(false, |refusal| PASSING.contains(&refusal.name))
}

impl From<BadDate> for Failure {
    fn from(bad: BadDate) -> Self {
        Failure::Date(Box::new(bad))
    }
}

impl fmt::Display for QueryRefused {
    fn fmt(&self, f: &mut fmt::Formatter<'_>) -> fmt::Result {
        f.write_str(&escaped(&self.refusal.message))?;
        if let Some(offset) = self.offset {
            f.write_str(&pointed(&self.text, offset))?;
        }
        // A message about an order already contains the name.
        let missing = self.refusal.details.get("missing").filter(|_| self.offset.is_some());
        if let Some(missing) = missing.and_then(|name| name.as_str()) {
            write!(f, "\n  {} has no index", escaped(missing))?;
        }
        match &self.indices {
            Some(indices) => write!(f, "\n  {}", listed(indices)),
            None => Ok(()),
        }
    }
}

/// Returns a text that lists these indices with their kinds.
pub fn listed(indices: &BTreeMap<String, String>) -> String {
    if indices.is_empty() {
        return "there are no indices".into();
    }
    let named = |(name, kind): (&String, &String)| format!("{} ({})", escaped(name), shown_name(kind));
    let list: Vec<_> = indices.iter().map(named).collect();
    format!("the indices are: {}", list.join(", "))
}

/// Says which command starts a server at this socket, unless the system doesn't let this user connect to it, or a socket can't have
/// this path.
fn advice(socket: &SocketPath, error: &io::Error) -> String {
    match (error.kind(), socket) {
        (io::ErrorKind::PermissionDenied, _) => "only the server's own user and root may connect".into(),
        (io::ErrorKind::InvalidInput, _) => "--socket or BESTORE_SOCKET can name another path".into(),
        (_, SocketPath::Named(path)) => format!("bestored --background --socket {} starts one", shown(path)),
        (_, SocketPath::Default(_)) => "bestored --background starts one".into(),
    }
}

fn shown(path: &Path) -> String {
    escaped(&path.to_string_lossy())
}

/// Returns the message for bytes that aren't a value of this type.
fn value_fault(kind: &str) -> String {
    match kind {
        "string" | "mime" => format!("the value isn't valid UTF-8, as a {kind} must be; the type raw takes any bytes"),
        _ => format!("the value doesn't fit the type {kind}, which takes a whole number in its range"),
    }
}

/// Prints to standard error. If that fails, there is nothing left to do about it.
pub fn complain(text: &str) {
    let _ = writeln!(io::stderr(), "be: {text}");
}

/// Returns the message for an error.
pub fn message(error: &Error) -> String {
    match error {
        Error::Refused(refusal) => escaped(&refusal.message),
        other => escaped(&other.to_string()),
    }
}
