//! Errors in the form in which the protocol sends them.

#[cfg(feature = "log")]
use crate::log::Refused;
use bestore::{saved, Class, Error, QueryError};
use bestore_client::wire::{ErrorName, Refusal, PROTOCOL};
use serde_json::Value;

/// Why a request had no effect.
#[derive(Debug)]
pub struct Failure(pub Refusal);

impl Failure {
    /// Creates an error with this message.
    pub fn new(name: ErrorName, message: impl Into<String>) -> Self {
        Self(Refusal::new(name, message))
    }

    /// Creates an error with the standard message for its name.
    pub fn named(name: ErrorName) -> Self {
        let message = name.text();
        Self::new(name, message)
    }

    /// Sets a class other than the usual one for the error's name.
    pub fn of_class(mut self, class: Class) -> Self {
        self.0.class = Some(class);
        self
    }

    /// Adds a detail to the error.
    pub fn with(mut self, name: &str, detail: impl Into<Value>) -> Self {
        self.0.details.insert(name.into(), detail.into());
        self
    }

    fn with_some(self, name: &str, detail: Option<impl Into<Value>>) -> Self {
        match detail {
            Some(detail) => self.with(name, detail),
            None => self,
        }
    }

    pub fn pinned() -> Self {
        Self::named(ErrorName::Pinned)
    }

    pub fn not_pinned() -> Self {
        Self::named(ErrorName::NotPinned)
    }

    pub fn expired() -> Self {
        Self::named(ErrorName::Expired)
    }

    /// Creates the error for reading a journal that no longer has the entries up to this one.
    pub fn journal_begins(entry: u64) -> Self {
        let message = format!(
            "the journal has no entries before {} any more; read the state, and then the journal from {entry} on",
            entry + 1
        );
        Self::new(ErrorName::Expired, message).with("from", entry)
    }

    /// Converts the error of a write that a confirmed read has waited for.
    pub fn of_read(self) -> Self {
        let message = format!(
            "nothing was read, because what it shows may never be kept: {}",
            self.0.message
        );
        Self(Refusal { message, ..self.0 })
    }

    /// Converts the error of a state that couldn't be restored. The store refuses one that isn't in order, or has parts that don't fit.
    pub fn of_listing(self) -> Self {
        match self.0.class() {
            Class::Mine if self.0.name != ErrorName::NotEmpty => {
                let message = format!("the batches don't list a store's contents: {}", self.0.message);
                Self(Refusal { message, ..self.0 })
            }
            _ => self,
        }
    }

    /// Returns whether a batch was meant for a different snapshot.
    pub fn is_conflict(&self) -> bool {
        self.0.name == ErrorName::Conflict
    }

    /// Creates the error for an entry that the server doesn't have yet.
    #[cfg(feature = "log")]
    pub fn not_reached(expected: u64, found: u64) -> Self {
        let message = format!("the server has {found} of the log's entries, and not {expected} yet; ask again");
        let failure = Self::new(ErrorName::NotReached, message).with("expected", expected);
        failure.with("found", found)
    }

    /// Creates the error for a client that speaks another version of the protocol.
    pub fn protocol(of_client: u64) -> Self {
        let older = if of_client < PROTOCOL { "client" } else { "server" };
        let message = format!(
            "the server speaks version {PROTOCOL} of the protocol, and the client version {of_client}; update the {older}"
        );
        Self::new(ErrorName::Protocol, message).with("known", vec![PROTOCOL])
    }

    pub fn bad_request(why: &str) -> Self {
        Self::new(ErrorName::BadRequest, why)
    }

    pub fn no_watch() -> Self {
        Self::named(ErrorName::NoWatch)
    }

    fn of_query(name: ErrorName, error: &QueryError) -> Self {
        Self::new(name, error.fault().to_string())
            .with_some("offset", error.offset())
            .with_some("missing", error.missing())
    }
}

impl From<Error> for Failure {
    fn from(error: Error) -> Self {
        let failure = match &error {
            #[cfg(feature = "log")]
            Error::Other(other) => match other.downcast_ref::<Refused>() {
                Some(refused) => refused.clone().into(),
                None => Failure::new(ErrorName::Unexpected, other.to_string()),
            },
            Error::Query(query) => Failure::of_query(name(&error), query),
            Error::NoOrder { name, .. } => {
                let message = format!("an order needs an index, but there is none named {name:?}");
                Failure::new(ErrorName::NoIndex, message).with("missing", name.as_str())
            }
            _ => Failure::new(name(&error), error.to_string()),
        };
        match error {
            Error::Busy { pass } => failure.with("pass", pass),
            Error::Full { oldest } => failure.with("oldest", oldest),
            Error::NameLength { operation } | Error::DataLength { operation } | Error::HasNul { operation } => {
                failure.with_some("operation", operation)
            }
            Error::BadCount { count } => failure.with("count", count),
            Error::Conflict { expected, found } => failure.with("expected", expected).with("found", found),
            _ => failure,
        }
    }
}

/// Returns the protocol's name for an error.
fn name(error: &Error) -> ErrorName {
    match error {
        Error::BadBatch { .. } => ErrorName::BadRequest,
        Error::NotEmpty => ErrorName::NotEmpty,
        Error::NotSaved(_) => ErrorName::NotSaved,
        Error::Stopped(_) => ErrorName::Stopped,
        _ => error
            .code()
            .and_then(ErrorName::numbered)
            .unwrap_or(ErrorName::Unexpected),
    }
}

impl From<saved::Error> for Failure {
    fn from(error: saved::Error) -> Self {
        match error {
            saved::Error::Store(error) => error.into(),
            saved::Error::Stopped(_) | saved::Error::Closed => Failure::new(ErrorName::Stopped, error.to_string()),
            error => Failure::new(ErrorName::NotSaved, error.to_string()),
        }
    }
}

#[cfg(feature = "log")]
impl From<Refused> for Failure {
    fn from(refused: Refused) -> Self {
        let message = refused.to_string();
        match refused {
            Refused::NotLeader { leader } => Failure::new(ErrorName::NotLeader, message).with("leader", leader),
            Refused::NotSaved(_) | Refused::StateNotWritten(_) => Failure::new(ErrorName::NotSaved, message),
            Refused::Stopped(_) => Failure::new(ErrorName::Stopped, message).of_class(Class::Retry),
        }
    }
}
