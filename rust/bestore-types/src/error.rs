//! Errors.

use crate::class::Meaning;
use crate::{sys, text, Class, CursorFault, Kind};
use std::fmt;

/// The result of a call in this crate.
pub type Result<T> = std::result::Result<T, Error>;

/// Why a call did nothing, with details.
#[non_exhaustive]
#[derive(Debug)]
pub enum Error {
    // surface.toml: errors
    /// The node doesn't exist.
    NoNode,
    /// The node has no attribute with this name.
    NoAttribute,
    /// The node already has 64 attributes.
    TooManyAttributes,
    /// An index with this name already exists.
    IndexExists,
    /// There is no index with this name.
    NoIndex,
    /// There are already 32 indices.
    TooManyIndices,
    /// An index can't have this kind.
    NotIndexable,
    /// The journal has the maximum number of entries that was set when the store was opened.
    CommitsSpent,
    /// Out of memory.
    OutOfMemory,
    /// One of the store's limits is out of range.
    BadLimits,
    /// Every pass of the store is in use.
    NoPass,
    /// Another pass or another clone of the store is open.
    InUse,
    /// A page must have at least one node.
    NoRoom,
    /// The closure of a change wrote through the change's own pass.
    Nested,
    // surface.toml: end
    /// Another pass was writing at every attempt.
    Busy {
        /// That pass's number.
        pass: u64,
    },
    /// There is no index on the name by which nodes are to be ordered.
    NoOrder {
        /// The name.
        name: String,
        /// The names of the existing indices.
        indices: Vec<String>,
    },
    /// No page can continue from the cursor.
    BadCursor(CursorFault),
    /// No page is free.
    Full {
        /// The oldest snapshot whose pages are kept because a pass may still read it.
        oldest: u64,
    },
    /// The query was refused.
    Query(QueryError),
    /// A name is empty or has more than 63 bytes.
    NameLength {
        /// The operation's index in the batch, counting from 0.
        operation: Option<u64>,
    },
    /// A value has more than 255 bytes.
    DataLength {
        /// The operation's index in the batch, counting from 0.
        operation: Option<u64>,
    },
    /// A name or a string contains a zero byte.
    HasNul {
        /// The operation's index in the batch, counting from 0.
        operation: Option<u64>,
    },
    /// The witness belongs to a pass of another store.
    OtherStore,
    /// A batch is empty or has more than 64 operations.
    BadCount {
        /// The number of operations in it.
        count: usize,
    },
    /// The journal is longer than the write expects.
    Conflict {
        /// The expected length.
        expected: u64,
        /// The actual length.
        found: u64,
    },
    /// The index of this name is of another kind, so it wouldn't hold the value.
    KindMismatch {
        /// The name of the attribute and of the index.
        name: String,
        /// The index's kind.
        index: Kind,
        /// The value's kind.
        value: Kind,
    },
    /// Bytes that aren't a batch.
    BadBatch {
        /// The offset of the first invalid byte, or of the first byte of a part that is cut off.
        offset: usize,
        /// What is wrong at that position.
        why: &'static str,
    },
    /// The store has a node or an index, or has been written to, so it can't begin with another volume.
    NotEmpty,
    /// The handle was opened before this process was forked, and belongs to the parent.
    Forked,
    /// The write was applied in memory but couldn't be saved. The store accepts no more writes.
    #[cfg(feature = "saved")]
    NotSaved(std::sync::Arc<crate::saved::Error>),
    /// Nothing was written, because saving had failed earlier or the file is closed.
    #[cfg(feature = "saved")]
    Stopped(std::sync::Arc<crate::saved::Error>),
    /// The program's own error, created with [`Error::other`] in a change's closure.
    Other(Box<dyn std::error::Error + Send + Sync>),
    /// An error from the library that this crate doesn't know.
    Unexpected {
        /// The error's number in `bestore.h`.
        code: u32,
        /// The number reported with the error.
        carried: u64,
    },
}

impl Error {
    /// Creates an application error. A closure passed to `change` returns it to abandon the change.
    pub fn other(error: impl Into<Box<dyn std::error::Error + Send + Sync>>) -> Self {
        Error::Other(error.into())
    }

    /// Returns this error's number in `bestore.h`, if it has one.
    #[must_use]
    pub fn code(&self) -> Option<u32> {
        Some(match self {
            // surface.toml: numbers of errors
            Error::NoNode => sys::BES_NO_NODE,
            Error::NoAttribute => sys::BES_NO_ATTRIBUTE,
            Error::TooManyAttributes => sys::BES_TOO_MANY_ATTRS,
            Error::IndexExists => sys::BES_INDEX_EXISTS,
            Error::NoIndex => sys::BES_NO_INDEX,
            Error::TooManyIndices => sys::BES_TOO_MANY_INDICES,
            Error::NotIndexable => sys::BES_NOT_INDEXABLE,
            Error::CommitsSpent => sys::BES_COMMITS_SPENT,
            Error::OutOfMemory => sys::BES_NO_MEMORY,
            Error::BadLimits => sys::BES_BAD_LIMITS,
            Error::NoPass => sys::BES_NO_PASS,
            Error::InUse => sys::BES_IN_USE,
            Error::NoRoom => sys::BES_NO_ROOM,
            Error::Nested => sys::BES_NESTED,
            // surface.toml: end
            Error::Busy { .. } => sys::BES_BUSY,
            Error::NoOrder { .. } => sys::BES_NO_INDEX,
            Error::BadCursor(_) => sys::BES_BAD_CURSOR,
            Error::Full { .. } => sys::BES_FULL,
            Error::Query(error) => error.fault.code(),
            Error::NameLength { .. } => sys::BES_NAME_LENGTH,
            Error::DataLength { .. } => sys::BES_DATA_LENGTH,
            Error::HasNul { .. } => sys::BES_HAS_NUL,
            Error::BadCount { .. } => sys::BES_BAD_COUNT,
            Error::Conflict { .. } => sys::BES_CONFLICT,
            Error::Unexpected { code, .. } => *code,
            Error::OtherStore => return None,
            Error::KindMismatch { .. } => sys::BES_WRONG_KIND,
            Error::BadBatch { .. } | Error::NotEmpty => return None,
            Error::Forked | Error::Other(_) => return None,
            #[cfg(feature = "saved")]
            Error::NotSaved(_) | Error::Stopped(_) => return None,
        })
    }

    /// Returns what a program can do about the error.
    #[must_use]
    pub fn class(&self) -> Class {
        match self {
            Error::Forked => Class::Gone,
            #[cfg(feature = "saved")]
            Error::NotSaved(_) | Error::Stopped(_) => Class::Gone,
            other => other.code().map_or(Class::Mine, |code| Meaning::of(code).class),
        }
    }
}

/// Formats an operation's index, which comes between the description of the error and the hint on how to fix it.
fn at_operation(f: &mut fmt::Formatter<'_>, operation: &Option<u64>) -> fmt::Result {
    match operation {
        Some(index) => write!(f, " (operation {index}, counted from 0)"),
        None => Ok(()),
    }
}

/// Formats what was wrong, where it was if that is known, and a hint on how to fix it.
impl fmt::Display for Error {
    fn fmt(&self, f: &mut fmt::Formatter<'_>) -> fmt::Result {
        match self {
            Error::Query(error) => error.fmt(f),
            #[cfg(feature = "saved")]
            Error::NotSaved(error) => write!(f, "the write is in memory, but couldn't be saved: {error}"),
            #[cfg(feature = "saved")]
            Error::Stopped(error) => write!(f, "the store takes no more writes: {error}"),
            Error::Other(error) => error.fmt(f),
            Error::BadLimits => f.write_str(BAD_LIMITS),
            // The library's text is also about calls that read more values than this crate asks for at a time.
            Error::BadCount { count } => write!(f, "a batch has 1 to 64 operations, and this one has {count}"),
            Error::KindMismatch { .. } => self.show_own(f),
            Error::NoOrder { name, indices } => write!(f, "there is no index {name:?}; {}", listed(indices)),
            Error::BadCursor(fault) => fault.fmt(f),
            _ => match self.code() {
                Some(code) => self.show_coded(f, code),
                None => self.show_own(f),
            },
        }
    }
}

/// A store of the C library has one more pass than this.
const BAD_LIMITS: &str =
    "a limit of the store is out of range; a store has 8 to 16,777,216 pages, 1 to 63 passes and 1 to 4,294,967,295 commits";

impl Error {
    /// Formats an error from the library.
    fn show_coded(&self, f: &mut fmt::Formatter<'_>, code: u32) -> fmt::Result {
        let meaning = Meaning::of(code);
        f.write_str(meaning.what)?;
        match self {
            Error::Busy { pass } => write!(f, " (pass {pass})")?,
            Error::Full { oldest } => write!(f, " (the oldest snapshot that may still be read is {oldest})")?,
            Error::NameLength { operation } | Error::DataLength { operation } | Error::HasNul { operation } => {
                at_operation(f, operation)?;
            }
            Error::Conflict { expected, found } => write!(f, " ({found}, not {expected})")?,
            Error::Unexpected { code, carried } => write!(f, " (number {code}, with {carried})")?,
            _ => {}
        }
        meaning.show_advice(f)
    }

    /// Formats an error that this crate itself detects.
    fn show_own(&self, f: &mut fmt::Formatter<'_>) -> fmt::Result {
        match self {
            Error::KindMismatch { name, index, value } => write!(
                f,
                "the index {name:?} takes values of kind {index}, and this one is {value}; set it as {index}, or no \
                 query finds it"
            ),
            Error::BadBatch { offset, why } => write!(f, "{why} (byte {offset}, counted from 0)"),
            Error::NotEmpty => {
                f.write_str("the store isn't empty; only one that was never written to can begin with another volume")
            }
            Error::OtherStore => f.write_str("the witness belongs to another store; join one of this store"),
            _ => f.write_str("the handle belongs to the process that this one was forked from; open a store here"),
        }
    }
}

/// Formats the names of the existing indices.
fn listed(indices: &[String]) -> String {
    match indices {
        [] => "there are no indices".into(),
        names => {
            let names: Vec<_> = names.iter().map(|name| format!("{name:?}")).collect();
            format!("indices: {}", names.join(", "))
        }
    }
}

impl std::error::Error for Error {
    fn source(&self) -> Option<&(dyn std::error::Error + 'static)> {
        match self {
            Error::Query(error) => Some(error),
            #[cfg(feature = "saved")]
            Error::NotSaved(error) | Error::Stopped(error) => Some(error.as_ref()),
            Error::Other(error) => error.source(),
            _ => None,
        }
    }
}

/// The reason why a query was refused.
#[non_exhaustive]
#[derive(Clone, Copy, Debug, PartialEq, Eq, Hash)]
pub enum QueryFault {
    /// The text isn't a query.
    Syntax,
    /// A pattern isn't valid.
    BadPattern,
    /// The text has more than 4,096 bytes.
    TooLong,
    /// The query is nested too deeply.
    TooDeep,
    /// The query has more than 256 comparisons.
    TooMany,
    /// None of the snapshot's indices can answer the query.
    NotCovered,
}

impl QueryFault {
    const ALL: [QueryFault; 6] = [
        QueryFault::Syntax,
        QueryFault::BadPattern,
        QueryFault::TooLong,
        QueryFault::TooDeep,
        QueryFault::TooMany,
        QueryFault::NotCovered,
    ];

    /// Returns the error's number in `bestore.h`.
    #[must_use]
    pub const fn code(self) -> u32 {
        match self {
            QueryFault::Syntax => sys::BES_SYNTAX,
            QueryFault::BadPattern => sys::BES_BAD_PATTERN,
            QueryFault::TooLong => sys::BES_TOO_LONG,
            QueryFault::TooDeep => sys::BES_TOO_DEEP,
            QueryFault::TooMany => sys::BES_TOO_MANY,
            QueryFault::NotCovered => sys::BES_NOT_COVERED,
        }
    }

    /// Returns the fault with this number.
    #[must_use]
    pub fn from_code(code: u32) -> Option<Self> {
        Self::ALL.into_iter().find(|fault| fault.code() == code)
    }

    /// Returns `true` if the library reports this fault's byte offset in the text.
    #[must_use]
    pub const fn has_offset(self) -> bool {
        matches!(self, QueryFault::Syntax | QueryFault::BadPattern)
    }
}

/// Formats what was wrong and a hint on how to fix it.
impl fmt::Display for QueryFault {
    fn fmt(&self, f: &mut fmt::Formatter<'_>) -> fmt::Result {
        let meaning = Meaning::of(self.code());
        f.write_str(meaning.what)?;
        meaning.show_advice(f)
    }
}

/// A query that was refused: its text, what is wrong with it, and where.
#[derive(Clone, Debug, PartialEq, Eq)]
pub struct QueryError {
    text: String,
    fault: QueryFault,
    offset: Option<usize>,
    missing: Option<String>,
}

impl QueryError {
    /// Creates an error that says what is wrong with this text and, if known, at which byte.
    #[must_use]
    pub fn new(text: impl Into<String>, fault: QueryFault, offset: Option<usize>) -> Self {
        Self {
            text: text.into(),
            fault,
            offset,
            missing: None,
        }
    }

    /// Adds the name that has no index, and the name's byte offset.
    #[must_use]
    pub fn with_missing(self, name: String, offset: usize) -> Self {
        Self {
            offset: Some(offset),
            missing: Some(name),
            ..self
        }
    }

    /// Returns the query's text. For a prepared query this is the canonical text, and for a predicate it is the malformed pattern.
    #[must_use]
    pub fn text(&self) -> &str {
        &self.text
    }

    /// Returns what is wrong.
    #[must_use]
    pub fn fault(&self) -> QueryFault {
        self.fault
    }

    /// For [`QueryFault::NotCovered`], returns the first name in the text that has no index. If the canonical text has more than 4,096
    /// bytes, as a prepared query's can, the name isn't known.
    #[must_use]
    pub fn missing(&self) -> Option<&str> {
        self.missing.as_deref()
    }

    /// Returns the byte offset of the error in the text, counting from 0, if it is known. If an index is missing, its name begins there.
    #[must_use]
    pub fn offset(&self) -> Option<usize> {
        self.offset
    }

    /// Returns the index of the character where the error is, counting from 0, if it is known.
    #[must_use]
    pub fn column(&self) -> Option<usize> {
        self.offset.map(|offset| text::column_at(&self.text, offset))
    }
}

/// Formats what is wrong, the text, and a caret under the position of the error. If the text is long, only the part around that position is
/// shown.
impl fmt::Display for QueryError {
    fn fmt(&self, f: &mut fmt::Formatter<'_>) -> fmt::Result {
        let meaning = Meaning::of(self.fault.code());
        f.write_str(meaning.what)?;
        if let Some(name) = &self.missing {
            write!(f, ": {name:?} has none")?;
        }
        meaning.show_advice(f)?;
        write!(f, "\n{}", text::with_caret(&self.text, self.column()))
    }
}

impl std::error::Error for QueryError {}

#[cfg(test)]
mod tests {
    use super::*;
    use crate::text::SHOWN;

    #[test]
    fn a_caret_stands_under_the_character() {
        let error = QueryError::new("size<5 || größe==[", QueryFault::BadPattern, Some(19));
        let said = concat!(
            "this pattern isn't valid here; a set such as [a-d] must be closed by ], must not be empty, and its ranges must ascend\n",
            "  size<5 || größe==[\n                   ^"
        );
        assert_eq!(error.to_string(), said);
    }

    #[test]
    fn the_part_round_the_place_is_shown_of_a_long_text() {
        let text = format!("{}[", "\n".repeat(1000));
        let error = QueryError::new(text, QueryFault::Syntax, Some(1000));
        let said = format!(
            "this query isn't valid here; it needs comparisons such as size>=5, joined by && or ||\n  {}[\n  {}^",
            " ".repeat(SHOWN),
            " ".repeat(SHOWN)
        );
        assert_eq!(error.to_string(), said);
    }

    #[test]
    fn a_name_without_an_index_is_named() {
        let error = QueryError::new("a==1", QueryFault::NotCovered, None).with_missing("a".into(), 0);
        assert_eq!(
            (error.missing(), error.offset(), error.column()),
            (Some("a"), Some(0), Some(0))
        );
        assert!(error.to_string().contains(": \"a\" has none"));
    }

    #[test]
    fn an_error_of_this_crate_has_a_class() {
        assert_eq!(Error::Busy { pass: 0 }.class(), Class::Retry);
        assert_eq!(Error::NotEmpty.class(), Class::Mine);
        assert_eq!(Error::Forked.class(), Class::Gone);
        assert_eq!(Error::other("mine").class(), Class::Mine);
    }
}
