//! The names of errors in the protocol.

use bestore_types::Class;
use serde::{Deserialize, Deserializer, Serialize, Serializer};
use std::borrow::Cow;
use std::fmt;

macro_rules! names {
    ($($(#[$about:meta])* $name:ident = $number:expr, $class:ident, $text:literal;)*) => {
        /// The name of an error in the protocol.
        #[non_exhaustive]
        #[derive(Clone, Debug, PartialEq, Eq, Hash)]
        pub enum ErrorName {
            $($(#[$about])* $name,)*
            /// An error that this client doesn't know.
            Other(String),
        }

        impl ErrorName {
            /// Every error that this client knows.
            pub const ALL: &'static [ErrorName] = &[$(ErrorName::$name),*];

            /// Returns the name in the protocol.
            #[must_use]
            pub fn as_str(&self) -> &str {
                match self {
                    $(ErrorName::$name => stringify!($name),)*
                    ErrorName::Other(name) => name,
                }
            }

            /// Returns the error's number in `bestore.h` if it is one of the library's errors.
            #[must_use]
            pub const fn number(&self) -> Option<u32> {
                match self {
                    $(ErrorName::$name => $number,)*
                    ErrorName::Other(_) => None,
                }
            }

            /// Returns what a program can do about the error. For an unknown error, this assumes that retrying the same request won't help.
            #[must_use]
            pub const fn class(&self) -> Class {
                match self {
                    $(ErrorName::$name => Class::$class,)*
                    ErrorName::Other(_) => Class::Mine,
                }
            }

            /// Returns what was wrong and what would be right.
            #[must_use]
            pub const fn text(&self) -> &'static str {
                match self {
                    $(ErrorName::$name => $text,)*
                    ErrorName::Other(_) => "the server has an error that this client doesn't know",
                }
            }
        }
    };
}

names! {
    // surface.toml: errors
    /// Another pass is writing; call again once it has finished.
    Busy = Some(1), Retry, "another pass is writing; call again once it has finished";
    /// There is no such node.
    NoNode = Some(2), Mine, "there is no such node";
    /// The node has no attribute of this name.
    NoAttribute = Some(3), Mine, "the node has no attribute of this name";
    /// The node has 64 attributes, the most it can have; remove one first.
    TooManyAttributes = Some(4), Full, "the node has 64 attributes, the most it can have; remove one first";
    /// There is already an index of this name.
    IndexExists = Some(5), Mine, "there is already an index of this name";
    /// There is no index of this name.
    NoIndex = Some(6), Mine, "there is no index of this name";
    /// The store has 32 indices, the most it can have; remove one first.
    TooManyIndices = Some(7), Full, "the store has 32 indices, the most it can have; remove one first";
    /// An index can't have this kind; indices hold text or integers, but not MIME types or raw bytes.
    NotIndexable = Some(8), Mine, "an index can't have this kind; indices hold text or integers, but not MIME types or raw bytes";
    /// The journal has reached the limit that the store was opened with; copy the state into a new store.
    CommitsSpent = Some(9), Full, "the journal has reached the limit that the store was opened with; copy the state into a new store";
    /// Out of memory; free some and call again.
    OutOfMemory = Some(10), Full, "out of memory; free some and call again";
    /// No page is free; unpin old snapshots, remove nodes, or open a store with more pages.
    Full = Some(11), Full, "no page is free; unpin old snapshots, remove nodes, or open a store with more pages";
    /// This query isn't valid here; it needs comparisons such as size>=5, joined by && or ||.
    Syntax = Some(12), Mine, "this query isn't valid here; it needs comparisons such as size>=5, joined by && or ||";
    /// This pattern isn't valid here; a set such as [a-d] must be closed by ], must not be empty, and its ranges must ascend.
    BadPattern = Some(13), Mine, "this pattern isn't valid here; a set such as [a-d] must be closed by ], must not be empty, and its ranges must ascend";
    /// The query has more than 4,096 bytes.
    TooLong = Some(14), Mine, "the query has more than 4,096 bytes";
    /// The query nests parentheses and ! more than 64 levels deep.
    TooDeep = Some(15), Mine, "the query nests parentheses and ! more than 64 levels deep";
    /// The query has more than 256 comparisons.
    TooMany = Some(16), Mine, "the query has more than 256 comparisons";
    /// No index can answer the query; compare a name that has an index, on both sides of each ||.
    NotCovered = Some(17), Mine, "no index can answer the query; compare a name that has an index, on both sides of each ||";
    /// A name is empty or has more than 63 bytes.
    NameLength = Some(18), Mine, "a name is empty or has more than 63 bytes";
    /// A value has more than 255 bytes.
    DataLength = Some(19), Mine, "a value has more than 255 bytes";
    /// A name or a text has a zero byte; only a raw value may have one.
    HasNul = Some(20), Mine, "a name or a text has a zero byte; only a raw value may have one";
    /// A limit of the store is out of range; a store has 8 to 16,777,216 pages, 1 to 64 passes and 1 to 4,294,967,295 commits.
    BadLimits = Some(21), Mine, "a limit of the store is out of range; a store has 8 to 16,777,216 pages, 1 to 64 passes and 1 to 4,294,967,295 commits";
    /// The items don't form a query; each operator takes the items before it, and exactly one query must remain at the end.
    BadRpn = Some(22), Mine, "the items don't form a query; each operator takes the items before it, and exactly one query must remain at the end";
    /// The handle is closed; use an open one.
    Closed = Some(64), Gone, "the handle is closed; use an open one";
    /// The handle is already open; close it first, or use another one.
    Open = Some(65), Mine, "the handle is already open; close it first, or use another one";
    /// No snapshot is pinned; pin one before you read.
    NotPinned = Some(66), Mine, "no snapshot is pinned; pin one before you read";
    /// A snapshot is already pinned; unpin it first.
    Pinned = Some(67), Mine, "a snapshot is already pinned; unpin it first";
    /// Every pass of the store is in use; close one, or open the store with more.
    NoPass = Some(68), Full, "every pass of the store is in use; close one, or open the store with more";
    /// A batch has 1 to 64 operations, and a call reads up to 4,294,967,296 values.
    BadCount = Some(69), Mine, "a batch has 1 to 64 operations, and a call reads up to 4,294,967,296 values";
    /// The text isn't valid UTF-8.
    NotUtf8 = Some(70), Mine, "the text isn't valid UTF-8";
    /// There is no operation with this number; operations are numbered 0 to 5.
    NoOperation = Some(71), Mine, "there is no operation with this number; operations are numbered 0 to 5";
    /// No kind has this type code.
    NoKind = Some(72), Mine, "no kind has this type code";
    /// The number doesn't fit its kind; use a kind that holds it.
    NoValue = Some(73), Mine, "the number doesn't fit its kind; use a kind that holds it";
    /// A name or value lies outside the bytes that were passed with the list.
    BadPart = Some(74), Mine, "a name or value lies outside the bytes that were passed with the list";
    /// There is no item with this number; items are numbered 0 to 15.
    NoItem = Some(75), Mine, "there is no item with this number; items are numbered 0 to 15";
    /// The journal's length isn't what the write expects; read again, and base the write on that.
    Conflict = Some(76), Retry, "the journal's length isn't what the write expects; read again, and base the write on that";
    /// Another handle of the store is open; close it first.
    InUse = Some(77), Retry, "another handle of the store is open; close it first";
    /// The cursor doesn't belong to this index; start without a cursor, or use one from a page in this index's order.
    BadCursor = Some(78), Mine, "the cursor doesn't belong to this index; start without a cursor, or use one from a page in this index's order";
    /// A page has at least one node; ask for one or more.
    NoRoom = Some(79), Mine, "a page has at least one node; ask for one or more";
    /// The index of this name takes values of another kind; set a value of the index's kind.
    KindMismatch = Some(80), Mine, "the index of this name takes values of another kind; set a value of the index's kind";
    /// A change's function wrote through the change's own pass, or unpinned it; add the operation to the change, or use another pass.
    Nested = Some(81), Mine, "a change's function wrote through the change's own pass, or unpinned it; add the operation to the change, or use another pass";
    /// The request isn't valid.
    BadRequest = None, Mine, "the request isn't valid";
    /// The snapshot expired, because it was kept too long; pin again.
    Expired = None, Gone, "the snapshot expired, because it was kept too long; pin again";
    /// The store isn't empty, or has been written to; restore into a new one.
    NotEmpty = None, Mine, "the store isn't empty, or has been written to; restore into a new one";
    /// The journal isn't that long yet; ask again.
    NotReached = None, Retry, "the journal isn't that long yet; ask again";
    /// The connection has no such live query; start it with watch.
    NoWatch = None, Gone, "the connection has no such live query; start it with watch";
    /// The connection has as many live queries as are allowed; end one with unwatch first.
    TooManyWatches = None, Full, "the connection has as many live queries as are allowed; end one with unwatch first";
    /// Too many clients are reading copies of snapshots; try again once one has finished.
    TooManyCopies = None, Retry, "too many clients are reading copies of snapshots; try again once one has finished";
    /// No client with this number is connected; `be clients` lists the numbers.
    NoClient = None, Mine, "no client with this number is connected; `be clients` lists the numbers";
    /// The server keeps no file; start it with --keep.
    NotKept = None, Mine, "the server keeps no file; start it with --keep";
    /// The server doesn't use a log; start it with --log or --follow.
    NoLog = None, Mine, "the server doesn't use a log; start it with --log or --follow";
    /// The server follows another one; write to that one.
    NotLeader = None, Gone, "the server follows another one; write to that one";
    /// The write couldn't be saved.
    NotSaved = None, Gone, "the write couldn't be saved";
    /// The server no longer saves anything.
    Stopped = None, Gone, "the server no longer saves anything";
    /// The server doesn't speak this version of the protocol.
    Protocol = None, Mine, "the server doesn't speak this version of the protocol";
    /// The request is longer than 1 MiB.
    LineTooLong = None, Mine, "the request is longer than 1 MiB";
    /// The rest of the request didn't arrive in time.
    Timeout = None, Gone, "the rest of the request didn't arrive in time";
    /// The server belongs to another user; start one of your own, or name its socket.
    NotAllowed = None, Mine, "the server belongs to another user; start one of your own, or name its socket";
    /// Pushes for a live query waited too long and were dropped; start the query again.
    PushesLost = None, Gone, "pushes for a live query waited too long and were dropped; start the query again";
    /// The server reported an error without a name.
    Unexpected = None, Mine, "the server reported an error without a name";
    // surface.toml: end
}

impl Default for ErrorName {
    fn default() -> Self {
        ErrorName::Other(String::new())
    }
}

impl ErrorName {
    /// Returns the library's error with this number in `bestore.h`.
    #[must_use]
    pub fn numbered(number: u32) -> Option<ErrorName> {
        ErrorName::ALL
            .iter()
            .find(|name| name.number() == Some(number))
            .cloned()
    }
}

impl From<Cow<'_, str>> for ErrorName {
    fn from(name: Cow<'_, str>) -> Self {
        let known = ErrorName::ALL.iter().find(|known| known.as_str() == name);
        known.cloned().unwrap_or_else(|| ErrorName::Other(name.into_owned()))
    }
}

impl fmt::Display for ErrorName {
    fn fmt(&self, f: &mut fmt::Formatter<'_>) -> fmt::Result {
        f.write_str(self.as_str())
    }
}

impl Serialize for ErrorName {
    fn serialize<S: Serializer>(&self, to: S) -> Result<S::Ok, S::Error> {
        to.serialize_str(self.as_str())
    }
}

impl<'de> Deserialize<'de> for ErrorName {
    fn deserialize<D: Deserializer<'de>>(from: D) -> Result<Self, D::Error> {
        String::deserialize(from).map(|name| Cow::from(name).into())
    }
}

/// Reads a class from its name. A name that this client doesn't know gives `None`.
pub(super) mod class {
    use bestore_types::Class;
    use serde::{Deserialize, Deserializer, Serializer};

    pub(in super::super) fn serialize<S: Serializer>(class: &Option<Class>, to: S) -> Result<S::Ok, S::Error> {
        to.serialize_str(class.map_or("", Class::name))
    }

    pub(in super::super) fn deserialize<'de, D: Deserializer<'de>>(from: D) -> Result<Option<Class>, D::Error> {
        String::deserialize(from).map(|name| Class::named(&name))
    }
}

#[cfg(test)]
mod tests {
    use super::*;
    use crate::wire::Refusal;

    #[test]
    fn names_lead_back_to_errors() {
        for name in ErrorName::ALL {
            let json = serde_json::to_string(name).unwrap();
            assert_eq!(serde_json::from_str::<ErrorName>(&json).unwrap(), *name);
            assert!(!name.text().is_empty());
            if let Some(number) = name.number() {
                assert_eq!(ErrorName::numbered(number).as_ref(), Some(name));
            }
        }
        let unknown: ErrorName = serde_json::from_str(r#""Later""#).unwrap();
        assert_eq!(unknown, ErrorName::Other("Later".into()));
        assert_eq!(serde_json::to_string(&unknown).unwrap(), r#""Later""#);
    }

    #[test]
    fn the_class_is_what_the_server_says_and_otherwise_that_of_the_name() {
        let class = |json: &str| serde_json::from_str::<Refusal>(json).unwrap().class();
        assert_eq!(class(r#"{"name":"Busy","message":""}"#), Class::Retry);
        assert_eq!(class(r#"{"name":"Later","message":""}"#), Class::Mine);
        assert_eq!(class(r#"{"name":"Later","class":"full","message":""}"#), Class::Full);
        assert_eq!(class(r#"{"name":"Stopped","class":"full","message":""}"#), Class::Full);
        assert_eq!(class(r#"{"name":"Full","class":"of later","message":""}"#), Class::Full);
    }
}
