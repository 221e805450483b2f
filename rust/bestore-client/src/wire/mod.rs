//! The protocol: requests, replies and values as JSON. `docs/SERVER.md` describes it.

/// Defines replies, each as a struct. A field `name?: T` may be missing.
macro_rules! replies {
    ($($(#$attribute:tt)* $name:ident { $($fields:tt)* })*) => {
        $(reply! { [$(#$attribute)* $name] {} $($fields)* })*
    };
}

/// Defines one reply, converting one field at a time. The fields in braces have been converted.
macro_rules! reply {
    ([$(#$attribute:tt)* $name:ident] { $($fields:tt)* }) => {
        $(#$attribute)*
        #[derive(Clone, Debug, Default, PartialEq, Eq, serde::Serialize, serde::Deserialize)]
        pub struct $name { $($fields)* }
    };
    ($reply:tt { $($fields:tt)* } $(#$attribute:tt)* pub $field:ident?: $type:ty, $($rest:tt)*) => {
        reply! {
            $reply
            {
                $($fields)*
                $(#$attribute)*
                #[serde(default, skip_serializing_if = "Option::is_none")]
                pub $field: Option<$type>,
            }
            $($rest)*
        }
    };
    ($reply:tt { $($fields:tt)* } $(#$attribute:tt)* pub $field:ident: $type:ty, $($rest:tt)*) => {
        reply! { $reply { $($fields)* $(#$attribute)* pub $field: $type, } $($rest)* }
    };
}

mod activity;
mod comparison;
mod error_name;
mod operation;
mod reply;
mod request;
mod token;
mod value;

pub use activity::{ClientInfo, Clients, Files, Info, Latency, OldestReader, PinnedBy, Role};
pub use comparison::{Comparison, Comparisons, Form};
pub use error_name::ErrorName;
pub use operation::{Operations, ShownOperations};
pub use reply::{
    Attributes, Commit, Explained, HeldBy, Hello, Hits, Indices, Journal, JournalEntry, Limits, LogStatus, Next, Nodes,
    Page, Push, Refusal, Restored, Rows, State, Status, Value, Watched, Written,
};
pub(crate) use request::Object;
pub use request::{
    id_of, Columns, ColumnsOf, Command, From, Get, Greeting, JournalFrom, Kick, Node, NodesFrom, Nothing, OfLog, Query,
    QueryText, Reach, Request, Restore, Watch, Watching, Write,
};
pub use token::Token;
pub use value::{kind_name, kind_named, Json};

/// The version of the protocol.
pub const PROTOCOL: u64 = 2;

/// The maximum number of nodes in one line.
pub const NODES: usize = 50_000;

/// The maximum length of a request in bytes, including the newline.
pub const LINE: usize = 1 << 20;

/// The greatest integer that is written as a JSON number. Some JSON parsers round larger ones.
pub const EXACT: u64 = (1 << 53) - 1;
