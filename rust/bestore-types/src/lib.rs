//! The types that bestore's stores and clients share: values and their kinds, batches, listings, orders and cursors, and errors with their
//! messages.
//!
//! Nothing here opens a store or loads libbestore. The crate `bestore` contains the store, and `bestore-client` the client for a server;
//! both re-export what they use from this one.
//!
//! ```
//! use bestore_types::{Batch, Kind};
//!
//! let mut batch = Batch::new();
//! batch.make_index("MAIL:from", Kind::Text).new_node().set(1, "MAIL:from", "Ada");
//! assert_eq!(Batch::from_bytes(&batch.to_bytes()?)?, batch);
//! # Ok::<(), bestore_types::Error>(())
//! ```
//!
//! # Features
//!
//! - `saved`: adds the module `saved`, which reads and writes the file in which a store is kept.
#![warn(missing_docs, missing_debug_implementations, rust_2018_idioms)]
#![deny(unsafe_code)]

mod batch;
mod bytes;
mod class;
mod cursor;
mod error;
mod fields;
mod hint;
mod kind;
mod limits;
pub mod listing;
mod page;
pub mod raw;
#[cfg(feature = "saved")]
pub mod saved;
pub mod sys;
#[cfg(test)]
mod table;
mod text;
mod value;

pub use batch::{Batch, Operation, Operations, Written};
pub use class::Class;
pub use cursor::{Cursor, CursorFault, Order};
pub use error::{Error, QueryError, QueryFault, Result};
pub use hint::Hint;
pub use kind::Kind;
pub use limits::{Limits, MOST_PASSES};
pub use page::{Page, Paging};
pub use text::{all_in, caret, escape};
pub use value::{Value, ValueRef};
