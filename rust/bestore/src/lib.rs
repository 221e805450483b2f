//! A shared, multi-version, in-memory attribute store with the attributes, indices and query language of BeOS.
//!
//! A [`Store`] holds numbered nodes with typed attributes. A [`Pass`] is one thread's handle to it, with which the thread writes
//! transactions, and pins a [`Snapshot`] to read and query. Readers take no locks, and a snapshot doesn't change while others write. This
//! crate is built on the C library libbestore, whose functions are formally verified against their contracts.
//!
//! ```
//! use bestore::{Kind, Limits, Store};
//!
//! let store = Store::open(Limits::default())?;
//! let mut pass = store.pass()?;
//! pass.make_index("MAIL:from", Kind::Text)?;
//! let letter = pass.change(|change| {
//!     let node = change.new_node();
//!     change.set(node, "MAIL:from", "Ada <ada@example.org>")?;
//!     Ok(node)
//! })?;
//!
//! let snapshot = pass.pin()?;
//! assert_eq!(snapshot.query("MAIL:from==Ada*")?, [letter]);
//! # Ok::<(), bestore::Error>(())
//! ```
//!
//! An index holds only attributes that are set after it was created, so create your indices first.
//!
//! # What is promised
//!
//! Writes are serializable in a single order, that of the journal. A snapshot is a prefix of that order, and includes everything that its
//! pass has written or seen. A write with [`Pass::change`] is applied to exactly the snapshot that its closure read.
//!
//! # Threads and processes
//!
//! A [`Store`] can be shared between threads. A [`Pass`] can move to another thread, but can't be shared:
//!
//! ```
//! use bestore::{Limits, Store};
//! use std::thread;
//!
//! let store = Store::open(Limits::default())?;
//! thread::scope(|scope| {
//!     for _ in 0..2 {
//!         scope.spawn(|| store.pass()?.new_node());
//!     }
//! });
//! assert_eq!(store.pass()?.status()?.entries, 2);
//! # Ok::<(), bestore::Error>(())
//! ```
//!
//! ```compile_fail
//! fn shared<T: Sync>(_: T) {}
//! shared(bestore::Store::open(bestore::Limits::default()).unwrap().pass().unwrap());
//! ```
//!
//! In a forked child all of the parent's handles are dead: their calls return [`Error::Forked`], and dropping them does nothing.
//!
//! # Features
//!
//! - `saved`: adds the module `saved`, for a store whose writes are kept in an SQLite file.
#![warn(missing_docs, missing_debug_implementations, rust_2018_idioms)]
#![deny(unsafe_code)]

mod builder;
mod change;
mod copying;
mod hints;
mod journal;
mod listings;
mod page;
mod pass;
mod predicate;
mod prepared;
mod raw;
mod refused;
#[cfg(feature = "saved")]
pub mod saved;
mod snapshot;
mod store;
mod succession;
mod text;
mod waits;

pub use bestore_types::{
    caret, escape, listing, Batch, Class, Cursor, CursorFault, Error, Hint, Kind, Limits, Operation, Operations, Order,
    Page, QueryError, QueryFault, Result, Value, ValueRef, Written,
};
pub use builder::Builder;
pub use change::Change;
pub use copying::StateCopy;
pub use hints::{compared, hints, Compared, Form};
pub use journal::{Entries, Entry};
pub use listings::Listing;
pub use page::Ordered;
pub use pass::{Keeper, MakeWrite, Oldest, Pass, Status, Witness};
pub use predicate::{attribute, Attribute, Operand, Predicate};
pub use prepared::{Live, Prepared, Updates};
pub use snapshot::{Nodes, Snapshot};
pub use store::Store;
pub use text::any_case;
pub use waits::Retry;

/// Returns the version of the running library: major, minor and patch.
#[must_use]
pub fn library_version() -> (u32, u32, u32) {
    let version = raw::version();
    (version / 1_000_000, version / 1_000 % 1_000, version % 1_000)
}
