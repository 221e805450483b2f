//! A client for bestored, the server that shares an attribute store between a user's programs.
//!
//! ```no_run
//! use bestore_client::{Batch, Client, Kind};
//!
//! let mut client = Client::connect("/run/user/1000/bestore/socket")?;
//! client.apply(Batch::new().make_index("MAIL:from", Kind::Text))?;
//! client.change(|change| {
//!     let letter = change.new_node();
//!     change.batch().set(letter, "MAIL:from", "Ada");
//!     Ok(())
//! })?;
//! for node in client.query("MAIL:from==Ada")? {
//!     println!("node {node}");
//! }
//! # Ok::<(), bestore_client::Error>(())
//! ```
//!
//! [`wire`] defines the lines of the protocol, and [`Client::call`] sends any command. A client has no store of its own and doesn't load
//! libbestore; it leaves the parsing of queries to the server.
#![warn(missing_docs, missing_debug_implementations, rust_2018_idioms)]
#![deny(unsafe_code)]

mod activity;
mod change;
mod client;
mod columns;
mod error;
mod indices;
mod options;
mod ordered;
mod os;
mod patience;
mod pushes;
mod repeat;
pub mod socket;
pub mod wire;

pub use bestore_types::{
    all_in, caret, escape, Batch, Class, Cursor, CursorFault, Hint, Kind, Operation, Operations, Order, Page, Value,
    Written,
};
pub use change::{first_mismatch, Change};
pub use client::{Client, Query};
pub use error::{Error, Result};
pub use options::Options;
pub use ordered::{Ordered, PageOfRows};
pub use socket::SocketPath;
pub use wire::ErrorName;
