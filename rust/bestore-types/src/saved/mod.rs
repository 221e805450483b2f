//! The file in which a store is kept: its format, errors, contents and backups. Nothing here opens a store.
//!
//! The repository's `docs/KEPT.md` describes the format. The crate `bestore` opens such a file and keeps writes in it.

mod backup;
mod beside;
mod checksum;
mod contents;
mod error;
#[allow(missing_docs)]
#[doc(hidden)]
pub mod file;
#[allow(missing_docs)]
#[doc(hidden)]
pub mod joining;
mod last;
#[allow(missing_docs)]
#[doc(hidden)]
pub mod presence;
mod reading;
mod tables;
#[allow(missing_docs)]
#[doc(hidden)]
pub mod volume;
mod volumes;

pub use backup::Backup;
pub use contents::{read, read_until, Contents};
pub use error::{Error, Place};
pub use file::About;

/// The result of a call in this module.
pub type Result<T> = std::result::Result<T, Error>;

/// The minimum number of tokens that a file keeps: those of the latest writes that had one.
pub const TOKENS: usize = 65_536;
