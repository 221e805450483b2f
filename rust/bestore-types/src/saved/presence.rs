//! Checks that the open file is still at its path.
//!
//! If a file is removed, moved or replaced while it is open, the system still lets a process write to it. But whoever opens the path
//! next doesn't find what was written. While a file is open, no other file has its inode number, so a look at the path is enough.

use super::last::beside;
use super::{Error, Result};
use std::env;
use std::fs;
use std::io::{self, ErrorKind};
use std::os::unix::fs::MetadataExt;
use std::path::{Path, PathBuf};

/// A file's device and inode number.
type Identity = (u64, u64);

/// The paths of an open file and its WAL, and what is there while both are in place.
#[derive(Clone, Debug, Default)]
pub struct Presence {
    file: Expected,
    wal: Expected,
}

/// A path, and the file that is expected there. If it isn't known, every file is fine.
#[derive(Clone, Debug, Default)]
struct Expected {
    path: PathBuf,
    identity: Option<Identity>,
}

/// Follows links, as whoever opens the path next does.
fn identity_of(path: &Path) -> io::Result<Identity> {
    let found = fs::metadata(path)?;
    Ok((found.dev(), found.ino()))
}

impl Expected {
    /// Expects the file that is at the path now.
    fn now_at(path: PathBuf) -> Self {
        let identity = identity_of(&path).ok();
        Self { path, identity }
    }

    /// Returns `false` if there is no file at the path any more, or another one. If the system doesn't say, the file may still be there.
    fn is_there(&self) -> bool {
        match (self.identity, identity_of(&self.path)) {
            (Some(expected), Ok(found)) => found == expected,
            (Some(_), Err(error)) => error.kind() != ErrorKind::NotFound,
            (None, _) => true,
        }
    }
}

impl Presence {
    /// Expects the file that is at the path now. Call this before opening it. The program may change its folder later.
    pub(super) fn before_opening(path: &Path) -> Self {
        let path = env::current_dir().map_or_else(|_| path.to_owned(), |folder| folder.join(path));
        Self {
            file: Expected::now_at(path),
            wal: Expected::default(),
        }
    }

    /// From now on, also expects the WAL that is beside the file now. Call this once the file is open and locked.
    pub(super) fn add_wal(&mut self) -> Result<()> {
        self.wal = Expected::now_at(beside(&self.file.path, "-wal"));
        self.check_file()
    }

    /// Returns an error if the file isn't at its path any more. This takes one system call.
    pub fn check_file(&self) -> Result<()> {
        match self.file.is_there() {
            true => Ok(()),
            false => Err(Error::Moved {
                path: self.file.path.clone(),
            }),
        }
    }

    /// Returns an error if the file or its WAL isn't at its path any more. This takes two system calls.
    pub fn check(&self) -> Result<()> {
        self.check_file()?;
        match self.wal.is_there() {
            true => Ok(()),
            false => Err(Error::WalMoved {
                path: self.file.path.clone(),
            }),
        }
    }
}
