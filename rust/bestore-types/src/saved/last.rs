//! The `-last` file, which contains the number of a file's last entry.
//!
//! SQLite silently ignores everything after a damaged frame of the WAL. So while the file is open and after a crash, its last entry's
//! number is also kept next to it. The number is written after each commit, but without waiting for it to reach the disk, so it may be too
//! low after a power failure.

use super::checksum::{checksum, Column};
use std::fs::{self, OpenOptions};
use std::os::unix::fs::{FileExt, OpenOptionsExt};
use std::path::{Path, PathBuf};

/// Keeps the number in its file. Drop this after closing the store's file: unless a WAL is left, that removes the number's file.
#[derive(Debug)]
pub(super) struct LastEntry {
    file: fs::File,
    path: PathBuf,
    wal: PathBuf,
    /// Identifies the store's file.
    id: u64,
}

impl Drop for LastEntry {
    fn drop(&mut self) {
        if !self.wal.exists() {
            // A leftover file does no harm, because it claims no more entries than the store's file has.
            let _ = fs::remove_file(&self.path);
        }
    }
}

/// Returns the path of a file next to a store's, named as SQLite names its own. It follows links.
pub(super) fn beside(path: &Path, ending: &str) -> PathBuf {
    let mut path = fs::canonicalize(path)
        .unwrap_or_else(|_| path.to_owned())
        .into_os_string();
    path.push(ending);
    path.into()
}

fn line(id: u64, number: u64) -> String {
    let sum = checksum(&[Column::Number(id), Column::Number(number)]);
    format!("{id:016x} {number:020} {sum:08x}\n")
}

impl LastEntry {
    /// Returns the last entry that the file with this id had, if known.
    pub(super) fn read(path: &Path, id: u64) -> Option<u64> {
        let (of, number) = Self::read_both(path)?;
        (of == id).then_some(number)
    }

    /// Returns the id of the file whose last entry is known, if any is.
    pub(super) fn id(path: &Path) -> Option<u64> {
        Self::read_both(path).map(|(id, _)| id)
    }

    fn read_both(path: &Path) -> Option<(u64, u64)> {
        let path = beside(path, "-last");
        // Reading anything else might wait for ever.
        if !fs::metadata(&path).ok()?.is_file() {
            return None;
        }
        let text = fs::read_to_string(path).ok()?;
        let mut words = text.split(' ');
        let id = u64::from_str_radix(words.next()?, 16).ok()?;
        let number = words.next()?.parse().ok()?;
        (text == line(id, number)).then_some((id, number))
    }

    /// Begins to keep the number, starting with this entry. Returns `None` if the number can't be kept, for example because the disk is
    /// full.
    pub(super) fn begin(path: &Path, id: u64, number: u64) -> Option<Self> {
        let (path, wal) = (beside(path, "-last"), beside(path, "-wal"));
        if path.metadata().map_or(false, |found| !found.is_file()) {
            return None;
        }
        let file = OpenOptions::new()
            .write(true)
            .create(true)
            .truncate(false)
            .mode(0o600)
            .open(&path)
            .ok()?;
        let last = Self { file, path, wal, id };
        last.set(number);
        Some(last)
    }

    /// Records that the file now has this entry.
    pub(super) fn set(&self, number: u64) {
        // An error does no harm, because the file then claims fewer entries than there are.
        let _ = self.file.write_all_at(line(self.id, number).as_bytes(), 0);
    }
}
