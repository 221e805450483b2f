//! Looks at what is at a file's path and beside it, before SQLite opens the file.
//!
//! SQLite takes any WAL beside a file as that file's own. If the WAL belongs to another file, it finds a mixture of both. If there is
//! no file, it removes the WAL.

use super::last::{beside, LastEntry};
use super::{tables, Error, Result};
use rusqlite::{Connection, OpenFlags};
use std::fs;
use std::os::unix::ffi::OsStrExt;
use std::os::unix::fs::MetadataExt;
use std::path::Path;

/// Returns an error if there is something other than a file at the path, or if the WAL beside it belongs to another file.
pub(super) fn check(path: &Path) -> Result<()> {
    let found = fs::metadata(path).ok();
    // SQLite says why it can't open a folder.
    if found
        .as_ref()
        .map_or(false, |found| !found.is_file() && !found.is_dir())
    {
        return Err(Error::NotAFile { path: path.to_owned() });
    }
    let has_wal = fs::metadata(beside(path, "-wal")).map_or(false, |wal| wal.len() > 0);
    let is_empty = found.map_or(true, |found| found.len() == 0);
    if has_wal && (is_empty || is_other(path)) {
        return Err(Error::OtherWal { path: path.to_owned() });
    }
    Ok(())
}

/// Returns an error if the file belongs to another user, and every user may write to it. SQLite would let them write to the WAL, too.
pub(super) fn check_private(path: &Path) -> Result<()> {
    let own = fs::metadata("/proc/self").map(|process| process.uid()).ok();
    match (own, fs::metadata(path)) {
        (Some(own), Ok(found)) if found.uid() != own && found.mode() & 0o002 != 0 => {
            Err(Error::NotPrivate { path: path.to_owned() })
        }
        _ => Ok(()),
    }
}

/// Returns whether the file has neither a WAL nor a `-last` file. A file that is open has both, and so has one that was open when its
/// process or the machine failed.
pub(super) fn is_alone(path: &Path) -> bool {
    path.exists() && ["-wal", "-last"].iter().all(|ending| !beside(path, ending).exists())
}

/// Returns whether the number in the `-last` file belongs to another file than this one. The WAL is then the other file's, too.
fn is_other(path: &Path) -> bool {
    matches!((LastEntry::id(path), id_without_wal(path)), (Some(last), Some(own)) if last != own)
}

/// Returns the file's id, as it is in the file itself. A damaged id isn't known.
fn id_without_wal(path: &Path) -> Option<u64> {
    let mut uri = String::from("file:");
    for &byte in Path::new(".").join(path).as_os_str().as_bytes() {
        match byte {
            b'/' | b'.' | b'-' | b'_' | b'a'..=b'z' | b'A'..=b'Z' | b'0'..=b'9' => uri.push(byte.into()),
            byte => uri += &format!("%{byte:02x}"),
        }
    }
    uri += "?immutable=1";
    let flags = OpenFlags::SQLITE_OPEN_READ_ONLY | OpenFlags::SQLITE_OPEN_URI | OpenFlags::SQLITE_OPEN_NO_MUTEX;
    let connection = Connection::open_with_flags(uri, flags).ok()?;
    let sql = "SELECT number, checksum FROM about WHERE what = 'file'";
    let found = connection.query_row(sql, [], |row| {
        let id = row.get::<_, i64>(0)? as u64;
        Ok(tables::fits(row, 1, tables::of_about("file", id))?.then_some(id))
    });
    found.ok().flatten()
}

/// Waits until the contents of the file or folder are on disk.
pub(super) fn synchronise(path: &Path) -> Result<()> {
    let synchronised = fs::File::open(path).and_then(|file| file.sync_all());
    synchronised.map_err(|error| Error::folder(path, error))
}

/// Returns the folder that contains the path.
pub(super) fn parent(path: &Path) -> &Path {
    match path.parent() {
        Some(parent) if !parent.as_os_str().is_empty() => parent,
        _ => Path::new("."),
    }
}
