//! The files of a shelf's volumes, which version 0.4.0 kept in one folder.

use super::{Error, Result};
use std::fs;
use std::path::{Path, PathBuf};

/// Returns a volume's file.
pub(super) fn path_of(folder: &Path, volume: u32) -> PathBuf {
    folder.join(format!("{volume}.bestore"))
}

/// Returns the volume whose file has this name.
fn volume_of(name: &std::ffi::OsStr) -> Option<u32> {
    let digits = name.to_str()?.strip_suffix(".bestore")?;
    let volume = digits.parse().ok()?;
    (format!("{volume}") == digits).then_some(volume)
}

/// Returns the number of volumes in the folder. It is an error if there is a later volume's file but not an earlier one's.
pub(super) fn count(folder: &Path) -> Result<u32> {
    let wrong = |error| Error::folder(folder, error);
    let mut found = Vec::new();
    for entry in fs::read_dir(folder).map_err(wrong)? {
        found.extend(volume_of(&entry.map_err(wrong)?.file_name()));
    }
    found.sort_unstable();
    match (0..).zip(&found).find(|(expected, volume)| expected != *volume) {
        Some((missing, _)) => Err(Error::NoFile {
            path: path_of(folder, missing),
        }),
        None => Ok(found.len() as u32),
    }
}
