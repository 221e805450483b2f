//! The disk that holds the files. When there is too little space, a write is refused before it is made, because a write that is
//! in memory but not in the file can't be undone.

use crate::os;
use std::ffi::CString;
use std::io;
use std::os::unix::ffi::OsStrExt;
use std::path::Path;

/// The disk that holds a folder.
#[derive(Debug)]
pub struct Disk {
    folder: CString,
    /// How many bytes must remain free on the disk.
    spare: u64,
}

impl Disk {
    /// Returns the disk that holds this file or folder, which must exist.
    pub fn of(path: &Path, spare: u64) -> io::Result<Self> {
        let path = path.canonicalize()?;
        let folder = match path.is_dir() {
            true => &path,
            false => path.parent().unwrap_or(&path),
        };
        Ok(Self {
            folder: CString::new(folder.as_os_str().as_bytes())?,
            spare,
        })
    }

    /// Returns whether this many bytes can be written without using the space that must remain free.
    pub fn has_room(&self, bytes: u64) -> bool {
        let free = os::free_space(&self.folder).ok().flatten();
        free.map_or(true, |free| free >= self.spare.saturating_add(bytes))
    }

    /// Returns why nothing can be written for now, if there is too little space. If the disk doesn't report its free space, it is
    /// assumed to have enough.
    pub fn trouble(&self) -> Option<String> {
        let free = os::free_space(&self.folder).ok().flatten()?;
        (free < self.spare).then(|| {
            let [free, spare] = [free, self.spare].map(|bytes| bytes >> 10);
            format!(
                "the disk of {} has {free} KiB free, and {spare} KiB must stay free",
                self.folder.to_string_lossy()
            )
        })
    }
}
