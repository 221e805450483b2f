//! Backups. A backup is a file with a store's state. It appears at its path once it is complete.

use super::beside::{parent, synchronise};
use super::file::File;
use super::{About, Error, Result};
use std::fs;
use std::io::{self, ErrorKind};
use std::path::{Path, PathBuf};
use std::sync::atomic::{AtomicU32, Ordering};

/// A backup in progress. It is written next to its path, with mode 0600, and is removed if it is dropped before [`finish`](Self::finish) is
/// called. If the process is killed, it stays there, under a hidden name that ends in `.part`. It doesn't hinder later backups.
///
/// ```
/// use bestore_types::listing::Writer;
/// use bestore_types::saved::{self, About, Backup};
/// # let folder = std::env::temp_dir().join(format!("bestore-backup-{}", std::process::id()));
/// # std::fs::create_dir_all(&folder)?;
/// # let path = folder.join("letters.backup");
/// let mut listing = Writer::new();
/// listing.node(1);
/// let mut backup = Backup::create(&path)?;
/// backup.add(&listing.take())?;
/// let about = About { entries: 1, next: 2 };
/// backup.finish(about)?;
/// assert_eq!(saved::read(&path)?.about, about);
/// # std::fs::remove_dir_all(&folder)?;
/// # Ok::<(), Box<dyn std::error::Error>>(())
/// ```
#[derive(Debug)]
pub struct Backup {
    path: PathBuf,
    beside: Beside,
    file: File,
    batches: u64,
}

/// How many characters of the backup's name its hidden name contains. A character has up to four bytes, and a name up to 255.
const NAME: usize = 50;

/// The file that is written next to the path. It is removed on drop.
#[derive(Debug)]
struct Beside {
    path: PathBuf,
}

impl Drop for Beside {
    fn drop(&mut self) {
        // After `finish`, there may be nothing to remove.
        let _ = fs::remove_file(&self.path);
    }
}

impl Beside {
    /// Chooses a free path. A process that was killed may have had this one's number and may have left its own file there.
    fn new(path: &Path) -> Self {
        static LAST: AtomicU32 = AtomicU32::new(0);
        let name = path.file_name().unwrap_or_default().to_string_lossy();
        let name: String = name.chars().take(NAME).collect();
        loop {
            let number = LAST.fetch_add(1, Ordering::Relaxed);
            let path = path.with_file_name(format!(".{name}.{}-{number}.part", std::process::id()));
            if !exists(&path) {
                return Self { path };
            }
        }
    }

    /// Makes the finished backup appear at its path, unless something exists there.
    fn publish(&self, path: &Path) -> io::Result<()> {
        match fs::hard_link(&self.path, path) {
            // Some file systems don't support hard links.
            Err(error) if error.kind() != ErrorKind::AlreadyExists && !exists(path) => fs::rename(&self.path, path),
            linked => linked,
        }
    }
}

fn exists(path: &Path) -> bool {
    path.symlink_metadata().is_ok()
}

impl Backup {
    /// Begins a backup. Nothing may exist at the path yet.
    ///
    /// # Errors
    /// [`Error::Exists`]; [`Error::Folder`] if the backup can't be created there; [`Error::DiskFull`], [`Error::Sqlite`].
    pub fn create(path: impl AsRef<Path>) -> Result<Self> {
        let path = path.as_ref().to_owned();
        if exists(&path) {
            return Err(Error::Exists { path });
        }
        let beside = Beside::new(&path);
        let file = File::begin_state(&beside.path, &path)?;
        Ok(Self {
            path,
            beside,
            file,
            batches: 0,
        })
    }

    /// Adds the next batch of a snapshot's [listing](crate::listing). Its records aren't checked.
    ///
    /// # Errors
    /// [`Error::DiskFull`], [`Error::Sqlite`].
    pub fn add(&mut self, batch: &[u8]) -> Result<()> {
        self.file.add_state(self.batches, batch)?;
        self.batches += 1;
        Ok(())
    }

    /// Records these numbers and completes the backup, which appears at its path once it is on disk.
    ///
    /// # Errors
    /// [`Error::Exists`] if something has appeared at the path in the meantime. [`Error::Folder`], [`Error::DiskFull`], [`Error::Sqlite`].
    pub fn finish(self, about: About) -> Result<()> {
        let Self { path, beside, file, .. } = self;
        file.end_state(about)?;
        synchronise(&beside.path)?;
        match beside.publish(&path) {
            Err(_) if exists(&path) => return Err(Error::Exists { path }),
            published => published.map_err(|error| Error::folder(&path, error))?,
        }
        drop(beside);
        synchronise(parent(&path))
    }
}

#[cfg(test)]
mod tests {
    use super::*;

    #[test]
    fn a_backup_may_have_a_long_name() {
        let folder = std::env::temp_dir().join(format!("bestore-long-{}", std::process::id()));
        fs::create_dir(&folder).unwrap();
        for name in ["n".repeat(255), "é".repeat(127), "漢".repeat(85)] {
            drop(Backup::create(folder.join(name)).unwrap());
        }
        fs::remove_dir(folder).unwrap();
    }

    #[test]
    fn what_a_killed_process_with_this_number_has_left_does_not_hinder() {
        let process = std::process::id();
        let folder = std::env::temp_dir().join(format!("bestore-left-{process}"));
        fs::create_dir(&folder).unwrap();
        let left = (0..100).map(|number| folder.join(format!(".backup.{process}-{number}.part")));
        let left: Vec<PathBuf> = left.collect();
        left.iter().for_each(|path| fs::write(path, "left").unwrap());
        drop(Backup::create(folder.join("backup")).unwrap());
        // They may be those of a process in another container.
        assert!(left.iter().all(|path| path.exists()));
        assert_eq!(fs::read_dir(&folder).unwrap().count(), left.len());
        fs::remove_dir_all(folder).unwrap();
    }
}
