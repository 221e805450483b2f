//! Walks a folder, finding everything in it and below it.

use super::content::{name_in, VALUE};
use super::stat::{Form, Stat};
use std::collections::HashSet;
use std::fs::{self, DirEntry, Metadata, ReadDir};
use std::io::{self, ErrorKind};
use std::os::unix::ffi::OsStrExt;
use std::os::unix::fs::MetadataExt;
use std::path::{Path, PathBuf};

/// The suffixes of the files that belong to kept stores.
const STORES: [&[u8]; 5] = [
    b".bestore",
    b".bestore-last",
    b".bestore-wal",
    b".bestore-shm",
    b".bestore-journal",
];

/// A file, and what the file system reports about it.
#[derive(Clone, Debug)]
pub struct Found {
    pub path: PathBuf,
    pub stat: Stat,
}

/// A file or folder that can't be read.
#[derive(Debug)]
pub struct Unread {
    pub path: PathBuf,
    pub error: io::Error,
}

/// What a walk has found. Each folder comes before its contents.
#[derive(Debug, Default)]
pub struct Walked {
    pub found: Vec<Found>,
    pub unread: Vec<Unread>,
    /// Paths at which the file must be read even if its state is the one in the store.
    pub changed: HashSet<PathBuf>,
}

/// Returns whether a file belongs to a kept store, including those that are next to it while it is open. Such files are left out, because
/// recording a change to one would change it again.
pub fn is_of_a_store(path: &Path) -> bool {
    let name = path.file_name().map_or(&b""[..], OsStrExt::as_bytes);
    STORES.iter().any(|end| name.ends_with(end))
}

/// A walk. It doesn't follow symlinks, and skips the files of kept stores.
pub struct Walk<'a> {
    /// Called with each folder before it is read.
    pub before: &'a mut dyn FnMut(&Path),
    /// If set, folders on other file systems are found but not read.
    pub device: Option<u64>,
}

impl Walk<'_> {
    /// Returns the file or folder and everything below it, except for anything that disappears in the meantime.
    pub fn below(&mut self, path: &Path) -> Walked {
        let mut walked = Walked::default();
        walked.add(path.into(), fs::symlink_metadata(path));
        let mut next = 0;
        while next < walked.found.len() {
            if walked.found[next].stat.form == Form::Folder {
                let folder = walked.found[next].path.clone();
                self.read_folder(&folder, &mut walked);
            }
            next += 1;
        }
        walked.keep_last();
        walked
    }

    fn read_folder(&mut self, folder: &Path, walked: &mut Walked) {
        if self.device.map_or(false, |device| is_elsewhere(folder, device)) {
            return;
        }
        (self.before)(folder);
        match fs::read_dir(folder) {
            Ok(entries) => walked.read(folder, entries),
            Err(error) => walked.failed(folder, error),
        }
    }
}

/// Returns whether the folder is on another file system.
fn is_elsewhere(folder: &Path, device: u64) -> bool {
    fs::symlink_metadata(folder).map_or(false, |about| about.dev() != device)
}

impl Walked {
    /// If a file was found several times, keeps only the last. The listing of a large folder may contain a name twice if the file is
    /// removed and recreated while the folder is being read.
    fn keep_last(&mut self) {
        let mut seen = HashSet::new();
        self.found.reverse();
        self.found.retain(|found| seen.insert(found.path.clone()));
        self.found.reverse();
    }

    fn read(&mut self, folder: &Path, entries: ReadDir) {
        for entry in entries {
            match entry {
                Ok(entry) => self.read_entry(&entry),
                Err(error) => return self.failed(folder, error),
            }
        }
    }

    fn read_entry(&mut self, entry: &DirEntry) {
        let path = entry.path();
        if !is_of_a_store(&path) {
            self.add(path, entry.metadata());
        }
    }

    /// Adds what the file system reports about a file. If the name is too long for the file's node, records that instead.
    pub fn add(&mut self, path: PathBuf, about: io::Result<Metadata>) {
        match about.and_then(|about| check_name(&path).map(|()| about)) {
            Ok(about) => self.found.push(Found {
                path,
                stat: Stat::from(&about),
            }),
            Err(error) => self.failed(&path, error),
        }
    }

    /// Records why a file can't be read, unless the file is gone, or its folder has become a file.
    fn failed(&mut self, path: &Path, error: io::Error) {
        if error.kind() != ErrorKind::NotFound && error.raw_os_error() != Some(libc::ENOTDIR) {
            self.unread.push(Unread {
                path: path.into(),
                error,
            });
        }
    }
}

/// Refuses a file's name if it doesn't fit into a value. A path that is built from a part of the name isn't the file's. Only some file
/// systems, such as exFAT, have such names.
fn check_name(path: &Path) -> io::Result<()> {
    match name_in(path).len() {
        0..=VALUE => Ok(()),
        length => Err(io::Error::new(
            ErrorKind::Other,
            format!("a file name can have up to {VALUE} bytes, and this one has {length}"),
        )),
    }
}

#[cfg(test)]
mod tests {
    use super::*;

    #[test]
    fn a_file_whose_name_does_not_fit_into_a_value_is_left_out() {
        let mut walked = Walked::default();
        let [short, long] = [255, 256].map(|length| Path::new("/a").join("n".repeat(length)));
        for path in [&short, &long] {
            walked.add(path.clone(), fs::symlink_metadata("/"));
        }
        let found: Vec<_> = walked.found.iter().map(|it| &it.path).collect();
        assert_eq!(found, [&short]);
        let unread: Vec<_> = walked
            .unread
            .iter()
            .map(|it| (&it.path, it.error.to_string()))
            .collect();
        let why = "a file name can have up to 255 bytes, and this one has 256";
        assert_eq!(unread, [(&long, why.to_string())]);
    }

    #[test]
    fn a_folder_that_has_become_a_file_is_not_said_to_be_unreadable() {
        let mut walked = Walked::default();
        for number in [libc::ENOENT, libc::ENOTDIR, libc::EACCES] {
            walked.failed(Path::new("/a"), io::Error::from_raw_os_error(number));
        }
        let unread: Vec<_> = walked.unread.iter().map(|it| it.error.raw_os_error()).collect();
        assert_eq!(unread, [Some(libc::EACCES)]);
    }

    #[test]
    fn a_file_that_is_found_twice_counts_as_it_was_last() {
        let found = |path: &str, size: i64| {
            let mut stat = Stat::from(&fs::symlink_metadata("/").unwrap());
            stat.size = size;
            Found {
                path: path.into(),
                stat,
            }
        };
        let mut walked = Walked {
            found: vec![found("/a", 1), found("/b", 2), found("/a", 3), found("/c", 4)],
            ..Walked::default()
        };
        walked.keep_last();
        let kept: Vec<_> = walked
            .found
            .iter()
            .map(|it| (it.path.to_str().unwrap(), it.stat.size))
            .collect();
        assert_eq!(kept, [("/b", 2), ("/a", 3), ("/c", 4)]);
    }
}
