//! Code that the tests share. Not every test uses all of it.
#![allow(dead_code)]

#[cfg(feature = "saved")]
pub mod earlier;
pub mod filling;
#[cfg(feature = "saved")]
pub mod preload;

#[cfg(feature = "saved")]
use bestore::saved::{Options, Saved};
use bestore::{Kind, Limits, Pass, Retry, Store};
use std::fs;
use std::path::{Path, PathBuf};
use std::time::Duration;

/// For a busy machine and for valgrind, where another thread may be in the middle of a call for longer than a pass usually waits.
pub const PATIENT: Retry = Retry {
    within: Duration::from_secs(60),
    change_within: Duration::from_secs(60),
    busy: u32::MAX,
    full: u32::MAX,
    conflict: u32::MAX,
};

/// A test's folder, which is removed when the test ends.
pub struct Folder(pub PathBuf);

impl Folder {
    /// An empty folder.
    pub fn new(name: &str) -> Self {
        let folder = Self::absent(name);
        fs::create_dir_all(&folder.0).unwrap();
        folder
    }

    /// A folder that doesn't exist yet.
    pub fn absent(name: &str) -> Self {
        let path = Path::new(env!("CARGO_TARGET_TMPDIR")).join(name);
        let _ = fs::remove_dir_all(&path);
        Self(path)
    }

    /// A folder that is in memory if possible, for a test that opens or saves many files.
    pub fn in_memory(name: &str) -> Self {
        let name = format!("bestore-{}-{name}", std::process::id());
        let path = Path::new("/dev/shm").join(&name);
        match fs::create_dir(&path) {
            Ok(()) => Self(path),
            Err(_) => Self::new(&name),
        }
    }

    /// The file of a test's store.
    pub fn file(&self) -> PathBuf {
        self.0.join("test.bestore")
    }
}

#[cfg(feature = "saved")]
impl Folder {
    /// Opens the file as a store with this many pages. Writes are saved when the test flushes them, or after an hour.
    pub fn open_lazily(&self, pages: u64) -> Saved {
        let limits = Limits {
            pages,
            ..Limits::default()
        };
        let mut options = Options::new();
        options.limits(limits).every(Duration::from_secs(3_600));
        options.open(self.file()).unwrap()
    }
}

impl Drop for Folder {
    fn drop(&mut self) {
        let _ = fs::remove_dir_all(&self.0);
    }
}

/// Returns how many bytes of this process are in memory, assuming pages of 4 KiB or more.
pub fn resident() -> u64 {
    let read = std::fs::read_to_string("/proc/self/statm").unwrap();
    let pages: u64 = read.split(' ').nth(1).unwrap().parse().unwrap();
    pages * 4096
}

/// A small store.
pub fn store() -> Store {
    sized(256)
}

/// A store with this many pages.
pub fn sized(pages: u64) -> Store {
    let limits = Limits {
        pages,
        ..Limits::default()
    };
    Store::open(limits).unwrap()
}

/// A pass of a store whose other passes are in other threads.
pub fn patient(store: &Store) -> Pass {
    let mut pass = store.pass().unwrap();
    pass.set_retry(PATIENT);
    pass
}

/// A small store with this many passes.
pub fn shared(passes: u64) -> Store {
    let limits = Limits {
        pages: 64,
        passes,
        ..Limits::default()
    };
    Store::open(limits).unwrap()
}

/// A pass of a small store with an index `size` of kind `Int64`, and nodes 1 to 10 with sizes 1 to
/// 10.
pub fn ten() -> Pass {
    let pass = store().pass().unwrap();
    pass.make_index("size", Kind::Int64).unwrap();
    for size in 1..=10_i64 {
        let node = pass.new_node().unwrap();
        pass.set(node, "size", size).unwrap();
    }
    pass
}
