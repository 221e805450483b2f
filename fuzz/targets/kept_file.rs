//! Opens a kept file with the rows from the input. A file that opens must open again as it was left. If it doesn't open, the error
//! must say where the fault is.
//!
//! An input consists of the two numbers in the table `about`, a byte with the number of batches in `state`, and these batches. Then come the
//! entries: for each, a byte that is added to the next number, and the entry's batch. If the byte has its highest bit, the file has the
//! current format, whose state is a listing, with the right checksums; otherwise it has the first one.
#![no_main]

use bestore::saved::{self, Error, Saved};
use bestore::{Batch, Limits};
use bestore_fuzz::Input;
use bestore_types::raw::crc32;
use rusqlite::Connection;
use std::cell::RefCell;
use std::path::{Path, PathBuf};

const TABLES: &str = "
    PRAGMA application_id = 1650815860;
    PRAGMA synchronous = OFF;
    CREATE TABLE about (what TEXT PRIMARY KEY, number INTEGER NOT NULL, checksum INTEGER) WITHOUT ROWID;
    CREATE TABLE state (place INTEGER PRIMARY KEY, batch BLOB NOT NULL, checksum INTEGER);
    CREATE TABLE entry (number INTEGER PRIMARY KEY, pass INTEGER NOT NULL, batch BLOB NOT NULL, checksum INTEGER);
    CREATE TABLE token (number INTEGER PRIMARY KEY, token TEXT NOT NULL, nodes BLOB NOT NULL, checksum INTEGER);
";

const FIRST_FORMAT: &str = "
    PRAGMA user_version = 1;
    ALTER TABLE about DROP COLUMN checksum;
    ALTER TABLE state DROP COLUMN checksum;
    ALTER TABLE entry DROP COLUMN checksum;
    ALTER TABLE token DROP COLUMN checksum;
";

bestore_fuzz::target!(|input| {
    let folder = Folder::new();
    let path = folder.0.join("fuzz.bestore");
    if write_file(&path, &mut Input::new(input)).is_err() {
        // Two entries have the same number, so the file can't be written.
        return;
    }
    let read = bestore_types::saved::read(&path);
    match open(&path) {
        Ok(saved) => {
            read.expect("a file that opens is read without a store too");
            goes_on(saved, &path);
        }
        Err(Error::Differs { .. } | Error::TooLarge { .. }) => {}
        Err(error) => panic!("the file is refused as {error:?}"),
    }
});

fn number(number: i64) -> [u8; 8] {
    number.to_le_bytes()
}

/// A text or blob as it is encoded for a checksum.
fn bytes(bytes: &[u8]) -> Vec<u8> {
    [&(bytes.len() as u64).to_le_bytes()[..], bytes].concat()
}

fn add_about(file: &Connection, what: &str, value: i64) -> rusqlite::Result<usize> {
    let sum = crc32(&[&bytes(what.as_bytes())[..], &number(value)].concat());
    file.execute("INSERT INTO about VALUES (?, ?, ?)", (what, value, sum))
}

fn write_file(path: &Path, input: &mut Input<'_>) -> rusqlite::Result<()> {
    let file = Connection::open(path)?;
    file.execute_batch(TABLES)?;
    let entries = input.number() as i64;
    let next = input.number() as i64;
    let form = input.byte();
    for (what, value) in [("entries", entries), ("next", next), ("file", 1)] {
        add_about(&file, what, value)?;
    }
    for place in 0..i64::from(form % 4) {
        let batch = input.part();
        let sum = crc32(&[&number(place)[..], &bytes(batch)].concat());
        file.execute("INSERT INTO state VALUES (?, ?, ?)", (place, batch, sum))?;
    }
    let mut due = entries;
    while !input.is_empty() {
        due = due.wrapping_add(1).wrapping_add(i64::from(input.byte() as i8));
        let batch = input.part();
        let sum = crc32(&[&number(due)[..], &number(0), &bytes(batch)].concat());
        file.execute("INSERT INTO entry VALUES (?, 0, ?, ?)", (due, batch, sum))?;
    }
    match form < 128 {
        true => file.execute_batch(FIRST_FORMAT),
        false => file.execute_batch("PRAGMA user_version = 3"),
    }
}

fn open(path: &Path) -> saved::Result<Saved> {
    let limits = Limits {
        pages: 64,
        passes: 2,
        commits: 100,
    };
    saved::Options::new().limits(limits).open(path)
}

/// Checks that a write to the opened file is still there when the file is opened again.
fn goes_on(saved: Saved, path: &Path) {
    let pass = saved.pass().expect("there is a pass");
    let written = pass.apply(Batch::new().new_node());
    drop(pass);
    let before = shown(&saved);
    saved.close().expect("the file is closed");
    let saved = open(path).expect("a file that was closed is opened");
    assert_eq!(shown(&saved), before, "after the write {written:?}");
}

/// Returns the current snapshot's listing.
fn shown(saved: &Saved) -> Vec<Vec<u8>> {
    let mut pass = saved.pass().expect("there is a pass");
    let snapshot = pass.pin().expect("the pass is pinned");
    snapshot
        .listing()
        .map(|batch| batch.expect("the state is read"))
        .collect()
}

thread_local! {
    static COUNT: RefCell<u64> = RefCell::default();
}

/// A folder, in memory if possible, which is removed when the run ends.
struct Folder(PathBuf);

impl Folder {
    fn new() -> Self {
        let number = COUNT.with(|count| {
            *count.borrow_mut() += 1;
            *count.borrow()
        });
        let memory = Path::new("/dev/shm");
        let parent = if memory.is_dir() {
            memory.to_path_buf()
        } else {
            std::env::temp_dir()
        };
        let path = parent.join(format!("bestore-fuzz-{}-{number}", std::process::id()));
        std::fs::create_dir(&path).expect("there is room for a folder");
        Self(path)
    }
}

impl Drop for Folder {
    fn drop(&mut self) {
        let _ = std::fs::remove_dir_all(&self.0);
    }
}
