//! Tests how long a file and its WAL get while entries are added, and that rewriting the state makes them short again.
#![cfg(feature = "saved")]

use bestore_types::listing::Writer;
use bestore_types::saved::file::{File, Row};
use bestore_types::Batch;
use std::path::{Path, PathBuf};
use std::{env, fs, process};

/// How many bytes a file and its WAL may take in addition to twice the bytes that the file takes after a rewrite.
const EXTRA: u64 = 1 << 20;

/// How many entries are added in one commit.
const AT_ONCE: u64 = 64;

/// How many nodes each batch of the state has.
const NODES: u64 = 16;

/// How many times the state is rewritten.
const ROUNDS: u64 = 4;

/// A folder, in memory if possible, that is removed when the test ends.
struct Folder(PathBuf);

impl Folder {
    fn new(name: &str) -> Self {
        let memory = PathBuf::from("/dev/shm");
        let parent = if memory.is_dir() { memory } else { env::temp_dir() };
        let folder = parent.join(format!("bestore-lengths-{}-{name}", process::id()));
        fs::create_dir_all(&folder).unwrap();
        Self(folder)
    }
}

impl Drop for Folder {
    fn drop(&mut self) {
        let _ = fs::remove_dir_all(&self.0);
    }
}

/// Returns the lengths of the file and of its WAL.
fn lengths(path: &Path) -> (u64, u64) {
    let length = |path: &Path| fs::metadata(path).map_or(0, |found| found.len());
    (length(path), length(&path.with_extension("bestore-wal")))
}

/// Returns a state of this many batches.
fn state(batches: u64) -> impl Iterator<Item = bestore_types::Result<Vec<u8>>> {
    (0..batches).map(|number| {
        let mut batch = Writer::new();
        for node in number * NODES + 1..=number * NODES + NODES {
            let name = format!("file {node}");
            batch.node(node);
            batch.attribute("name", name.as_str().into(), false)?;
            batch.attribute("text", "some words some words".into(), false)?;
        }
        Ok(batch.take())
    })
}

/// Adds entries until the state is due to be rewritten. Returns the last entry's number, and the greatest length of the
/// file and its WAL together.
fn write_until_due(file: &mut File, path: &Path, mut last: u64) -> (u64, u64) {
    let mut most = 0;
    while !file.is_due() {
        let rows = (last + 1..=last + AT_ONCE).map(|number| {
            let mut batch = Batch::new();
            Row::new(number, 1, batch.set(1, "count", number), &[]).unwrap()
        });
        file.append(&rows.collect::<Vec<_>>()).unwrap();
        last += AT_ONCE;
        let (length, wal) = lengths(path);
        most = most.max(length + wal);
    }
    (last, most)
}

#[test]
fn the_file_and_its_wal_stay_within_twice_the_state() {
    for batches in [1, 750] {
        let folder = Folder::new(&batches.to_string());
        let path = folder.0.join("test.bestore");
        let mut file = File::open(&path).unwrap();
        file.write_state(0, batches * NODES + 1, state(batches)).unwrap();
        let (length, wal) = lengths(&path);
        assert_eq!(wal, 0);
        let mut last = 0;
        for round in 0..ROUNDS {
            let (number, most) = write_until_due(&mut file, &path, last);
            assert!(most <= 2 * length + EXTRA, "{round}: {length}, {most}");
            last = number;
            file.write_state(last, batches * NODES + 1, state(batches)).unwrap();
            assert_eq!(lengths(&path), (length, 0), "{round}");
        }
    }
}
