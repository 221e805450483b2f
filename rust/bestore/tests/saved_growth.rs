//! Tests how much is read when a file is opened, after few writes and after many.
#![cfg(feature = "saved")]

mod common;

use bestore::listing::records;
use bestore::saved::{About, Backup, Saved};
use bestore::{Batch, Kind, Pass};
use bestore_types::saved;
use common::{resident, Folder};
use std::time::{Duration, Instant};

/// The number of pages in a store.
const PAGES: u64 = 8192;

/// The number of nodes that each batch creates.
const AT_ONCE: u64 = 16;

/// The number of writes that are saved together.
const SAVED: u64 = 64;

impl Folder {
    /// How many records of the state and how many operations of the entries are read when the file is opened.
    fn operations(&self) -> (usize, usize) {
        let contents = saved::read(self.file()).unwrap();
        let records = contents.state.iter().map(|batch| records(batch).unwrap().count());
        (records.sum(), contents.entries.iter().map(Batch::len).sum())
    }
}

/// Creates this many nodes with three attributes each, in a new file.
fn fill(folder: &Folder, nodes: u64) {
    let saved = folder.open_lazily(PAGES);
    let pass = saved.pass().unwrap();
    for first in (1..=nodes).step_by(AT_ONCE as usize) {
        let mut batch = Batch::new();
        for node in first..first + AT_ONCE {
            batch.new_node().set(node, "name", format!("file {node}"));
            batch
                .set(node, "text", "some words some words")
                .set(node, "count", 0_i64);
        }
        pass.apply(&batch).unwrap();
    }
    saved.compact().unwrap();
    drop(pass);
    saved.close().unwrap();
}

/// Performs small writes until the state is due to be rewritten.
fn write_until_due(saved: &Saved, pass: &Pass, nodes: u64) {
    let mut count = 0;
    while !saved.is_due() {
        for _ in 0..SAVED {
            count += 1;
            pass.set(count % nodes + 1, "count", count as i64).unwrap();
        }
        saved.flush().unwrap();
    }
}

/// Writes until the state has become due to be rewritten this many times, and then closes the file. This is when opening it has to apply
/// the most operations. Returns how many.
fn operations_after(folder: &Folder, nodes: u64, times: u64) -> (usize, usize) {
    let saved = folder.open_lazily(PAGES);
    let pass = saved.pass().unwrap();
    for time in 1..=times {
        write_until_due(&saved, &pass, nodes);
        if time < times {
            saved.compact().unwrap();
        }
    }
    drop(pass);
    saved.close().unwrap();
    folder.operations()
}

/// How many bytes a file may have whose nodes are gone, and the time in which it opens.
const MOST_BYTES: u64 = 100_000;
const MOMENT: Duration = Duration::from_secs(5);

/// How many bytes more of memory a process may use once it has made and removed all nodes.
const MOST_MEMORY: u64 = 64 << 20;

/// Makes this many nodes with an attribute, and removes each soon after. Compacts, and frees the journal's memory, when it is time to.
fn make_and_remove(saved: &Saved, nodes: u64) {
    let mut pass = saved.pass().unwrap();
    for first in (1..=nodes + AT_ONCE).step_by(AT_ONCE as usize) {
        let mut batch = Batch::new();
        for node in first..first + AT_ONCE {
            if node <= nodes {
                batch.new_node().set(node, "size", node as i64);
            }
            if node > AT_ONCE {
                batch.remove_node(node - AT_ONCE);
            }
        }
        pass.apply(&batch).unwrap();
        if saved.is_due() {
            saved.compact().unwrap();
        }
        if saved.store().is_due() {
            saved.store().carry_on().unwrap();
            pass.follow().unwrap();
        }
    }
    saved.compact().unwrap();
}

/// Returns the length of a backup of the store's newest snapshot.
fn backup_bytes(folder: &Folder, saved: &Saved) -> u64 {
    let mut pass = saved.pass().unwrap();
    let snapshot = pass.pin().unwrap();
    let path = folder.0.join("backup");
    let mut backup = Backup::create(&path).unwrap();
    for batch in snapshot.listing() {
        backup.add(&batch.unwrap()).unwrap();
    }
    let entries = saved.number_in_file(snapshot.number());
    let next = snapshot.next_node().unwrap();
    backup.finish(About { entries, next }).unwrap();
    path.metadata().unwrap().len()
}

/// `BESTORE_NODES` overrides how many nodes there were, a multiple of [`AT_ONCE`].
#[test]
fn a_file_does_not_grow_by_nodes_that_are_gone() {
    let folder = Folder::in_memory("growth-gone");
    let nodes = std::env::var("BESTORE_NODES").map_or(20_000, |number| number.parse().unwrap());
    let saved = folder.open_lazily(64);
    saved.pass().unwrap().make_index("size", Kind::Int64).unwrap();
    let memory = resident();
    make_and_remove(&saved, nodes);
    let more = resident().saturating_sub(memory);
    let (file, backup) = (folder.file().metadata().unwrap().len(), backup_bytes(&folder, &saved));
    saved.close().unwrap();
    let begin = Instant::now();
    let saved = folder.open_lazily(64);
    let time = begin.elapsed();
    println!("{nodes} removed nodes: file {file} B, backup {backup} B, {more} B more memory, opened in {time:?}");
    assert!(file < MOST_BYTES && backup < MOST_BYTES && more < MOST_MEMORY && time < MOMENT);
    let mut pass = saved.pass().unwrap();
    assert_eq!(pass.pin().unwrap().nodes().count(), 0);
    assert_eq!(pass.new_node().unwrap(), nodes + 1);
}

#[test]
fn opening_reads_as_much_after_many_writes_as_after_few() {
    for nodes in [AT_ONCE, 12_000] {
        let folder = Folder::in_memory(&format!("growth-{nodes}"));
        fill(&folder, nodes);
        let all = folder.operations();
        assert_eq!(all.1, 0);
        let few = operations_after(&folder, nodes, 1);
        let many = operations_after(&folder, nodes, 4);
        assert_eq!([few.0, many.0], [all.0; 2]);
        assert!(
            few.1.max(many.1) <= few.1.min(many.1) + SAVED as usize,
            "{few:?}, {many:?}"
        );
        assert!(many.1 < 12_000 || 10 * many.1 < 3 * all.0, "{all:?}, {many:?}");
    }
}
