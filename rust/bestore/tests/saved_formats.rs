//! Tests of files in earlier formats, which opening converts.
#![cfg(feature = "saved")]

mod common;

use bestore::saved::{self, Options, Saved};
use bestore::{Batch, Kind, Limits, Snapshot};
use common::earlier::convert_back;
use common::Folder;
use rusqlite::Connection;
use std::path::Path;
use std::time::Duration;

fn number(path: &Path, text: &str) -> i64 {
    let connection = Connection::open(path).unwrap();
    connection.query_row(text, [], |row| row.get(0)).unwrap()
}

fn sql(path: &Path, text: &str) {
    Connection::open(path).unwrap().execute_batch(text).unwrap();
}

fn options() -> Options {
    let limits = Limits {
        pages: 256,
        ..Limits::default()
    };
    let mut options = Options::new();
    options.limits(limits).every(Duration::from_secs(3_600));
    options
}

fn open(path: &Path) -> saved::Result<Saved> {
    options().open(path)
}

/// A file with a state in which each part of a volume occurs, and with this many entries after it. Returns its listing.
fn make(path: &Path, entries: u64) -> Vec<u8> {
    let saved = open(path).unwrap();
    let pass = saved.pass().unwrap();
    for node in 1..=50 {
        pass.new_node().unwrap();
        pass.set(node, "early", node as i64).unwrap();
    }
    for (name, kind) in [("early", Kind::Int64), ("text", Kind::Text), ("gone", Kind::Text)] {
        pass.make_index(name, kind).unwrap();
    }
    for node in 1..=50 {
        pass.set(node, "text", "letter ".to_owned() + &node.to_string())
            .unwrap();
        pass.set(node, "gone", "g").unwrap();
        pass.set(node, "raw", vec![0_u8; 3]).unwrap();
    }
    // Another index of this name doesn't have the attributes.
    pass.remove_index("gone").unwrap();
    pass.make_index("gone", Kind::Text).unwrap();
    for node in [1, 7, 50] {
        pass.remove_node(node).unwrap();
    }
    pass.set(3, "early", 9_i64).unwrap();
    pass.set(4, "text", 9_i64).unwrap();
    saved.compact().unwrap();
    for _ in 0..entries {
        let mut batch = Batch::new();
        pass.apply(batch.new_node().set(2, "early", 2_i64).set_token("token"))
            .unwrap();
    }
    let listing = listed(&saved);
    saved.close().unwrap();
    listing
}

fn of_snapshot(snapshot: &Snapshot<'_>) -> Vec<u8> {
    snapshot.listing().flat_map(Result::unwrap).collect()
}

fn listed(saved: &Saved) -> Vec<u8> {
    of_snapshot(&saved.pass().unwrap().pin().unwrap())
}

#[test]
fn a_file_of_an_earlier_format_is_converted_by_opening_it() {
    for (format, entries) in [(1, 0), (1, 5), (2, 0), (2, 5)] {
        let folder = Folder::in_memory(&format!("format-{format}-{entries}"));
        let listing = make(&folder.file(), entries);
        convert_back(&folder.file(), format);
        let read = options().load(folder.file()).unwrap();
        assert!(of_snapshot(&read.pass().unwrap().pin().unwrap()) == listing);
        assert_eq!(number(&folder.file(), "PRAGMA user_version"), format.into());
        let mut saved = open(&folder.file()).unwrap();
        assert!(listed(&saved) == listing, "format {format}, {entries} entries");
        assert_eq!(saved.take_tokens().len() as u64, entries);
        let commit = saved.pass().unwrap().status().unwrap().entries;
        // The journal in memory has only the entries after the state.
        assert_eq!(commit, entries);
        let last = saved.number_in_file(commit);
        saved.close().unwrap();
        assert_eq!(number(&folder.file(), "PRAGMA user_version"), 3);
        assert_eq!(number(&folder.file(), "SELECT count(*) FROM entry"), 0);
        let of_state = number(&folder.file(), "SELECT number FROM about WHERE what = 'entries'");
        assert_eq!(of_state as u64, last);
        let begins = number(
            &folder.file(),
            "SELECT substr(batch, 1, 4) = x'42455601' FROM state WHERE place = 0",
        );
        assert_eq!(begins, 1);
        assert!(listed(&open(&folder.file()).unwrap()) == listing);
    }
}

#[test]
fn a_conversion_that_fails_leaves_the_file_as_it_was() {
    let folder = Folder::in_memory("not converted");
    let listing = make(&folder.file(), 5);
    convert_back(&folder.file(), 2);
    let rows = "SELECT count(*) + (SELECT count(*) FROM entry) FROM state";
    let before = number(&folder.file(), rows);
    // The last statement of the conversion fails.
    let refuse = "CREATE TRIGGER refuse BEFORE INSERT ON about BEGIN SELECT RAISE(ABORT, 'refused'); END";
    sql(&folder.file(), refuse);
    let refused = open(&folder.file()).map(drop).unwrap_err();
    assert!(refused.to_string().ends_with("refused"), "{refused}");
    assert_eq!(number(&folder.file(), "PRAGMA user_version"), 2);
    assert_eq!(number(&folder.file(), rows), before);
    sql(&folder.file(), "DROP TRIGGER refuse");
    assert!(listed(&open(&folder.file()).unwrap()) == listing);
}
