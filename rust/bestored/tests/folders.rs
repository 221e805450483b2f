//! Tests servers that open a folder of volumes, as 0.4.0 kept them. The folder becomes one file, in which nodes have the numbers that
//! clients saw.

use crate::common::{command, Folder, Random, Server};
use bestore::{Batch, Kind};
use bestore_client::wire::{Command, Nothing};
use bestore_client::Client;
use rusqlite::Connection;
use std::fs;
use std::path::{Path, PathBuf};
use std::thread;
use std::time::Duration;

/// The numbers of a volume's nodes begin at this multiple of its own number.
const VOLUME: u64 = 100_000_000_000_000;

/// The tables of a file that 0.4.0 has written.
const TABLES: &str = "
    PRAGMA journal_mode = WAL;
    PRAGMA application_id = 1650815860;
    PRAGMA user_version = 1;
    CREATE TABLE about (what TEXT PRIMARY KEY, number INTEGER NOT NULL) WITHOUT ROWID;
    CREATE TABLE state (place INTEGER PRIMARY KEY, batch BLOB NOT NULL);
    CREATE TABLE entry (number INTEGER PRIMARY KEY, pass INTEGER NOT NULL, batch BLOB NOT NULL);
    CREATE TABLE token (number INTEGER PRIMARY KEY, token TEXT NOT NULL, nodes BLOB NOT NULL);
";

/// Writes a volume's file: its state has these batches, and the next new node after it this number. The entries come after the state.
fn write_volume(path: &Path, state: &[Batch], next: u64, entries: &[Batch]) {
    let file = Connection::open(path).unwrap();
    file.execute_batch(TABLES).unwrap();
    for (what, number) in [("entries", state.len() as u64), ("next", next)] {
        file.execute("INSERT INTO about VALUES (?1, ?2)", (what, number))
            .unwrap();
    }
    for (place, batch) in state.iter().enumerate() {
        let row = (place, batch.to_bytes().unwrap());
        file.execute("INSERT INTO state VALUES (?1, ?2)", row).unwrap();
    }
    for (number, batch) in (state.len() + 1..).zip(entries) {
        let row = (number, batch.to_bytes().unwrap());
        file.execute("INSERT INTO entry VALUES (?1, 1, ?2)", row).unwrap();
    }
}

/// Writes a folder of volumes. In each, node 1 has the volume's number as its size, node 2 has been removed, and node 3 is in an entry. The
/// first node's name was set before there was an index for names.
fn write_folder(path: &Path, volumes: u64) {
    fs::create_dir(path).unwrap();
    for volume in 0..volumes {
        let mut made = Batch::new();
        made.new_node().set(1, "name", format!("first {volume}")).new_node();
        let mut indexed = Batch::new();
        indexed
            .make_index("size", Kind::Int64)
            .make_index("name", Kind::Text)
            .set(1, "size", volume as i64)
            .remove_node(2);
        let mut entry = Batch::new();
        entry.new_node().set(3, "name", format!("third {volume}"));
        entry.set_nodes(&[3]);
        let path = path.join(format!("{volume}.bestore"));
        write_volume(&path, &[made, indexed], 3, &[entry]);
    }
}

/// Checks that the server has the contents of such a folder.
fn check_folder(client: &mut Client, volumes: u64) {
    let kinds: Vec<_> = client.indices().unwrap().into_iter().collect();
    assert_eq!(kinds, [("name".into(), Kind::Text), ("size".into(), Kind::Int64)]);
    let numbered = |number: u64| (0..volumes).map(move |volume| volume * VOLUME + number);
    assert_eq!(client.query("size>=0").unwrap(), numbered(1).collect::<Vec<_>>());
    // The index lacks the first nodes' names.
    assert_eq!(client.query("name==*").unwrap(), numbered(3).collect::<Vec<_>>());
    for (volume, node) in (0..volumes).zip(numbered(1)) {
        let name = client.get(node, "name").unwrap();
        assert_eq!(name, Some(format!("first {volume}").into()));
    }
}

/// Returns the path of the folder once a file has taken its place.
fn aside(path: &Path) -> PathBuf {
    let mut name = path.as_os_str().to_owned();
    name.push("-0.4");
    name.into()
}

#[test]
fn a_folder_of_two_volumes_becomes_a_file() {
    let folder = Folder::new();
    let path = folder.join("files");
    write_folder(&path, 2);
    let options = ["--pages", "256", "--keep", path.to_str().unwrap()];
    let server = Server::start(&folder, &options);
    let mut client = server.patient_client();
    check_folder(&mut client, 2);
    assert!(path.is_file() && aside(&path).join("1.bestore").is_file());
    let mut batch = Batch::new();
    batch.new_node().set(1, "size", 9_i64).remove_node(VOLUME + 3);
    assert_eq!(client.apply(&batch).unwrap().nodes, [VOLUME + 4]);
    // The file is opened again like any other.
    for _ in 0..2 {
        server.kill();
        let server = Server::start(&folder, &options);
        let mut client = server.patient_client();
        assert_eq!(client.query("size==9 || name==\"t*\"").unwrap(), [1, 3]);
        assert_eq!(client.pin().unwrap().next, VOLUME + 5);
        client.unpin().unwrap();
        client.call::<Nothing>(Command::Compact(Nothing {})).unwrap();
        server.kill();
    }
}

/// Servers are killed while they make the file. Whatever has been done then, the next one begins again.
#[test]
fn a_server_that_is_killed_on_the_way_loses_nothing_of_64_volumes() {
    const VOLUMES: u64 = 64;
    let mut random = Random::new(5);
    let (mut before, mut after) = (0, 0);
    for _ in 0..6 {
        let folder = Folder::in_memory();
        let path = folder.join("files");
        write_folder(&path, VOLUMES);
        let options = ["--pages", "1024", "--keep", path.to_str().unwrap()];
        for _ in 0..6 {
            let server = Server::start_only(&folder, &options);
            thread::sleep(Duration::from_micros(random.below(60_000)));
            server.kill();
            match path.is_dir() {
                true => before += 1,
                false => after += 1,
            }
        }
        let server = Server::start(&folder, &options);
        check_folder(&mut server.patient_client(), VOLUMES);
        assert!(path.is_file() && aside(&path).is_dir());
    }
    println!("killed {before} servers before the file was there, and {after} after that");
}

#[test]
fn an_index_with_different_kinds_is_refused_with_both() {
    let folder = Folder::new();
    let path = folder.join("files");
    fs::create_dir(&path).unwrap();
    for (volume, kind) in [(0, Kind::Text), (1, Kind::Text), (2, Kind::Int32)] {
        let mut state = Batch::new();
        state.make_index("size", kind);
        write_volume(&path.join(format!("{volume}.bestore")), &[state], 1, &[]);
    }
    let options = ["--keep", path.to_str().unwrap()];
    let ended = command(&folder.join("socket"), &options).output().unwrap();
    let error = String::from_utf8_lossy(&ended.stderr).into_owned();
    assert!(!ended.status.success() && path.is_dir(), "{error}");
    for said in ["\"size\"", "volume 0", "volume 2", "text", "i32"] {
        assert!(error.contains(said), "{error}");
    }
}
