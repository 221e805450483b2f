//! Tests of backing up a server even while others write, of restoring backups, and of the errors.

use crate::common::refuser::Refuser;
use crate::common::{send_signal, Said, Server};
use bestore::saved::Options;
use bestore::{Batch, Pass};
use bestore_client::Client;
use rusqlite::Connection;
use serde_json::Value;
use std::fs;
use std::os::unix::fs::PermissionsExt;
use std::os::unix::process::ExitStatusExt;
use std::path::{Path, PathBuf};
use std::process::ExitStatus;
use std::sync::atomic::{AtomicBool, AtomicU64, Ordering::SeqCst};
use std::sync::mpsc::channel;
use std::thread;
use std::time::Duration;

/// The number of clients that write, each to its own node.
const WRITERS: u64 = 4;

/// The number of backups made while they write.
const BACKUPS: u64 = 5;

fn refused(said: &Said, why: &str) {
    assert_eq!((said.status, said.out.as_str()), (1, ""), "{said:?}");
    assert!(said.error.starts_with("be: ") && said.error.contains(why), "{said:?}");
}

/// Returns the path of a file in the server's folder.
fn file(server: &Server, name: &str) -> PathBuf {
    server.socket().with_file_name(name)
}

fn text(path: &Path) -> &str {
    path.to_str().unwrap()
}

/// Makes a backup, and returns what the tool reports about it.
fn back_up(server: &Server, path: &Path) -> Value {
    serde_json::from_str(&server.done(&["backup", "--json", text(path)])).unwrap()
}

/// Returns the line about the snapshot, and those for its indices and nodes.
fn dump(server: &Server) -> (Value, String) {
    let said = server.done(&["dump"]);
    let (about, contents) = said.split_once('\n').unwrap();
    (serde_json::from_str(about).unwrap(), contents.into())
}

fn load(path: &Path) -> Pass {
    Options::new().load(path).unwrap().pass().unwrap()
}

/// Starts a server that keeps its store in a file, with an index and three nodes that are entries in the file.
fn kept_with_entries() -> Option<Server> {
    let server = Server::start_with(&["--keep", "kept"])?;
    server.done(&["mkindex", "name"]);
    for name in ["a", "b", "c"] {
        server.done(&["addattr", "--new", "name", name]);
    }
    Some(server)
}

#[test]
fn a_backup_is_a_file_that_a_server_opens_and_another_restores() {
    let server = server!(Server::with_three());
    let path = file(&server, "backup");
    let (about, contents) = dump(&server);
    assert_eq!(back_up(&server, &path), about);
    assert_eq!(about["next"], 4);
    assert_eq!(fs::metadata(&path).unwrap().permissions().mode() & 0o7777, 0o600);

    let copy = file(&server, "copy");
    fs::copy(&path, &copy).unwrap();
    let opened = server!(Server::start_with(&["--keep", text(&copy)]));
    let (of_copy, contents_of_copy) = dump(&opened);
    assert_eq!(contents_of_copy, contents);
    assert_ne!(of_copy["run"], about["run"]);
    // New nodes get the same numbers as they would on the first server.
    assert_eq!(opened.done(&["addattr", "--new", "name", "d"]), "4\n");

    let restored = server!(Server::start());
    let said = restored.done(&["restore", text(&path)]);
    assert!(said.starts_with(&format!("{}: commit ", text(&path))), "{said}");
    let (of_restored, contents_of_restored) = dump(&restored);
    assert_eq!(contents_of_restored, contents);
    assert_ne!(of_restored["run"], about["run"]);
    refused(
        &restored.be(&["restore", text(&path)]),
        "the server's store isn't empty",
    );
}

#[test]
fn what_is_there_is_not_replaced() {
    let server = server!(Server::with_three());
    let names = || {
        let names = fs::read_dir(server.socket().parent().unwrap()).unwrap();
        let mut names: Vec<_> = names.map(|entry| entry.unwrap().file_name()).collect();
        names.sort();
        names
    };
    let path = file(&server, "there");
    fs::write(&path, "mine").unwrap();
    let before = names();
    refused(&server.be(&["backup", text(&path)]), "exists, and won't be overwritten");
    refused(
        &server.be(&["backup", "no/such/folder"]),
        "be: no/such/folder: No such file",
    );
    assert_eq!(fs::read_to_string(&path).unwrap(), "mine");
    assert_eq!(names(), before);
}

/// Returns how many unfinished backups are in the server's folder.
fn unfinished(server: &Server) -> usize {
    let names = fs::read_dir(server.socket().parent().unwrap()).unwrap();
    let names = names.map(|entry| entry.unwrap().file_name());
    names.filter(|name| name.to_string_lossy().ends_with(".part")).count()
}

/// Begins a backup, and sends the tool a signal while it waits for a part of the snapshot. Returns how the tool has ended.
fn interrupted(server: &Server, path: &Path, signal: &str) -> ExitStatus {
    let refuser = Refuser::start(server);
    let (asks, asked) = channel();
    let (ends, ended) = channel::<()>();
    refuser.before(r#""state":"#, move || {
        asks.send(()).unwrap();
        let _ = ended.recv();
    });
    let mut child = refuser.command(server, &["backup", text(path)]).spawn().unwrap();
    asked.recv_timeout(Duration::from_secs(20)).unwrap();
    assert_eq!(unfinished(server), 1);
    send_signal(&child, signal);
    let status = child.wait().unwrap();
    drop(ends);
    status
}

#[test]
fn a_backup_that_a_signal_interrupts_is_removed() {
    let server = server!(Server::start_with(&["--pages", "256"]));
    let path = file(&server, "backup");
    let status = interrupted(&server, &path, "-TERM");
    assert_eq!((status.signal(), unfinished(&server)), (Some(libc::SIGTERM), 0));
    assert!(!path.exists());
    back_up(&server, &path);
}

#[test]
fn a_backup_that_fails_is_removed() {
    let server = server!(Server::with_three());
    let path = file(&server, "backup");
    let refuser = Refuser::start(&server);
    let other = path.clone();
    refuser.before(r#""state":"#, move || fs::write(other, "mine").unwrap());
    let said = refuser.be(&server, &["backup", text(&path)]);
    refused(&said, "exists, and won't be overwritten");
    assert_eq!((unfinished(&server), fs::read(&path).unwrap()), (0, b"mine".to_vec()));
}

/// What a killed backup has written stays, and doesn't hinder the next one.
#[test]
fn a_backup_that_was_killed_is_made_again() {
    let server = server!(Server::with_three());
    let path = file(&server, "backup");
    let status = interrupted(&server, &path, "-KILL");
    assert_eq!((status.signal(), unfinished(&server)), (Some(libc::SIGKILL), 1));
    back_up(&server, &path);
    assert_eq!(unfinished(&server), 1);
}

#[test]
fn what_is_no_backup_is_not_restored() {
    let server = server!(Server::start());
    let path = file(&server, "other");
    fs::write(&path, "no database").unwrap();
    refused(
        &server.be(&["restore", text(&path)]),
        "the file belongs to another program",
    );
    refused(&server.be(&["restore", text(&file(&server, "none"))]), "none: ");
    fs::write(&path, "").unwrap();
    refused(
        &server.be(&["restore", text(&path)]),
        "the file belongs to another program",
    );
    assert_eq!(Client::connect(server.socket()).unwrap().status().unwrap().entries, 0);
}

/// A server's own file has entries after its state. The nodes in those entries keep their numbers too.
#[test]
fn a_kept_file_with_entries_is_restored() {
    let mut server = server!(kept_with_entries());
    // Reopening the file writes its state; every later write is an entry.
    server.end();
    server.start_again();
    Client::connect(server.socket())
        .unwrap()
        .apply(Batch::new().remove_node(2))
        .unwrap();
    server.done(&["addattr", "--new", "name", "d"]);
    let contents = dump(&server).1;
    server.end();
    let restored = server!(Server::start());
    restored.done(&["restore", text(&file(&server, "kept"))]);
    assert_eq!(dump(&restored).1, contents);
    assert_eq!(restored.done(&["query", "name>=\"c\""]), "3\n4\n");
    assert_eq!(restored.done(&["addattr", "--new", "name", "e"]), "5\n");
}

/// The bytes of an integer, and of a text or blob, over which a row's checksum is computed.
fn integer(number: i64) -> Vec<u8> {
    number.to_le_bytes().to_vec()
}

fn blob(bytes: &[u8]) -> Vec<u8> {
    [&integer(bytes.len() as i64), bytes].concat()
}

/// Gives each row of a file the checksum that fits it.
fn repair(path: &Path) {
    let file = Connection::open(path).unwrap();
    let write = |table: &str, key: &str, name: &dyn rusqlite::ToSql, row: &[u8]| {
        let sql = format!("UPDATE {table} SET checksum = ?1 WHERE {key} = ?2");
        file.execute(&sql, [&crc32fast::hash(row) as &dyn rusqlite::ToSql, name])
            .unwrap();
    };
    let mut about = file.prepare("SELECT what, number FROM about").unwrap();
    let mut rows = about.query([]).unwrap();
    while let Some(row) = rows.next().unwrap() {
        let (what, number): (String, i64) = (row.get(0).unwrap(), row.get(1).unwrap());
        write(
            "about",
            "what",
            &what,
            &[blob(what.as_bytes()), integer(number)].concat(),
        );
    }
    for (table, key, columns) in [
        ("state", "place", "place, batch"),
        ("entry", "number", "number, batch, pass"),
    ] {
        let mut found = file.prepare(&format!("SELECT {columns} FROM {table}")).unwrap();
        let mut rows = found.query([]).unwrap();
        while let Some(row) = rows.next().unwrap() {
            let (number, batch): (i64, Vec<u8>) = (row.get(0).unwrap(), row.get(1).unwrap());
            let pass = row.get(2).map(integer).unwrap_or_default();
            write(table, key, &number, &[integer(number), pass, blob(&batch)].concat());
        }
    }
}

/// Changes a backup of three nodes, with or without the checksum that fits, and checks that restoring it is refused. Returns how many
/// entries the target server has afterwards.
fn restore_changed(change: &str, has_checksum: bool, why: &str) -> Option<u64> {
    let server = Server::with_three()?;
    let path = file(&server, "backup");
    back_up(&server, &path);
    Connection::open(&path).unwrap().execute_batch(change).unwrap();
    if has_checksum {
        repair(&path);
    }
    let other = Server::start()?;
    refused(&other.be(&["restore", text(&path)]), why);
    Some(Client::connect(other.socket()).unwrap().status().unwrap().entries)
}

#[test]
fn a_changed_backup_is_refused_with_the_place() {
    for (change, why, is_written) in [
        (
            "UPDATE state SET batch = X'42' WHERE place = 0",
            "batch 0 of the state: ",
            false,
        ),
        (
            "INSERT INTO entry (number, pass, batch) VALUES (99, 0, X'4245420100')",
            "the entry is missing",
            false,
        ),
        (
            "UPDATE about SET number = 1 WHERE what = 'next'",
            "the batches don't list a store's contents: there is no such node",
            false,
        ),
        // An entry that removes node 77.
        (
            "INSERT INTO entry (number, pass, batch) SELECT number + 1, 0, X'4245420101014D00000000000000' FROM about WHERE what = 'entries'",
            "there is no such node\n  the server has only what comes before",
            true,
        ),
    ] {
        if let Some(entries) = restore_changed(change, false, "is damaged: its checksum doesn't match") {
            assert_eq!(entries, 0, "{change}");
        }
        if let Some(entries) = restore_changed(change, true, why) {
            assert_eq!(entries > 0, is_written, "{change}");
        }
    }
}

#[test]
fn what_comes_before_a_damaged_entry_is_restored() {
    let mut server = server!(kept_with_entries());
    server.end();
    let kept = file(&server, "kept");
    let damage =
        "UPDATE entry SET batch = CAST(substr(batch, 1, 20) || 'x' || substr(batch, 22) AS BLOB) WHERE number = 3";
    Connection::open(&kept).unwrap().execute_batch(damage).unwrap();

    let restored = server!(Server::start());
    refused(
        &restored.be(&["restore", text(&kept)]),
        "kept: entry 3 is damaged: its checksum doesn't match; be restore --until 2 restores what comes before it",
    );
    refused(&restored.be(&["restore", "--until", "3", text(&kept)]), "--until 2");
    let said = restored.be(&["restore", "--until", "x", text(&kept)]);
    assert!(said.status == 2 && said.error.contains("--until <N>"), "{said:?}");
    restored.done(&["restore", "--until", "2", text(&kept)]);
    assert_eq!(restored.done(&["query", "name==\"*\""]), "1\n");
}

/// What the writing clients know: for each of them, how many of its writes have been acknowledged.
#[derive(Default)]
struct Writers {
    answered: [AtomicU64; WRITERS as usize],
    is_over: AtomicBool,
}

impl Writers {
    /// Creates the writers' nodes. Returns the commit number before the first write.
    fn begin(client: &mut Client) -> u64 {
        let mut batch = Batch::new();
        for node in 1..=WRITERS {
            batch.new_node().set(node, "count", 0_u64);
        }
        client.apply(&batch).unwrap().number
    }

    /// Increments a count in the writer's node by one with each write.
    fn write(&self, socket: &Path, node: u64) {
        let mut client = Client::connect(socket).unwrap();
        let answered = &self.answered[node as usize - 1];
        while !self.is_over.load(SeqCst) {
            let count = answered.load(SeqCst) + 1;
            client.apply(Batch::new().set(node, "count", count)).unwrap();
            answered.store(count, SeqCst);
        }
    }

    /// Makes a backup while they write. It must have the state at the commit that it names, including every write acknowledged before the
    /// backup.
    fn check_backup(&self, server: &Server, path: &Path, begin: u64) {
        let before: Vec<_> = self.answered.iter().map(|count| count.load(SeqCst)).collect();
        let about = back_up(server, path);
        let mut pass = load(path);
        let snapshot = pass.pin().unwrap();
        let counts = (1..=WRITERS).map(|node| snapshot.get(node, "count").unwrap().unwrap().as_u64().unwrap());
        let counts: Vec<_> = counts.collect();
        // Each write is one commit, and increments a count by one.
        assert_eq!(about["commit"], begin + counts.iter().sum::<u64>());
        assert!(counts.iter().zip(&before).all(|(count, before)| count >= before));
    }
}

fn back_up_under_writers(options: &[&str]) {
    let server = server!(Server::start_with(options));
    let begin = Writers::begin(&mut Client::connect(server.socket()).unwrap());
    let writers = Writers::default();
    thread::scope(|scope| {
        for node in 1..=WRITERS {
            let (writers, socket) = (&writers, server.socket());
            scope.spawn(move || writers.write(&socket, node));
        }
        for number in 0..BACKUPS {
            writers.check_backup(&server, &file(&server, &format!("backup{number}")), begin);
        }
        writers.is_over.store(true, SeqCst);
    });
}

#[test]
fn a_backup_is_the_state_of_one_commit_while_others_write() {
    back_up_under_writers(&["--keep", "kept"]);
    back_up_under_writers(&["--pages", "1024"]);
}
