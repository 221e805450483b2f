//! Tests of kept stores: reopening, errors, full disks, and killed processes.
#![cfg(feature = "saved")]

mod common;

use bestore::saved::{self, Error as SavedError, Options, Place, Saved};
use bestore::{Batch, Error, Kind, Limits, Live, Pass, Value};
use bestore_types::saved::file::File;
use common::earlier::convert_back;
use common::Folder;
use rusqlite::Connection;
use std::collections::BTreeMap;
use std::fs::{self, Permissions};
use std::io::{BufRead, BufReader, Write};
use std::os::unix::fs::{symlink, PermissionsExt};
use std::path::{Path, PathBuf};
use std::process::{Child, Command, Stdio};
use std::thread;
use std::time::{Duration, SystemTime, UNIX_EPOCH};

fn sql(path: &Path, text: &str) {
    Connection::open(path).unwrap().execute_batch(text).unwrap();
}

fn number(path: &Path, text: &str) -> i64 {
    let connection = Connection::open(path).unwrap();
    connection.query_row(text, [], |row| row.get(0)).unwrap()
}

/// Creates a file with an index and three nodes, and closes it.
fn three(path: &Path) {
    let saved = saved::open(path).unwrap();
    let mut pass = saved.pass().unwrap();
    pass.make_index("size", Kind::Int64).unwrap();
    for size in 1..=3_i64 {
        file_size(&mut pass, size).unwrap();
    }
    saved.close().unwrap();
}

/// A folder that contains such a file.
fn of_three(name: &str) -> Folder {
    let folder = Folder::new(name);
    three(&folder.file());
    folder
}

fn file_size(pass: &mut Pass, size: i64) -> bestore::Result<u64> {
    pass.change(|change| {
        let node = change.new_node();
        change.set(node, "size", size)?;
        Ok(node)
    })
}

fn sizes(pass: &mut Pass) -> Vec<u64> {
    pass.pin().unwrap().query("size>0").unwrap()
}

#[test]
fn what_was_written_is_there_again() {
    let folder = of_three("again");
    for round in 0..3 {
        let saved = saved::open(folder.file()).unwrap();
        let mut pass = saved.pass().unwrap();
        let before = sizes(&mut pass).len() as u64;
        assert_eq!(before, 3 + round);
        let commit = pass.pin().unwrap().number();
        assert_eq!(saved.number_in_file(commit), 4 + 2 * round);
        assert_eq!(file_size(&mut pass, 9).unwrap(), before + 1);
        pass.set(1, "round", round).unwrap();
        saved.close().unwrap();
    }
    let saved = saved::open(folder.file()).unwrap();
    let mut pass = saved.pass().unwrap();
    let snapshot = pass.pin().unwrap();
    assert_eq!(snapshot.get(1, "round").unwrap(), Some(Value::Uint64(2)));
    assert_eq!(snapshot.get(6, "size").unwrap(), Some(Value::Int64(9)));
    assert_eq!(snapshot.indices().unwrap(), [("size".to_owned(), Kind::Int64)]);
}

/// The mode of each file in the folder, by name.
fn modes(folder: &Folder) -> BTreeMap<String, u32> {
    let files = std::fs::read_dir(&folder.0).unwrap().flatten();
    let mode = |file: &std::fs::DirEntry| file.metadata().unwrap().permissions().mode() & 0o7777;
    files
        .map(|file| (file.file_name().into_string().unwrap(), mode(&file)))
        .collect()
}

#[test]
fn the_user_alone_may_read_a_file() {
    let folder = Folder::new("modes");
    let saved = saved::open(folder.file()).unwrap();
    saved.pass().unwrap().new_node().unwrap();
    let found = modes(&folder);
    assert!(found.contains_key("test.bestore-wal"), "{found:?}");
    assert!(found.values().all(|mode| *mode == 0o600), "{found:?}");
    saved.close().unwrap();
    // The mode of a file isn't changed if someone else has set it.
    std::fs::set_permissions(folder.file(), Permissions::from_mode(0o640)).unwrap();
    let saved = saved::open(folder.file()).unwrap();
    saved.pass().unwrap().new_node().unwrap();
    let mut found = modes(&folder);
    assert_eq!(found.remove("test.bestore-last"), Some(0o600));
    assert!(
        found.len() > 1 && found.values().all(|mode| *mode == 0o640),
        "{found:?}"
    );
}

#[test]
fn the_user_alone_may_read_a_file_that_a_link_names_first() {
    let folder = Folder::new("linked");
    symlink("elsewhere", folder.file()).unwrap();
    let saved = saved::open(folder.file()).unwrap();
    saved.pass().unwrap().new_node().unwrap();
    std::fs::remove_file(folder.file()).unwrap();
    let found = modes(&folder);
    assert!(found.contains_key("elsewhere-wal"), "{found:?}");
    assert!(found.values().all(|mode| *mode == 0o600), "{found:?}");
}

#[test]
fn writers_on_several_passes_share_the_file() {
    let folder = Folder::new("writers");
    let saved = saved::open(folder.file()).unwrap();
    let mut reader = saved.pass().unwrap();
    reader.make_index("size", Kind::Int64).unwrap();
    thread::scope(|scope| {
        for _ in 0..4 {
            scope.spawn(|| {
                let mut pass = saved.pass().unwrap();
                for size in 1..=25 {
                    file_size(&mut pass, size).unwrap();
                }
            });
        }
        saved.compact().unwrap();
    });
    let mut live = Live::new("size>0").unwrap();
    assert_eq!(live.refresh(&reader.pin().unwrap()).unwrap().created.len(), 100);
    saved.close().unwrap();
    let saved = saved::open(folder.file()).unwrap();
    assert_eq!(sizes(&mut saved.pass().unwrap()).len(), 100);
}

/// The next number in a pseudo-random sequence.
fn next_random(state: &mut u64, below: u64) -> u64 {
    *state ^= *state << 13;
    *state ^= *state >> 7;
    *state ^= *state << 17;
    *state % below
}

/// A random operation, one of the six kinds. The store refuses some of these operations.
fn random_batch(random: &mut u64) -> Batch {
    let mut batch = Batch::new();
    for _ in 0..=next_random(random, 3) {
        let node = 1 + next_random(random, 20);
        let name = ["a", "b", "c"][next_random(random, 3) as usize];
        match next_random(random, 12) {
            0..=3 => batch.new_node(),
            4 => batch.remove_node(node),
            5..=7 => batch.set(node, name, next_random(random, 9) as i64),
            8 => batch.set(node, name, "text"),
            9 => batch.unset(node, name),
            10 => batch.make_index(name, Kind::Int64),
            _ => batch.remove_index(name),
        };
    }
    batch
}

/// A snapshot's entire contents, including those of its indices.
fn shown(pass: &mut Pass) -> String {
    let snapshot = pass.pin().unwrap();
    let mut all = format!("next {}", snapshot.next_node().unwrap());
    for node in snapshot.nodes() {
        let node = node.unwrap();
        all += &format!("\n{node} {:?}", snapshot.attributes(node).unwrap());
    }
    for (name, kind) in snapshot.indices().unwrap() {
        all += &format!("\n{name} {kind} {:?}", snapshot.query(&format!("{name}>=0")).unwrap());
    }
    all
}

#[test]
fn any_store_is_the_same_when_it_is_opened_again() {
    let folder = Folder::in_memory("random");
    let mut random = 0x2545_f491_4f6c_dd1d;
    let (mut expected, mut accepted) = (None, 0);
    for round in 0..12 {
        let saved = saved::open(folder.file()).unwrap();
        let mut pass = saved.pass().unwrap();
        let opened = shown(&mut pass);
        assert_eq!(expected.unwrap_or_else(|| opened.clone()), opened, "round {round}");
        for count in 0..60 {
            accepted += u32::from(pass.apply(&random_batch(&mut random)).is_ok());
            if round % 3 == 1 && count == 30 {
                saved.compact().unwrap();
            }
        }
        expected = Some(shown(&mut pass));
        saved.close().unwrap();
    }
    assert!(accepted > 200, "{accepted}");
}

/// A writer that is waiting for the file doesn't hold any pages.
#[test]
fn writers_share_a_store_that_is_almost_full() {
    let folder = Folder::new("almost-full");
    let limits = Limits {
        pages: 24,
        ..Limits::default()
    };
    let saved = Options::new().limits(limits).open(folder.file()).unwrap();
    let mut reader = saved.pass().unwrap();
    reader.new_node().unwrap();
    thread::scope(|scope| {
        for writer in ["a", "b", "c", "d"] {
            let saved = &saved;
            scope.spawn(move || {
                let mut pass = saved.pass().unwrap();
                for count in 0..100_u64 {
                    pass.change(|change| change.set(1, writer, count).map(drop)).unwrap();
                }
            });
        }
    });
    let attributes = reader.pin().unwrap().attributes(1).unwrap();
    assert!(attributes.iter().all(|(_, value)| *value == Value::Uint64(99)));
    assert_eq!(attributes.len(), 4);
}

#[test]
fn the_state_takes_the_place_of_the_entries() {
    let folder = of_three("compact");
    assert_eq!(number(&folder.file(), "SELECT count(*) FROM entry"), 4);
    let saved = saved::open(folder.file()).unwrap();
    let mut pass = saved.pass().unwrap();
    pass.remove_node(3).unwrap();
    saved.compact().unwrap();
    file_size(&mut pass, 4).unwrap();
    saved.close().unwrap();
    assert_eq!(number(&folder.file(), "SELECT count(*) FROM entry"), 1);
    assert_eq!(number(&folder.file(), "SELECT min(number) FROM entry"), 6);
    let saved = saved::open(folder.file()).unwrap();
    assert_eq!(sizes(&mut saved.pass().unwrap()), [1, 2, 4]);
}

/// Of two threads that compact at the same time, the one that has copied the earlier snapshot may be the last to write its copy.
#[test]
fn an_earlier_state_replaces_no_later_one() {
    let folder = of_three("earlier");
    let saved = saved::open(folder.file()).unwrap();
    let mut pass = saved.pass().unwrap();
    let earlier = saved.store().copy_state().unwrap();
    let number = saved.number_in_file(earlier.number);
    file_size(&mut pass, 4).unwrap();
    saved.compact().unwrap();
    file_size(&mut pass, 5).unwrap();
    saved.close().unwrap();
    let mut file = File::open(&folder.file()).unwrap();
    let batches = earlier.batches.into_iter().map(Ok);
    file.write_state(number, earlier.next, batches).unwrap();
    assert_eq!(file.state().unwrap().entries, number + 1);
    drop(file);
    let saved = saved::open(folder.file()).unwrap();
    assert_eq!(sizes(&mut saved.pass().unwrap()), [1, 2, 3, 4, 5]);
}

#[test]
fn a_closed_file_takes_no_writes_and_is_free() {
    let folder = Folder::new("closed");
    let saved = saved::open(folder.file()).unwrap();
    let mut pass = saved.pass().unwrap();
    let node = pass.new_node().unwrap();
    saved.close().unwrap();
    let refused = pass.new_node().unwrap_err();
    assert!(matches!(&refused, Error::Stopped(error) if matches!(**error, SavedError::Closed)));
    assert!(pass.pin().unwrap().contains(node).unwrap());
    saved::open(folder.file()).unwrap();
}

#[test]
fn writes_are_saved_at_the_latest_when_the_file_is_closed() {
    let folder = Folder::new("every");
    let mut options = Options::new();
    options.every(Duration::MAX);
    let saved = options.open(folder.file()).unwrap();
    let pass = saved.pass().unwrap();
    pass.new_node().unwrap();
    saved.flush().unwrap();
    pass.new_node().unwrap();
    drop(saved);
    assert_eq!(number(&folder.file(), "SELECT count(*) FROM entry"), 2);
    options.every(Duration::from_millis(5));
    let saved = options.open(folder.file()).unwrap();
    let pass = saved.pass().unwrap();
    for _ in 0..20 {
        pass.new_node().unwrap();
        thread::sleep(Duration::from_millis(1));
    }
    drop(saved);
    let saved = saved::open(folder.file()).unwrap();
    assert_eq!(saved.pass().unwrap().pin().unwrap().nodes().count(), 22);
}

#[test]
fn a_saved_store_may_be_shared() {
    fn can_be_shared<T: Send + Sync>() {}
    can_be_shared::<Saved>();
    can_be_shared::<SavedError>();
}

fn refusal(path: &Path) -> SavedError {
    saved::open(path).map(drop).unwrap_err()
}

#[test]
fn files_of_others_are_refused() {
    let folder = Folder::new("foreign");
    let text = folder.0.join("text");
    std::fs::write(
        &text,
        "no database, and long enough to be looked at as one\n".repeat(20),
    )
    .unwrap();
    let before = std::fs::read(&text).unwrap();
    assert!(matches!(refusal(&text), SavedError::Foreign { .. }));
    assert_eq!(std::fs::read(&text).unwrap(), before);
    let other = folder.0.join("other");
    sql(&other, "CREATE TABLE mine (a); INSERT INTO mine VALUES (1)");
    let before = std::fs::read(&other).unwrap();
    assert!(matches!(refusal(&other), SavedError::Foreign { .. }));
    assert_eq!(std::fs::read(&other).unwrap(), before);
    three(&folder.file());
    sql(&folder.file(), "PRAGMA user_version = 7");
    let newer = refusal(&folder.file());
    assert!(
        matches!(
            newer,
            SavedError::Newer {
                version: 7,
                known: 3,
                ..
            }
        ),
        "{newer}"
    );
    let missing = refusal(&folder.0.join("no folder/file"));
    assert!(matches!(missing, SavedError::Sqlite { .. }), "{missing}");
}

/// Returns why a user who isn't root can't open the file.
fn refusal_to_user(path: PathBuf) -> SavedError {
    let other = thread::spawn(move || {
        // The thread opens files as this user, if root runs the tests.
        unsafe { libc::setfsuid(65_534) };
        refusal(&path)
    });
    other.join().unwrap()
}

#[test]
fn a_file_that_cannot_be_opened_says_why() {
    let folder = Folder::new("unopened");
    let (absent, empty) = (folder.file(), folder.0.join("empty"));
    fs::write(&empty, "").unwrap();
    fs::set_permissions(&empty, Permissions::from_mode(0o444)).unwrap();
    let nothing = "No such file or directory (os error 2)";
    for (refused, why) in [
        (refusal(&folder.0.join("no folder/file")), nothing),
        (Options::new().load(&absent).unwrap_err(), nothing),
        (refusal(&folder.0), "Is a directory (os error 21)"),
        (refusal_to_user(empty), "Permission denied (os error 13)"),
    ] {
        let said = refused.to_string();
        let end = format!(": unable to open database file: {why}");
        assert!(said.ends_with(&end), "{said}");
    }
    assert!(!absent.exists());
}

#[test]
fn a_file_with_any_changed_byte_is_opened_or_refused() {
    let folder = Folder::in_memory("changed");
    three(&folder.file());
    let limits = Limits {
        pages: 32,
        ..Limits::default()
    };
    let is_refused = |bytes: &[u8]| {
        std::fs::write(folder.file(), bytes).unwrap();
        Options::new().limits(limits).open(folder.file()).is_err()
    };
    let whole = std::fs::read(folder.file()).unwrap();
    assert!(!is_refused(&whole));
    let mut refused = 0;
    for at in (0..whole.len()).step_by(whole.len() / 61) {
        let mut changed = whole.clone();
        changed[at] ^= 0x55;
        refused += u32::from(is_refused(&changed));
    }
    for length in (0..whole.len()).step_by(whole.len() / 11) {
        refused += u32::from(is_refused(&whole[..length]));
    }
    assert!(refused > 0);
}

#[test]
fn a_file_is_opened_once() {
    let folder = Folder::new("once");
    let first = saved::open(folder.file()).unwrap();
    assert!(matches!(refusal(&folder.file()), SavedError::Held { .. }));
    drop(first);
    saved::open(folder.file()).unwrap();
}

/// Makes this change to a file in the original format, and returns the place named by the error.
fn place_after(name: &str, change: &str) -> Place {
    let folder = of_three(name);
    convert_back(&folder.file(), 1);
    sql(&folder.file(), change);
    match refusal(&folder.file()) {
        SavedError::Differs { place, .. } => place,
        other => panic!("{other}"),
    }
}

#[test]
fn a_file_that_differs_is_refused_with_the_entry() {
    let other_node =
        "UPDATE entry SET batch = CAST(substr(batch, 1, 6) || x'09' || substr(batch, 8) AS BLOB) WHERE number = 3";
    assert_eq!(place_after("node", other_node), Place::Entry(3));
    let missing = "DELETE FROM entry WHERE number = 2";
    assert_eq!(place_after("missing", missing), Place::Entry(2));
    let cut = "UPDATE entry SET batch = substr(batch, 1, 9) WHERE number = 4";
    assert_eq!(place_after("cut", cut), Place::Entry(4));
    let twice = "INSERT INTO entry SELECT 5, pass, batch FROM entry WHERE number = 1";
    assert_eq!(place_after("twice", twice), Place::Entry(5));
    let next = "UPDATE about SET number = 5 WHERE what = 'next'";
    assert_eq!(place_after("next", next), Place::State(0));
    let negative = "UPDATE about SET number = -1 WHERE what = 'entries'";
    assert_eq!(place_after("negative", negative), Place::State(0));
}

/// Creates a file whose last entry has this number, and whose state has an index and three nodes.
fn numbered(path: &Path, entries: i64) {
    three(path);
    saved::open(path).unwrap().close().unwrap();
    convert_back(path, 1);
    sql(
        path,
        &format!("UPDATE about SET number = {entries} WHERE what = 'entries'"),
    );
}

#[test]
fn writes_end_with_the_last_number_of_an_entry() {
    let folder = Folder::new("numbers");
    numbered(&folder.file(), i64::MAX - 2);
    let saved = saved::open(folder.file()).unwrap();
    let pass = saved.pass().unwrap();
    for number in [i64::MAX - 1, i64::MAX] {
        let written = pass.apply(Batch::new().new_node()).unwrap();
        assert_eq!(saved.number_in_file(written.number), number as u64);
    }
    assert!(matches!(pass.new_node(), Err(Error::CommitsSpent)));
    drop(pass);
    saved.close().unwrap();
    for _ in 0..3 {
        let saved = saved::open(folder.file()).unwrap();
        let mut pass = saved.pass().unwrap();
        assert_eq!(pass.pin().unwrap().nodes().count(), 5);
        assert!(matches!(pass.new_node(), Err(Error::CommitsSpent)));
        drop(pass);
        saved.compact().unwrap();
        saved.close().unwrap();
    }
}

/// Checks that this entry was refused because the store has no commit number left for it.
fn check_spent(refused: &SavedError, entry: u64) {
    match refused {
        SavedError::TooLarge {
            place,
            error: Error::CommitsSpent,
            pages: None,
        } => assert_eq!(*place, Place::Entry(entry)),
        other => panic!("{other}"),
    }
}

#[test]
fn an_empty_file_with_no_number_left_takes_no_writes() {
    let folder = Folder::new("no number");
    saved::open(folder.file()).unwrap().close().unwrap();
    let last = format!("UPDATE about SET number = {} WHERE what = 'entries'", i64::MAX);
    convert_back(&folder.file(), 1);
    sql(&folder.file(), &last);
    let saved = saved::open(folder.file()).unwrap();
    assert!(matches!(saved.pass().unwrap().new_node(), Err(Error::CommitsSpent)));
}

#[test]
fn a_store_that_is_too_small_is_an_error_of_its_own() {
    let folder = of_three("small");
    let limits = Limits {
        commits: 3,
        ..Limits::default()
    };
    let refused = Options::new().limits(limits).open(folder.file()).map(drop);
    check_spent(&refused.unwrap_err(), 4);
}

/// A small in-memory file system, unmounted on drop.
struct Mounted(Folder);

impl Mounted {
    fn new(name: &str, size: &str) -> Option<Self> {
        let folder = Folder::new(name);
        let options = format!("size={size}");
        let mount = Command::new("mount")
            .args(["-t", "tmpfs", "-o", &options, "tmpfs"])
            .arg(&folder.0)
            .output();
        match mount {
            Ok(output) if output.status.success() => Some(Self(folder)),
            _ => None,
        }
    }

    fn resize(&self, size: &str) {
        let options = format!("remount,size={size}");
        let status = Command::new("mount").args(["-o", &options]).arg(&self.0 .0).status();
        assert!(status.unwrap().success());
    }
}

impl Drop for Mounted {
    fn drop(&mut self) {
        let _ = Command::new("umount").arg(&self.0 .0).status();
    }
}

/// Writes until a write fails. Returns the number of successful writes, and the error.
fn write_on(pass: &Pass, node: u64) -> (u64, Error) {
    for count in 1_u64.. {
        if let Err(error) = pass.set(node, "count", count) {
            return (count - 1, error);
        }
    }
    unreachable!()
}

#[test]
fn on_a_full_disk_acknowledged_writes_are_kept() {
    let mounted = match Mounted::new("full", "256k") {
        Some(mounted) => mounted,
        None => return println!("a full disk: skipped, no file system can be mounted"),
    };
    let path = mounted.0.file();
    let saved = saved::open(&path).unwrap();
    let mut pass = saved.pass().unwrap();
    let node = pass.new_node().unwrap();
    assert!(saved.failure().is_none());
    let (acknowledged, error) = write_on(&pass, node);
    assert!(
        matches!(&error, Error::NotSaved(error) if matches!(**error, SavedError::DiskFull { .. })),
        "{error}"
    );
    assert!(acknowledged > 0);
    assert!(matches!(saved.failure().as_deref(), Some(SavedError::DiskFull { .. })));
    assert!(matches!(pass.new_node(), Err(Error::Stopped(_))));
    let read = pass.pin().unwrap().get(node, "count").unwrap();
    assert_eq!(read, Some(Value::Uint64(acknowledged + 1)));
    assert!(matches!(saved.flush(), Err(SavedError::Stopped(_))));
    assert!(matches!(saved.compact(), Err(SavedError::Stopped(_))));
    assert!(saved.close().is_err());
    opens_on_a_full_disk(&mounted, node, acknowledged);
}

#[test]
fn each_writer_learns_of_a_commit_that_failed() {
    let mounted = match Mounted::new("full-for-all", "256k") {
        Some(mounted) => mounted,
        None => return println!("a full disk for all: skipped, no file system can be mounted"),
    };
    let saved = saved::open(mounted.0.file()).unwrap();
    let node = saved.pass().unwrap().new_node().unwrap();
    let ended: Vec<(u64, Error)> = thread::scope(|scope| {
        let passes: Vec<Pass> = (0..4).map(|_| saved.pass().unwrap()).collect();
        let running: Vec<_> = passes
            .into_iter()
            .map(|pass| scope.spawn(move || write_on(&pass, node)))
            .collect();
        running.into_iter().map(|writer| writer.join().unwrap()).collect()
    });
    assert!(ended
        .iter()
        .all(|(_, error)| matches!(error, Error::NotSaved(_) | Error::Stopped(_))));
    assert!(ended.iter().any(|(_, error)| matches!(error, Error::NotSaved(_))));
    let acknowledged: u64 = ended.iter().map(|(count, _)| count).sum();
    assert!(saved.close().is_err());
    let saved = saved::open(mounted.0.file()).unwrap();
    let commit = saved.pass().unwrap().pin().unwrap().number();
    assert!(saved.number_in_file(commit) > acknowledged);
}

/// Opens the file while the disk is full, and once more when there is room again.
fn opens_on_a_full_disk(mounted: &Mounted, node: u64, acknowledged: u64) {
    let path = mounted.0.file();
    let count = |saved: &Saved| {
        let value = saved.pass().unwrap().pin().unwrap().get(node, "count").unwrap();
        value.and_then(|value| value.as_u64()).unwrap()
    };
    let reopened = saved::open(&path).unwrap();
    let kept = count(&reopened);
    assert!(
        kept == acknowledged || kept == acknowledged + 1,
        "{acknowledged} {kept}"
    );
    drop(reopened);
    mounted.resize("4m");
    let reopened = saved::open(&path).unwrap();
    assert_eq!(count(&reopened), kept);
    reopened.pass().unwrap().new_node().unwrap();
}

/// The variable that says what the child process, another run of this test program, should do.
const CHILD: &str = "BESTORE_TEST_CHILD";

fn child(path: &Path, task: &str, round: u64) -> Child {
    Command::new(std::env::current_exe().unwrap())
        .args(["--exact", "in_a_child", "--nocapture", "--test-threads=1"])
        .env(CHILD, format!("{task} {round} {}", path.display()))
        .stdout(Stdio::piped())
        .spawn()
        .unwrap()
}

fn say(line: &str) {
    let mut out = std::io::stdout().lock();
    writeln!(out, "{line}").unwrap();
    out.flush().unwrap();
}

/// Does nothing in the test program itself.
#[test]
fn in_a_child() {
    let task = match std::env::var(CHILD) {
        Ok(task) => task,
        Err(_) => return,
    };
    let mut words = task.splitn(3, ' ');
    let (task, round) = (words.next().unwrap(), words.next().unwrap());
    let path = words.next().unwrap();
    let round: u64 = round.parse().unwrap();
    match task {
        "write" => write_for_ever(&saved::open(path).unwrap(), round),
        _ => flush_once(path),
    }
}

/// Writes through three passes, prints each write after it has returned, and rewrites the state now and then.
fn write_for_ever(saved: &Saved, round: u64) {
    say("");
    thread::scope(|scope| {
        for thread in 0..3_u64 {
            scope.spawn(move || {
                let mut pass = saved.pass().unwrap();
                for count in 0_u64.. {
                    let key = format!("{round}-{thread}-{count}");
                    pass.change(|change| {
                        let node = change.new_node();
                        change.set(node, "key", &*key)?.set(node, "node", node)?;
                        Ok(())
                    })
                    .unwrap();
                    say(&format!("wrote {key}"));
                }
            });
        }
        loop {
            thread::sleep(Duration::from_millis(7));
            saved.compact().unwrap();
        }
    });
}

fn flush_once(path: &str) {
    let mut options = Options::new();
    let saved = options.every(Duration::from_secs(3600)).open(path).unwrap();
    let pass = saved.pass().unwrap();
    for _ in 0..100 {
        pass.new_node().unwrap();
    }
    saved.flush().unwrap();
    pass.new_node().unwrap();
    say("\nflushed");
    thread::sleep(Duration::from_secs(60));
}

/// A different time on each call, of up to `most` milliseconds.
fn some_time(most: u64) -> Duration {
    let now = SystemTime::now().duration_since(UNIX_EPOCH).unwrap();
    let mixed = u64::from(now.subsec_nanos()).wrapping_mul(0x9e37_79b9_7f4a_7c15) >> 32;
    Duration::from_micros(mixed % (1000 * most))
}

/// Starts a child that writes, kills it at a random moment, and returns the writes that had returned.
fn killed(path: &Path, round: u64) -> Vec<String> {
    let mut child = child(path, "write", round);
    let mut lines = BufReader::new(child.stdout.take().unwrap()).lines();
    let is_write = |line: &String| line.starts_with("wrote ");
    let mut said = vec![lines.by_ref().map(Result::unwrap).find(is_write).unwrap()];
    assert!(matches!(refusal(path), SavedError::Held { .. }));
    thread::scope(|scope| {
        let reader = scope.spawn(|| lines.map(Result::unwrap).filter(is_write).collect::<Vec<_>>());
        thread::sleep(some_time(60));
        child.kill().unwrap();
        child.wait().unwrap();
        said.extend(reader.join().unwrap());
    });
    said.iter().map(|line| line["wrote ".len()..].to_owned()).collect()
}

/// The number of times that each key is in the store.
fn keys(saved: &Saved) -> BTreeMap<String, u32> {
    let mut pass = saved.pass().unwrap();
    let snapshot = pass.pin().unwrap();
    let mut keys = BTreeMap::new();
    for node in snapshot.nodes() {
        let node = node.unwrap();
        assert_eq!(snapshot.get(node, "node").unwrap(), Some(Value::Uint64(node)));
        let key = snapshot.get(node, "key").unwrap().unwrap();
        *keys.entry(key.as_str().unwrap().to_owned()).or_insert(0) += 1;
    }
    keys
}

#[test]
fn a_killed_process_loses_no_acknowledged_write() {
    let folder = Folder::new("killed");
    let mut acknowledged = Vec::new();
    for round in 0..8 {
        acknowledged.extend(killed(&folder.file(), round));
        let saved = saved::open(folder.file()).unwrap();
        let keys = keys(&saved);
        for key in &acknowledged {
            assert_eq!(keys.get(key), Some(&1), "{key} in round {round}");
        }
        assert!(keys.values().all(|count| *count == 1));
        let in_flight = keys.len() - acknowledged.len();
        assert!(in_flight as u64 <= 3 * (round + 1), "{in_flight}");
    }
    println!("{} acknowledged writes in 8 rounds", acknowledged.len());
}

#[test]
fn what_was_flushed_outlives_a_killed_process() {
    let folder = Folder::new("flushed");
    let mut child = child(&folder.file(), "flush", 0);
    let lines = BufReader::new(child.stdout.take().unwrap()).lines();
    let mut lines = lines.map(Result::unwrap);
    assert!(lines.any(|line| line == "flushed"));
    child.kill().unwrap();
    child.wait().unwrap();
    let saved = saved::open(folder.file()).unwrap();
    let count = saved.pass().unwrap().pin().unwrap().nodes().count();
    assert_eq!(count, 100);
}
