//! Tests that no answered write is lost when the disk fills up at any moment while clients are writing.

use crate::common::disk::Disk;
use crate::common::writers::{check_history, Contents, Writers};
use crate::common::{command, wait_until, Folder, Server};
use bestore::saved::{About, Backup};
use bestore::Batch;
use bestore_client::wire::{Command, Nothing};
use bestore_client::{Client, Error, ErrorName};
use bestore_types::listing::Writer;
use bestore_types::saved;
use std::process::Stdio;
use std::sync::atomic::{AtomicU64, AtomicUsize, Ordering::Relaxed};
use std::thread;

/// For each run, how many KiB are free on the disk when the writers start. With much more, the server would rewrite the state before the
/// disk is full, which makes room again.
const LEFT: [u64; 20] = [
    0, 4, 8, 12, 16, 24, 32, 40, 48, 56, 64, 80, 96, 128, 160, 192, 224, 256, 320, 384,
];

/// The number of nodes of 200 bytes that the store has, so that its state takes several of the file's pages.
const OTHERS: u64 = 60;

/// How many disks to use at a time.
const DISKS: usize = 4;

/// A size, in KiB, that leaves free space on the disk.
const LARGE: u64 = 8 << 10;

/// How many answered writes were found, and how many times there was no space to rewrite the state.
#[derive(Debug, Default)]
struct Tally {
    writes: AtomicU64,
    compactions: AtomicU64,
}

/// Starts a server with a file on the disk. Returns `None` if the file can't be opened.
fn start(disk: &Disk, folder: &Folder, options: &[&str]) -> Option<Server> {
    let socket = folder.join("socket");
    let keep = disk.join("file");
    let common = ["--pages", "512", "--passes", "16", "--keep", keep.to_str().unwrap()];
    let server = command(&socket, &[&common, options].concat());
    let mut running = disk.run(server.get_program().to_str().unwrap());
    running.args(server.get_args()).stderr(Stdio::null());
    let server = Server::run(running, &socket);
    server.answers().then_some(server)
}

/// A file on a disk, and the clients that write to the servers that open it.
struct Kept<'a> {
    disk: &'a Disk,
    folder: Folder,
    writers: Writers,
    tally: &'a Tally,
}

impl<'a> Kept<'a> {
    fn new(disk: &'a Disk, tally: &'a Tally) -> Self {
        let kept = Self {
            disk,
            folder: Folder::new(),
            writers: Writers::default(),
            tally,
        };
        disk.resize(LARGE);
        disk.clear();
        let server = kept.start().expect("there is room for the file");
        kept.writers.begin(&mut server.client(), OTHERS);
        assert!(server.end_by("TERM").success());
        kept
    }

    /// Starts a server that may use the whole disk. Returns `None` if the file can't be opened.
    fn start(&self) -> Option<Server> {
        start(self.disk, &self.folder, &["--spare", "0"])
    }

    /// Lets the clients write until saving fails, in some runs while the state is being rewritten at first. Even on a full disk, the
    /// file can be opened.
    fn fill(&self, number: usize) {
        let server = self.start();
        let server = server.unwrap_or_else(|| panic!("run {number}: the file can't be opened on a full disk"));
        let mut client = server.client();
        self.writers.go_on(&mut client);
        let errors = self.writers.write(server.socket(), || {
            if number % 2 == 1 {
                self.tally.compactions.fetch_add(compact(&mut client), Relaxed);
            }
        });
        // Some clients may get no reply because the server has ended.
        let are_of_saving = errors
            .iter()
            .all(|error| is_of_saving(error) || error.refusal().is_none());
        assert!(
            are_of_saving && errors.iter().any(is_of_saving),
            "run {number}: {errors:?}"
        );
        match number % 3 {
            0 => server.kill(),
            _ => assert!(!server.wait_end().success()),
        }
    }

    /// Returns the state in the file, with which the journal of the next server begins.
    fn state(&self) -> Contents {
        let copy = Folder::new();
        let mut find = self.disk.run("find");
        find.arg(self.disk.join(""))
            .args(["-name", "file*", "-exec", "cp", "-t"]);
        assert!(find.arg(copy.path()).args(["{}", "+"]).status().unwrap().success());
        let read = saved::read(copy.join("file")).unwrap();
        (read.about.next, read.state)
    }

    /// Enlarges the disk, and checks the file's contents.
    fn end(&self) {
        self.disk.resize(LARGE);
        let begin = self.state();
        let server = self.start().expect("there is room");
        let mut client = server.client();
        self.writers.go_on(&mut client);
        check_history(&mut client, &begin);
        self.tally.writes.fetch_add(self.writers.answered(), Relaxed);
        self.writers.write(server.socket(), || {
            self.writers.wait_for(8);
            assert!(server.end_by("TERM").success());
        });
        let server = self.start().expect("there is room");
        self.writers.go_on(&mut server.client());
    }
}

fn is_of_saving(error: &Error) -> bool {
    error.is(ErrorName::NotSaved) || error.is(ErrorName::Stopped)
}

/// How many times to rewrite the state at most: as long as there is space for it, the disk doesn't fill up.
const COMPACTIONS: usize = 50;

/// Rewrites the state again and again until saving fails. Returns how many times there was no space for the state.
fn compact(client: &mut Client) -> u64 {
    let mut failed = 0;
    for _ in 0..COMPACTIONS {
        match client.call::<Nothing>(Command::Compact(Nothing {})) {
            Ok(_) => {}
            Err(error) if error.is(ErrorName::Stopped) || error.refusal().is_none() => break,
            Err(error) => {
                assert!(error.is(ErrorName::NotSaved), "{error}");
                failed += 1;
            }
        }
    }
    failed
}

/// Runs one case: the disk fills up, and then fills up again after a restart that may have had space for the state.
fn run(disk: &Disk, number: usize, tally: &Tally) {
    let kept = Kept::new(disk, tally);
    disk.resize(disk.used() + LEFT[number]);
    kept.fill(number);
    disk.resize(disk.used() + 4 * (number as u64 % 7));
    kept.fill(number + 1);
    kept.end();
}

fn run_all(what: &str, disks: Vec<Disk>) {
    let (next, tally) = (&AtomicUsize::new(0), &Tally::default());
    thread::scope(|scope| {
        for disk in disks {
            scope.spawn(move || loop {
                match next.fetch_add(1, Relaxed) {
                    number if number < LEFT.len() => run(&disk, number, tally),
                    _ => return,
                }
            });
        }
    });
    let [writes, compactions] = [&tally.writes, &tally.compactions].map(|count| count.load(Relaxed));
    println!(
        "{} runs into {what}, {writes} writes, {compactions} compactions without room",
        LEFT.len()
    );
}

#[test]
fn answered_writes_outlive_a_full_disk() {
    let disks: Option<Vec<Disk>> = (0..DISKS).map(|_| Disk::mounted()).collect();
    match disks {
        Some(disks) => run_all("a full disk", disks),
        None => println!("a full disk: skipped, this user can mount nothing"),
    }
}

#[test]
fn answered_writes_outlive_a_file_that_may_not_grow() {
    let disks = (0..DISKS).map(|_| Disk::limited()).collect();
    run_all("a file that may not grow", disks);
}

#[test]
fn a_file_that_may_not_grow_can_be_read() {
    let (disk, folder) = (Disk::limited(), Folder::new());
    let server = start(&disk, &folder, &[]).unwrap();
    let mut client = server.client();
    client.apply(Batch::new().new_node().set(1, "count", 1_u64)).unwrap();
    // The next server would like to rewrite the state, since an entry follows it.
    server.kill();
    disk.resize(4);
    let server = start(&disk, &folder, &[]).expect("the file can be opened");
    let mut client = server.client();
    assert_eq!(count_of(&mut client), Some(1));
    let refused = set_count(&mut client, 2).unwrap_err();
    assert!(refused.is(ErrorName::NotSaved), "{refused}");
    assert!(!server.wait_end().success());
    disk.resize(LARGE);
    let server = start(&disk, &folder, &[]).unwrap();
    let mut client = server.client();
    assert_eq!(count_of(&mut client), Some(1));
    set_count(&mut client, 2).unwrap();
}

#[test]
fn a_backup_on_a_full_disk_can_be_read() {
    let disk = present!(disk_of("a backup on a full disk"));
    let folder = Folder::new();
    let backup = folder.join("backup");
    let mut made = Backup::create(&backup).unwrap();
    let mut listing = Writer::new();
    listing.node(1);
    listing.attribute("count", 1_u64.into(), false).unwrap();
    made.add(&listing.take()).unwrap();
    made.finish(About { entries: 1, next: 2 }).unwrap();
    let copied = disk.run("cp").arg(&backup).arg(disk.join("file")).status();
    assert!(copied.unwrap().success());
    disk.resize(disk.used());
    let server = start(&disk, &folder, &["--spare", "0"]).expect("the backup can be opened");
    let mut client = server.client();
    assert_eq!(count_of(&mut client), Some(1));
    let refused = set_count(&mut client, 2).unwrap_err();
    assert!(refused.is(ErrorName::NotSaved), "{refused}");
    assert!(!server.wait_end().success());
    disk.resize(LARGE);
    for count in 2..4 {
        let server = start(&disk, &folder, &[]).unwrap();
        assert_eq!(count_of(&mut server.client()), Some(count - 1));
        set_count(&mut server.client(), count).unwrap();
        server.kill();
    }
}

/// Returns a disk for a test that needs one, or prints that there is none.
fn disk_of(what: &str) -> Option<Disk> {
    let disk = Disk::mounted();
    if disk.is_none() {
        println!("{what}: skipped, this user can mount nothing");
    }
    disk
}

fn count_of(client: &mut Client) -> Option<u64> {
    client.get(1, "count").unwrap().and_then(|value| value.as_u64())
}

fn set_count(client: &mut Client, count: u64) -> Result<(), Error> {
    client.apply(Batch::new().set(1, "count", count)).map(drop)
}

#[test]
fn a_server_waits_for_room_on_its_disk() {
    let disk = present!(disk_of("a disk with little room"));
    let folder = Folder::new();
    let server = start(&disk, &folder, &[]).unwrap();
    let mut client = server.client();
    client.apply(Batch::new().new_node().set(1, "count", 1_u64)).unwrap();
    assert_eq!(client.status().unwrap().trouble, None);
    let run = client.hello().unwrap().run;
    for count in 2..5 {
        disk.resize(disk.used() + 900);
        let refused = set_count(&mut client, count).unwrap_err();
        assert!(refused.is(ErrorName::Stopped), "{refused}");
        assert!(refused.to_string().contains("nothing was written"), "{refused}");
        let trouble = client.status().unwrap().trouble.unwrap();
        assert!(trouble.contains("900 KiB free"), "{trouble}");
        // The refused write isn't visible to anyone. Once there is space, the next write is kept.
        assert_eq!(count_of(&mut server.client()), Some(count - 1));
        disk.resize(LARGE);
        set_count(&mut client, count).unwrap();
        assert_eq!(client.status().unwrap().trouble, None);
    }
    assert_eq!(client.hello().unwrap().run, run);
    server.kill();
    let server = start(&disk, &folder, &[]).unwrap();
    assert_eq!(count_of(&mut server.client()), Some(4));
}

#[test]
fn status_says_that_a_commit_has_failed_that_nobody_waited_for() {
    let disk = present!(disk_of("a disk without room for what is written later"));
    let folder = Folder::new();
    let server = start(&disk, &folder, &["--spare", "0", "--every", "5"]).unwrap();
    let mut client = server.client();
    client.apply(Batch::new().new_node().set(1, "count", 1_u64)).unwrap();
    client.call::<Nothing>(Command::Flush(Nothing {})).unwrap();
    disk.resize(disk.used());
    // Committing this write needs space for the -wal file, but there is none.
    set_count(&mut client, 2).unwrap();
    wait_until("status has the failed commit", || {
        let trouble = server.client().status().unwrap().trouble;
        trouble.map_or(false, |trouble| trouble.contains("the disk is full"))
    });
    // The next write also finds that the commit has failed, and the server ends.
    set_count(&mut client, 3).unwrap_err();
    assert!(!server.wait_end().success());
}

#[test]
fn a_write_that_could_not_be_kept_is_read_by_nobody() {
    let disk = present!(disk_of("a disk without room"));
    let folder = Folder::new();
    let server = start(&disk, &folder, &["--spare", "0"]).unwrap();
    let (mut client, mut reading) = (server.client(), server.client());
    client.apply(Batch::new().new_node().set(1, "count", 1_u64)).unwrap();
    assert_eq!(count_of(&mut reading), Some(1));
    disk.resize(disk.used());
    let (mut kept, mut refused) = (1, None);
    while refused.is_none() {
        kept += 1;
        refused = set_count(&mut client, kept).err();
    }
    assert!(refused.as_ref().unwrap().is(ErrorName::NotSaved), "{refused:?}");
    let read = reading.get(1, "count").unwrap_err();
    assert!(is_of_saving(&read) || read.refusal().is_none(), "{read}");
    assert!(!server.wait_end().success());
    let server = start(&disk, &folder, &["--spare", "0"]).expect("the file can be opened on a full disk");
    assert_eq!(count_of(&mut server.client()), Some(kept - 1));
    disk.resize(LARGE);
    set_count(&mut server.client(), kept).unwrap();
    server.kill();
    let server = start(&disk, &folder, &[]).unwrap();
    assert_eq!(count_of(&mut server.client()), Some(kept));
}
