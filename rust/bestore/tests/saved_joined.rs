//! Tests of folders of volumes of version 0.4.0, which become one file.
#![cfg(feature = "saved")]

mod common;

use bestore::listing::{records, Record};
use bestore::saved::{Error as SavedError, Options, Saved};
use bestore::{Batch, Kind, Limits, Value};
use bestore_types::saved::joining::{join_by_steps, Step};
use common::earlier::convert_back;
use common::Folder;
use std::fs;
use std::path::{Path, PathBuf};
use std::process::Command;
use std::thread;
use std::time::{Duration, Instant};

/// How many nodes the volumes of a large folder have together. `BESTORE_NODES` overrides this.
const NODES: u64 = 6_400;

/// How many times a process is killed while it makes the file of a large folder.
const KILLS: u32 = 20;

const NUMBERS: u64 = 100_000_000_000_000;

/// Options with enough pages for this many nodes.
fn options_for(nodes: u64) -> Options {
    let limits = Limits {
        pages: 256 + nodes,
        ..Limits::default()
    };
    let mut options = Options::new();
    options.limits(limits).every(Duration::from_secs(3_600));
    options
}

fn options() -> Options {
    options_for(100)
}

fn path_of(folder: &Path, volume: u64) -> PathBuf {
    folder.join(format!("{volume}.bestore"))
}

/// Returns how many volumes the folder has.
fn count(folder: &Path) -> usize {
    let names = fs::read_dir(folder).unwrap().map(|entry| entry.unwrap().path());
    names
        .filter(|path| path.extension().map_or(false, |ending| ending == "bestore"))
        .count()
}

fn with(path: &Path, ending: &str) -> PathBuf {
    let mut path = path.as_os_str().to_owned();
    path.push(ending);
    path.into()
}

/// Makes a volume with this many nodes, in the format of 0.4.0. Volumes with an even number have another index, and attributes that it
/// doesn't have. The last node is removed, and entries with tokens follow the state.
fn make_volume(path: &Path, volume: u64, nodes: u64) {
    let saved = options_for(nodes).open(path).unwrap();
    let pass = saved.pass().unwrap();
    pass.make_index("size", Kind::Int64).unwrap();
    for first in (1..=nodes).step_by(30) {
        let mut batch = Batch::new();
        for node in first..(first + 30).min(nodes + 1) {
            batch.new_node().set(node, "size", (volume * 1_000 + node) as i64);
        }
        pass.apply(&batch).unwrap();
    }
    if volume % 2 == 0 {
        pass.set(1, "name", "before").unwrap();
        pass.make_index("name", Kind::Text).unwrap();
    }
    pass.set(2, "name", "after").unwrap();
    saved.compact().unwrap();
    let mut batch = Batch::new();
    batch
        .new_node()
        .remove_node(nodes)
        .set_token(&format!("token {volume}"));
    pass.apply(&batch).unwrap();
    saved.close().unwrap();
    convert_back(path, 2);
}

/// Returns how many nodes each volume of a large folder has.
fn large(volumes: u64) -> Vec<u64> {
    let nodes = std::env::var("BESTORE_NODES").map_or(NODES, |number| number.parse().unwrap());
    vec![nodes / volumes; volumes as usize]
}

/// A folder of volumes with these numbers of nodes.
fn make_volumes(folder: &Path, nodes: &[u64]) {
    fs::create_dir(folder).unwrap();
    for (volume, nodes) in (0..).zip(nodes) {
        make_volume(&path_of(folder, volume), volume, *nodes);
    }
}

/// Checks that the store has everything that the volumes had.
fn check(saved: &mut Saved, nodes: &[u64]) {
    let tokens = saved.take_tokens();
    let mut pass = saved.pass().unwrap();
    let snapshot = pass.pin().unwrap();
    let mut expected = Vec::new();
    for (volume, nodes) in (0_u64..).zip(nodes) {
        let numbers = (1..*nodes).chain([nodes + 1]);
        expected.extend(numbers.map(|number| volume * NUMBERS + number));
        let token = tokens
            .iter()
            .find(|token| token.text == format!("token {volume}"))
            .unwrap();
        assert_eq!(
            (token.commit, &token.nodes[..]),
            (0, &[volume * NUMBERS + nodes + 1][..])
        );
    }
    let found: Vec<u64> = snapshot.nodes().map(Result::unwrap).collect();
    assert!(found == expected);
    assert_eq!(
        snapshot.indices().unwrap(),
        [("name".to_owned(), Kind::Text), ("size".to_owned(), Kind::Int64)]
    );
    assert_eq!(
        snapshot.query("size>0").unwrap().len() as u64,
        nodes.iter().map(|nodes| nodes - 1).sum::<u64>()
    );
    let last = nodes.len() as u64 - 1;
    let of_last = Value::from((last * 1_000 + 1) as i64);
    assert_eq!(snapshot.get(last * NUMBERS + 1, "size").unwrap(), Some(of_last));
    // Only the volumes with this index had its entries.
    let named: Vec<u64> = (0..nodes.len() as u64)
        .step_by(2)
        .map(|volume| volume * NUMBERS + 2)
        .collect();
    assert_eq!(snapshot.query("name==*").unwrap(), named);
    assert_eq!(snapshot.next_node().unwrap(), last * NUMBERS + nodes[last as usize] + 2);
}

#[test]
fn a_folder_of_two_volumes_becomes_one_file() {
    let folder = Folder::in_memory("two volumes");
    let (path, nodes) = (folder.0.join("letters"), [40, 30]);
    make_volumes(&path, &nodes);
    let read = options().load(&path).unwrap();
    assert_eq!(read.pass().unwrap().pin().unwrap().nodes().count(), 70);
    assert!(path.is_dir() && fs::read_dir(&folder.0).unwrap().count() == 1);
    for _ in 0..2 {
        let mut saved = options().open(&path).unwrap();
        check(&mut saved, &nodes);
        saved.close().unwrap();
    }
    assert!(path.is_file() && !with(&path, "-new").exists());
    // The folder is a shelf as before.
    let kept = with(&path, "-0.4");
    assert_eq!(count(&kept), 2);
    let saved = options().open(path_of(&kept, 1)).unwrap();
    assert_eq!(saved.pass().unwrap().pin().unwrap().nodes().count(), 30);
    saved.close().unwrap();
    // It isn't overwritten.
    let other = folder.0.join("other");
    make_volumes(&other, &[3]);
    fs::rename(&kept, with(&other, "-0.4")).unwrap();
    let refused = options().open(&other).map(drop).unwrap_err();
    assert!(matches!(refused, SavedError::Exists { .. }), "{refused}");
    assert!(other.is_dir());
}

#[test]
fn an_index_of_two_kinds_is_refused_with_both_volumes() {
    let folder = Folder::in_memory("two kinds");
    let path = folder.0.join("letters");
    make_volumes(&path, &[3, 3, 3]);
    let saved = options().open(path_of(&path, 2)).unwrap();
    let pass = saved.pass().unwrap();
    pass.remove_index("size").unwrap();
    pass.make_index("size", Kind::Text).unwrap();
    saved.close().unwrap();
    for refused in [options().open(&path).map(drop), options().load(&path).map(drop)] {
        let refused = refused.unwrap_err();
        let said = refused.to_string();
        assert!(
            said.starts_with("the index \"size\" holds i64 in volume 0 and text in volume 2"),
            "{said}"
        );
    }
    assert!(path.is_dir() && fs::read_dir(&folder.0).unwrap().count() == 1);
}

#[test]
fn a_volume_that_cannot_be_read_is_named() {
    let folder = Folder::in_memory("a broken volume");
    let path = folder.0.join("letters");
    make_volumes(&path, &[3, 3]);
    let held = options().open(path_of(&path, 1)).unwrap();
    let refused = options().open(&path).map(drop).unwrap_err();
    assert!(refused.to_string().starts_with("volume 1: "), "{refused}");
    held.close().unwrap();
    fs::rename(path_of(&path, 0), path_of(&path, 2)).unwrap();
    let refused = options().open(&path).map(drop).unwrap_err();
    assert!(matches!(refused, SavedError::NoFile { .. }), "{refused}");
    let refused = options().until(1).load(&path).map(drop).unwrap_err();
    assert!(matches!(refused, SavedError::NoFile { .. }), "{refused}");
    fs::rename(path_of(&path, 2), path_of(&path, 0)).unwrap();
    let refused = options().until(1).load(&path).map(drop).unwrap_err();
    assert!(matches!(refused, SavedError::NotOneFile { .. }), "{refused}");
}

/// Runs this test program, which joins the volumes and is killed after a step, or after a time.
fn killed(path: &Path, step: &str, time: Duration) {
    let mut child = Command::new(std::env::current_exe().unwrap())
        .args(["in_a_child", "--exact", "--nocapture"])
        .env("BESTORE_JOINED", path)
        .env("BESTORE_STEP", step)
        .stdout(std::process::Stdio::null())
        .stderr(std::process::Stdio::null())
        .spawn()
        .unwrap();
    if step.is_empty() {
        thread::sleep(time);
        let _ = child.kill();
    }
    child.wait().unwrap();
}

/// Not a test of its own: what the processes do that [`killed`] starts.
#[test]
fn in_a_child() {
    let path = match std::env::var("BESTORE_JOINED") {
        Ok(path) => path,
        Err(_) => return,
    };
    let last = std::env::var("BESTORE_STEP").unwrap();
    let mut end = |step: Step| {
        if format!("{step:?}") == last {
            unsafe { libc::kill(libc::getpid(), libc::SIGKILL) };
        }
    };
    join_by_steps(Path::new(&path), &mut end).unwrap();
}

fn copy(from: &Path, to: &Path) {
    fs::create_dir(to).unwrap();
    for entry in fs::read_dir(from).unwrap() {
        let entry = entry.unwrap();
        fs::copy(entry.path(), to.join(entry.file_name())).unwrap();
    }
}

/// Opens the folder, in whose place a file may be already, and checks what it has. Removes both.
fn check_joined(path: &Path, nodes: &[u64]) {
    let mut saved = options_for(nodes.iter().sum()).open(path).unwrap();
    check(&mut saved, nodes);
    saved.close().unwrap();
    assert!(path.is_file() && !with(path, "-new").exists());
    assert_eq!(count(&with(path, "-0.4")), nodes.len());
    fs::remove_file(path).unwrap();
    fs::remove_dir_all(with(path, "-0.4")).unwrap();
}

/// Opens a folder whole, then after a process was killed at each step, and then after processes were killed at any time.
fn check_kills(folder: &Folder, nodes: &[u64]) {
    let (volumes, path) = (folder.0.join("volumes"), folder.0.join("letters"));
    make_volumes(&volumes, nodes);
    copy(&volumes, &path);
    let begin = Instant::now();
    check_joined(&path, nodes);
    let whole = begin.elapsed();
    println!(
        "{} nodes of {} volumes: opened and checked in {whole:?}",
        nodes.iter().sum::<u64>(),
        nodes.len()
    );
    let steps = [
        (Step::Written, (true, true, false)),
        (Step::FolderRenamed, (false, true, true)),
        (Step::FileRenamed, (true, false, true)),
    ];
    for (step, there) in steps {
        copy(&volumes, &path);
        killed(&path, &format!("{step:?}"), Duration::ZERO);
        let [new, aside] = ["-new", "-0.4"].map(|ending| with(&path, ending).exists());
        assert_eq!((path.exists(), new, aside), there, "{step:?}");
        check_joined(&path, nodes);
    }
    let mut joined = 0;
    for number in 0..KILLS {
        copy(&volumes, &path);
        killed(&path, "", whole * number / KILLS);
        joined += u32::from(path.is_file());
        check_joined(&path, nodes);
    }
    println!("of {KILLS} processes killed at any time, {joined} had made the file");
}

#[test]
fn a_process_killed_on_the_way_loses_nothing_of_two_volumes() {
    check_kills(&Folder::in_memory("killed, two volumes"), &large(2));
}

#[test]
fn a_process_killed_on_the_way_loses_nothing_of_64_volumes() {
    check_kills(&Folder::in_memory("killed, 64 volumes"), &large(64));
}

#[test]
fn a_listing_of_the_joined_file_is_in_order() {
    let folder = Folder::in_memory("joined listing");
    let path = folder.0.join("letters");
    make_volumes(&path, &[5, 4]);
    let contents = bestore_types::saved::read(&path).unwrap();
    assert!(contents.entries.is_empty());
    assert_eq!(contents.about.next, NUMBERS + 6);
    let all = contents.state.iter().flat_map(|batch| records(batch).unwrap());
    let nodes: Vec<u64> = all
        .filter_map(|record| match record.unwrap() {
            Record::Node { node } => Some(node),
            _ => None,
        })
        .collect();
    assert_eq!(
        nodes,
        [1, 2, 3, 4, 6, NUMBERS + 1, NUMBERS + 2, NUMBERS + 3, NUMBERS + 5]
    );
    assert!(path.is_dir());
}
