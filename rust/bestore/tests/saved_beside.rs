//! Tests of what is at a file's path and beside it when a store is opened.
#![cfg(feature = "saved")]

mod common;

use bestore::saved::{self, About, Backup, Error as SavedError, Options};
use common::Folder;
use std::ffi::CString;
use std::fs::{self, Permissions};
use std::os::unix::ffi::OsStrExt;
use std::os::unix::fs::PermissionsExt;
use std::path::{Path, PathBuf};

const PARTS: [&str; 3] = ["", "-wal", "-last"];

fn part(path: &Path, name: &str) -> PathBuf {
    format!("{}{name}", path.display()).into()
}

fn count_in(path: &Path) -> usize {
    let saved = saved::open(path).unwrap();
    let mut pass = saved.pass().unwrap();
    let snapshot = pass.pin().unwrap();
    snapshot.nodes().count()
}

/// Writes nodes to a new store, and leaves its files as they are if its process is killed.
fn killed(name: &str, nodes: usize) -> Folder {
    let (folder, open) = (Folder::new(name), Folder::new(&format!("{name}-open")));
    let saved = saved::open(open.file()).unwrap();
    let pass = saved.pass().unwrap();
    for _ in 0..nodes {
        pass.new_node().unwrap();
    }
    for name in PARTS {
        fs::copy(part(&open.file(), name), part(&folder.file(), name)).unwrap();
    }
    folder
}

fn contents(path: &Path) -> Vec<Option<Vec<u8>>> {
    PARTS.iter().map(|name| fs::read(part(path, name)).ok()).collect()
}

/// Checks that the file is refused because of its WAL, and that nothing is changed.
#[track_caller]
fn check_other_wal(path: &Path) {
    let before = contents(path);
    for refused in [saved::open(path).map(drop), Options::new().load(path).map(drop)] {
        let refused = refused.unwrap_err();
        assert!(matches!(refused, SavedError::OtherWal { .. }), "{refused}");
        let said = format!("{}-wal belongs to another file", path.display());
        assert!(refused.to_string().contains(&said), "{refused}");
    }
    assert_eq!(contents(path), before);
}

#[test]
fn the_wal_of_an_earlier_file_is_not_used() {
    let folder = killed("stale wal", 40);
    let copy = folder.0.join("a?copy#of%it");
    let saved = saved::open(&copy).unwrap();
    for _ in 0..7 {
        saved.pass().unwrap().new_node().unwrap();
    }
    saved.close().unwrap();
    let earlier = fs::read(folder.file()).unwrap();
    fs::copy(&copy, folder.file()).unwrap();
    check_other_wal(&folder.file());
    // The file that belongs to the WAL may have any name.
    for name in &PARTS[1..] {
        fs::rename(part(&folder.file(), name), part(&copy, name)).unwrap();
    }
    check_other_wal(&copy);
    assert_eq!(count_in(&folder.file()), 7);
    fs::write(&copy, earlier).unwrap();
    assert_eq!(count_in(&copy), 40);
}

#[test]
fn a_wal_without_its_file_stays() {
    let folder = killed("lone wal", 3);
    let elsewhere = folder.0.join("elsewhere");
    fs::rename(folder.file(), &elsewhere).unwrap();
    check_other_wal(&folder.file());
    fs::write(folder.file(), "").unwrap();
    check_other_wal(&folder.file());
    fs::rename(&elsewhere, folder.file()).unwrap();
    assert_eq!(count_in(&folder.file()), 3);
}

#[test]
fn a_copy_without_its_wal_is_noticed() {
    let folder = killed("alone", 3);
    assert!(!saved::open(folder.file()).unwrap().lacks_wal());
    for written in [0, 3] {
        let folder = killed(&format!("alone {written}"), written);
        let copy = folder.0.join("copy");
        fs::copy(folder.file(), &copy).unwrap();
        let saved = saved::open(&copy).unwrap();
        assert!(saved.lacks_wal());
        saved.close().unwrap();
        assert!(!saved::open(&copy).unwrap().lacks_wal());
        assert_eq!(count_in(&folder.file()), written);
        fs::copy(folder.file(), &copy).unwrap();
        assert!(!saved::open(&copy).unwrap().lacks_wal());
    }
}

#[test]
fn a_file_that_was_closed_lacks_nothing() {
    let folder = Folder::new("lacks nothing");
    for count in 0..3 {
        let saved = saved::open(folder.file()).unwrap();
        assert!(!saved.lacks_wal());
        if count == 1 {
            saved.pass().unwrap().new_node().unwrap();
        }
        saved.close().unwrap();
    }
    let backup = folder.0.join("backup");
    let made = Backup::create(&backup).unwrap();
    made.finish(About { entries: 0, next: 1 }).unwrap();
    assert!(!saved::open(&backup).unwrap().lacks_wal());
}

fn make_fifo(path: &Path) {
    let path = CString::new(path.as_os_str().as_bytes()).unwrap();
    assert_eq!(unsafe { libc::mkfifo(path.as_ptr(), 0o600) }, 0);
}

#[test]
fn a_fifo_is_not_waited_for() {
    let folder = Folder::new("fifo");
    make_fifo(&folder.file());
    for refused in [
        saved::open(folder.file()).map(drop),
        Options::new().load(folder.file()).map(drop),
    ] {
        let refused = refused.unwrap_err();
        assert!(matches!(refused, SavedError::NotAFile { .. }), "{refused}");
    }
    fs::remove_file(folder.file()).unwrap();
    make_fifo(&part(&folder.file(), "-last"));
    assert_eq!(count_in(&folder.file()), 0);
}

#[test]
fn a_file_of_another_user_that_everyone_may_write_is_refused() {
    let folder = Folder::new("of everyone");
    fs::write(folder.file(), "").unwrap();
    fs::set_permissions(folder.file(), Permissions::from_mode(0o666)).unwrap();
    assert_eq!(count_in(&folder.file()), 0);
    let path = CString::new(folder.file().as_os_str().as_bytes()).unwrap();
    if unsafe { libc::chown(path.as_ptr(), 65_534, 65_534) } != 0 {
        return println!("a file of another user: skipped, this user can't give a file away");
    }
    let refused = saved::open(folder.file()).map(drop).unwrap_err();
    assert!(matches!(refused, SavedError::NotPrivate { .. }), "{refused}");
    // Reading it changes nothing.
    Options::new().load(folder.file()).unwrap();
    fs::set_permissions(folder.file(), Permissions::from_mode(0o660)).unwrap();
    assert_eq!(count_in(&folder.file()), 0);
}
