//! Tests of kept stores whose files are removed, moved or replaced while they are open.
#![cfg(feature = "saved")]

mod common;

use bestore::saved::{self, Error as SavedError, Options};
use bestore::{Error, Pass};
use common::Folder;
use std::fs;
use std::os::unix::fs::symlink;
use std::path::Path;
use std::sync::Arc;
use std::time::Duration;

fn count(pass: &mut Pass) -> usize {
    pass.pin().unwrap().nodes().count()
}

fn count_in(path: &Path) -> usize {
    count(&mut saved::open(path).unwrap().pass().unwrap())
}

#[track_caller]
fn check_moved(error: &SavedError, path: &Path) {
    assert!(
        matches!(error, SavedError::Moved { path: found } if found.ends_with(path.file_name().unwrap())),
        "{error}"
    );
}

/// Opens the file at this path, lets `take_away` run after a write, and checks that the first write after that is refused, until
/// `bring_back` has run.
fn check(path: &Path, take_away: impl FnOnce(), bring_back: impl FnOnce()) {
    let saved = saved::open(path).unwrap();
    let mut pass = saved.pass().unwrap();
    pass.new_node().unwrap();
    take_away();
    for _ in 0..2 {
        match pass.new_node().unwrap_err() {
            Error::Stopped(error) => check_moved(&error, path),
            error => panic!("{error}"),
        }
        check_moved(&saved.check_file().unwrap_err(), path);
        check_moved(&saved.flush().unwrap_err(), path);
        check_moved(&saved.compact().unwrap_err(), path);
    }
    assert_eq!(count(&mut pass), 1);
    bring_back();
    pass.new_node().unwrap();
    saved.close().unwrap();
    assert_eq!(count_in(path), 2);
}

#[test]
fn a_file_that_was_moved_takes_no_writes_until_it_is_back() {
    let folder = Folder::new("moved");
    let elsewhere = folder.0.join("elsewhere");
    let away = || fs::rename(folder.file(), &elsewhere).unwrap();
    check(&folder.file(), away, || fs::rename(&elsewhere, folder.file()).unwrap());
}

#[test]
fn a_file_that_was_replaced_takes_no_writes_until_it_is_back() {
    let folder = Folder::new("replaced");
    let [elsewhere, other] = ["elsewhere", "other"].map(|name| folder.0.join(name));
    saved::open(&other).unwrap().close().unwrap();
    let away = || {
        fs::rename(folder.file(), &elsewhere).unwrap();
        fs::rename(&other, folder.file()).unwrap();
    };
    check(&folder.file(), away, || fs::rename(&elsewhere, folder.file()).unwrap());
}

#[test]
fn a_file_in_a_folder_that_was_moved_takes_no_writes_until_it_is_back() {
    let folder = Folder::new("within");
    let [within, elsewhere] = ["within", "elsewhere"].map(|name| folder.0.join(name));
    fs::create_dir(&within).unwrap();
    let away = || fs::rename(&within, &elsewhere).unwrap();
    check(&within.join("file"), away, || fs::rename(&elsewhere, &within).unwrap());
}

#[test]
fn a_file_whose_link_was_removed_takes_no_writes_until_it_is_back() {
    let folder = Folder::new("unlinked");
    let link = || symlink("elsewhere", folder.file()).unwrap();
    link();
    check(&folder.file(), || fs::remove_file(folder.file()).unwrap(), link);
}

#[test]
fn a_file_that_was_removed_takes_no_writes_and_says_so_at_its_end() {
    let folder = Folder::new("removed");
    let saved = saved::open(folder.file()).unwrap();
    let mut pass = saved.pass().unwrap();
    pass.new_node().unwrap();
    fs::remove_file(folder.file()).unwrap();
    // Nobody else begins with an empty store at this path, beside the WAL.
    let refused = saved::open(folder.file()).map(drop).unwrap_err();
    assert!(matches!(refused, SavedError::OtherWal { .. }), "{refused}");
    let refused = pass.new_node().unwrap_err();
    let said = refused.to_string();
    assert!(
        said.contains("test.bestore: the file was removed, moved or replaced while it was open;"),
        "{said}"
    );
    assert_eq!(count(&mut pass), 1);
    check_moved(&saved.close().unwrap_err(), &folder.file());
}

#[test]
fn writes_that_wait_for_a_removed_file_are_not_saved() {
    let folder = Folder::new("waiting");
    let saved = Options::new()
        .every(Duration::from_secs(3_600))
        .open(folder.file())
        .unwrap();
    let pass = saved.pass().unwrap();
    pass.new_node().unwrap();
    fs::remove_file(folder.file()).unwrap();
    match saved.flush().unwrap_err() {
        SavedError::Stopped(error) => check_moved(&error, &folder.file()),
        error => panic!("{error}"),
    }
    assert!(matches!(pass.new_node().unwrap_err(), Error::Stopped(_)));
    assert!(saved.failure().is_some());
}

/// Removes the WAL of a test's store.
fn remove_wal(folder: &Folder) {
    fs::remove_file(format!("{}-wal", folder.file().display())).unwrap();
}

#[test]
fn a_store_whose_wal_was_removed_stops_and_loses_nothing() {
    let folder = Folder::new("wal");
    let saved = saved::open(folder.file()).unwrap();
    let pass = saved.pass().unwrap();
    pass.new_node().unwrap();
    remove_wal(&folder);
    let refused = pass.new_node().unwrap_err();
    assert!(
        matches!(&refused, Error::NotSaved(error) if matches!(**error, SavedError::WalMoved { .. })),
        "{refused}"
    );
    assert!(matches!(pass.new_node().unwrap_err(), Error::Stopped(_)));
    assert!(saved.close().is_err());
    assert_eq!(count_in(&folder.file()), 2);
}

/// When a server ends, its clients' threads may still have the store and a pass.
#[test]
fn a_shared_store_whose_wal_was_removed_loses_nothing_when_it_ends() {
    let folder = Folder::new("shared");
    let saved = Arc::new(saved::open(folder.file()).unwrap());
    let (_shared, pass) = (saved.clone(), saved.pass().unwrap());
    pass.new_node().unwrap();
    remove_wal(&folder);
    assert!(matches!(pass.new_node(), Err(Error::NotSaved(_))));
    assert!(saved.end().is_err());
    assert_eq!(count_in(&folder.file()), 2);
    assert!(matches!(pass.new_node(), Err(Error::Stopped(_))));
}
