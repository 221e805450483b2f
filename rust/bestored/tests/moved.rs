//! Tests servers whose file is removed, moved or replaced while they run.

use crate::common::{Folder, Server};
use bestore::Batch;
use bestore_client::wire::{Command, Nothing};
use bestore_client::{Client, Error, ErrorName};
use std::fs;

const SAID: &str = "the file was removed, moved or replaced while it was open";

fn make(client: &mut Client) -> Result<(), Error> {
    client.apply(Batch::new().new_node()).map(drop)
}

#[track_caller]
fn check_said(folder: &Folder, said: &str) {
    let expected = format!("{}: {SAID}", folder.join("kept").display());
    assert!(said.contains(&expected), "{said}");
}

/// Checks that the server refuses writes, says why, and still answers reads.
fn check_refused(folder: &Folder, client: &mut Client) {
    let refused = make(client).unwrap_err();
    assert!(refused.is(ErrorName::Stopped), "{refused}");
    check_said(folder, &refused.to_string());
    let flushed = client.call::<Nothing>(Command::Flush(Nothing {})).unwrap_err();
    assert!(flushed.is(ErrorName::NotSaved), "{flushed}");
    check_said(folder, &client.status().unwrap().trouble.unwrap());
    check_said(folder, &client.info().unwrap().trouble.unwrap());
    assert_eq!(client.pin().unwrap().next, 2);
    client.unpin().unwrap();
}

#[test]
fn a_server_whose_file_was_removed_says_so_and_does_not_end_well() {
    for options in [&[][..], &["--every", "1"]] {
        let folder = Folder::new();
        let server = Server::start_kept(&folder, options);
        let mut client = server.client();
        make(&mut client).unwrap();
        client.call::<Nothing>(Command::Flush(Nothing {})).unwrap();
        fs::remove_file(folder.join("kept")).unwrap();
        check_refused(&folder, &mut client);
        check_refused(&folder, &mut server.client());
        assert_eq!(server.end_by("TERM").code(), Some(1));
    }
}

#[test]
fn a_server_whose_file_was_moved_or_replaced_writes_once_it_is_back() {
    for is_replaced in [false, true] {
        let folder = Folder::new();
        let [kept, elsewhere] = ["kept", "elsewhere"].map(|name| folder.join(name));
        let server = Server::start_kept(&folder, &[]);
        let mut client = server.client();
        make(&mut client).unwrap();
        fs::rename(&kept, &elsewhere).unwrap();
        if is_replaced {
            fs::copy(&elsewhere, &kept).unwrap();
        }
        check_refused(&folder, &mut client);
        fs::rename(&elsewhere, &kept).unwrap();
        make(&mut client).unwrap();
        assert_eq!(client.status().unwrap().trouble, None);
        server.kill();
        let server = Server::start_kept(&folder, &[]);
        assert_eq!(server.client().pin().unwrap().next, 3);
    }
}

#[test]
fn a_server_whose_wal_was_removed_ends_and_loses_nothing() {
    let folder = Folder::new();
    let server = Server::start_kept(&folder, &[]);
    let mut client = server.client();
    make(&mut client).unwrap();
    fs::remove_file(folder.join("kept-wal")).unwrap();
    let refused = make(&mut client).unwrap_err();
    assert!(refused.is(ErrorName::NotSaved), "{refused}");
    assert!(refused.to_string().contains("kept-wal: "), "{refused}");
    assert!(!server.wait_end().success());
    let server = Server::start_kept(&folder, &[]);
    assert_eq!(server.client().pin().unwrap().next, 3);
}
