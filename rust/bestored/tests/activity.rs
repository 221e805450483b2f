//! Tests `info`, `clients` and `kick`, and what a server reports on standard error.

use crate::common::{check_gone, command, start, wait_until, Folder, Server};
use bestore::Batch;
use bestore_client::{Client, Error, ErrorName};
use std::fs::{self, File};
use std::os::unix::fs::symlink;
use std::path::PathBuf;
use std::process::{self, Command};
use std::thread;
use std::time::Duration;

/// A server whose output is written to a file.
struct Saying {
    _folder: Folder,
    server: Server,
    said: PathBuf,
}

impl Saying {
    fn start(options: &[&str]) -> Self {
        let folder = Folder::new();
        let command = command(&folder.join("socket"), options);
        Self::run(folder, command)
    }

    /// Runs the command, which starts a server with its socket in this folder.
    fn run(folder: Folder, mut command: Command) -> Self {
        let (socket, said) = (folder.join("socket"), folder.join("said"));
        command.stderr(File::create(&said).unwrap());
        let server = Server::run(command, &socket);
        assert!(server.answers());
        Self {
            _folder: folder,
            server,
            said,
        }
    }

    /// Waits until a line contains this text.
    #[track_caller]
    fn says(&self, text: &str) {
        wait_until(text, || fs::read_to_string(&self.said).unwrap().contains(text));
    }
}

fn make(client: &mut Client, count: u64) {
    for _ in 0..count {
        client.apply(Batch::new().new_node()).unwrap();
    }
}

#[test]
fn what_is_written_is_counted() {
    let folder = Folder::new();
    let server = Server::start_kept(&folder, &[]);
    let mut client = server.client();
    let before = client.info().unwrap();
    assert_eq!(
        (before.writes, before.writing, before.latency, before.oldest),
        (0, 0, None, None)
    );
    make(&mut client, 20);
    assert!(client.apply(Batch::new().remove_node(99)).is_err());
    let after = client.info().unwrap();
    assert_eq!(
        (after.writes, after.writing, &after.run),
        (20, 0, &client.hello().unwrap().run)
    );
    assert_eq!(after.requests, before.requests + 22);
    assert_eq!(after.pages, before.pages);
    let files = after.files.unwrap();
    assert!(files.bytes > 0 && files.wal_bytes > 0 && after.log.is_none());
}

#[test]
fn every_request_is_counted() {
    let (_folder, server) = start(&[]);
    let mut client = server.client();
    let before = client.info().unwrap().requests;
    client.pin().unwrap();
    client.unpin().unwrap();
    client.unpin().unwrap_err();
    server.talk().check_parts("what", &["BadRequest"]);
    assert_eq!(client.info().unwrap().requests, before + 5);
}

#[test]
fn files_that_a_link_names_are_measured() {
    let folder = Folder::new();
    fs::create_dir(folder.join("elsewhere")).unwrap();
    symlink("elsewhere/file", folder.join("kept")).unwrap();
    let server = Server::start_kept(&folder, &[]);
    let mut client = server.client();
    make(&mut client, 20);
    let files = client.info().unwrap().files.unwrap();
    let length = |name: &str| folder.join("elsewhere").join(name).metadata().unwrap().len();
    assert_eq!((files.bytes, files.wal_bytes), (length("file"), length("file-wal")));
    assert!(files.wal_bytes > 0);
}

#[test]
fn a_copy_without_its_wal_is_reported() {
    let folder = Folder::new();
    let server = Server::start_kept(&folder, &[]);
    make(&mut server.client(), 1);
    let copy = folder.join("copy");
    fs::copy(folder.join("kept"), &copy).unwrap();
    server.kill();
    let command = command(&folder.join("socket"), &["--keep", copy.to_str().unwrap()]);
    let saying = Saying::run(folder, command);
    saying.says("copy: the store is empty, but this file seems to be a copy of one in use, without its -wal;");
}

#[test]
fn a_server_without_descriptors_says_so_once_and_goes_on() {
    let folder = Folder::new();
    let server = command(&folder.join("socket"), &[]);
    let mut limited = Command::new("sh");
    limited.args(["-c", "ulimit -n 24 && exec \"$@\"", "sh"]);
    limited.arg(server.get_program()).args(server.get_args());
    let saying = Saying::run(folder, limited);
    let waiting: Vec<_> = (0..40).map(|_| saying.server.talk()).collect();
    saying.says("a client could not connect");
    thread::sleep(Duration::from_secs(1));
    let said = fs::read_to_string(&saying.said).unwrap();
    assert_eq!(said.matches("a client could not connect").count(), 1, "{said}");
    drop(waiting);
    assert!(saying.server.answers());
}

#[test]
fn a_rate_is_of_the_last_seconds() {
    let folder = Folder::new();
    let server = Server::start(&folder, &[]);
    let mut client = server.client();
    make(&mut client, 200);
    let info = client.info().unwrap();
    let latency = info.latency.unwrap();
    assert!(latency.p50 <= latency.p99 && latency.p99 <= latency.most);
    assert!(info.seconds >= 9 || info.writes_per_second * (info.seconds + 1) >= 200 - info.seconds);
    assert_eq!(info.files, None);
}

#[test]
fn who_keeps_a_snapshot_is_named_and_can_be_ended() {
    let folder = Folder::new();
    let server = Server::start(&folder, &[]);
    let (mut holder, mut client) = (server.client(), server.client());
    let pinned = holder.pin().unwrap();
    make(&mut client, 3);
    let info = client.info().unwrap();
    let oldest = info.oldest.unwrap();
    assert_eq!((oldest.process, oldest.commit), (Some(process::id()), 0));
    assert!(oldest.milliseconds.is_some());

    let clients = client.clients().unwrap();
    let [held, own] = [&clients[clients.len() - 2], &clients[clients.len() - 1]];
    assert_eq!(oldest.client, Some(held.client));
    assert_eq!(held.pinned.as_ref().unwrap().commit, pinned.commit);
    assert_eq!((held.process, held.requests, held.own), (process::id(), 1, false));
    assert_eq!(
        (own.own, own.command.as_deref(), &own.pinned),
        (true, Some("clients"), &None)
    );

    client.kick(held.client).unwrap();
    assert!(matches!(holder.unpin(), Err(Error::Closed)));
    wait_until("the snapshot is given back", || client.info().unwrap().oldest.is_none());
    let gone = client.kick(held.client).unwrap_err();
    assert!(gone.is(ErrorName::NoClient), "{gone}");
}

#[test]
fn a_client_that_waits_is_shown_and_ended_too() {
    let folder = Folder::new();
    let server = Server::start(&folder, &[]);
    check_gone(
        &server,
        "reach",
        b"{\"id\":1,\"reach\":{\"commit\":5,\"within\":60000}}\n",
    );
}

#[test]
fn a_server_goes_on_if_its_reports_are_lost() {
    let folder = Folder::new();
    let socket = folder.join("socket");
    let mut command = command(&socket, &["--passes", "1"]);
    command.stderr(File::options().write(true).open("/dev/full").unwrap());
    let server = Server::run(command, &socket);
    assert!(server.answers());
    let mut client = server.patient_client();
    assert!(server.client().hello().unwrap_err().is(ErrorName::NoPass));
    client.hello().unwrap();
}

#[test]
fn the_server_says_when_it_starts_refuses_and_is_slow() {
    let saying = Saying::start(&["--passes", "1", "--slow", "1"]);
    let mut client = saying.server.patient_client();
    let run = client.hello().unwrap().run;
    saying.says(&format!(
        "bestored: run {run} listens at {}",
        saying.server.socket().display()
    ));

    let refused = saying.server.client().status().unwrap_err();
    assert!(refused.is(ErrorName::NoPass));
    saying.says(&format!(
        "bestored: process {} was refused: the maximum number of clients is connected (1)",
        process::id()
    ));

    client
        .apply(Batch::new().make_index("size", bestore::Kind::Int64))
        .unwrap();
    for first in (1..2_000).step_by(32) {
        let mut batch = Batch::new();
        for node in first..first + 32 {
            batch.new_node().set(node, "size", 1_i64);
        }
        client.apply(&batch).unwrap();
    }
    let text = format!(" (process {}) took ", process::id());
    wait_until("a query is slow", || {
        client.query("size==1").unwrap();
        let said = fs::read_to_string(&saying.said).unwrap();
        said.lines()
            .any(|line| line.starts_with("bestored: query of client ") && line.contains(&text))
    });
}
