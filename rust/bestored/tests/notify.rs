//! Tests the messages that a service manager receives. A socket of the test's own takes the manager's place.

use crate::common::{command, Folder, Server, PATIENCE};
use bestore_client::{Client, Options};
use std::os::unix::net::UnixDatagram;
use std::path::PathBuf;
use std::process::{Command, Stdio};
use std::thread;
use std::time::{Duration, Instant};

/// The socket of a service manager, and a server's folder.
struct Manager {
    folder: Folder,
    socket: UnixDatagram,
}

impl Manager {
    fn new() -> Self {
        let folder = Folder::new();
        let socket = UnixDatagram::bind(folder.join("notify")).unwrap();
        socket.set_read_timeout(Some(PATIENCE)).unwrap();
        Self { folder, socket }
    }

    fn place(&self) -> PathBuf {
        self.folder.join("socket")
    }

    fn command(&self, options: &[&str]) -> Command {
        let mut command = command(&self.place(), options);
        command.env("NOTIFY_SOCKET", self.folder.join("notify"));
        command
    }

    fn next(&self) -> String {
        let mut bytes = [0; 4_096];
        let length = self.socket.recv(&mut bytes).unwrap();
        String::from_utf8(bytes[..length].into()).unwrap()
    }
}

#[test]
fn a_server_says_that_it_is_ready_lives_and_ends() {
    let manager = Manager::new();
    let mut command = manager.command(&[]);
    command.env("WATCHDOG_USEC", "30000");
    let server = Server::run(command, &manager.place());
    assert_eq!(manager.next(), "READY=1\nSTATUS=listens");
    // By now, the server is listening.
    Client::connect(server.socket()).unwrap().hello().unwrap();
    for _ in 0..3 {
        assert_eq!(manager.next(), "WATCHDOG=1");
    }
    assert!(server.end_by("TERM").success());
    let mut last = manager.next();
    while last == "WATCHDOG=1" {
        last = manager.next();
    }
    assert_eq!(last, "STOPPING=1");
}

#[test]
fn the_watchdog_of_another_process_gets_nothing() {
    let manager = Manager::new();
    let mut command = manager.command(&[]);
    command.env("WATCHDOG_USEC", "1000").env("WATCHDOG_PID", "1");
    let server = Server::run(command, &manager.place());
    assert_eq!(manager.next(), "READY=1\nSTATUS=listens");
    assert!(server.end_by("TERM").success());
    assert_eq!(manager.next(), "STOPPING=1");
}

#[test]
fn a_server_that_cannot_start_says_nothing_and_one_whose_manager_is_gone_serves() {
    let manager = Manager::new();
    let server = Server::run(manager.command(&["--keep", "/no/such/folder/kept"]), &manager.place());
    assert!(!server.wait_end().success());
    manager.socket.set_nonblocking(true).unwrap();
    assert!(manager.socket.recv(&mut [0; 9]).is_err());
    let mut command = manager.command(&[]);
    for gone in ["/no/such/socket", "@bestored-no-such-manager"] {
        command.env("NOTIFY_SOCKET", gone);
        let server = Server::run(command, &manager.place());
        assert!(server.answers());
        server.kill();
        command = manager.command(&[]);
    }
}

#[test]
fn a_server_whose_manager_hangs_goes_on() {
    let manager = Manager::new();
    let mut command = manager.command(&[]);
    command.env("WATCHDOG_USEC", "3000").stderr(Stdio::null());
    let server = Server::run(command, &manager.place());
    assert!(server.answers());
    // The manager reads nothing, so its socket takes no more messages after a while.
    thread::sleep(Duration::from_secs(3));
    let mut options = Options::new();
    let mut client = options
        .timeout(Some(Duration::from_secs(20)))
        .connect(server.socket())
        .unwrap();
    client.hello().unwrap();
    drop(client);
    let begin = Instant::now();
    assert!(server.end_by("TERM").success());
    assert!(begin.elapsed() < Duration::from_secs(30));
}
