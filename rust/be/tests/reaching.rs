//! Tests of how the tool reaches its server: where it looks, whose server it accepts, and how long it waits.

use crate::common::files::Folder;
use crate::common::{server_program, Said, Server, BE, NOBODY};
use bestore_client::Client;
use std::fs;
use std::os::unix::fs::{MetadataExt, PermissionsExt};
use std::os::unix::net::UnixListener;
use std::os::unix::process::CommandExt;
use std::path::Path;
use std::process::{Child, Command, Stdio};
use std::thread;
use std::time::{Duration, Instant};

/// Returns the tool, in an environment that doesn't specify a server.
fn be(words: &[&str]) -> Command {
    let mut command = Command::new(BE);
    command.env_remove("BESTORE_SOCKET").env_remove("XDG_RUNTIME_DIR");
    command.args(words).stdin(Stdio::null());
    command
}

fn said(command: &mut Command) -> Said {
    command.output().unwrap().into()
}

/// A process that is killed when this is dropped.
struct Running(Child);

impl Drop for Running {
    fn drop(&mut self) {
        let _ = self.0.kill();
        let _ = self.0.wait();
    }
}

#[test]
fn a_server_that_starts_is_waited_for() {
    let program = match server_program() {
        Some(program) => program,
        None => return println!("be, waiting for a server: skipped, bestored isn't built"),
    };
    let folder = Folder::new();
    let socket = folder.word("socket");
    let waiting = thread::spawn({
        let socket = socket.clone();
        move || said(&mut be(&["--socket", &socket, "--wait", "60", "status"]))
    });
    // Without --wait, the tool reports immediately that there is no server. By the time it exits, the other tool is waiting.
    assert_eq!(said(&mut be(&["--socket", &socket, "status"])).status, 1);
    let _server = Running(Command::new(program).args(["--socket", &socket]).spawn().unwrap());
    let waited = waiting.join().unwrap();
    assert_eq!((waited.status, waited.error.as_str()), (0, ""));
}

#[test]
fn a_wait_ends() {
    let folder = Folder::new();
    let socket = folder.word("socket");
    for words in [&["--wait", "0.05", "status"], &["--wait", "0", "status"]] {
        let said = said(be(words).env("BESTORE_SOCKET", &socket));
        assert_eq!(said.status, 1);
        assert!(said.error.contains("no server answers at "), "{said:?}");
    }
}

#[test]
fn a_socket_of_another_user_is_reported_as_such() {
    let folder = Folder::new();
    fs::set_permissions(&folder.0, fs::Permissions::from_mode(0o755)).unwrap();
    let socket = folder.word("socket");
    let _listener = UnixListener::bind(&socket).unwrap();
    fs::set_permissions(&socket, fs::Permissions::from_mode(0o000)).unwrap();
    let mut command = be(&["--socket", &socket, "status"]);
    if fs::metadata(&socket).unwrap().uid() == 0 {
        command.uid(NOBODY).gid(NOBODY); // root may connect to any socket
    }
    let said: Said = match command.output() {
        Ok(output) => output.into(),
        Err(error) => return println!("be, a socket of another user: skipped, another user can't run be: {error}"),
    };
    let why = format!(
        "be: no server answers at {socket}: Permission denied (os error 13)\n  only the server's own user and root may connect\n"
    );
    assert_eq!((said.status, said.error), (1, why));
}

#[test]
fn a_path_that_no_socket_can_have_is_reported_as_such() {
    let socket = format!("/tmp/{}", "a".repeat(103));
    // No server can start there, so there is nothing to wait for.
    let begun = Instant::now();
    for wait in ["0", "60"] {
        let said = said(&mut be(&["--socket", &socket, "--wait", wait, "status"]));
        let why = format!(
            "be: no server answers at {socket}: the path of a socket has 1 to 107 bytes and no zero byte\n  --socket or \
             BESTORE_SOCKET can name another path\n"
        );
        assert_eq!((said.status, said.error), (1, why));
    }
    assert!(begun.elapsed() < Duration::from_secs(30), "be has waited");
}

#[test]
fn a_server_that_does_not_reply_is_given_up() {
    let folder = Folder::new();
    let socket = folder.word("socket");
    let _listener = UnixListener::bind(&socket).unwrap();
    let said = said(&mut be(&["--socket", &socket, "--timeout", "0.05", "status"]));
    assert_eq!(
        (said.status, said.error.as_str()),
        (
            1,
            "be: the server didn't reply within 50ms; a write may or may not have been made\n"
        )
    );
}

#[test]
fn a_server_without_a_place_answers_short_commands() {
    let server = server!(Server::start_with(&["--passes", "1"]));
    let mut idle = Client::connect(server.socket()).unwrap();
    idle.hello().unwrap();
    server.done(&["mkindex", "name"]);
    assert_eq!(server.done(&["addattr", "--new", "name", "a"]), "1\n");
    assert_eq!(server.done(&["query", "-c", "name", "name==a"]), "1\ta\n");
    assert!(server.done(&["status"]).contains("clients"));
    for words in [&["query", "--watch", "name==a"][..], &["import", "/dev"]] {
        let said = server.be(words);
        let why = "be: the maximum number of clients is connected (1); try again once one has disconnected\n";
        assert_eq!((said.status, said.error.as_str()), (1, why));
    }
    idle.hello().unwrap();
}

/// Starts a server as the user `NOBODY`. If that isn't possible, prints why and returns `None`.
fn server_of_nobody(socket: &Path) -> Option<Running> {
    let skip = |why| {
        println!("be, a server of another user: skipped, {why}");
        None
    };
    let program = match server_program() {
        Some(program) => program,
        None => return skip("bestored isn't built"),
    };
    let mut command = Command::new(program);
    command.stdout(Stdio::null()).uid(NOBODY).gid(NOBODY);
    match command.arg("--version").status() {
        Ok(status) if status.success() => {}
        _ => return skip("only root can act as another user, who may run bestored"),
    }
    let mut command = Command::new(command.get_program());
    command.arg("--socket").arg(socket).uid(NOBODY).gid(NOBODY);
    let server = Running(command.spawn().unwrap());
    let is_there = said(be(&["--wait", "60", "status"]).env("BESTORE_SOCKET", socket));
    assert_eq!((is_there.status, is_there.error.as_str()), (0, ""));
    Some(server)
}

#[test]
fn another_users_server_at_a_default_path_is_refused() {
    let folder = Folder::new();
    folder.folder("bestore");
    let own = Path::new(&folder.0).join("bestore");
    let changed = Command::new("chown").arg(NOBODY.to_string()).arg(&own).status();
    if !changed.map_or(false, |status| status.success()) {
        return println!("be, a server of another user: skipped, only root can act as one");
    }
    fs::set_permissions(&folder.0, fs::Permissions::from_mode(0o755)).unwrap();
    let socket = own.join("socket");
    let _server = match server_of_nobody(&socket) {
        Some(server) => server,
        None => return,
    };
    let found = said(be(&["status"]).env("XDG_RUNTIME_DIR", &folder.0));
    let why = format!(
        "be: the server at {} runs as user {NOBODY}, and has to run as user 0 or as root; BESTORE_SOCKET or an option can \
         name the socket of a server that you trust\n",
        socket.display()
    );
    assert_eq!((found.status, found.error), (1, why));
    // If the user gives the socket, its server is accepted no matter who owns it.
    let named = said(be(&["--socket"]).arg(&socket).arg("status"));
    assert_eq!((named.status, named.error.as_str()), (0, ""));
}
