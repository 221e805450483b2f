//! Tests servers that run in the background, and when a server begins to listen.

use crate::common::{command, wait_until, Folder};
use bestore::Batch;
use bestore_client::Client;
use std::fs::{self, File, Permissions};
use std::os::unix::fs::{symlink, MetadataExt, PermissionsExt};
use std::os::unix::net::UnixListener;
use std::path::Path;
use std::process::{Command, Output};

/// A background server, which is shut down when the test ends.
struct Background(String);

impl Background {
    /// Starts a server with this command, which must return once the server is listening.
    fn start(mut command: Command, socket: &Path) -> Self {
        let output = command.output().unwrap();
        let said = String::from_utf8(output.stdout).unwrap();
        let error = String::from_utf8_lossy(&output.stderr);
        assert!(output.status.success() && error.is_empty(), "{error}");
        let process = said.split_whitespace().nth(2).unwrap().to_owned();
        let expected = format!("bestored: process {process} listens at {}\n", socket.display());
        assert_eq!(said, expected);
        Self(process)
    }

    fn end(&self) {
        let killed = Command::new("kill").arg(&self.0).status().unwrap();
        assert!(killed.success());
        wait_until("the server ends", || {
            !Path::new("/proc").join(&self.0).join("fd").exists()
        });
    }
}

fn failed(command: &mut Command) -> String {
    let Output { status, stdout, stderr } = command.output().unwrap();
    assert!(!status.success() && stdout.is_empty(), "{status}");
    String::from_utf8(stderr).unwrap()
}

#[test]
fn it_listens_when_the_command_ends_and_goes_on() {
    let folder = Folder::new();
    let (socket, keep) = (folder.join("socket"), folder.join("kept"));
    let options = ["--background", "--keep", keep.to_str().unwrap()];
    let server = Background::start(command(&socket, &options), &socket);
    let made = Client::connect(&socket).unwrap().apply(Batch::new().new_node());
    assert_eq!(made.unwrap().nodes, [1]);
    let again = failed(&mut command(&socket, &options));
    assert!(again.ends_with("a server is listening there\n"), "{again}");
    let other = failed(&mut command(&folder.join("other"), &options));
    assert!(
        other.contains("the file is open in another process or store; close it there first"),
        "{other}"
    );
    server.end();
    assert!(!socket.exists());
    Background::start(command(&socket, &options), &socket).end();
}

#[test]
fn no_terminal_ends_it() {
    let folder = Folder::new();
    let socket = folder.join("socket");
    let server = Background::start(command(&socket, &["--background"]), &socket);
    let stat = fs::read_to_string(format!("/proc/{}/stat", server.0)).unwrap();
    // The name is followed by the state, the parent, the group, the session and the terminal.
    let fields: Vec<&str> = stat.rsplit(") ").next().unwrap().split(' ').collect();
    assert_eq!((fields[3], fields[4]), (&*server.0, "0"));
    for descriptor in 0..=2 {
        let to = fs::read_link(format!("/proc/{}/fd/{descriptor}", server.0)).unwrap();
        assert_eq!(to, Path::new("/dev/null"));
    }
    server.end();
    let errors = folder.join("errors");
    let mut command = command(&socket, &["--background"]);
    command.stderr(File::create(&errors).unwrap());
    let server = Background::start(command, &socket);
    assert_eq!(fs::read_link(format!("/proc/{}/fd/2", server.0)).unwrap(), errors);
    server.end();
}

#[test]
fn a_server_without_its_store_does_not_listen() {
    let folder = Folder::new();
    let (socket, keep) = (folder.join("socket"), folder.join("kept"));
    fs::write(&keep, "no store").unwrap();
    drop(UnixListener::bind(&socket).unwrap());
    let dead = fs::symlink_metadata(&socket).unwrap().ino();
    for options in [&["--background", "--keep"][..], &["--keep"]] {
        let said = failed(command(&socket, options).arg(&keep));
        assert!(said.starts_with("bestored: "), "{said}");
        assert_eq!(fs::symlink_metadata(&socket).unwrap().ino(), dead);
    }
}

/// Returns what a server prints when it refuses to use its default folder.
fn refused(folder: &Folder) -> String {
    let mut command = Command::new(env!("CARGO_BIN_EXE_bestored"));
    command.env_remove("BESTORE_SOCKET");
    failed(command.env("XDG_RUNTIME_DIR", folder.path()))
}

#[test]
fn a_default_folder_that_others_can_change_is_refused() {
    let folder = Folder::new();
    let own = folder.join("bestore");
    fs::create_dir(&own).unwrap();
    for mode in [0o777, 0o1777, 0o720] {
        fs::set_permissions(&own, Permissions::from_mode(mode)).unwrap();
        assert!(refused(&folder).contains("others may write to the folder"));
    }
    fs::set_permissions(&own, Permissions::from_mode(0o700)).unwrap();
    fs::rename(&own, folder.join("elsewhere")).unwrap();
    symlink(folder.join("elsewhere"), &own).unwrap();
    assert!(refused(&folder).ends_with("it isn't a folder, but a file or a link; name another path\n"));
    fs::remove_file(&own).unwrap();
    fs::create_dir(&own).unwrap();
    match Command::new("chown").arg("65534").arg(&own).status() {
        Ok(status) if status.success() => {
            assert!(refused(&folder).contains("the folder belongs to user 65534, and has to belong to user 0"));
        }
        _ => println!("a default folder of another user: skipped, only root can make one"),
    }
}
