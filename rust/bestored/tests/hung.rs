//! Tests a server whose disk hangs. A preloaded library makes `fsync` and `fdatasync` wait for as long as a file exists.

#[path = "../../bestore/tests/common/preload.rs"]
mod preload;

use crate::common::{command, wait_until, Folder, Server, Talk};
use bestore::Batch;
use std::fs;
use std::os::unix::net::UnixDatagram;
use std::time::{Duration, Instant};

const LIBRARY: &str = r#"
#include <fcntl.h>
#include <stdlib.h>
#include <sys/syscall.h>
#include <unistd.h>

static void hang(void)
{
    const char *path = getenv("HANG");
    if (path && access(path, F_OK) == 0)
        close(creat(getenv("HANGING"), 0600));
    for (int tenths = 0; tenths < 400 && path && access(path, F_OK) == 0; tenths++)
        usleep(100000);
}

int fsync(int file)
{
    hang();
    return syscall(SYS_fsync, file);
}

int fdatasync(int file)
{
    hang();
    return syscall(SYS_fdatasync, file);
}
"#;

/// A server whose disk can hang, and the socket of its service manager.
struct Hanging {
    folder: Folder,
    manager: UnixDatagram,
    server: Server,
}

impl Hanging {
    /// Starts the server, with a node.
    fn start() -> Option<Self> {
        let hanging = Self::start_only(Folder::new())?;
        assert!(hanging.server.answers());
        hanging.server.client().apply(Batch::new().new_node()).unwrap();
        Some(hanging)
    }

    /// Starts the server, without waiting for it.
    fn start_only(folder: Folder) -> Option<Self> {
        let library = preload::compile(folder.path(), LIBRARY, "a disk that hangs")?;
        let manager = UnixDatagram::bind(folder.join("notify")).unwrap();
        manager.set_read_timeout(Some(Duration::from_millis(500))).unwrap();
        let [socket, kept] = ["socket", "kept"].map(|name| folder.join(name));
        let mut command = command(&socket, &["--hung", "200", "--keep", kept.to_str().unwrap()]);
        command.env("LD_PRELOAD", library).env("HANG", folder.join("hangs"));
        command.env("HANGING", folder.join("hanging"));
        command
            .env("NOTIFY_SOCKET", folder.join("notify"))
            .env("WATCHDOG_USEC", "30000");
        let server = Server::run(command, &socket);
        Some(Self {
            folder,
            manager,
            server,
        })
    }

    fn trouble(&self) -> Option<String> {
        self.server.client().info().unwrap().trouble
    }

    /// Waits until the server's watchdog has had no message for half a second, or gets one again.
    fn wait_notified(&self, is_notified: bool) {
        wait_until("the watchdog is notified or isn't", || {
            self.manager.recv(&mut [0; 99]).is_ok() == is_notified
        });
    }

    /// Lets the disk hang, and waits until `info` says so. Returns the client that waits for a write.
    fn hang(&self) -> Talk {
        let info = self.server.client().info().unwrap();
        assert!(
            info.commits.is_some() && info.unsaved.is_none() && info.trouble.is_none(),
            "{info:?}"
        );
        fs::write(self.folder.join("hangs"), "").unwrap();
        let mut writing = self.server.talk();
        writing.send(b"{\"id\":1,\"batch\":{\"operations\":[[\"new\"]]}}\n");
        wait_until("the disk hangs", || {
            self.trouble()
                .map_or(false, |trouble| trouble.contains("kept hangs: it hasn't completed"))
        });
        assert!(self.server.client().info().unwrap().unsaved.unwrap() >= 200);
        self.wait_notified(false);
        writing
    }
}

#[test]
fn a_server_whose_disk_hangs_says_so_and_ends_at_a_signal() {
    let hanging = present!(Hanging::start());
    let mut writing = hanging.hang();
    let begin = Instant::now();
    assert_eq!(hanging.server.end_by("TERM").code(), Some(1));
    let took = begin.elapsed();
    assert!(took < Duration::from_secs(25), "{took:?}");
    assert_eq!(writing.line(), "");
    let server = Server::start_kept(&hanging.folder, &[]);
    assert!(server.client().pin().unwrap().next >= 2);
}

#[test]
fn a_server_goes_on_once_its_disk_does() {
    let hanging = present!(Hanging::start());
    let mut writing = hanging.hang();
    fs::remove_file(hanging.folder.join("hangs")).unwrap();
    let reply = writing.line();
    assert!(reply.contains("\"nodes\":[2]"), "{reply}");
    assert_eq!(hanging.trouble(), None);
    hanging.wait_notified(true);
    assert!(hanging.server.end_by("TERM").success());
}

#[test]
fn a_server_whose_disk_hangs_while_it_loads_ends_at_a_signal() {
    let folder = Folder::new();
    let server = Server::start_kept(&folder, &[]);
    server.client().apply(Batch::new().new_node()).unwrap();
    server.kill();
    fs::remove_file(folder.join("socket")).unwrap();
    // Since an entry follows the state, the state is rewritten.
    fs::write(folder.join("hangs"), "").unwrap();
    let hanging = present!(Hanging::start_only(folder));
    wait_until("the disk hangs", || hanging.folder.join("hanging").exists());
    let begin = Instant::now();
    assert!(hanging.server.end_by("TERM").success());
    let took = begin.elapsed();
    assert!(took < Duration::from_secs(25), "{took:?}");
    let server = Server::start_kept(&hanging.folder, &[]);
    assert_eq!(server.client().pin().unwrap().next, 2);
}
