//! Tests the socket, who may connect to it, and how the server shuts down.

use crate::common::{command, wait_until, Folder, Server, Talk, PATIENCE};
use bestore::Batch;
use bestore_client::ErrorName;
use std::fs::{self, File, Permissions};
use std::io::Read;
use std::os::unix::fs::PermissionsExt;
use std::os::unix::io::AsRawFd;
use std::os::unix::net::{UnixListener, UnixStream};
use std::path::Path;
use std::process::{Child, Command, Output, Stdio};
use std::thread;
use std::time::{Duration, Instant};

/// How long a server that is shutting down still answers, and how many requests have arrived by then.
const LAST: Duration = Duration::from_secs(5);
const SENT: u64 = 200;

/// Runs the server until it ends by itself, and returns its output.
fn said(mut command: Command) -> Output {
    let mut child = command.stdout(Stdio::piped()).stderr(Stdio::piped()).spawn().unwrap();
    wait_until("the server ends", || child.try_wait().unwrap().is_some());
    child.wait_with_output().unwrap()
}

#[track_caller]
fn refused(command: Command, why: &str) {
    let output = said(command);
    let text = String::from_utf8(output.stderr).unwrap();
    assert!(!output.status.success() && text.contains(why), "{text}");
}

#[test]
fn help_and_version_are_shown() {
    let folder = Folder::new();
    let shown = |option| {
        let output = said(command(&folder.join("socket"), &[option]));
        assert!(output.status.success());
        String::from_utf8(output.stdout).unwrap()
    };
    assert_eq!(shown("--version"), "bestored 0.4.0\n");
    let help = shown("--help");
    for option in [
        "--socket",
        "--keep",
        "--every",
        "--pages",
        "--passes",
        "--commits",
        "--hold",
    ] {
        assert!(help.contains(option), "{help}");
    }
}

/// Returns whether the tests run under `nohup`, and the servers with them.
fn ignores_hangups() -> bool {
    let status = fs::read_to_string("/proc/self/status").unwrap();
    let ignored = status.lines().find_map(|line| line.strip_prefix("SigIgn:")).unwrap();
    u64::from_str_radix(ignored.trim(), 16).unwrap() & 1 == 1
}

#[test]
fn under_nohup_a_server_stays() {
    let folder = Folder::new();
    let server = command(&folder.join("socket"), &[]);
    let mut nohup = Command::new("nohup");
    nohup.arg(server.get_program()).args(server.get_args());
    let server = Server::run(nohup, &folder.join("socket"));
    assert!(server.answers());
    server.signal("HUP");
    thread::sleep(Duration::from_millis(200));
    server.client().hello().unwrap();
    assert!(server.end_by("TERM").success());
}

#[test]
fn the_socket_is_of_the_user_alone_and_goes_with_the_server() {
    for signal in ["TERM", "INT", "HUP"] {
        if signal == "HUP" && ignores_hangups() {
            continue;
        }
        let folder = Folder::new();
        let server = Server::start(&folder, &[]);
        let socket = folder.join("socket");
        let mode = fs::metadata(&socket).unwrap().permissions().mode();
        assert_eq!(mode & 0o777, 0o600);
        let mut idle = server.talk();
        idle.check(r#""pin":{}"#, r#""ok":{"commit":0,"next":1}"#);
        assert!(server.end_by(signal).success());
        assert!(!socket.exists());
        assert_eq!(idle.line(), "");
    }
}

/// Returns the command for a server without `--socket` in this environment.
fn in_environment(variables: &[(&str, &Path)]) -> Command {
    let mut command = Command::new(env!("CARGO_BIN_EXE_bestored"));
    command.env_remove("BESTORE_SOCKET").env_remove("XDG_RUNTIME_DIR");
    command.envs(variables.iter().copied());
    command
}

#[test]
fn the_environment_says_where_the_socket_is() {
    let folder = Folder::new();
    let (named, none, in_folder) = (folder.join("named"), Path::new(""), folder.join("bestore/socket"));
    for (variables, socket) in [
        (
            [("BESTORE_SOCKET", &*named), ("XDG_RUNTIME_DIR", folder.path())],
            &named,
        ),
        (
            [("BESTORE_SOCKET", none), ("XDG_RUNTIME_DIR", folder.path())],
            &in_folder,
        ),
    ] {
        let server = Server::run(in_environment(&variables), socket);
        assert!(server.answers(), "{variables:?}");
        assert!(server.end_by("TERM").success());
    }
}

#[test]
fn a_dead_server_is_replaced_and_a_living_one_isnt() {
    let folder = Folder::new();
    let dead = Server::start(&folder, &[]);
    refused(command(dead.socket(), &[]), "a server is listening there");
    dead.kill();
    assert!(folder.join("socket").exists());
    let server = Server::start(&folder, &[]);
    assert_eq!(server.client().apply(Batch::new().new_node()).unwrap().nodes, [1]);
    refused(command(server.socket(), &[]), "a server is listening there");
    assert_eq!(server.client().apply(Batch::new().new_node()).unwrap().nodes, [2]);
}

#[test]
fn a_living_server_is_found_although_it_accepts_nobody() {
    let folder = Folder::new();
    let socket = folder.join("socket");
    let listener = UnixListener::bind(&socket).unwrap();
    // SAFETY: the call takes only numbers. From now on, only one connection can be pending.
    assert_eq!(unsafe { libc::listen(listener.as_raw_fd(), 0) }, 0);
    let _pending = UnixStream::connect(&socket).unwrap();
    refused(command(&socket, &[]), "a server is listening there");
}

#[test]
fn of_many_servers_at_once_one_starts() {
    let folder = Folder::new();
    drop(UnixListener::bind(folder.join("socket")).unwrap());
    let mut servers: Vec<_> = (0..8)
        .map(|_| {
            command(&folder.join("socket"), &[])
                .stderr(Stdio::null())
                .spawn()
                .unwrap()
        })
        .collect();
    wait_until("seven have ended", || {
        let ended = servers.iter_mut().filter_map(|server| server.try_wait().unwrap());
        ended.count() == 7
    });
    UnixStream::connect(folder.join("socket")).unwrap();
    for mut server in servers {
        server.kill().unwrap();
        server.wait().unwrap();
    }
}

#[test]
fn other_files_and_folders_are_left_alone() {
    let folder = Folder::new();
    fs::write(folder.join("file"), "text").unwrap();
    refused(command(&folder.join("file"), &[]), "isn't a socket; remove it");
    assert_eq!(fs::read(folder.join("file")).unwrap(), b"text");
    refused(command(&folder.join("none/none/socket"), &[]), "No such file");
    let length = "the path of a socket has 1 to 107 bytes and no zero byte";
    refused(command(&folder.join(&"a".repeat(200)), &[]), length);
    let open = folder.join("open");
    fs::create_dir(&open).unwrap();
    fs::set_permissions(&open, Permissions::from_mode(0o777)).unwrap();
    refused(command(&open.join("socket"), &[]), "others may write");
    fs::set_permissions(&open, Permissions::from_mode(0o1777)).unwrap();
    drop(Server::start(&folder, &[]));
}

#[test]
fn a_socket_that_was_replaced_stays() {
    let folder = Folder::new();
    let server = Server::start(&folder, &[]);
    fs::remove_file(folder.join("socket")).unwrap();
    let _other = UnixListener::bind(folder.join("socket")).unwrap();
    assert!(server.end_by("TERM").success());
    assert!(folder.join("socket").exists());
}

#[test]
fn another_user_cant_connect() {
    let who = Command::new("id").arg("-u").output().unwrap();
    if who.stdout != b"0\n" {
        println!("skipped: only root can act as another user");
        return;
    }
    let (folder, reports) = (Folder::new(), Folder::new());
    let socket = folder.join("socket");
    let mut command = command(&socket, &[]);
    command.stderr(File::create(reports.join("said")).unwrap());
    let server = Server::run(command, &socket);
    wait_until("the server listens", || UnixStream::connect(&socket).is_ok());
    let connect = r#"for (1..9) { $s = IO::Socket::UNIX->new(Peer => $ARGV[0]) or die "$!\n"; print scalar <$s> }"#;
    let as_nobody = || {
        let nobody = [
            "--reuid=65534",
            "--regid=65534",
            "--clear-groups",
            "perl",
            "-MIO::Socket::UNIX",
            "-e",
            connect,
        ];
        let output = Command::new("setpriv")
            .args(nobody)
            .arg(server.socket())
            .output()
            .unwrap();
        String::from_utf8(output.stdout).unwrap() + &String::from_utf8(output.stderr).unwrap()
    };
    assert!(as_nobody().contains("Permission denied"), "{}", as_nobody());
    // Even if the files' permissions let others connect, the server itself refuses them.
    fs::set_permissions(folder.path(), Permissions::from_mode(0o755)).unwrap();
    fs::set_permissions(folder.join("socket"), Permissions::from_mode(0o777)).unwrap();
    let said = as_nobody();
    assert_eq!(said.matches("NotAllowed").count(), 9, "{said}");
    server.client().hello().unwrap();
    // However often it tries, this is reported only now and then.
    let said = fs::read_to_string(reports.join("said")).unwrap();
    assert_eq!(said.matches("the server belongs to another user").count(), 1, "{said}");
}

/// Runs a server with these options once a client connects to this socket, which systemd's tool then passes to it. Returns `None` if
/// there is no such tool.
pub fn activated(socket: &Path, options: &[&str]) -> Option<Child> {
    let activate = Command::new("systemd-socket-activate").arg("--version").output();
    if !activate.map_or(false, |output| output.status.success()) {
        println!("skipped: there is no systemd-socket-activate");
        return None;
    }
    let library_path = std::env::var_os("LD_LIBRARY_PATH").unwrap_or_default();
    let mut server = Command::new("systemd-socket-activate");
    server.arg("-l").arg(socket);
    server.args(["-E", &format!("LD_LIBRARY_PATH={}", library_path.to_string_lossy())]);
    server.arg(env!("CARGO_BIN_EXE_bestored")).args(options);
    Some(server.spawn().unwrap())
}

#[test]
fn systemd_passes_the_socket() {
    let folder = Folder::new();
    let socket = folder.join("socket");
    let mut server = present!(activated(&socket, &[]));
    wait_until("the socket is there", || UnixStream::connect(&socket).is_ok());
    let mut talk = Talk::new(UnixStream::connect(&socket).unwrap());
    talk.check(r#""next":{}"#, r#""ok":{"commit":0,"next":1}"#);
    let number = server.id().to_string();
    assert!(Command::new("kill")
        .args(["-s", "TERM", &number])
        .status()
        .unwrap()
        .success());
    wait_until("the server ends", || server.try_wait().unwrap().is_some());
    assert!(server.wait().unwrap().success());
    assert!(socket.exists());
}

#[test]
fn a_command_line_that_systemds_socket_excludes_is_invalid() {
    let folder = Folder::new();
    for options in [&["--socket", "other"][..], &["--background"]] {
        let socket = folder.join(options[0]);
        let mut server = present!(activated(&socket, options));
        wait_until("the socket is there", || UnixStream::connect(&socket).is_ok());
        wait_until("the server ends", || server.try_wait().unwrap().is_some());
        assert_eq!(server.wait().unwrap().code(), Some(2), "{options:?}");
    }
}

/// The reply that a client gets when every place is taken.
const NO_PLACE: &str = r#"{"id":null,"error":{"name":"NoPass","number":68,"message":"the maximum number of clients is connected (2); try again once one has disconnected","class":"full","clients":2}}"#;

/// Returns a server whose two places are taken.
fn full_server(folder: &Folder) -> (Server, [Talk; 2]) {
    let server = Server::start(folder, &["--passes", "2"]);
    let mut idle = [server.talk(), server.talk()];
    for talk in &mut idle {
        talk.check(r#""next":{}"#, r#""ok":{"commit":0,"next":1}"#);
    }
    (server, idle)
}

#[test]
fn a_client_without_a_pass_is_told_so() {
    let folder = Folder::new();
    let (server, [one, mut two]) = full_server(&folder);
    let mut three = server.talk();
    assert_eq!(three.line(), NO_PLACE);
    assert_eq!(three.line(), "");
    assert!(server.client().hello().unwrap_err().is(ErrorName::NoPass));
    drop(one);
    wait_until("a place is free", || server.client().hello().is_ok());
    two.check(r#""next":{}"#, r#""ok":{"commit":0,"next":1}"#);
}

#[test]
fn a_visitor_is_answered_for_a_moment() {
    let folder = Folder::new();
    let (server, _idle) = full_server(&folder);
    let visiting = || {
        let mut visitor = server.talk();
        let said = visitor.ask(r#"{"id":1,"hello":{"protocol":2,"visit":true}}"#);
        assert!(said.starts_with(r#"{"id":1,"ok":{"protocol":2,"#), "{said}");
        visitor
    };
    let mut visitor = visiting();
    visitor.check(r#""pin":{}"#, r#""ok":{"commit":0,"next":1}"#);
    visitor.check(r#""unpin":{}"#, r#""ok":{}"#);
    for waiting in [r#""watch":{}"#, r#""reach":{"commit":1}"#, r#""log":{"entry":1}"#] {
        let refused = NO_PLACE.strip_prefix(r#"{"id":null,"#).unwrap();
        visitor.check(waiting, refused.strip_suffix('}').unwrap());
    }
    assert_eq!(visitor.line(), NO_PLACE);
    assert_eq!(visitor.line(), "");
    // A client can't extend its visit by pinning a snapshot or by sending more requests.
    let mut pinned = visiting();
    pinned.check(r#""pin":{}"#, r#""ok":{"commit":0,"next":1}"#);
    assert_eq!(pinned.line(), NO_PLACE);
    let mut busy = server.client();
    busy.visit().unwrap();
    wait_until("the visitor has to go", || busy.hello().is_err());
    // Nor by leaving its replies unread. The next visitor gets `NoPass` after 10 seconds.
    let mut silent = visiting();
    silent.send("{\"id\":2,\"hello\":{\"protocol\":1}}\n".repeat(4_000).as_bytes());
    server.client().visit().unwrap();
    drop(silent);
}

#[test]
fn idle_clients_keep_no_visitor_out() {
    let folder = Folder::new();
    let server = &Server::start(&folder, &[]);
    let mut idle: Vec<Talk> = (0..61).map(|_| server.talk()).collect();
    for talk in &mut idle {
        talk.check(r#""next":{}"#, r#""ok":{"commit":0,"next":1}"#);
    }
    let refused = r#"{"id":null,"error":{"name":"NoPass","number":68,"message":"the maximum number of clients is connected (61); try again once one has disconnected","class":"full","clients":61}}"#;
    assert_eq!(server.talk().line(), refused);
    let visit = || {
        for _ in 0..5 {
            let mut visitor = server.client();
            assert_eq!(visitor.visit().unwrap().limits.passes, 61);
            assert!(visitor.status().unwrap().clients > 61);
        }
    };
    thread::scope(|scope| (0..8).for_each(|_| drop(scope.spawn(visit))));
    idle[0].check(r#""next":{}"#, r#""ok":{"commit":0,"next":1}"#);
}

#[test]
fn what_was_sent_before_the_end_is_answered() {
    let folder = Folder::in_memory();
    let server = Server::start_kept(&folder, &[]);
    let mut talk = server.talk();
    for id in 0..SENT {
        talk.send(format!("{{\"id\":{id},\"batch\":{{\"operations\":[[\"new\"]]}}}}\n").as_bytes());
    }
    let begin = Instant::now();
    assert!(server.end_by("TERM").success());
    let is_in_time = begin.elapsed() < LAST;
    let mut replies = Vec::new();
    talk.stream.set_read_timeout(Some(PATIENCE)).unwrap();
    // This fails if the server has left requests unread, but the replies sent before that are received.
    let _ = talk.stream.read_to_end(&mut replies);
    let answered = replies.iter().filter(|byte| **byte == b'\n').count() as u64;
    assert!(answered == SENT || !is_in_time, "{answered}");
    let server = Server::start_kept(&folder, &[]);
    let made = server.client().pin().unwrap().next - 1;
    assert!(answered <= made && made <= SENT, "{answered} {made}");
}

#[test]
fn a_kept_store_is_written_every_so_often_or_by_flush() {
    let folder = Folder::new();
    let keep = folder.join("file");
    let options = ["--keep", keep.to_str().unwrap(), "--every", "3600000"];
    let server = Server::start(&folder, &options);
    let mut talk = server.talk();
    talk.check(
        r#""batch":{"operations":[["new"]]}"#,
        r#""ok":{"commit":1,"nodes":[1]}"#,
    );
    talk.check(r#""flush":{}"#, r#""ok":{}"#);
    talk.check(r#""compact":{}"#, r#""ok":{}"#);
    talk.check(
        r#""batch":{"operations":[["new"]]}"#,
        r#""ok":{"commit":2,"nodes":[2]}"#,
    );
    server.kill();
    let server = Server::start(&folder, &options);
    let mut talk = server.talk();
    let said = talk.ask(r#"{"id":1,"nodes":{}}"#);
    assert!(said.ends_with(r#""nodes":[1]}}"#), "{said}");
    thread::sleep(Duration::from_millis(1));
    let other = Folder::new();
    refused(
        command(&other.join("socket"), &options),
        "the file is open in another process or store; close it there first",
    );
}
