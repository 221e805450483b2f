//! A test's server, in a folder of its own. Not every test uses everything in here.
#![allow(dead_code)]

pub mod disk;
#[cfg(feature = "log")]
pub mod postgres;
#[cfg(feature = "log")]
pub mod proxy;
pub mod writers;

use bestore_client::Client;
use std::fs::{self, DirBuilder};
use std::io::{BufRead, BufReader, Chain, Cursor, Read, Write};
use std::os::unix::fs::DirBuilderExt;
use std::os::unix::net::UnixStream;
use std::path::{Path, PathBuf};
use std::process::{Child, Command, ExitStatus, Stdio};
use std::sync::atomic::{AtomicU32, Ordering};
use std::sync::{Mutex, MutexGuard, PoisonError};
use std::thread;
use std::time::{Duration, Instant, SystemTime};

/// The maximum time to wait for a server to do anything. It is slow under memcheck and on a busy machine.
pub const PATIENCE: Duration = Duration::from_secs(300);

/// A folder that is removed when the test ends.
#[derive(Debug)]
pub struct Folder(PathBuf);

impl Folder {
    pub fn new() -> Self {
        Self::new_in(&std::env::temp_dir())
    }

    /// Creates a folder, in memory if possible. Its contents survive when a process is killed.
    pub fn in_memory() -> Self {
        match Path::new("/dev/shm") {
            memory if memory.is_dir() => Self::new_in(memory),
            _ => Self::new(),
        }
    }

    fn new_in(parent: &Path) -> Self {
        static LAST: AtomicU32 = AtomicU32::new(0);
        let number = LAST.fetch_add(1, Ordering::Relaxed);
        let path = parent.join(format!("bestored-{}-{number}", std::process::id()));
        DirBuilder::new().mode(0o700).create(&path).unwrap();
        Self(path)
    }

    pub fn path(&self) -> &Path {
        &self.0
    }

    pub fn join(&self, name: &str) -> PathBuf {
        self.0.join(name)
    }
}

impl Drop for Folder {
    fn drop(&mut self) {
        let _ = fs::remove_dir_all(&self.0);
    }
}

/// Pseudo-random numbers that differ from run to run.
#[derive(Debug)]
pub struct Random(u64);

impl Random {
    pub fn new(number: u64) -> Self {
        let now = SystemTime::UNIX_EPOCH.elapsed().unwrap();
        Self((now.as_nanos() as u64).wrapping_mul(2 * number + 1))
    }

    pub fn below(&mut self, bound: u64) -> u64 {
        self.0 = self
            .0
            .wrapping_mul(6_364_136_223_846_793_005)
            .wrapping_add(1_442_695_040_888_963_407);
        (self.0 >> 33) % bound
    }
}

/// Starts a server in a new folder.
pub fn start(options: &[&str]) -> (Folder, Server) {
    let folder = Folder::new();
    let server = Server::start(&folder, options);
    (folder, server)
}

/// Returns the command that starts a server at this socket.
pub fn command(socket: &Path, options: &[&str]) -> Command {
    let mut command = Command::new(env!("CARGO_BIN_EXE_bestored"));
    command.arg("--socket").arg(socket).args(options);
    command
}

/// Waits until the condition holds.
pub fn wait_until(what: &str, is_so: impl FnMut() -> bool) {
    wait_within(PATIENCE, what, is_so);
}

/// Waits until the condition holds, for a limited time.
pub fn wait_within(time: Duration, what: &str, mut is_so: impl FnMut() -> bool) {
    let until = Instant::now() + time;
    while !is_so() {
        assert!(Instant::now() < until, "waited too long: {what}");
        thread::sleep(Duration::from_millis(2));
    }
}

/// Checks that a client gives up its place once it has been disconnected or has left, even if its request is still waiting.
pub fn check_gone(server: &Server, command: &str, request: &[u8]) {
    let mut client = server.client();
    for is_kicked in [true, false] {
        let mut waiting = server.talk();
        waiting.send(request);
        let mut found = None;
        wait_until("it waits", || {
            let mut clients = client.clients().unwrap().into_iter();
            found = clients.find(|client| client.command.as_deref() == Some(command));
            found.is_some()
        });
        if is_kicked {
            client.kick(found.unwrap().client).unwrap();
            assert_eq!(waiting.line(), "");
        }
        drop(waiting);
        let is_alone = || client.clients().unwrap().len() == 1;
        wait_within(Duration::from_secs(30), "it is gone", is_alone);
    }
}

/// A server, which is killed when the test ends.
#[derive(Debug)]
pub struct Server {
    child: Mutex<Child>,
    socket: PathBuf,
}

impl Drop for Server {
    fn drop(&mut self) {
        self.kill();
    }
}

impl Server {
    /// Starts a server in the folder, and waits until it is listening.
    pub fn start(folder: &Folder, options: &[&str]) -> Self {
        let server = Self::start_only(folder, options);
        wait_until("the server listens", || {
            let listens = UnixStream::connect(&server.socket).is_ok();
            assert!(listens || !server.has_ended(), "the server has ended");
            listens
        });
        server
    }

    /// Starts a server that keeps its store in a file in the folder.
    pub fn start_kept(folder: &Folder, options: &[&str]) -> Self {
        let keep = folder.join("kept");
        Self::start(folder, &[options, &["--keep", keep.to_str().unwrap()]].concat())
    }

    /// Starts a server in the folder, without waiting for it.
    pub fn start_only(folder: &Folder, options: &[&str]) -> Self {
        let socket = folder.join("socket");
        Self::run(command(&socket, options), &socket)
    }

    /// Runs the command, which starts a server at this socket.
    pub fn run(mut command: Command, socket: &Path) -> Self {
        let child = command.stdin(Stdio::null()).spawn().unwrap();
        Self {
            child: Mutex::new(child),
            socket: socket.to_owned(),
        }
    }

    fn child(&self) -> MutexGuard<'_, Child> {
        self.child.lock().unwrap_or_else(PoisonError::into_inner)
    }

    /// Waits until the server answers, and returns `true`. Returns `false` if the server has ended.
    pub fn answers(&self) -> bool {
        let mut is_there = false;
        wait_until("the server answers or ends", || {
            is_there = Client::connect(&self.socket)
                .and_then(|mut client| client.hello())
                .is_ok();
            is_there || self.has_ended()
        });
        is_there
    }

    pub fn has_ended(&self) -> bool {
        self.child().try_wait().unwrap().is_some()
    }

    pub fn socket(&self) -> &Path {
        &self.socket
    }

    pub fn client(&self) -> Client {
        Client::connect(&self.socket).unwrap()
    }

    /// Returns a client that retries while no pass is free.
    pub fn patient_client(&self) -> Client {
        let mut client = self.client();
        wait_until("there is a pass", || match client.hello() {
            Ok(_) => true,
            Err(_) => {
                client = self.client();
                false
            }
        });
        client
    }

    pub fn talk(&self) -> Talk {
        Talk::new(UnixStream::connect(&self.socket).unwrap())
    }

    /// Kills the server, even while other threads are using it, and waits until it has ended.
    pub fn kill(&self) {
        let mut child = self.child();
        // This fails if the server has already ended.
        let _ = child.kill();
        let _ = child.wait();
    }

    /// Sends a signal.
    pub fn signal(&self, signal: &str) {
        let number = self.child().id().to_string();
        let sent = Command::new("kill").args(["-s", signal, &number]).status();
        assert!(sent.unwrap().success());
    }

    /// Stops the server, and waits until none of its threads is running. The signal CONT resumes it.
    pub fn stop(&self) {
        self.signal("STOP");
        let tasks = format!("/proc/{}/task", self.child().id());
        wait_until("the server stops", || {
            let mut tasks = fs::read_dir(&tasks).unwrap().flatten();
            tasks.all(|task| {
                let said = fs::read_to_string(task.path().join("stat")).unwrap_or_default();
                said.rsplit(") ").next().map_or(false, |rest| rest.starts_with('T'))
            })
        });
    }

    /// Sends a signal, and waits until the server has ended.
    pub fn end_by(&self, signal: &str) -> ExitStatus {
        self.signal(signal);
        self.wait_end()
    }

    /// Waits until the server has ended.
    pub fn wait_end(&self) -> ExitStatus {
        wait_until("the server ends", || self.has_ended());
        self.child().wait().unwrap()
    }

    /// Returns the maximum memory that the server has used, in KiB.
    pub fn most_memory(&self) -> u64 {
        let status = fs::read_to_string(format!("/proc/{}/status", self.child().id())).unwrap();
        let line = status.lines().find(|line| line.starts_with("VmHWM:")).unwrap();
        line.split_whitespace().nth(1).unwrap().parse().unwrap()
    }
}

/// A connection that sends and receives lines.
#[derive(Debug)]
pub struct Talk {
    pub stream: UnixStream,
    reader: BufReader<Chain<Cursor<Vec<u8>>, UnixStream>>,
}

impl Talk {
    pub fn new(stream: UnixStream) -> Self {
        stream.set_read_timeout(Some(PATIENCE)).unwrap();
        let reader = Self::reader_of(&stream, Vec::new());
        Self { stream, reader }
    }

    fn reader_of(stream: &UnixStream, first: Vec<u8>) -> BufReader<Chain<Cursor<Vec<u8>>, UnixStream>> {
        BufReader::new(Cursor::new(first).chain(stream.try_clone().unwrap()))
    }

    /// Continues with bytes that have already been read from the stream before it reads the next lines.
    pub fn begin_with(&mut self, first: Vec<u8>) {
        self.reader = Self::reader_of(&self.stream, first);
    }

    pub fn send(&mut self, bytes: &[u8]) {
        self.stream.write_all(bytes).unwrap();
    }

    /// Reads the next line, and returns it without its newline. Returns an empty string at the end of the stream.
    pub fn line(&mut self) -> String {
        let mut line = String::new();
        match self.reader.read_line(&mut line) {
            Ok(_) => line.trim_end().to_owned(),
            Err(error) if error.kind() == std::io::ErrorKind::ConnectionReset => String::new(),
            Err(error) => panic!("{error}"),
        }
    }

    /// Sends a line, and returns the next one.
    pub fn ask(&mut self, line: &str) -> String {
        self.send(format!("{line}\n").as_bytes());
        self.line()
    }

    /// Sends a request, given without `{"id":1,` and `}`, and checks the part of the reply that
    /// follows its `id`.
    #[track_caller]
    pub fn check(&mut self, request: &str, reply: &str) {
        let said = self.ask(&format!("{{\"id\":1,{request}}}"));
        assert_eq!(said, format!("{{\"id\":1,{reply}}}"), "{request}");
    }

    /// Sends a request, given as for `check`, and checks that the reply contains each of these parts.
    #[track_caller]
    pub fn check_parts(&mut self, request: &str, parts: &[&str]) {
        let said = self.ask(&format!("{{\"id\":1,{request}}}"));
        for part in parts {
            assert!(said.contains(part), "{part:?} isn't in {said}");
        }
    }
}
