//! Runs a separate server for each test, and the tool as a process. Not every test uses all of this.
#![allow(dead_code, unused_macros)]

pub mod files;
pub mod refuser;

use bestore_client::Client;
use std::ffi::OsStr;
use std::io::Write;
use std::os::unix::fs::DirBuilderExt;
use std::os::unix::net::UnixStream;
use std::path::{Path, PathBuf};
use std::process::{Child, Command, Output, Stdio};
use std::sync::atomic::{AtomicU32, Ordering};
use std::sync::Once;
use std::time::{Duration, Instant};
use std::{env, fs, thread};

/// Unwraps the server, or returns from the test. The reason has already been printed.
macro_rules! server {
    ($server:expr) => {
        match $server {
            Some(server) => server,
            None => return,
        }
    };
}

/// A user who is neither root nor the user running the tests.
pub const NOBODY: u32 = 65_534;

/// The tool.
pub const BE: &str = env!("CARGO_BIN_EXE_be");

/// A server, in a folder that is removed along with it.
pub struct Server {
    child: Child,
    folder: PathBuf,
    options: Vec<String>,
}

/// What the tool printed in one run, and its exit status.
#[derive(Debug, PartialEq, Eq)]
pub struct Said {
    pub status: i32,
    pub out: String,
    pub error: String,
}

impl From<Output> for Said {
    fn from(output: Output) -> Self {
        Self {
            status: output.status.code().unwrap_or(-1),
            out: String::from_utf8_lossy(&output.stdout).into_owned(),
            error: String::from_utf8_lossy(&output.stderr).into_owned(),
        }
    }
}

/// Returns the path of the program `bestored`: next to the tool, or where the environment says.
pub fn server_program() -> Option<PathBuf> {
    let beside = Path::new(BE).with_file_name("bestored");
    let program = env::var_os("BESTORED").map_or(beside, PathBuf::from);
    program.exists().then_some(program)
}

/// Sends a signal, such as `-TERM`, to a process.
pub fn send_signal(process: &Child, signal: &str) {
    let sent = Command::new("kill").arg(signal).arg(process.id().to_string()).status();
    assert!(sent.unwrap().success());
}

/// Starts a server in its own folder, where it may also keep its store.
fn spawn(program: &Path, folder: &Path, options: &[String]) -> Child {
    let mut command = Command::new(program);
    command.arg("--socket").arg(folder.join("socket"));
    command.args(options).current_dir(folder).spawn().unwrap()
}

impl Server {
    /// Starts a server. If it isn't built, prints that and returns `None`.
    pub fn start() -> Option<Self> {
        Self::start_with(&["--pages", "1024"])
    }

    /// Starts a server with these options.
    pub fn start_with(options: &[&str]) -> Option<Self> {
        static STARTED: AtomicU32 = AtomicU32::new(0);
        let program = match server_program() {
            Some(program) => program,
            None => {
                static SAID: Once = Once::new();
                SAID.call_once(|| println!("be, {}: skipped, bestored isn't built", env!("CARGO_CRATE_NAME")));
                return None;
            }
        };
        let number = STARTED.fetch_add(1, Ordering::Relaxed);
        let folder = env::temp_dir().join(format!("be-test-{}-{number}", std::process::id()));
        fs::DirBuilder::new().mode(0o700).create(&folder).unwrap();
        let options: Vec<String> = options.iter().map(|option| option.to_string()).collect();
        let child = spawn(&program, &folder, &options);
        let server = Self { child, folder, options };
        server.wait();
        Some(server)
    }

    /// Restarts a server that has stopped.
    pub fn start_again(&mut self) {
        let program = server_program().expect("it has been there");
        self.child = spawn(&program, &self.folder, &self.options);
        self.wait();
    }

    fn wait(&self) {
        let until = Instant::now() + Duration::from_secs(20);
        while UnixStream::connect(self.socket()).is_err() {
            assert!(Instant::now() < until, "the server doesn't listen");
            thread::sleep(Duration::from_millis(10));
        }
    }

    pub fn socket(&self) -> PathBuf {
        self.folder.join("socket")
    }

    /// Kills the server.
    pub fn end(&mut self) {
        self.child.kill().unwrap();
        self.child.wait().unwrap();
    }

    /// Returns the tool with these arguments, ready to run in an environment where the library can't be found.
    pub fn command(&self, words: &[impl AsRef<OsStr>]) -> Command {
        let mut command = Command::new(BE);
        command.env_remove("LD_LIBRARY_PATH");
        command.env("BESTORE_SOCKET", self.socket()).args(words);
        command.stdin(Stdio::null());
        command
    }

    /// Runs the tool with these arguments.
    pub fn be(&self, words: &[&str]) -> Said {
        self.command(words).output().unwrap().into()
    }

    /// Runs the tool with these arguments. It must succeed and print no errors. Returns what it printed.
    pub fn done(&self, words: &[&str]) -> String {
        let said = self.be(words);
        assert_eq!((said.status, said.error.as_str()), (0, ""), "{words:?}");
        said.out
    }

    /// Runs the tool with these arguments and this input.
    pub fn fed(&self, words: &[&str], input: &[u8]) -> Said {
        let mut command = self.command(words);
        command
            .stdin(Stdio::piped())
            .stdout(Stdio::piped())
            .stderr(Stdio::piped());
        let mut child = command.spawn().unwrap();
        // The tool may leave some input unread; that isn't an error.
        let _ = child.stdin.take().unwrap().write_all(input);
        child.wait_with_output().unwrap().into()
    }

    /// Creates this many nodes with this attribute through the client library.
    pub fn make(&self, count: u64, name: &str, value: &str) {
        let mut client = Client::connect(self.socket()).unwrap();
        for _ in 0..count {
            let made = client.change(|change| {
                let node = change.new_node();
                change.batch().set(node, name, value);
                Ok(())
            });
            made.unwrap();
        }
    }

    /// Starts a server whose store has an index of strings with this name.
    pub fn with_index(name: &str) -> Option<Self> {
        let server = Self::start()?;
        server.done(&["mkindex", name]);
        Some(server)
    }

    /// Starts a server whose store has the indices `name` and `size`, and nodes 1 to 3: `a` of size 10, `b` of size 20, and `c` without a
    /// size.
    pub fn with_three() -> Option<Self> {
        let server = Self::with_index("name")?;
        server.done(&["mkindex", "-t", "int64", "size"]);
        for (node, name) in [("1", "a"), ("2", "b"), ("3", "c")] {
            assert_eq!(server.done(&["addattr", "--new", "name", name]), format!("{node}\n"));
        }
        server.done(&["addattr", "-t", "int64", "size", "10", "1"]);
        server.done(&["addattr", "-t", "int64", "size", "20", "2"]);
        Some(server)
    }
}

impl Drop for Server {
    fn drop(&mut self) {
        let _ = self.child.kill();
        let _ = self.child.wait();
        let _ = fs::remove_dir_all(&self.folder);
    }
}
