//! A proxy between clients and their server, which refuses writes, or does something before a request, when a test asks for it.

use super::files::Folder;
use super::{Said, Server};
use std::ffi::OsStr;
use std::fs;
use std::io::{self, BufRead, BufReader, Write};
use std::net::Shutdown;
use std::os::unix::net::{UnixListener, UnixStream};
use std::path::{Path, PathBuf};
use std::process::Command;
use std::sync::{Arc, Mutex, MutexGuard};
use std::thread;

/// What a test does once before a request with these words is forwarded.
type Before = (&'static str, Box<dyn FnOnce() + Send>);

/// The error of a write that is refused, unless the test gives another.
const FULL: &str = r#""name":"Full","number":11,"message":"no page is free""#;

/// The operation for which writes are refused, with the error; the writes refused so far; and what to do before a request.
#[derive(Default)]
struct State {
    refuses: Option<(&'static str, &'static str)>,
    refused: Vec<String>,
    before: Option<Before>,
}

/// A socket whose requests are forwarded to a server until the program exits.
pub struct Refuser {
    socket: PathBuf,
    state: Arc<Mutex<State>>,
}

impl Refuser {
    pub fn start(server: &Server) -> Self {
        let (socket, to) = (server.socket().with_extension("refuser"), server.socket());
        let listener = UnixListener::bind(&socket).unwrap();
        let state = Arc::new(Mutex::new(State::default()));
        let of_thread = state.clone();
        thread::spawn(move || {
            for client in listener.incoming().flatten() {
                if let Ok(server) = UnixStream::connect(&to) {
                    forward(client, server, of_thread.clone());
                }
            }
        });
        Self { socket, state }
    }

    /// Starts a server with a refuser between it and its clients, and creates a folder. Returns `None` if the server isn't built.
    pub fn with_server() -> Option<(Server, Self, Folder)> {
        Self::with_server_and(Folder::new())
    }

    /// Like [`with_server`](Self::with_server), with a folder that was created before.
    pub fn with_server_and(folder: Folder) -> Option<(Server, Self, Folder)> {
        let server = Server::start()?;
        let refuser = Self::start(&server);
        Some((server, refuser, folder))
    }

    pub fn socket(&self) -> &Path {
        &self.socket
    }

    /// Returns the tool with these arguments, ready to run with this socket instead of the server's own.
    pub fn command(&self, server: &Server, words: &[impl AsRef<OsStr>]) -> Command {
        let mut command = server.command(words);
        command.env("BESTORE_SOCKET", &self.socket);
        command
    }

    /// Runs the tool with these arguments and this socket.
    pub fn be(&self, server: &Server, words: &[&str]) -> Said {
        self.command(server, words).output().unwrap().into()
    }

    fn state(&self) -> MutexGuard<'_, State> {
        self.state.lock().unwrap()
    }

    /// Starts refusing writes that contain this operation.
    pub fn refuse(&self, operation: &'static str) {
        self.refuse_with(operation, FULL);
    }

    /// Starts refusing writes that contain this operation, with an error that has these members.
    pub fn refuse_with(&self, operation: &'static str, error: &'static str) {
        self.state().refuses = Some((operation, error));
    }

    /// Stops refusing writes.
    pub fn accept(&self) {
        self.state().refuses = None;
    }

    /// Calls the closure once, before the next request that contains these words is forwarded.
    pub fn before(&self, words: &'static str, act: impl FnOnce() + Send + 'static) {
        self.state().before = Some((words, Box::new(act)));
    }

    /// Returns whether the closure has been called.
    pub fn has_acted(&self) -> bool {
        self.state().before.is_none()
    }

    /// Returns whether a write with this operation has been refused.
    pub fn has_refused(&self, operation: &str) -> bool {
        self.state().refused.iter().any(|line| line.contains(operation))
    }
}

impl Drop for Refuser {
    fn drop(&mut self) {
        let _ = fs::remove_file(&self.socket);
    }
}

/// Starts threads that forward everything that each side sends to the other.
fn forward(client: UnixStream, server: UnixStream, state: Arc<Mutex<State>>) {
    let (mut replies, mut to) = (server.try_clone().unwrap(), client.try_clone().unwrap());
    thread::spawn(move || {
        // Either side may have disconnected. The client must notice if the server has.
        let _ = io::copy(&mut replies, &mut to);
        let _ = to.shutdown(Shutdown::Both);
    });
    thread::spawn(move || {
        for line in BufReader::new(&client).lines().map_while(Result::ok) {
            act_before(&line, &state);
            // The client may have disconnected.
            let _ = match refusal(&line, &state) {
                Some(refusal) => writeln!(&client, "{refusal}"),
                None => writeln!(&server, "{line}"),
            };
        }
    });
}

/// Does what a test wants done before this request.
fn act_before(line: &str, state: &Mutex<State>) {
    let mut state = state.lock().unwrap();
    let is_awaited = state.before.as_ref().map_or(false, |(words, _)| line.contains(words));
    let before = if is_awaited { state.before.take() } else { None };
    drop(state);
    if let Some((_, act)) = before {
        act();
    }
}

/// Returns the reply to a write if the write is to be refused.
fn refusal(line: &str, state: &Mutex<State>) -> Option<String> {
    let request: serde_json::Value = serde_json::from_str(line).unwrap();
    let mut state = state.lock().unwrap();
    let (operation, error) = state.refuses?;
    if request.get("batch").is_none() || !line.contains(operation) {
        return None;
    }
    state.refused.push(line.into());
    let id = &request["id"];
    Some(format!(r#"{{"id":{id},"error":{{{error}}}}}"#))
}
