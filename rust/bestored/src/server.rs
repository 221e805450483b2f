//! The server: a thread and a pass for each client.

use crate::bell::Bell;
use crate::carrying::Carrying;
use crate::clients::{Client, Clients};
use crate::connection::Connection;
use crate::copy::Copies;
use crate::failure::Failure;
use crate::hang::Hang;
use crate::kept::{self, Kept};
use crate::listening::Listening;
use crate::lobby::Lobby;
use crate::memory;
use crate::meter::Meter;
use crate::notify::Notifier;
use crate::options::Options;
use crate::os;
use crate::pressure::{self, Pressure};
use crate::socket::Socket;
use crate::tokens::Tokens;
use crate::watcher::Watcher;
use bestore::{Error, Pass};
use bestore_client::socket::{peer_process, peer_user, user};
use bestore_client::wire::{Command, ErrorName, Greeting, Request};
use std::fs::File;
use std::io::{self, ErrorKind};
use std::ops::Deref;
use std::os::unix::io::AsRawFd;
use std::os::unix::net::{UnixListener, UnixStream};
use std::sync::{Arc, Mutex, MutexGuard, PoisonError, TryLockError};
use std::thread;
use std::time::{Duration, Instant, SystemTime};

/// How many connections may wait a moment for a pass, in addition to those that have one.
const WAITING: usize = 16;

/// How long a connection waits for a pass. A client that is just leaving may free one.
const FOR_PASS: Duration = Duration::from_millis(200);

/// How long a connection waits for the visitors' pass when all other passes are taken.
const FOR_VISIT: Duration = Duration::from_secs(10);

/// How often to retry when no pass is free.
const AGAIN: Duration = Duration::from_millis(5);

/// The maximum length, in bytes, of a first request that asks for the visitors' pass.
const GREETING: usize = 256;

/// The minimum time between reports of the same kind, if the clients' number decides how often there would be one.
const SAID: Duration = Duration::from_secs(10);

/// Limits how often something is reported.
#[derive(Debug, Default)]
pub struct Seldom(Mutex<Option<Instant>>);

impl Seldom {
    /// Returns whether to report it now.
    pub fn is_due(&self) -> bool {
        let mut said = self.0.lock().unwrap_or_else(PoisonError::into_inner);
        let is_due = said.map_or(true, |said| said.elapsed() >= SAID);
        if is_due {
            *said = Some(Instant::now());
        }
        is_due
    }
}

/// The state that all connections share.
#[derive(Debug)]
pub struct Shared {
    pub options: Options,
    pub kept: Kept,
    pub tokens: Arc<Tokens>,
    pub watcher: Watcher,
    pub pressure: Pressure,
    pub clients: Clients,
    pub meter: Meter,
    pub copies: Copies,
    pub carrying: Carrying,
    /// Rung when the server has to begin again, because its store has writes that the log lacks.
    #[cfg_attr(not(feature = "log"), allow(dead_code))]
    pub again: Bell,
    pub lobby: Lobby,
    /// For the reports that all places are taken, that a client couldn't be accepted, that one belongs to another user, and that one
    /// has got no thread.
    pub is_full: Seldom,
    pub not_accepted: Seldom,
    pub is_foreign: Seldom,
    pub no_thread: Seldom,
    /// The pass for clients that can't get another. Each of them may use it for a short time.
    pub visits: Mutex<Pass>,
    /// A string that is different for each run.
    pub run: String,
}

/// Listens, and serves clients until a signal ends the program, or until the server has to begin again. In that case, returns the
/// socket, which is still listening.
pub fn run(
    listening: Listening,
    notifier: &mut Notifier,
    signals: &File,
    shared: Shared,
    own: Pass,
) -> Result<Option<Socket>, Box<dyn std::error::Error>> {
    let shared = Arc::new(shared);
    kept::start(&shared)?;
    let socket = listening.begin(&shared.run)?;
    let watching = {
        let shared = shared.clone();
        thread::spawn(move || shared.watcher.run(own, &shared.pressure, &shared.kept))
    };
    let carrying = {
        let shared = shared.clone();
        thread::spawn(move || shared.carrying.run(&shared))
    };
    let lobby = {
        let shared = shared.clone();
        thread::spawn(move || shared.lobby.run(&shared))
    };
    notifier.ready();
    let turn = accept(&socket.listener, notifier, signals, &shared);
    if let (Turn::End, Some(hang)) = (turn, shared.kept.hang()) {
        hang.end_program_if_hung();
    }
    let socket = match turn {
        Turn::Again => Some(socket),
        Turn::End => {
            notifier.ends();
            drop(socket);
            None
        }
    };
    shared.lobby.end();
    shared.clients.end();
    shared.watcher.end();
    shared.carrying.end();
    for (what, thread) in [
        ("the live queries", watching),
        ("the journals", carrying),
        ("clients without a place", lobby),
    ] {
        if thread.join().is_err() {
            report!("bestored: the thread for {what} has crashed");
        }
    }
    match (shared.kept.finish(), &socket) {
        (Err(error), Some(_)) => report!("bestored: {error}; beginning again with the log's entries"),
        (finished, _) => finished?,
    }
    Ok(socket)
}

/// Why the server accepts no more clients.
#[derive(Clone, Copy, Debug, PartialEq, Eq)]
enum Turn {
    /// A signal ends the program.
    End,
    /// The server begins again with a new store.
    Again,
}

fn accept(listener: &UnixListener, notifier: &mut Notifier, signals: &File, shared: &Arc<Shared>) -> Turn {
    let waited_for = [listener.as_raw_fd(), signals.as_raw_fd(), shared.again.as_raw_fd()];
    loop {
        let trouble = || shared.kept.hang().and_then(Hang::long_trouble);
        match os::wait_readable(waited_for, notifier.lives(trouble)) {
            Ok([_, true, _]) => break,
            Ok([_, _, true]) => return Turn::Again,
            Ok([true, ..]) => {}
            Ok(_) => continue,
            Err(error) => report!("bestored: waiting for clients failed: {error}"),
        }
        take_client(listener, shared);
    }
    // Clients that connected before the signal still get replies.
    let most = shared.options.passes as usize + WAITING;
    (0..most).take_while(|_| take_client(listener, shared)).count();
    Turn::End
}

/// Accepts a waiting client. Returns whether there was a client to accept.
fn take_client(listener: &UnixListener, shared: &Arc<Shared>) -> bool {
    match listener.accept() {
        Ok((stream, _)) => welcome(shared, Arc::new(stream)),
        Err(error) if error.kind() == ErrorKind::Interrupted => {}
        Err(error) if error.kind() == ErrorKind::WouldBlock => return false,
        Err(error) => {
            if shared.not_accepted.is_due() {
                report!("bestored: a client could not connect: {error}");
            }
            thread::sleep(Duration::from_millis(100));
            return false;
        }
    }
    true
}

/// Starts a client's thread, or refuses the client.
fn welcome(shared: &Arc<Shared>, stream: Arc<UnixStream>) {
    match peer_user(&stream) {
        Ok(client) if client == user() || client == 0 => {}
        other => {
            let other = other.map_or_else(|error| error.to_string(), |user| format!("user {user}"));
            if shared.is_foreign.is_due() {
                let process = peer_process(&stream).unwrap_or(0);
                report!("bestored: process {process} of {other} was refused: the server belongs to another user");
            }
            return refuse(&stream, &Failure::named(ErrorName::NotAllowed));
        }
    }
    let clients = shared.clients.count();
    if clients >= shared.options.passes as usize + WAITING {
        return shared.lobby.enter(stream);
    }
    let client = shared.clients.enter(stream.clone());
    let (of_thread, entered, of_client) = (shared.clone(), client.clone(), stream.clone());
    let thread = thread::Builder::new().name(format!("client-{}", client.number));
    let serve = move || {
        let leaving = Leaving {
            shared: &of_thread,
            client: entered,
        };
        serve(&of_thread, &leaving, of_client);
    };
    let started = match memory::check_for_thread() {
        Ok(()) => thread.spawn(serve).map(drop).map_err(|error| error.to_string()),
        Err(failure) => Err(failure.0.message),
    };
    if let Err(error) = started {
        if shared.no_thread.is_due() {
            report!("bestored: no thread could be started for a client: {error}");
        }
        shared.clients.leave(&client);
        refuse(&stream, &Error::OutOfMemory.into());
    }
}

/// Refuses a client because there is no place for it, and reports this from time to time.
pub fn refuse_for_now(shared: &Shared, stream: &UnixStream) {
    let failure = no_pass(shared);
    if shared.is_full.is_due() {
        let process = peer_process(stream).unwrap_or(0);
        report!("bestored: process {process} was refused: {}", failure.0.message);
    }
    refuse(stream, &failure);
}

/// Removes a client from the list when it is dropped, even if the connection's thread panics.
pub struct Leaving<'a> {
    shared: &'a Shared,
    client: Arc<Client>,
}

impl<'a> Leaving<'a> {
    /// Adds a client to the list.
    pub fn of(shared: &'a Shared, stream: Arc<UnixStream>) -> Self {
        Self {
            shared,
            client: shared.clients.enter(stream),
        }
    }
}

impl Deref for Leaving<'_> {
    type Target = Client;

    fn deref(&self) -> &Client {
        &self.client
    }
}

impl Drop for Leaving<'_> {
    fn drop(&mut self) {
        self.shared.clients.leave(&self.client);
    }
}

fn serve(shared: &Shared, client: &Client, stream: Arc<UnixStream>) {
    match take_pass(shared) {
        Ok(mut pass) => talk(shared, client, stream, &mut pass, false),
        Err(Error::NoPass) if is_visit(&stream) => match take_visit(shared) {
            Some(mut pass) => talk(shared, client, stream, &mut pass, true),
            None => refuse_for_now(shared, &stream),
        },
        Err(Error::NoPass) => shared.lobby.enter(stream),
        Err(error) => refuse(&stream, &error.into()),
    }
}

fn talk(shared: &Shared, client: &Client, stream: Arc<UnixStream>, pass: &mut Pass, is_visit: bool) {
    // An error ends the connection, so there is no one left to report it to.
    let _ = Connection::new(shared, client, stream, is_visit).run(pass);
}

/// Returns whether the client's first request says that the client will send only a few requests and then leave.
fn is_visit(stream: &UnixStream) -> bool {
    let mut bytes = [0; GREETING];
    let length = os::look_ahead(stream, &mut bytes).unwrap_or(0);
    let line = bytes[..length].split(|byte| *byte == b'\n').next().unwrap_or_default();
    let request = serde_json::from_slice::<Request<'_>>(line);
    matches!(
        request.map(|request| request.command),
        Ok(Command::Hello(Greeting { visit: true, .. }))
    )
}

fn take_pass(shared: &Shared) -> bestore::Result<Pass> {
    let until = Instant::now() + FOR_PASS;
    loop {
        match shared.kept.pass() {
            Err(Error::NoPass) if Instant::now() < until => thread::sleep(AGAIN),
            answer => {
                let mut pass = answer?;
                pass.set_retry(pressure::retry());
                return Ok(pass);
            }
        }
    }
}

/// Takes the visitors' pass once it is free. Returns `None` if that takes too long.
fn take_visit(shared: &Shared) -> Option<MutexGuard<'_, Pass>> {
    let until = Instant::now() + FOR_VISIT;
    loop {
        match shared.visits.try_lock() {
            Ok(pass) => return Some(pass),
            Err(TryLockError::Poisoned(poisoned)) => return Some(poisoned.into_inner()),
            Err(TryLockError::WouldBlock) if Instant::now() < until => thread::sleep(AGAIN),
            Err(TryLockError::WouldBlock) => return None,
        }
    }
}

/// Creates the error for a client that can't get a pass because all of them are taken.
pub fn no_pass(shared: &Shared) -> Failure {
    let clients = shared.options.passes;
    let message =
        format!("the maximum number of clients is connected ({clients}); try again once one has disconnected");
    Failure::new(ErrorName::NoPass, message).with("clients", clients)
}

/// Sends the client the reason why it is refused, if the socket accepts the message immediately.
fn refuse(stream: &UnixStream, failure: &Failure) {
    if let Ok(body) = serde_json::to_string(&failure.0) {
        // The server doesn't wait for a client that doesn't read the message.
        let _ = os::send_now(stream, format!("{{\"id\":null,\"error\":{body}}}\n").as_bytes());
    }
}

/// Returns a string that no other run has.
pub fn run_text() -> io::Result<String> {
    let time = SystemTime::now().duration_since(SystemTime::UNIX_EPOCH);
    let time = time.map_err(|_| io::Error::new(ErrorKind::Other, "the clock is wrong"))?;
    Ok(format!("{:x}-{:x}", time.as_nanos(), std::process::id()))
}
