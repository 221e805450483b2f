//! Connections for which there is no place. Each may send one request that needs no pass, `clients` or `kick`, and gets the reply.
//! So whoever runs the server can look and disconnect a client, however many programs are waiting. Any other request is refused.

use crate::answer::Desk;
use crate::bell::Bell;
use crate::info;
use crate::os;
use crate::outbox::Outbox;
use crate::server::{refuse_for_now, Leaving, Shared};
use bestore_client::wire::{Command, Request};
use std::io::{self, ErrorKind, Read};
use std::iter;
use std::mem;
use std::os::unix::io::AsRawFd;
use std::os::unix::net::UnixStream;
use std::sync::{Arc, Mutex, MutexGuard, PoisonError};
use std::thread;
use std::time::{Duration, Instant};

/// How long a connection has to send its request.
const FOR_REQUEST: Duration = Duration::from_secs(5);

/// How long to rest if waiting for requests fails.
const REST: Duration = Duration::from_millis(100);

/// The maximum length of the request, in bytes.
const REQUEST: usize = 256;

/// The maximum number of connections. If there are more, the oldest is refused first.
const GUESTS: usize = 256;

/// A connection that has no place.
#[derive(Debug)]
struct Guest {
    stream: Arc<UnixStream>,
    received: Vec<u8>,
    until: Instant,
}

/// What a guest has sent.
#[derive(Clone, Copy, Debug, PartialEq, Eq)]
enum Sent {
    /// Not yet a whole line.
    Part,
    /// A line, or too much for one, or nothing before it closed the connection.
    All,
}

impl Guest {
    /// Receives what has arrived.
    fn receive(&mut self) -> io::Result<Sent> {
        let mut bytes = [0; REQUEST];
        loop {
            match (&*self.stream).read(&mut bytes) {
                Ok(0) => return Ok(Sent::All),
                Ok(count) => self.received.extend_from_slice(&bytes[..count]),
                Err(error) if error.kind() == ErrorKind::WouldBlock => return Ok(Sent::Part),
                Err(error) if error.kind() == ErrorKind::Interrupted => {}
                Err(error) => return Err(error),
            }
            if self.received.len() >= REQUEST || self.received.contains(&b'\n') {
                return Ok(Sent::All);
            }
        }
    }

    /// Answers the request, or refuses the connection.
    fn serve(&self, shared: &Shared) {
        let line = self.received.split(|byte| *byte == b'\n').next().unwrap_or_default();
        match serde_json::from_slice::<Request<'_>>(line) {
            Ok(Request {
                id,
                command: command @ (Command::Clients(_) | Command::Kick(_)),
            }) => self.answer(shared, id, command),
            _ => refuse_for_now(shared, &self.stream),
        }
    }

    fn answer(&self, shared: &Shared, id: u64, command: Command<'_>) {
        let client = Leaving::of(shared, self.stream.clone());
        client.asks();
        let outbox = Outbox::new(self.stream.clone(), Duration::ZERO);
        let mut desk = Desk::new(shared, &client, Arc::new(outbox));
        match command {
            Command::Kick(kick) => match info::kick(shared, &client, &kick) {
                Ok(done) => desk.reply(id, &done),
                Err(failure) => desk.refuse(Some(id), failure),
            },
            _ => desk.reply(id, &shared.clients.shown(client.number)),
        }
        // The reply fits into the socket's buffer. If it can't be sent, the client has left.
        let _ = desk.send(None);
    }
}

#[derive(Debug, Default)]
struct State {
    arrived: Vec<Guest>,
    is_ending: bool,
}

/// The connections for which there is no place.
#[derive(Debug)]
pub struct Lobby {
    state: Mutex<State>,
    bell: Bell,
}

impl Lobby {
    pub fn new() -> io::Result<Self> {
        Ok(Self {
            state: Mutex::default(),
            bell: Bell::new()?,
        })
    }

    fn lock(&self) -> MutexGuard<'_, State> {
        self.state.lock().unwrap_or_else(PoisonError::into_inner)
    }

    /// Adds a connection.
    pub fn enter(&self, stream: Arc<UnixStream>) {
        self.lock().arrived.push(Guest {
            stream,
            received: Vec::new(),
            until: Instant::now() + FOR_REQUEST,
        });
        self.bell.ring();
    }

    /// Ends [`run`](Self::run).
    pub fn end(&self) {
        self.lock().is_ending = true;
        self.bell.ring();
    }

    /// Serves the connections until [`end`](Self::end) is called.
    pub fn run(&self, shared: &Shared) {
        let mut guests = Vec::new();
        while !self.admit(shared, &mut guests) {
            match self.wait(&guests) {
                Ok(is_readable) => serve(shared, &mut guests, &is_readable),
                Err(error) => {
                    report!("bestored: waiting for clients without a place failed: {error}");
                    thread::sleep(REST);
                }
            }
        }
    }

    /// Takes over the connections that have arrived. If there are too many, refuses the oldest. Returns whether the thread must end.
    fn admit(&self, shared: &Shared, guests: &mut Vec<Guest>) -> bool {
        self.bell.still();
        let mut state = self.lock();
        let arrived = mem::take(&mut state.arrived);
        let is_ending = state.is_ending;
        drop(state);
        for guest in arrived {
            match guest.stream.set_nonblocking(true) {
                Ok(()) => guests.push(guest),
                Err(_) => refuse_for_now(shared, &guest.stream),
            }
        }
        let surplus = guests.len().saturating_sub(GUESTS);
        for guest in guests.drain(..surplus) {
            refuse_for_now(shared, &guest.stream);
        }
        is_ending
    }

    /// Waits until a connection arrives or has sent something, or until the first one's time is up. Returns which ones have sent
    /// something.
    fn wait(&self, guests: &[Guest]) -> io::Result<Vec<bool>> {
        let streams = guests.iter().map(|guest| guest.stream.as_raw_fd());
        let descriptors: Vec<_> = iter::once(self.bell.as_raw_fd()).chain(streams).collect();
        let first = guests.iter().map(|guest| guest.until).min();
        let left = first.map(|until| until.saturating_duration_since(Instant::now()));
        let mut is_readable = os::wait_any_readable(&descriptors, left)?;
        is_readable.remove(0);
        Ok(is_readable)
    }
}

/// Serves the connections that have sent a request, and refuses those whose time is up.
fn serve(shared: &Shared, guests: &mut Vec<Guest>, is_readable: &[bool]) {
    let mut is_readable = is_readable.iter();
    guests.retain_mut(|guest| {
        let sent = match is_readable.next() {
            Some(true) => guest.receive(),
            _ => Ok(Sent::Part),
        };
        match sent {
            Ok(Sent::Part) if Instant::now() < guest.until => return true,
            Ok(_) => guest.serve(shared),
            // The client has left.
            Err(_) => {}
        }
        false
    });
}
