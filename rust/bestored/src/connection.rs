//! A client's connection: its requests, in order, and the snapshot that it has pinned.

use crate::answer::{Desk, View};
use crate::clients::{milliseconds, Client};
use crate::failure::Failure;
use crate::lines::{Lines, Received};
use crate::memory;
use crate::outbox::{Outbox, PATIENCE};
use crate::page;
use crate::pressure;
use crate::server::{no_pass, Shared};
use bestore::Pass;
use bestore_client::wire::{id_of, Command, ErrorName, Nothing, Request};
use std::io;
use std::os::unix::net::UnixStream;
use std::sync::Arc;
use std::time::{Duration, Instant};

/// How long a visitor may stay. A visitor is a client that connected when all places were taken.
const VISIT: Duration = Duration::from_secs(2);

/// How long a visitor may wait after a reply before it sends its next request.
const IDLE: Duration = Duration::from_millis(250);

/// How often an idle connection checks whether its pass still holds the earlier memory of a store that was carried on.
const RESTS: Duration = Duration::from_secs(1);

/// A request with a line of at most this many bytes is parsed even if memory is short.
const SHORT: usize = 1 << 12;

/// Why reads are about to see a different state.
#[derive(Clone, Copy, Debug, PartialEq, Eq)]
enum Turn {
    Pin { id: u64 },
    Unpin { id: u64 },
    Expire,
    Close,
}

/// A connection.
#[derive(Debug)]
pub struct Connection<'a> {
    client: &'a Client,
    lines: Lines,
    desk: Desk<'a>,
    /// When the client has to leave, if it is a visitor.
    visit: Option<Instant>,
}

impl<'a> Connection<'a> {
    pub fn new(shared: &'a Shared, client: &'a Client, stream: Arc<UnixStream>, is_visitor: bool) -> Self {
        // Others wait for a visitor's place.
        let patience = if is_visitor { VISIT } else { PATIENCE };
        let outbox = Arc::new(Outbox::new(stream.clone(), patience));
        Self {
            client,
            lines: Lines::new(stream),
            desk: Desk::new(shared, client, outbox),
            visit: is_visitor.then(|| Instant::now() + VISIT),
        }
    }

    /// Answers the client's requests until it closes the connection.
    pub fn run(&mut self, pass: &mut Pass) -> io::Result<()> {
        self.client.takes(pass);
        self.lines.rest_at_most(RESTS)?;
        let mut is_expired = false;
        loop {
            let turn = match is_expired {
                false => self.serve(&mut View::Current(pass))?,
                true => self.serve(&mut View::Expired(pass))?,
            };
            let turn = match turn {
                Turn::Pin { id } => match self.keep(id, pass)? {
                    Some(turn) => turn,
                    None => continue,
                },
                turn => turn,
            };
            match turn {
                Turn::Unpin { id } => self.desk.reply(id, &Nothing {}),
                Turn::Expire => {}
                Turn::Pin { .. } | Turn::Close => return self.desk.send(None),
            }
            is_expired = turn == Turn::Expire;
        }
    }

    /// Pins a snapshot, and answers requests until the client unpins it or the server ends it. Returns `None` if no snapshot
    /// could be pinned; the reply then says why.
    fn keep(&mut self, id: u64, pass: &mut Pass) -> io::Result<Option<Turn>> {
        let pinned = pass.pin().map_err(Failure::from);
        let pinned = pinned.and_then(|snapshot| {
            self.desk.confirm()?;
            Ok((page::next(&snapshot)?, snapshot))
        });
        match pinned {
            Ok((next, snapshot)) => {
                self.desk.reply(id, &next);
                self.client.pins(&snapshot);
                let turn = self.serve(&mut View::kept(&snapshot));
                self.client.unpins();
                turn.map(Some)
            }
            Err(failure) => {
                self.desk.refuse(Some(id), failure);
                Ok(None)
            }
        }
    }

    /// Answers requests until reads have to see a different state.
    fn serve(&mut self, view: &mut View<'_, '_>) -> io::Result<Turn> {
        loop {
            if view
                .since()
                .map_or(false, |since| self.desk.shared.pressure.is_over(since))
            {
                return Ok(Turn::Expire);
            }
            view.follow(self.client);
            let line = match self.lines.take() {
                Some(line) => line,
                None => match self.receive(view.since())? {
                    None => continue,
                    Some(turn) => return Ok(turn),
                },
            };
            self.client.asks();
            let line = self.lines.bytes(line);
            if let (true, Err(failure)) = (line.len() > SHORT, memory::check_for_line(line.len())) {
                self.desk.refuse(id_of(line), failure);
                continue;
            }
            let request: Request<'_> = match serde_json::from_slice(line) {
                Ok(request) => request,
                Err(error) => {
                    self.desk.refuse(id_of(line), bad_request(&error));
                    continue;
                }
            };
            let id = request.id;
            match (request.command, &*view) {
                (Command::Pin(_), View::Kept { .. }) => self.desk.refuse(Some(id), Failure::pinned()),
                (Command::Pin(_), _) => return Ok(Turn::Pin { id }),
                (Command::Unpin(_), View::Current(_)) => self.desk.refuse(Some(id), Failure::not_pinned()),
                (Command::Unpin(_), _) => return Ok(Turn::Unpin { id }),
                (command, _) if self.visit.is_some() && waits(&command) => {
                    self.desk.refuse(Some(id), no_pass(self.desk.shared))
                }
                (command, _) => answer(&mut self.desk, self.client, id, command, view)?,
            }
        }
    }

    /// Sends the replies, and waits for more requests. If a snapshot is pinned, each wait is short, so that the snapshot can be
    /// unpinned in time.
    fn receive(&mut self, since: Option<Instant>) -> io::Result<Option<Turn>> {
        self.desk.send(since)?;
        let looks = since.map(|_| Instant::now() + pressure::LOOK);
        let leaves = self.visit.map(|visit| visit.min(Instant::now() + IDLE));
        let until = [looks, leaves].into_iter().flatten().min();
        let name = match self.lines.read(until)? {
            Received::Late if leaves.map_or(false, |leaves| leaves <= Instant::now()) => {
                self.desk.refuse(None, no_pass(self.desk.shared));
                self.desk.send(None)?;
                return Ok(Some(Turn::Close));
            }
            Received::Some | Received::Late => return Ok(None),
            Received::End => return Ok(Some(Turn::Close)),
            Received::Half => ErrorName::Timeout,
            Received::TooLong => ErrorName::LineTooLong,
            Received::NoMemory => ErrorName::OutOfMemory,
        };
        self.desk.refuse(None, Failure::named(name));
        Ok(Some(Turn::Close))
    }
}

/// Answers a command, and reports it if it takes too long.
fn answer(
    desk: &mut Desk<'_>,
    client: &Client,
    id: u64,
    command: Command<'_>,
    view: &mut View<'_, '_>,
) -> io::Result<()> {
    let (name, waits) = (command.name(), waits(&command));
    client.begins(name);
    let slow = desk.shared.options.slow.filter(|_| !waits);
    let begin = slow.map(|_| Instant::now());
    desk.answer(id, command, view)?;
    client.ends();
    let took = begin.map(|begin| begin.elapsed());
    if let (Some(took), true) = (took, took >= slow) {
        let Client { number, process, .. } = client;
        let took = milliseconds(took);
        report!("bestored: {name} of client {number} (process {process}) took {took} ms");
    }
    Ok(())
}

/// Returns whether the command can take a long time. Visitors may not send such commands.
fn waits(command: &Command<'_>) -> bool {
    match command {
        Command::Watch(_) | Command::Reach(_) => true,
        Command::Log(wanted) => wanted.entry.is_some(),
        _ => false,
    }
}

fn bad_request(error: &serde_json::Error) -> Failure {
    let message = error.to_string();
    let why = message.split(" at line ").next().unwrap_or_default();
    Failure::new(ErrorName::BadRequest, format!("the request isn't valid here: {why}"))
        .with("offset", error.column().saturating_sub(1))
}
