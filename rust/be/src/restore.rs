//! `restore`.

use crate::command_line::Restore as Line;
use crate::failure::Failure;
use crate::output::Output;
use crate::state::Shown;
use bestore_client::wire::{self, Command, Nothing, Restored, Written};
use bestore_client::{Client, Error};
use bestore_types::saved::{self, Contents, Place};
use bestore_types::{Batch, Operation};
use std::collections::VecDeque;

/// How many batches are sent before the reply to the first is read.
const AHEAD: usize = 64;

/// How many bytes of the state go into one request. In base64, they take a third more, and a request has up to 1 MiB.
const BYTES: usize = 700 << 10;

/// Restores a backup to the server, whose store must be empty. Fails if anyone else writes in the meantime.
pub fn restore(client: &mut Client, line: &Line, output: &mut Output) -> Result<(), Failure> {
    // The whole backup is read and checked before anything is written.
    let backup = saved::read_until(&line.file, line.until)?;
    let hello = client.hello()?;
    let now = client.next_node()?;
    if now.commit > 0 || now.next > 1 || !client.indices()?.is_empty() {
        return Err(Failure::NotEmpty);
    }
    let commit = send_state(client, &backup)?;
    Restoring::new(client, commit).write(&backup)?;
    let file = output.path_bytes(&line.file);
    let shown = Shown::new(&hello, client.next_node()?);
    shown.print(&String::from_utf8_lossy(&file), line.json, output)
}

/// Sends the backup's state, and returns the commit number that it has on the server. An empty state isn't sent.
fn send_state(client: &mut Client, backup: &Contents) -> Result<u64, Failure> {
    let next = backup.about.next;
    if backup.state.is_empty() && next <= 1 {
        return Ok(0);
    }
    let mut batches: Vec<Vec<u8>> = Vec::new();
    let mut bytes = 0;
    for batch in &backup.state {
        if bytes + batch.len() > BYTES {
            let batches = std::mem::take(&mut batches);
            client.call::<Nothing>(Command::Restore(wire::Restore { batches, next: None }))?;
            bytes = 0;
        }
        bytes += batch.len();
        batches.push(batch.clone());
    }
    let next = Some(next);
    let restored: Restored = client.call(Command::Restore(wire::Restore { batches, next }))?;
    Ok(restored.commit)
}

/// A batch that has been sent but not yet answered.
struct Sent<'b> {
    id: u64,
    place: Place,
    batch: &'b Batch,
}

/// A server to which the entries after the state are sent.
struct Restoring<'b, 'c> {
    client: &'c mut Client,
    sent: VecDeque<Sent<'b>>,
    /// How many entries the server's journal has once it has written everything that was sent.
    commit: u64,
}

impl<'b, 'c> Restoring<'b, 'c> {
    fn new(client: &'c mut Client, commit: u64) -> Self {
        Self {
            client,
            sent: VecDeque::new(),
            commit,
        }
    }

    /// Writes the backup's entries.
    fn write(mut self, backup: &'b Contents) -> Result<(), Failure> {
        for (number, batch) in (backup.about.entries + 1..).zip(&backup.entries) {
            let id = send(self.client, self.commit, batch)?;
            let place = Place::Entry(number);
            self.sent.push_back(Sent { id, place, batch });
            self.commit += 1;
            if self.sent.len() == AHEAD {
                self.receive()?;
            }
        }
        while !self.sent.is_empty() {
            self.receive()?;
        }
        Ok(())
    }

    /// Reads the reply to the oldest unanswered batch, and compares the nodes that it created with those in the file.
    fn receive(&mut self) -> Result<(), Failure> {
        let Sent { id, place, batch } = match self.sent.pop_front() {
            Some(sent) => sent,
            None => return Ok(()),
        };
        let written: Written = match self.client.receive(id) {
            Err(Error::Refused(refusal)) => {
                return Err(Failure::Restore {
                    place,
                    refusal: Box::new(refusal),
                })
            }
            written => written?,
        };
        let made = batch.operations().filter_map(|operation| match operation {
            Operation::NewNode { node } => Some(node),
            _ => None,
        });
        match made.eq(written.nodes) {
            true => Ok(()),
            false => Err(saved::Error::differs(place, "it makes different nodes now").into()),
        }
    }
}

/// Sends a batch, which is written only if the journal has this many entries.
fn send(client: &mut Client, expected: u64, batch: &Batch) -> Result<u64, Error> {
    client.send(Command::Batch(wire::Write {
        operations: batch.clone().into(),
        expected: Some(expected),
        ..wire::Write::default()
    }))
}
