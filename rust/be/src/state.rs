//! The state of a snapshot: batches that list its contents.

use crate::failure::Failure;
use crate::output::Output;
use bestore_client::wire::{self, Command, Hello};
use bestore_client::Client;
use bestore_types::saved::About;
use serde::Serialize;

/// A snapshot of a server, as printed for people or programs.
#[derive(Debug, Serialize)]
pub struct Shown {
    /// The server's run, to which the commit number belongs.
    pub run: String,
    pub commit: u64,
    /// The number of the next new node.
    pub next: u64,
}

impl Shown {
    pub fn new(hello: &Hello, snapshot: wire::Next) -> Self {
        Self {
            run: hello.run.clone(),
            commit: snapshot.commit,
            next: snapshot.next,
        }
    }

    /// Prints this description of the snapshot, preceded by the words in `what`.
    pub fn print(&self, what: &str, is_json: bool, output: &mut Output) -> Result<(), Failure> {
        match is_json {
            true => output.json(self),
            false => output.line(format!("{what}: commit {} of run {}", self.commit, self.run).as_bytes()),
        }
    }
}

/// Calls the closure with each batch of the collected snapshot. Returns the snapshot's numbers.
pub fn each_batch(client: &mut Client, mut take: impl FnMut(&[u8]) -> Result<(), Failure>) -> Result<About, Failure> {
    let mut from = 0;
    loop {
        let page: wire::State = client.call(Command::State(wire::From { from }))?;
        page.batches.iter().try_for_each(|batch| take(batch))?;
        match page.more {
            Some(more) => from = more,
            None => {
                return Ok(About {
                    entries: page.commit,
                    next: page.next,
                })
            }
        }
    }
}
