//! Creates nodes for files that have none.

use super::edit::stat_last;
use crate::failure::Failure;
use crate::server;
use bestore_client::{Client, Error, ErrorName};
use bestore_types::{Batch, Value};
use std::collections::BTreeMap;
use std::path::PathBuf;
use std::thread;
use std::time::Duration;

/// The maximum number of operations in a batch.
const OPERATIONS: usize = 64;

/// How many batches to write before asking again how full the store is.
const LOOK: u32 = 16;

/// One in this many pages is left free, so that a full store can still be written to.
const RESERVE: u64 = 64;

/// How many times to retry a write while another client is writing.
const TRIES: u32 = 1_000;

/// A file without a node.
#[derive(Clone, Debug)]
pub struct New {
    pub path: PathBuf,
    pub values: BTreeMap<String, Value>,
}

/// The result of creating nodes for files.
#[derive(Debug, Default)]
pub struct Made {
    /// The nodes that were created.
    pub nodes: Vec<(New, u64)>,
    /// The files that didn't fit into the store.
    pub left: Vec<New>,
    /// The files that were refused, with the errors.
    pub refused: Vec<(PathBuf, Error)>,
}

/// Creates nodes for new files, as long as the store has room for them.
#[derive(Debug)]
pub struct NewFiles {
    /// The store's commit number and its next node number, as last reported.
    commit: u64,
    next: u64,
    pub pages: u64,
    /// How many pages are free. Those that older snapshots keep count too: a write that needs them gets them, after a wait.
    pub free: u64,
    pub is_full: bool,
    batches: u32,
}

impl NewFiles {
    pub fn begin(client: &mut Client) -> Result<Self, Failure> {
        let mut begun = Self {
            commit: 0,
            next: 0,
            pages: 0,
            free: 0,
            is_full: false,
            batches: 0,
        };
        begun.look(client)?;
        begun.meet(client)?;
        Ok(begun)
    }

    /// Asks how full the store is.
    pub fn look(&mut self, client: &mut Client) -> Result<(), Failure> {
        let status = client.status()?;
        (self.pages, self.free) = (status.pages, status.free + status.retired);
        self.is_full = self.free * RESERVE < self.pages;
        Ok(())
    }

    /// Asks for the commit number and the next node number.
    fn meet(&mut self, client: &mut Client) -> Result<(), Failure> {
        let now = client.next_node()?;
        (self.commit, self.next) = (now.commit, now.next);
        Ok(())
    }

    /// Creates nodes for the files, with batches as large as possible. Calls `done` with the number of nodes created.
    pub fn make(&mut self, client: &mut Client, files: Vec<New>, done: &dyn Fn(u64)) -> Result<Made, Failure> {
        let mut made = Made::default();
        let mut files = files.into_iter().peekable();
        while files.peek().is_some() && !self.is_full {
            let mut together: Vec<New> = Vec::new();
            let mut operations = 0;
            while let Some(file) = files.next_if(|file| operations + file.values.len() < OPERATIONS) {
                operations += 1 + file.values.len();
                together.push(file);
            }
            // If a file has 64 attributes, the batch that creates its node can't hold them all.
            if together.is_empty() {
                together.extend(files.next());
            }
            let count = together.len() as u64;
            self.make_together(client, together, &mut made)?;
            done(count);
        }
        made.left.extend(files);
        Ok(made)
    }

    /// Creates the nodes for files that fit into one batch. If the batch is refused, creates the nodes one by one.
    fn make_together(&mut self, client: &mut Client, files: Vec<New>, made: &mut Made) -> Result<(), Failure> {
        if self.batches % LOOK == 0 {
            self.look(client)?;
        }
        self.batches += 1;
        match self.try_to_make(client, &files) {
            Ok(nodes) => made.nodes.extend(files.into_iter().zip(nodes)),
            Err(Failure::Server(error)) if error.is(ErrorName::Full) => {
                self.is_full = true;
                made.left.extend(files);
            }
            Err(Failure::Server(error @ Error::Refused(_))) if files.len() == 1 => {
                made.refused.push((files[0].path.clone(), error));
            }
            Err(Failure::Server(Error::Refused(_))) => {
                for file in files {
                    self.make_together(client, vec![file], made)?;
                }
            }
            Err(failure) => return Err(failure),
        }
        Ok(())
    }

    /// Writes a batch that relies on the store's known numbers. If another client has written in the meantime, builds the batch again.
    fn try_to_make(&mut self, client: &mut Client, files: &[New]) -> Result<Vec<u64>, Failure> {
        let mut left = TRIES;
        loop {
            let (batch, rest) = batch_of(files, self.next);
            match client.write_batch(batch, Some(self.commit)) {
                Ok(written) => {
                    self.commit = written.number;
                    self.next += files.len() as u64;
                    if let Some(rest) = rest {
                        server::apply(client, &rest)?;
                        self.meet(client)?;
                    }
                    return Ok(written.nodes);
                }
                Err(error) if error.is(ErrorName::Conflict) && left > 0 => self.meet(client)?,
                Err(error) if error.is(ErrorName::Busy) && left > 0 => thread::sleep(Duration::from_millis(2)),
                Err(error) => return Err(error.into()),
            }
            left -= 1;
        }
    }
}

/// Returns a batch that creates a node for each file, numbered from `first`, and the operations that don't fit into that batch.
fn batch_of(files: &[New], first: u64) -> (Batch, Option<Batch>) {
    let (mut batch, mut rest) = (Batch::new(), Batch::new());
    for (node, file) in (first..).zip(files) {
        batch.new_node();
        for (name, value) in stat_last(&file.values) {
            let batch = if batch.len() < OPERATIONS {
                &mut batch
            } else {
                &mut rest
            };
            batch.set(node, name, value.clone());
        }
    }
    let rest = (!rest.is_empty()).then_some(rest);
    (batch, rest)
}
