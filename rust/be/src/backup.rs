//! `backup` and `dump`.

use crate::command_line::Backup as Line;
use crate::failure::Failure;
use crate::output::Output;
use crate::signals::Signals;
use crate::state::{each_batch, Shown};
use bestore_client::wire::{kind_name, Command, Hello, Json, Nothing};
use bestore_client::{Client, Error};
use bestore_types::listing::{records, Record};
use bestore_types::saved::{self, About, Backup};
use serde::Serialize;
use std::collections::BTreeMap;
use std::path::Path;
use std::sync::{Arc, Mutex, MutexGuard, PoisonError};
use std::thread;

/// A backup that isn't complete yet. It is removed if this is dropped, or if a signal ends the program.
struct Unfinished(Arc<Mutex<Option<Backup>>>);

impl Drop for Unfinished {
    fn drop(&mut self) {
        // The thread that waits for a signal shares the backup, which would otherwise stay.
        drop(self.lock().take());
    }
}

impl Unfinished {
    fn create(file: &Path) -> Result<Self, saved::Error> {
        let backup = Self(Arc::default());
        let of_thread = Self(Arc::clone(&backup.0));
        let signals = Signals::hold();
        thread::spawn(move || {
            let signal = signals.wait();
            // As long as this thread has the lock, nothing is added to the backup, and it isn't completed.
            let mut backup = of_thread.lock();
            drop(backup.take());
            signals.end(signal)
        });
        let mut created = backup.lock();
        *created = Some(Backup::create(file)?);
        drop(created);
        Ok(backup)
    }

    fn lock(&self) -> MutexGuard<'_, Option<Backup>> {
        self.0.lock().unwrap_or_else(PoisonError::into_inner)
    }

    fn add(&self, batch: &[u8]) -> Result<(), saved::Error> {
        self.lock().as_mut().expect("it has been created").add(batch)
    }

    /// Completes the backup. If a signal arrives meanwhile, the program ends afterwards.
    fn finish(self, about: About) -> Result<(), saved::Error> {
        let mut backup = self.lock();
        backup.take().expect("it has been created").finish(about)
    }
}

/// Writes a snapshot to a file.
pub fn make(client: &mut Client, line: &Line, output: &mut Output) -> Result<(), Failure> {
    let hello = client.hello()?;
    let backup = Unfinished::create(&line.file)?;
    let snapshot = client.collect()?;
    let about = each_batch(client, |batch| Ok(backup.add(batch)?))?;
    flush(client, &hello)?;
    backup.finish(about)?;
    let file = output.path_bytes(&line.file);
    Shown::new(&hello, snapshot).print(&String::from_utf8_lossy(&file), line.json, output)
}

/// Waits until the server has saved everything in the snapshot, so that the backup is never ahead of the server's file.
fn flush(client: &mut Client, hello: &Hello) -> Result<(), Error> {
    match hello.kept.as_str() {
        "no" => Ok(()),
        _ => client.call::<Nothing>(Command::Flush(Nothing {})).map(drop),
    }
}

/// An index, as `dump` prints it.
#[derive(Debug, Serialize)]
struct Index<'a> {
    index: &'a str,
    kind: &'static str,
}

/// A node, as `dump` prints it.
#[derive(Debug, Serialize)]
struct Node {
    node: u64,
    attributes: BTreeMap<String, Json>,
    /// The attributes that the indices of their names have.
    held: Vec<String>,
}

/// Prints a snapshot: a line about it, and then one for each index and for each node.
pub fn dump(client: &mut Client, output: &mut Output) -> Result<(), Failure> {
    let hello = client.hello()?;
    let snapshot = client.collect()?;
    output.json(&Shown::new(&hello, snapshot))?;
    let mut last = None;
    each_batch(client, |batch| {
        for record in records(batch).map_err(saved::Error::Store)? {
            print_record(record.map_err(saved::Error::Store)?, &mut last, output)?;
        }
        Ok(())
    })?;
    print_node(&mut last, output)
}

/// Prints an index, or the node before the record, which is complete. `last` is the node whose attributes may follow.
fn print_record(record: Record<'_>, last: &mut Option<Node>, output: &mut Output) -> Result<(), Failure> {
    match (record, last.as_mut()) {
        (Record::Index { name, kind }, _) => output.json(&Index {
            index: name,
            kind: kind_name(kind),
        }),
        (Record::Node { node }, _) => {
            print_node(last, output)?;
            *last = Some(Node {
                node,
                attributes: BTreeMap::new(),
                held: Vec::new(),
            });
            Ok(())
        }
        (Record::Attribute { name, value, is_held }, Some(node)) => {
            node.attributes.insert(name.into(), Json(value.to_value()));
            node.held.extend(is_held.then(|| name.to_owned()));
            Ok(())
        }
        (Record::Attribute { .. }, None) => Ok(()),
    }
}

fn print_node(last: &mut Option<Node>, output: &mut Output) -> Result<(), Failure> {
    last.take().map_or(Ok(()), |node| output.json(&node))
}
