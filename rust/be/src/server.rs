//! The connection to the server, and requests that several commands use.

use crate::command_line::ServerOptions;
use crate::failure::{complain, message, Failure};
use crate::found::Row;
use bestore_client::wire::{Columns, ColumnsOf, Command, Indices, Nothing, Rows};
use bestore_client::{Client, Error, ErrorName, Options, SocketPath};
use bestore_types::Batch;
use std::borrow::Cow;
use std::collections::BTreeMap;
use std::time::Duration;

/// How many times to retry a write while another client is writing.
const TRIES: u32 = 100;

/// The maximum number of operations in a batch.
const OPERATIONS: usize = 64;

/// How many nodes to name in a request for their values. Their numbers fit on one line.
const NODES: usize = 4_096;

/// How many snapshots to try for a read before giving up.
const SNAPSHOTS: u32 = 5;

/// How long to wait for each reply, by default, if the server copies its whole store before it replies. On a busy machine, that takes
/// minutes for millions of files.
const COPYING: Duration = Duration::from_secs(3600);

/// Connects to the server at the socket given by the option or, without the option, by the environment.
pub fn connect(line: &ServerOptions) -> Result<Client, Failure> {
    let mut client = open(line)?;
    client.hello()?;
    Ok(client)
}

/// Connects like [`connect`], but for a command for which the server copies its store.
pub fn connect_to_copy(line: &ServerOptions) -> Result<Client, Failure> {
    connect(&for_copy(line))
}

/// Returns the options, with more time for a reply unless they say how much.
fn for_copy(line: &ServerOptions) -> ServerOptions {
    ServerOptions {
        timeout: line.timeout.or(Some(COPYING)),
        ..line.clone()
    }
}

/// Connects like [`connect`], but for a command that sends a few requests and exits. The server serves it for a moment even when it is
/// full.
pub fn visit(line: &ServerOptions) -> Result<Client, Failure> {
    match connect(line) {
        Err(Failure::Server(error)) if error.is(ErrorName::NoPass) => {
            let mut client = open(line)?;
            client.visit()?;
            Ok(client)
        }
        answer => answer,
    }
}

/// Calls `clients` or `kick` on a new connection. The server answers these as the first request even when all places are taken. An
/// earlier version needs a visitor's place for them.
pub fn call_without_place<T>(
    line: &ServerOptions,
    call: impl Fn(&mut Client) -> Result<T, Error>,
) -> Result<T, Failure> {
    match call(&mut open(line)?) {
        Err(error) if error.is(ErrorName::NoPass) => Ok(call(&mut visit(line)?)?),
        answer => Ok(answer?),
    }
}

fn open(line: &ServerOptions) -> Result<Client, Failure> {
    let socket = SocketPath::find(line.socket.clone());
    let mut options = Options::new();
    options.wait(line.wait.unwrap_or_default());
    if line.timeout.is_some() {
        options.timeout(line.timeout);
    }
    match options.connect(socket.clone()) {
        Err(Error::Io(error)) => Err(Failure::NoServer(socket, error)),
        answer => Ok(answer?),
    }
}

/// Returns the names of the indices, with the names of their kinds.
pub fn indices(client: &mut Client) -> Result<BTreeMap<String, String>, Error> {
    let read: Indices = client.call(Command::Indices(Nothing {}))?;
    Ok(read.indices)
}

/// Returns each node's values in the columns, up to 64. A node that is gone has no values.
pub fn rows_of(client: &mut Client, nodes: &[u64], columns: &[impl AsRef<str>]) -> Result<Vec<Row>, Error> {
    let mut rows: Vec<Row> = Vec::with_capacity(nodes.len());
    while rows.len() < nodes.len() {
        let left = &nodes[rows.len()..];
        let asked = &left[..left.len().min(NODES)];
        let names = columns.iter().map(|name| Cow::from(name.as_ref()));
        let read: Rows = client.call(Command::Columns(ColumnsOf {
            nodes: asked.to_vec(),
            names: Columns(names.collect()),
        }))?;
        // If not all rows fit on one line, the reply has only the first ones.
        if read.rows.is_empty() {
            return Err(Error::BadLine("the reply has no rows".into()));
        }
        rows.extend(read.rows.into_iter().take(asked.len()));
    }
    Ok(rows)
}

/// Writes the batch, retrying while another client is writing.
pub fn apply(client: &mut Client, batch: &Batch) -> Result<(), Error> {
    let mut left = TRIES;
    loop {
        match client.apply(batch) {
            Err(error) if error.is(ErrorName::Busy) && left > 0 => left -= 1,
            answer => return answer.map(drop),
        }
        std::thread::sleep(Duration::from_millis(2));
    }
}

/// Writes an operation for each node, in batches as large as possible. If a batch is refused, its operations are written individually, and
/// any that are refused again are reported.
pub fn apply_each(client: &mut Client, nodes: &[u64], add: impl Fn(&mut Batch, u64)) -> Result<(), Failure> {
    let mut all = true;
    for nodes in nodes.chunks(OPERATIONS) {
        let mut batch = Batch::new();
        nodes.iter().for_each(|node| add(&mut batch, *node));
        match apply(client, &batch) {
            Err(Error::Refused(_)) => all &= apply_one_by_one(client, nodes, &add)?,
            answer => answer?,
        }
    }
    all_done(all)
}

/// Returns a failure unless everything has succeeded. The reasons have already been reported.
pub fn all_done(all: bool) -> Result<(), Failure> {
    match all {
        true => Ok(()),
        false => Err(Failure::Reported),
    }
}

/// Writes the operations individually. Returns whether all were written.
fn apply_one_by_one(client: &mut Client, nodes: &[u64], add: impl Fn(&mut Batch, u64)) -> Result<bool, Failure> {
    let mut all = true;
    for node in nodes {
        let mut batch = Batch::new();
        add(&mut batch, *node);
        match apply(client, &batch) {
            Err(error @ Error::Refused(_)) => {
                report(*node, &message(&error));
                all = false;
            }
            answer => answer?,
        }
    }
    Ok(all)
}

/// Reports why the command failed for a node.
pub fn report(node: u64, why: &str) {
    complain(&format!("node {node}: {why}"));
}

/// Runs the closure with a snapshot pinned. If the server takes the snapshot back, runs the closure again on a newer one.
pub fn pinned<T>(client: &mut Client, read: impl Fn(&mut Client) -> Result<T, Failure>) -> Result<T, Failure> {
    let mut left = SNAPSHOTS;
    loop {
        left -= 1;
        client.pin()?;
        match read(client) {
            Err(Failure::Server(error)) if error.is(ErrorName::Expired) && left > 0 => client.unpin()?,
            Err(failure) => return Err(failure),
            Ok(answer) => {
                client.unpin()?;
                return Ok(answer);
            }
        }
    }
}

#[cfg(test)]
mod tests {
    use super::*;

    #[test]
    fn a_copy_takes_its_time_unless_the_command_line_says_how_much() {
        let mut line = ServerOptions {
            socket: None,
            wait: None,
            timeout: None,
        };
        assert_eq!(for_copy(&line).timeout, Some(COPYING));
        line.timeout = Some(Duration::from_secs(5));
        assert_eq!(for_copy(&line).timeout, line.timeout);
    }
}
