//! `query`: runs a query once, counts its nodes, or watches it.

use crate::command_line::Query as Line;
use crate::dates::{is_time, Clock};
use crate::failure::{complain, listed, Failure, QueryRefused};
use crate::found::{Found, Row};
use crate::hints;
use crate::output::Output;
use crate::paths::paths_of;
use crate::polling::poll;
use crate::server::{self, pinned};
use crate::text::{escaped, pointed};
use crate::typed_query::TypedQuery;
use crate::unknown::{self, Unknown};
use bestore_client::wire::{self, kind_named, Command, Explained, Hits, Json, Push};
use bestore_client::{Client, Error, ErrorName};
use bestore_types::Value;
use serde::Serialize;
use std::collections::BTreeMap;
use std::io::ErrorKind;
use std::os::unix::io::AsRawFd;
use std::path::PathBuf;
use std::time::Duration;

/// How long to wait for the rest of a push that has begun to arrive, before waiting again.
const WAIT: Duration = Duration::from_secs(1);

pub fn run(client: &mut Client, line: &Line, output: &mut Output) -> Result<(), Failure> {
    if line.escape {
        output.escape();
    }
    if line.null {
        output.end_with_zero();
    }
    let query = TypedQuery::read(&line.text, &Clock::of_machine())?;
    let answer = match (line.watch, line.count, line.explain) {
        (true, _, _) => watch(client, &query, line, output),
        (false, true, _) => count(client, &query, line, output),
        (false, false, true) => explain(client, &query, line, output),
        (false, false, false) => find(client, &query, line, output),
    };
    answer.map_err(|failure| match failure {
        Failure::Server(Error::Refused(refusal)) => refused(client, &query, refusal),
        other => other,
    })
}

/// Warns about comparisons in a valid query that can't be true for any node. If the query finds nothing, also warns about names that no
/// node and no index has.
fn warn(client: &mut Client, query: &TypedQuery, finds_nothing: bool) -> Result<(), Failure> {
    let compared = match client.comparisons(&query.sent) {
        // The server is too old to report the comparisons.
        Err(error) if error.is(ErrorName::BadRequest) => return Ok(()),
        compared => compared?,
    };
    if compared.iter().all(|one| one.never.is_empty()) && !finds_nothing {
        return Ok(());
    }
    let indices = server::indices(client)?;
    let kind = |(name, kind): (&String, &String)| kind_named(kind).map(|kind| (name.clone(), kind));
    let kinds = indices.iter().filter_map(kind).collect();
    for hint in hints::hints(&query.sent, &compared, &kinds) {
        let place = pointed(&query.typed, query.place_of(hint.offset));
        complain(&format!("warning: {}{place}", escaped(&hint.message)));
    }
    if finds_nothing {
        let unknown = pinned(client, |client| Ok(unknown::unknown(client, &compared, &indices)?))?;
        warn_of_unknown(query, &unknown, &indices);
    }
    Ok(())
}

fn warn_of_unknown(query: &TypedQuery, unknown: &[Unknown], indices: &BTreeMap<String, String>) {
    for (index, one) in unknown.iter().enumerate() {
        let mut warning = format!("warning: {}", one.message());
        warning.push_str(&pointed(&query.typed, query.place_of(one.offset)));
        if index + 1 == unknown.len() {
            warning.push_str(&format!("\n  {}", listed(indices)));
        }
        complain(&warning);
    }
}

/// Adds details to a query's error that help to find its cause.
fn refused(client: &mut Client, query: &TypedQuery, refusal: wire::Refusal) -> Failure {
    let lacks_index = matches!(refusal.name, ErrorName::NotCovered | ErrorName::NoIndex);
    if !lacks_index && !matches!(refusal.name, ErrorName::Syntax | ErrorName::BadPattern) {
        return Failure::Server(Error::Refused(refusal));
    }
    let indices = if lacks_index {
        server::indices(client).ok()
    } else {
        None
    };
    let offset = refusal.number_of("offset");
    Failure::Query(Box::new(QueryRefused {
        text: query.typed.clone(),
        offset: offset.map(|offset| query.place_of(usize::try_from(offset).unwrap_or(usize::MAX))),
        refusal,
        indices,
    }))
}

fn count(client: &mut Client, query: &TypedQuery, line: &Line, output: &mut Output) -> Result<(), Failure> {
    let hits: Hits = client.call(Command::Query(wire::Query {
        query: query.sent.as_str().into(),
        count: true,
        ..wire::Query::default()
    }))?;
    warn(client, query, hits.count == Some(0))?;
    match line.json {
        true => output.json(&hits),
        false => output.line(hits.count.unwrap_or_default().to_string().as_bytes()),
    }
}

/// Prints the ranges of index keys that the answer walks.
fn explain(client: &mut Client, query: &TypedQuery, line: &Line, output: &mut Output) -> Result<(), Failure> {
    let ways: Explained = client.call(Command::Ways(wire::QueryText {
        query: query.sent.as_str().into(),
    }))?;
    match line.json {
        true => output.json(&ways),
        false => ways.text.lines().try_for_each(|way| output.line(way.as_bytes())),
    }
}

fn find(client: &mut Client, query: &TypedQuery, line: &Line, output: &mut Output) -> Result<(), Failure> {
    let shown = &*output;
    // The paths come from the same snapshot as the nodes, so that they are those of files that the query finds.
    let (found, names) = pinned(client, |client| {
        let found = Found::read(client, &query.sent, line)?;
        let names = names_of(client, found.nodes(), line, shown)?;
        Ok((found, names))
    })?;
    warn(client, query, found.nodes().is_empty() && line.after.is_none())?;
    if line.json {
        return output.json(&found);
    }
    let (nodes, mut found) = found.into_rows();
    found.resize(nodes.len(), Row::new());
    let rows: Vec<_> = names
        .into_iter()
        .zip(&found)
        .map(|(name, row)| cells(name, row, line, output))
        .collect();
    output.rows(&headings(line), &rows)
}

/// Returns the contents of the first column: the nodes' numbers, or the paths of their files. If a node isn't a file's, its number is shown
/// instead of a path.
fn names_of(client: &mut Client, nodes: &[u64], line: &Line, output: &Output) -> Result<Vec<Vec<u8>>, Failure> {
    let number = |node: &u64| node.to_string().into_bytes();
    if !line.path {
        return Ok(nodes.iter().map(number).collect());
    }
    let paths = paths_of(client, nodes)?;
    let name = |(node, path): (&u64, &Option<_>)| {
        path.as_ref()
            .map_or_else(|| number(node), |path: &PathBuf| output.path_bytes(path))
    };
    Ok(nodes.iter().zip(&paths).map(name).collect())
}

fn headings(line: &Line) -> Vec<&str> {
    std::iter::once(if line.path { "Path" } else { "Node" })
        .chain(line.columns.iter().map(String::as_str))
        .collect()
}

fn cells(node: Vec<u8>, row: &Row, line: &Line, output: &Output) -> Vec<Vec<u8>> {
    let values = row.iter().zip(&line.columns).map(|(value, column)| match value {
        Some(Json(value)) => date_of(value, column, line).unwrap_or_else(|| output.value(value)),
        None => Vec::new(),
    });
    std::iter::once(node).chain(values).collect()
}

/// Returns a time as a date, if dates are to be printed.
fn date_of(value: &Value, column: &str, line: &Line) -> Option<Vec<u8>> {
    if !line.dates || value.as_bytes().is_some() || !is_time(column) {
        return None;
    }
    let seconds = i64::try_from(value.number()).ok()?;
    Clock::of_machine().shown(seconds).map(String::into_bytes)
}

/// A push as a line of JSON, with the columns of the nodes that entered the answer.
#[derive(Serialize)]
struct Change<'a> {
    #[serde(flatten)]
    push: &'a Push,
    #[serde(skip_serializing_if = "Option::is_none")]
    rows: Option<Vec<Row>>,
}

/// Prints the nodes that the query finds, and then those that enter or leave the answer, until the server or the watch ends.
fn watch(client: &mut Client, query: &TypedQuery, line: &Line, output: &mut Output) -> Result<(), Failure> {
    let begun = client.watch(Some(&query.sent))?;
    warn(client, query, begun.nodes.as_ref().map_or(true, Vec::is_empty))?;
    let mut push = Push {
        watch: begun.watch,
        commit: begun.commit,
        created: begun.nodes.unwrap_or_default(),
        more: begun.more,
        ..Push::default()
    };
    let mut count = 0_usize;
    loop {
        count = (count + push.created.len()).saturating_sub(push.removed.len());
        match line.count {
            true if !push.more => show_count(push.commit, count, line, output)?,
            true => {}
            false => show_change(client, &push, line, output)?,
        }
        output.flush()?;
        push = next_push(client, output)?;
        if let Some(refusal) = push.error.take() {
            return Err(Error::Refused(refusal).into());
        }
    }
}

/// Waits for the next push. Fails if the program that reads the output has exited, because otherwise a watch would keep its place on the
/// server until it has something to print.
fn next_push(client: &mut Client, output: &Output) -> Result<Push, Failure> {
    // What has already been received doesn't make the socket readable.
    let mut within = Duration::ZERO;
    loop {
        if let Some(push) = client.next_push(within)? {
            return Ok(push);
        }
        let [server, reader] = poll([(client.as_raw_fd(), libc::POLLIN), (output.as_raw_fd(), 0)], None);
        if reader != 0 {
            return Err(Failure::Output(ErrorKind::BrokenPipe.into()));
        }
        within = if server != 0 { WAIT } else { Duration::ZERO };
    }
}

fn show_count(commit: u64, count: usize, line: &Line, output: &mut Output) -> Result<(), Failure> {
    match line.json {
        true => output.json(&serde_json::json!({ "commit": commit, "count": count })),
        false => output.line(count.to_string().as_bytes()),
    }
}

fn show_change(client: &mut Client, push: &Push, line: &Line, output: &mut Output) -> Result<(), Failure> {
    let rows = match line.columns.is_empty() {
        true => None,
        false => Some(server::rows_of(client, &push.created, &line.columns)?),
    };
    if line.json {
        return output.json(&Change { push, rows });
    }
    for node in &push.removed {
        output.line(format!("-{node}").as_bytes())?;
    }
    let none = Row::new();
    let names = names_of(client, &push.created, line, output)?;
    for (index, name) in names.iter().enumerate() {
        let row = rows.as_ref().map_or(&none, |rows| &rows[index]);
        let mut shown = vec![b'+'];
        shown.extend(name);
        let cells = cells(shown, row, line, output);
        output.line(&cells.join(&b'\t'))?;
    }
    Ok(())
}
