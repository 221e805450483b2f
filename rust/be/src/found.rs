//! What a query finds: nodes in the order of their numbers or of an index, or any nodes.

use crate::command_line::Query as Line;
use crate::failure::Failure;
use crate::server::rows_of;
use bestore_client::wire::{self, Columns, Command, Hits, Json, Page, NODES};
use bestore_client::{Client, Query};
use serde::Serialize;
use std::borrow::Cow;

/// A node's values in the columns.
pub type Row = Vec<Option<Json>>;

/// The nodes found, in the form of one page of the protocol.
#[derive(Debug, Serialize)]
#[serde(untagged)]
pub enum Found {
    /// Nodes in the order of their numbers.
    Hits(Hits),
    /// Nodes in the order of an index, or any nodes.
    Page(Page),
}

impl Found {
    /// Runs the command line's query on the snapshot that the client has pinned.
    pub fn read(client: &mut Client, text: &str, line: &Line) -> Result<Self, Failure> {
        match (&line.sort, line.any) {
            (Some(by), _) => in_order(client, text, by, line).map(Found::Page),
            (None, Some(most)) => any(client, text, most, line).map(Found::Page),
            (None, None) => by_number(client, text, line.limit, line).map(Found::Hits),
        }
    }

    /// Returns the nodes.
    pub fn nodes(&self) -> &[u64] {
        match self {
            Found::Hits(hits) => hits.nodes.as_deref().unwrap_or_default(),
            Found::Page(page) => &page.nodes,
        }
    }

    /// Returns the nodes, and their rows if columns were requested.
    pub fn into_rows(self) -> (Vec<u64>, Vec<Row>) {
        let (nodes, rows) = match self {
            Found::Hits(hits) => (hits.nodes.unwrap_or_default(), hits.rows),
            Found::Page(page) => (page.nodes, page.rows),
        };
        (nodes, rows.unwrap_or_default())
    }
}

/// Returns the limit for the next page, given how many nodes the earlier pages had, or `None` if there is no next page.
fn left(limit: Option<u64>, had: usize) -> Option<Option<u64>> {
    match limit.map(|limit| limit.saturating_sub(had as u64)) {
        Some(0) => None,
        left => Some(left),
    }
}

fn by_number(client: &mut Client, text: &str, limit: Option<u64>, line: &Line) -> Result<Hits, Failure> {
    let columns: Vec<&str> = line.columns.iter().map(String::as_str).collect();
    let mut query = Query {
        text,
        columns: &columns,
        limit,
        from: 0,
        uncounted: limit.is_some() && !line.json,
    };
    let mut all = client.hits(query)?;
    while let Some(from) = all.more {
        query.from = from;
        query.limit = match left(limit, all.nodes.as_ref().map_or(0, Vec::len)) {
            Some(limit) => limit,
            None => break,
        };
        let page = client.hits(query)?;
        let nodes = page.nodes.unwrap_or_default();
        all.nodes.get_or_insert_with(Vec::new).extend(nodes);
        all.rows = joined(all.rows, page.rows);
        all.more = page.more;
    }
    all.more = None;
    Ok(all)
}

fn joined(rows: Option<Vec<Row>>, more: Option<Vec<Row>>) -> Option<Vec<Row>> {
    rows.map(|mut rows| {
        rows.extend(more.unwrap_or_default());
        rows
    })
}

/// Returns the command line's columns in the form that a request uses.
fn columns_of(line: &Line) -> Option<Columns<'_>> {
    let names: Vec<_> = line.columns.iter().map(Cow::from).collect();
    (!names.is_empty()).then_some(Columns(names))
}

fn in_order(client: &mut Client, text: &str, by: &str, line: &Line) -> Result<Page, Failure> {
    let mut query = wire::Query {
        query: text.into(),
        columns: columns_of(line),
        by: Some(by.into()),
        descending: line.reverse,
        after: line.after.as_ref().map(Cow::from),
        limit: line.limit.map(of_a_page),
        ..wire::Query::default()
    };
    let mut all: Page = client.call(Command::Query(query.clone()))?;
    while all.more {
        query.limit = match left(line.limit, all.nodes.len()) {
            Some(limit) => limit.map(of_a_page),
            None => break,
        };
        query.after = all.cursor.take().map(Cow::from);
        let page: Page = client.call(Command::Query(query.clone()))?;
        all.nodes.extend(page.nodes);
        all.rows = joined(all.rows, page.rows);
        (all.more, all.cursor) = (page.more, page.cursor);
    }
    Ok(all)
}

/// Caps the number of requested nodes at the maximum for one page.
fn of_a_page(limit: u64) -> u64 {
    limit.min(NODES as u64)
}

fn any(client: &mut Client, text: &str, most: u64, line: &Line) -> Result<Page, Failure> {
    if most > NODES as u64 {
        // They don't fit on one line. The first nodes come page by page.
        let first = by_number(client, text, Some(most), line)?;
        return Ok(Page {
            commit: first.commit,
            nodes: first.nodes.unwrap_or_default(),
            rows: first.rows,
            ..Page::default()
        });
    }
    let mut query = wire::Query {
        query: text.into(),
        columns: columns_of(line),
        any: Some(most),
        ..wire::Query::default()
    };
    let mut page: Page = client.call(Command::Query(query.clone()))?;
    if page.more {
        // The rows of all these nodes don't fit on one line.
        query.columns = None;
        page = client.call(Command::Query(query))?;
        page.rows = Some(rows_of(client, &page.nodes, &line.columns)?);
    }
    Ok(page)
}
