//! Answers `query` requests with a count, nodes by number, nodes in the order of an index, or any nodes.

use crate::failure::Failure;
use crate::page::{rows_of, Room};
use bestore::{Cursor, Error, Order, Prepared, Snapshot};
use bestore_client::wire::{self, NODES};
use serde::Serialize;
use std::collections::VecDeque;

/// How many parsed queries to keep per connection.
const KEPT: usize = 4;

/// A connection's most recent queries, newest first.
#[derive(Debug, Default)]
pub struct Queries(VecDeque<Parsed>);

/// A parsed query.
#[derive(Debug)]
struct Parsed {
    text: String,
    prepared: Prepared,
    /// The count for the next page by number, so that an answer is counted only once for all its pages.
    next: Option<Count>,
}

/// How many nodes numbered `from` or higher a query finds, in the snapshot with this number.
#[derive(Debug)]
struct Count {
    commit: u64,
    from: u64,
    count: u64,
}

/// The reply to a request.
#[derive(Debug, Serialize)]
#[serde(untagged)]
pub enum Answer {
    Hits(wire::Hits),
    Page(wire::Page),
}

/// The form of the answer that a request asks for.
enum Form<'q> {
    Count,
    ByNumber,
    InOrder {
        order: Order,
        after: Option<&'q str>,
        most: usize,
    },
    Any {
        most: usize,
    },
}

impl Queries {
    /// Answers a request.
    pub fn answer(&mut self, snapshot: &Snapshot<'_>, query: &wire::Query<'_>) -> Result<Answer, Failure> {
        let form = form_of(query)?;
        let parsed = self.parsed(&query.query)?;
        match form {
            Form::Count => parsed.count(snapshot, query).map(Answer::Hits),
            Form::ByNumber => parsed.by_number(snapshot, query).map(Answer::Hits),
            Form::InOrder { order, after, most } => {
                let page = parsed.in_order(snapshot, query, &order, after, most);
                page.map(Answer::Page)
            }
            Form::Any { most } => parsed.any(snapshot, query, most).map(Answer::Page),
        }
    }

    /// Returns the parsed query for this text.
    fn parsed(&mut self, text: &str) -> Result<&mut Parsed, Failure> {
        let kept = self.0.iter().position(|parsed| parsed.text == text);
        let parsed = match kept.and_then(|place| self.0.remove(place)) {
            Some(parsed) => parsed,
            None => Parsed {
                text: text.into(),
                prepared: Prepared::new(text)?,
                next: None,
            },
        };
        self.0.truncate(KEPT - 1);
        self.0.push_front(parsed);
        Ok(&mut self.0[0])
    }
}

/// Returns an error if the given parameters can't be combined. The error says what to use instead.
fn check_together(query: &wire::Query<'_>) -> Result<(), Failure> {
    let by_number = query.from != 0 || query.uncounted;
    let wrong = match (&query.by, query.any) {
        (Some(_), Some(_)) => "`any` can't be used with `by`, since the nodes that it finds have no order",
        (Some(_), None) if query.count => {
            "`count` can't be used with `by`: a comparison finds the nodes with a value in the index"
        }
        (Some(_), None) if by_number => {
            "`from` and `uncounted` can't be used with `by`, whose pages continue `after` a cursor"
        }
        (None, _) if query.descending => "`descending` needs `by`, the name of an index",
        (None, _) if query.after.is_some() => "`after` needs `by`, the name of the index whose cursor it is",
        (None, Some(_)) if query.count || by_number || query.limit.is_some() => {
            "`any` can be used only with `columns`: it is a number of nodes"
        }
        _ => return Ok(()),
    };
    Err(Failure::bad_request(wrong))
}

fn form_of<'q>(query: &'q wire::Query<'_>) -> Result<Form<'q>, Failure> {
    check_together(query)?;
    let form = match (&query.by, query.any) {
        (Some(by), _) => Form::InOrder {
            order: match query.descending {
                true => Order::by(by).descending(),
                false => Order::by(by),
            },
            after: query.after.as_deref(),
            most: most_of("limit", query.limit.unwrap_or(NODES as u64))?,
        },
        (None, Some(any)) => Form::Any {
            most: most_of("any", any)?,
        },
        (None, None) if query.count => Form::Count,
        (None, None) => Form::ByNumber,
    };
    Ok(form)
}

/// Converts a parameter to a page's maximum number of nodes.
fn most_of(name: &str, nodes: u64) -> Result<usize, Failure> {
    match usize::try_from(nodes) {
        Ok(nodes @ 1..=NODES) => Ok(nodes),
        _ => Err(Failure::bad_request(&format!(
            "`{name}` is {nodes}, and a page has 1 to {NODES} nodes"
        ))),
    }
}

impl Parsed {
    /// Runs the query. If the indices don't cover it, the error says where in its text.
    fn ask<T>(&self, snapshot: &Snapshot<'_>, ask: impl FnOnce(&Prepared) -> Result<T, Error>) -> Result<T, Failure> {
        ask(&self.prepared).map_err(|error| match error {
            Error::Query(_) => snapshot.explain(&self.text).err().unwrap_or(error).into(),
            error => error.into(),
        })
    }

    fn count(&self, snapshot: &Snapshot<'_>, query: &wire::Query<'_>) -> Result<wire::Hits, Failure> {
        Ok(wire::Hits {
            commit: snapshot.number(),
            count: Some(self.count_from(snapshot, query.from)?),
            ..wire::Hits::default()
        })
    }

    /// Returns how many of the nodes that the query finds have this number or a higher one.
    fn count_from(&self, snapshot: &Snapshot<'_>, from: u64) -> Result<u64, Failure> {
        if from == 0 {
            return self.ask(snapshot, |prepared| snapshot.count_prepared(prepared));
        }
        let found = self.ask(snapshot, |prepared| snapshot.query_prepared(prepared))?;
        Ok((found.len() - found.partition_point(|node| *node < from)) as u64)
    }

    fn by_number(&mut self, snapshot: &Snapshot<'_>, query: &wire::Query<'_>) -> Result<wire::Hits, Failure> {
        let mut room = Room::new(query.limit);
        let is_whole = query.limit.is_none() && query.from == 0;
        let mut found = self.first(snapshot, query.from, (!is_whole).then_some(room.nodes + 1))?;
        let whole = is_whole.then_some(found.len() as u64);
        let mut more = found.get(room.nodes).copied();
        found.truncate(room.nodes);
        let mut hits = wire::Hits {
            commit: snapshot.number(),
            ..wire::Hits::default()
        };
        if let Some(columns) = &query.columns {
            let rows = rows_of(snapshot, &found, columns, &mut room)?;
            more = found.get(rows.len()).copied().or(more);
            found.truncate(rows.len());
            hits.rows = Some(rows);
        }
        hits.more = more;
        if !query.uncounted {
            let count = self.count_of_page(snapshot, query.from, found.len() as u64, hits.more, whole)?;
            hits.count = Some(count);
        }
        hits.nodes = Some(found);
        Ok(hits)
    }

    /// Returns the nodes that the query finds from number `from` on: the first `most` of them, or all.
    fn first(&self, snapshot: &Snapshot<'_>, from: u64, most: Option<usize>) -> Result<Vec<u64>, Failure> {
        if let Some(most) = most {
            return self.ask(snapshot, |prepared| snapshot.first_prepared(prepared, from, most));
        }
        let mut found = self.ask(snapshot, |prepared| snapshot.query_prepared(prepared))?;
        found.drain(..found.partition_point(|node| *node < from));
        Ok(found)
    }

    /// Returns how many nodes the query finds from number `from` on. The page that begins there has `page` of them, and the next
    /// page begins at `more`. `whole` is the count, if it is already known because the whole answer was read.
    fn count_of_page(
        &mut self,
        snapshot: &Snapshot<'_>,
        from: u64,
        page: u64,
        more: Option<u64>,
        whole: Option<u64>,
    ) -> Result<u64, Failure> {
        let next = match more {
            Some(next) => next,
            None => return Ok(page),
        };
        let commit = snapshot.number();
        let known = self
            .next
            .take()
            .filter(|next| next.from == from && next.commit == commit);
        let count = match whole.or(known.map(|next| next.count)) {
            Some(count) => count,
            None => self.count_from(snapshot, from)?,
        };
        self.next = Some(Count {
            commit,
            from: next,
            count: count - page,
        });
        Ok(count)
    }

    fn in_order(
        &self,
        snapshot: &Snapshot<'_>,
        query: &wire::Query<'_>,
        order: &Order,
        after: Option<&str>,
        most: usize,
    ) -> Result<wire::Page, Failure> {
        let after: Option<Cursor> = after.map(str::parse).transpose()?;
        let ask = |most| {
            self.ask(snapshot, |prepared| {
                snapshot.page(prepared, order, after.as_ref(), most)
            })
        };
        let mut page = ask(most)?;
        let mut rows = None;
        if let Some(columns) = &query.columns {
            let read = rows_of(snapshot, &page.nodes, columns, &mut Room::new(None))?;
            if read.len() < page.nodes.len() {
                page = ask(read.len())?;
            }
            rows = Some(read);
        }
        Ok(wire::Page {
            commit: snapshot.number(),
            nodes: page.nodes,
            rows,
            more: page.more,
            cursor: Some(page.cursor.to_string()),
        })
    }

    fn any(&self, snapshot: &Snapshot<'_>, query: &wire::Query<'_>, most: usize) -> Result<wire::Page, Failure> {
        let nodes = self.ask(snapshot, |prepared| snapshot.any_prepared(prepared, most))?;
        let mut page = wire::Page {
            commit: snapshot.number(),
            nodes,
            ..wire::Page::default()
        };
        if let Some(columns) = &query.columns {
            let rows = rows_of(snapshot, &page.nodes, columns, &mut Room::new(None))?;
            page.more = rows.len() < page.nodes.len();
            page.nodes.truncate(rows.len());
            page.rows = Some(rows);
        }
        Ok(page)
    }
}
