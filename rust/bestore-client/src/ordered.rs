//! Answers in the order of an index, and partial answers.

use crate::wire::{self, Columns, Command, Json, NODES};
use crate::{Client, Error, Result};
use bestore_types::{Cursor, Order, Page, Paging, Value};
use std::borrow::Cow;

/// A page of nodes in an order, with each node's values in the requested columns.
#[derive(Clone, Debug, PartialEq, Eq)]
pub struct PageOfRows {
    /// The nodes, whether more follow, and the position of the last one.
    pub page: Page,
    /// For each node, its values in the order of the columns, with `None` where the node has no such attribute.
    pub rows: Vec<Vec<Option<Value>>>,
}

/// An iterator over the nodes that a query finds, in an order; returned by [`Client::ordered`]. It requests one page after another, each
/// twice as long as the one before. An error ends the iteration. Each page continues where the previous one ended, even in a later
/// snapshot; pin a snapshot first to read all pages from it.
#[derive(Debug)]
pub struct Ordered<'c> {
    asking: Asking<'c>,
    paging: Paging,
}

/// The client through which pages are requested, the query, and its order.
#[derive(Debug)]
struct Asking<'c> {
    client: &'c mut Client,
    text: String,
    order: Order,
}

impl Ordered<'_> {
    /// Starts after this cursor, which must come from a page of the same query and order.
    #[must_use]
    pub fn after(mut self, cursor: Cursor) -> Self {
        self.paging.set_after(cursor);
        self
    }

    /// Returns the first `most` nodes (1 to 50,000) as a page.
    ///
    /// # Errors
    /// The same as [`Client::page`].
    pub fn page(&mut self, most: usize) -> Result<Page> {
        Ok(self.rows(most, &[])?.page)
    }

    /// Like [`page`](Self::page), but also returns these attributes of each node, in the same request. The page has fewer nodes if not all
    /// rows fit on one line; its `more` is then true.
    ///
    /// # Errors
    /// The same as [`Client::page`].
    pub fn rows(&mut self, most: usize, columns: &[&str]) -> Result<PageOfRows> {
        self.asking.rows(self.paging.position(), most, columns)
    }
}

impl Asking<'_> {
    fn rows(&mut self, after: Option<&Cursor>, most: usize, columns: &[&str]) -> Result<PageOfRows> {
        let columns: Vec<_> = columns.iter().map(|name| Cow::from(*name)).collect();
        let read: wire::Page = self.client.call(Command::Query(wire::Query {
            query: (&self.text).into(),
            columns: (!columns.is_empty()).then_some(Columns(columns)),
            by: Some(self.order.name().into()),
            descending: self.order.is_descending(),
            after: after.map(|cursor| cursor.to_string().into()),
            limit: Some(most as u64),
            ..wire::Query::default()
        }))?;
        let cursor = read.cursor.unwrap_or_default();
        let rows = read.rows.unwrap_or_default().into_iter();
        Ok(PageOfRows {
            page: Page {
                nodes: read.nodes,
                more: read.more,
                cursor: cursor
                    .parse()
                    .map_err(|error: bestore_types::Error| Error::BadLine(error.to_string()))?,
            },
            rows: rows
                .map(|row| row.into_iter().map(|value| value.map(|Json(value)| value)).collect())
                .collect(),
        })
    }
}

impl Iterator for Ordered<'_> {
    type Item = Result<u64>;

    fn next(&mut self) -> Option<Result<u64>> {
        let Self { asking, paging } = self;
        paging.next(|after, most| Ok(asking.rows(after, most, &[])?.page))
    }
}

impl std::iter::FusedIterator for Ordered<'_> {}

impl Client {
    /// Returns an iterator over the nodes that the query finds, in an order. The iterator requests one page after another. It leaves out
    /// nodes without a value in the order's index.
    ///
    /// ```no_run
    /// # use bestore_client::Order;
    /// # let mut client = bestore_client::Client::connect_default()?;
    /// let newest = client.ordered("MAIL:to==ann", Order::by("MAIL:when").descending()).rows(50, &["MAIL:subject"])?;
    /// let cursor = newest.page.cursor;
    /// let older = client.page("MAIL:to==ann", &Order::by("MAIL:when").descending(), Some(&cursor), 50)?;
    /// # Ok::<(), bestore_client::Error>(())
    /// ```
    pub fn ordered(&mut self, text: &str, order: Order) -> Ordered<'_> {
        Ordered {
            asking: Asking {
                client: self,
                text: text.into(),
                order,
            },
            paging: Paging::default(),
        }
    }

    /// Returns the first `most` nodes (1 to 50,000) that a query finds in an order, starting after the cursor if there is one.
    ///
    /// # Errors
    /// `NoIndex` if the order's index doesn't exist. `BadCursor` if the cursor belongs to another order or query, or the index now has
    /// another kind. `BadRequest` if `most` isn't 1 to 50,000. Otherwise the same as [`call`](Self::call).
    pub fn page(&mut self, text: &str, order: &Order, after: Option<&Cursor>, most: usize) -> Result<Page> {
        let mut ordered = self.ordered(text, order.clone());
        if let Some(cursor) = after {
            ordered.paging.set_after(cursor.clone());
        }
        ordered.page(most)
    }

    /// Returns the first `most` nodes that the query finds, in ascending order, starting at node number `from`.
    ///
    /// # Errors
    /// The same as [`call`](Self::call).
    pub fn first(&mut self, text: &str, from: u64, most: usize) -> Result<Vec<u64>> {
        let (mut found, mut next) = (Vec::new(), Some(from));
        while let (Some(from), true) = (next, found.len() < most) {
            let hits: wire::Hits = self.call(Command::Query(wire::Query {
                query: text.into(),
                from,
                limit: Some((most - found.len()).min(NODES) as u64),
                uncounted: true,
                ..wire::Query::default()
            }))?;
            found.extend(hits.nodes.unwrap_or_default());
            next = hits.more;
        }
        Ok(found)
    }

    /// Returns any `most` of the nodes that the query finds, or all of them if there are fewer, in no particular order. If the answer is
    /// large and `most` is at most 50,000, this takes less time than computing all of it.
    ///
    /// # Errors
    /// `BadRequest` if `most` is 0. Otherwise the same as [`call`](Self::call).
    pub fn any(&mut self, text: &str, most: usize) -> Result<Vec<u64>> {
        if most > NODES {
            return self.first(text, 0, most);
        }
        let page: wire::Page = self.call(Command::Query(wire::Query {
            query: text.into(),
            any: Some(most as u64),
            ..wire::Query::default()
        }))?;
        Ok(page.nodes)
    }
}
