//! Parts of a result: pages in the order of an index, the first nodes by number, or any nodes up to a limit.

use crate::raw::{cursor_of, of_cursor, Refused};
use crate::refused::no_order;
use crate::{Cursor, CursorFault, Error, Order, Page, Prepared, Result, Snapshot};
use bestore_sys as sys;
use bestore_types::Paging;

impl Snapshot<'_> {
    /// Returns an iterator over the nodes that the query finds, in the given order. The iterator reads one page after another.
    ///
    /// ```
    /// # use bestore::{Kind, Limits, Order, Store};
    /// # let mut pass = Store::open(Limits::default())?.pass()?;
    /// # pass.make_index("MAIL:when", Kind::Int64)?;
    /// # let nodes = (0..3).map(|when: i64| {
    /// #     let node = pass.new_node()?;
    /// #     pass.set(node, "MAIL:when", when).map(|()| node)
    /// # }).collect::<Result<Vec<_>, _>>()?;
    /// let snapshot = pass.pin()?;
    /// let newest_first = Order::by("MAIL:when").descending();
    /// let found: Vec<u64> = snapshot.ordered("MAIL:when>0", newest_first)?.collect::<Result<_, _>>()?;
    /// # assert_eq!(found, [nodes[2], nodes[1]]);
    /// # Ok::<(), bestore::Error>(())
    /// ```
    ///
    /// # Errors
    /// [`Error::Query`] if the text isn't a query, [`Error::OutOfMemory`]. The iterator itself returns the errors of [`page`](Self::page).
    pub fn ordered(&self, text: &str, order: Order) -> Result<Ordered<'_>> {
        Ok(Ordered {
            snapshot: self,
            prepared: Prepared::new(text)?,
            order,
            paging: Paging::default(),
        })
    }

    /// Returns a page: up to `most` of the nodes that the query finds, in the given order, starting after the cursor if one is given. Nodes
    /// without a value in the order's index are left out.
    ///
    /// A page from a later snapshot continues where the last page ended, whatever was written in between.
    ///
    /// # Errors
    /// [`Error::NoOrder`] if there is no such index. [`Error::BadCursor`] if the cursor belongs to another order or query, or if the index
    /// now has another kind. [`Error::NoRoom`] if `most` is 0. Otherwise the same errors as [`query`](Self::query).
    pub fn page(&self, prepared: &Prepared, order: &Order, after: Option<&Cursor>, most: usize) -> Result<Page> {
        let check = prepared.check()?;
        let after = begin(order, check, after, most)?;
        self.page_after(prepared, &after, most)
    }

    /// Returns the page after a cursor of this query.
    pub(crate) fn page_after(&self, prepared: &Prepared, after: &Cursor, most: usize) -> Result<Page> {
        let mut raw = cursor_of(after);
        let order = after.order();
        let answer = self.pass().raw().ordered(prepared.raw(), order, &mut raw, most);
        let (nodes, more) = answer.map_err(|refused| self.page_error(refused, prepared, after))?;
        Ok(Page {
            nodes,
            more,
            cursor: of_cursor(order, prepared.check()?, &raw),
        })
    }

    fn page_error(&self, refused: Refused, prepared: &Prepared, after: &Cursor) -> Error {
        let name = after.order().name();
        match refused.code {
            sys::BES_NO_INDEX => match self.indices() {
                Ok(indices) => no_order(name, indices),
                Err(error) => error,
            },
            sys::BES_BAD_CURSOR => match (self.index(name), after.value()) {
                (Ok(index), Some(value)) if index != value.kind() => Error::BadCursor(CursorFault::OtherKind {
                    name: name.into(),
                    cursor: value.kind(),
                    index,
                }),
                _ => Error::BadCursor(CursorFault::Text),
            },
            _ => self.query_error(refused, || prepared.text_or_empty()),
        }
    }

    /// Returns the first `most` nodes that the query finds, in ascending order, starting at node number `from`.
    ///
    /// # Errors
    /// [`Error::NoRoom`] if `most` is 0. Otherwise the same errors as [`query`](Self::query).
    pub fn first(&self, text: &str, from: u64, most: usize) -> Result<Vec<u64>> {
        let prepared = Prepared::new(text)?;
        let answer = self.pass().raw().first(prepared.raw(), from, most);
        answer.map_err(|refused| self.query_error(refused, || text.into()))
    }

    /// Like [`first`](Self::first), for a prepared query.
    ///
    /// # Errors
    /// The same errors as `first`.
    pub fn first_prepared(&self, prepared: &Prepared, from: u64, most: usize) -> Result<Vec<u64>> {
        let answer = self.pass().raw().first(prepared.raw(), from, most);
        answer.map_err(|refused| self.query_error(refused, || prepared.text_or_empty()))
    }

    /// Returns up to `most` of the nodes that the query finds, chosen arbitrarily and in no particular order. If the result is large, this
    /// is faster than finding all of it.
    ///
    /// # Errors
    /// [`Error::NoRoom`] if `most` is 0. Otherwise the same errors as [`query`](Self::query).
    pub fn any(&self, text: &str, most: usize) -> Result<Vec<u64>> {
        let prepared = Prepared::new(text)?;
        let answer = self.pass().raw().any(prepared.raw(), most);
        answer.map_err(|refused| self.query_error(refused, || text.into()))
    }

    /// Like [`any`](Self::any), for a prepared query.
    ///
    /// # Errors
    /// The same errors as `any`.
    pub fn any_prepared(&self, prepared: &Prepared, most: usize) -> Result<Vec<u64>> {
        let answer = self.pass().raw().any(prepared.raw(), most);
        answer.map_err(|refused| self.query_error(refused, || prepared.text_or_empty()))
    }
}

/// Returns the cursor after which a page begins. It is an error if the cursor belongs to another order or query, or if `most` is 0.
pub(crate) fn begin(order: &Order, check: u32, after: Option<&Cursor>, most: usize) -> Result<Cursor> {
    if most == 0 {
        return Err(Error::NoRoom);
    }
    match after {
        None => Ok(Cursor::beginning(order.clone(), check)),
        Some(after) => after.check_fits(order, check).map(|()| after.clone()),
    }
}

/// An iterator over the nodes that a query finds, in order, returned by [`Snapshot::ordered`]. It reads pages, each twice as long as the
/// last one. An error ends the iteration.
#[derive(Debug)]
pub struct Ordered<'a> {
    snapshot: &'a Snapshot<'a>,
    prepared: Prepared,
    order: Order,
    paging: Paging,
}

impl Ordered<'_> {
    /// Continues after this cursor, which must be from a page of the same query and order.
    #[must_use]
    pub fn after(mut self, cursor: Cursor) -> Self {
        self.paging.set_after(cursor);
        self
    }

    /// Returns the first `most` nodes as a page.
    ///
    /// # Errors
    /// The same errors as [`Snapshot::page`].
    pub fn page(&self, most: usize) -> Result<Page> {
        let after = self.paging.position();
        self.snapshot.page(&self.prepared, &self.order, after, most)
    }
}

impl Iterator for Ordered<'_> {
    type Item = Result<u64>;

    fn next(&mut self) -> Option<Result<u64>> {
        let Self {
            snapshot,
            prepared,
            order,
            paging,
        } = self;
        paging.next(|after, most| snapshot.page(prepared, order, after, most))
    }
}

impl std::iter::FusedIterator for Ordered<'_> {}
