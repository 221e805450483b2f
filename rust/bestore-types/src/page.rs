//! Pages of an ordered result, and how an iterator reads them one after another.

use crate::Cursor;

/// Some of the nodes that a query finds, in a given order.
#[derive(Clone, Debug, PartialEq, Eq)]
pub struct Page {
    /// The nodes.
    pub nodes: Vec<u64>,
    /// Whether more nodes follow.
    pub more: bool,
    /// The position of the last node, for the next page. If the page is empty, the position at which it began.
    pub cursor: Cursor,
}

/// The sizes of an iterator's first page and of its largest page, in nodes.
const FIRST_PAGE: usize = 64;
const LARGEST_PAGE: usize = 4096;

/// The state of an iterator over an ordered result. Each page is twice as long as the last one, and an error ends the iteration.
#[derive(Clone, Debug)]
pub struct Paging {
    after: Option<Cursor>,
    most: usize,
    read: std::vec::IntoIter<u64>,
    is_over: bool,
}

impl Default for Paging {
    fn default() -> Self {
        Self {
            after: None,
            most: FIRST_PAGE,
            read: Vec::new().into_iter(),
            is_over: false,
        }
    }
}

impl Paging {
    /// Returns the position after which the next page begins, or `None` at the beginning.
    #[must_use]
    pub fn position(&self) -> Option<&Cursor> {
        self.after.as_ref()
    }

    /// Continues after this cursor.
    pub fn set_after(&mut self, cursor: Cursor) {
        self.after = Some(cursor);
    }

    /// Returns the next node. If necessary, calls `page` to read the page after a cursor, with up to the given number of nodes.
    pub fn next<E>(&mut self, page: impl FnOnce(Option<&Cursor>, usize) -> Result<Page, E>) -> Option<Result<u64, E>> {
        if let Some(node) = self.read.next() {
            return Some(Ok(node));
        }
        if self.is_over {
            return None;
        }
        self.is_over = true;
        match page(self.after.as_ref(), self.most) {
            Ok(page) => {
                self.is_over = !page.more;
                self.after = Some(page.cursor);
                self.most = (2 * self.most).min(LARGEST_PAGE);
                self.read = page.nodes.into_iter();
                self.read.next().map(Ok)
            }
            Err(error) => Some(Err(error)),
        }
    }
}

#[cfg(test)]
mod tests {
    use super::*;
    use crate::{Order, Value};

    /// Returns a page of ascending nodes after a cursor, none of them above `last`.
    fn page(last: u64, after: Option<&Cursor>, most: usize) -> Page {
        let first = after.and_then(Cursor::node).unwrap_or(0) + 1;
        let nodes: Vec<u64> = (first..=last).take(most).collect();
        let mut cursor = Cursor::beginning(Order::by("n"), 0);
        cursor.move_to(Value::Int64(0), nodes.last().copied().unwrap_or(first - 1));
        let more = cursor.node() != Some(last);
        Page { nodes, more, cursor }
    }

    /// Returns all nodes that were read, and the length of each page.
    fn read(last: u64, mut paging: Paging) -> (Vec<u64>, Vec<usize>) {
        let (mut nodes, mut asked) = (Vec::new(), Vec::new());
        while let Some(node) = paging.next::<()>(|after, most| {
            asked.push(most);
            Ok(page(last, after, most))
        }) {
            nodes.push(node.unwrap());
        }
        (nodes, asked)
    }

    #[test]
    fn pages_grow_and_have_each_node_once() {
        for last in [0, 1, 63, 64, 65, 192, 193, 20_000] {
            let (nodes, asked) = read(last, Paging::default());
            assert_eq!(nodes, (1..=last).collect::<Vec<_>>());
            let longest = asked.iter().scan(FIRST_PAGE, |most, asked| {
                assert_eq!(asked, most);
                *most = (2 * *most).min(LARGEST_PAGE);
                Some(())
            });
            assert_eq!(longest.count(), asked.len());
        }
        let mut paging = Paging::default();
        paging.set_after(page(64, None, 64).cursor);
        assert_eq!(read(70, paging).0, [65, 66, 67, 68, 69, 70]);
    }

    #[test]
    fn an_error_ends_them() {
        let mut paging = Paging::default();
        assert_eq!(paging.next(|_, _| Err("gone")), Some(Err("gone")));
        assert_eq!(paging.next::<()>(|_, _| panic!("it is over")), None);
    }
}
