//! Snapshots: what a pass reads while it is pinned.

use crate::raw::{checked_name, Answer, Refused};
use crate::refused::{of_query, with_missing};
use crate::{attribute, hints, Error, Hint, Kind, Listing, Pass, Prepared, Result, Value};
use bestore_sys as sys;
use bestore_types::raw::{List, RawOperation};
use std::collections::BTreeMap;

/// A pinned snapshot: the store as it was after the first [`number`](Self::number) entries of its journal, whatever has been written since.
///
/// Dropping the snapshot unpins it. Until then its pages can't be reused, so drop it as soon as you can.
#[derive(Debug)]
pub struct Snapshot<'a> {
    pass: &'a mut Pass,
    number: u64,
}

impl<'a> Snapshot<'a> {
    pub(crate) fn pin(pass: &'a mut Pass) -> Result<Self> {
        if let Some(number) = pass.held() {
            return Ok(Self { pass, number });
        }
        pass.follow()?;
        let number = match pass.raw().pin() {
            // The last snapshot was leaked with `mem::forget`: nothing else could have ended the borrow of the pass.
            Err(refused) if refused.code == sys::BES_PINNED => {
                pass.raw().unpin()?;
                pass.raw().pin()?
            }
            answer => answer?,
        };
        let number = pass.seat().outside(number);
        Ok(Self { pass, number })
    }

    /// Returns the number of journal entries that the snapshot contains.
    #[must_use]
    pub fn number(&self) -> u64 {
        self.number
    }

    /// Returns the pass, so that you can write while you read the snapshot.
    #[must_use]
    pub fn pass(&self) -> &Pass {
        self.pass
    }

    /// Returns the nodes that the query finds, in ascending order.
    ///
    /// ```
    /// # use bestore::{escape, Kind, Limits, Store};
    /// # let mut pass = Store::open(Limits::default())?.pass()?;
    /// # pass.make_index("name", Kind::Text)?;
    /// # let node = pass.new_node()?;
    /// # pass.set(node, "name", "[draft].txt")?;
    /// let snapshot = pass.pin()?;
    /// let found = snapshot.query(&format!("name==\"*{}*\"", escape("[draft]")))?;
    /// # assert_eq!(found, [node]);
    /// # Ok::<(), bestore::Error>(())
    /// ```
    ///
    /// # Errors
    /// [`Error::Query`], [`Error::OutOfMemory`], [`Error::Forked`].
    pub fn query(&self, text: &str) -> Result<Vec<u64>> {
        let answer = self.pass.raw().query(text);
        answer.map_err(|refused| self.query_error(refused, || text.into()))
    }

    /// Returns the nodes that the prepared query finds, in ascending order. Nothing is parsed.
    ///
    /// # Errors
    /// The same errors as [`query`](Self::query).
    pub fn query_prepared(&self, prepared: &Prepared) -> Result<Vec<u64>> {
        let answer = self.pass.raw().query_prepared(prepared.raw());
        answer.map_err(|refused| self.query_error(refused, || prepared.text_or_empty()))
    }

    /// Returns the number of nodes that the query finds. This costs as much as running the query, except for creating the list.
    ///
    /// # Errors
    /// The same errors as [`query`](Self::query).
    pub fn count(&self, text: &str) -> Result<u64> {
        let answer = self.pass.raw().count(text);
        answer.map_err(|refused| self.query_error(refused, || text.into()))
    }

    /// Returns the number of nodes that the prepared query finds.
    ///
    /// # Errors
    /// The same errors as [`query`](Self::query).
    pub fn count_prepared(&self, prepared: &Prepared) -> Result<u64> {
        let answer = self.pass.raw().count_prepared(prepared.raw());
        answer.map_err(|refused| self.query_error(refused, || prepared.text_or_empty()))
    }

    /// Returns the number of entries in the index of this name, each of which is a value and a node. This reads the whole index.
    ///
    /// # Errors
    /// [`Error::NoIndex`]; otherwise the same errors as [`query`](Self::query).
    pub fn pairs(&self, name: &str) -> Result<u64> {
        self.count_prepared(&attribute(name).any(self.index(name)?).prepare()?)
    }

    /// Returns the kind of the index with this name.
    pub(crate) fn index(&self, name: &str) -> Result<Kind> {
        let mut indices = self.indices()?.into_iter();
        let found = indices.find(|(index, _)| index == name);
        found.map(|(_, kind)| kind).ok_or(Error::NoIndex)
    }

    /// Returns the comparisons in a query that are never true given this snapshot's indices, such as `size>1.5`.
    ///
    /// # Errors
    /// The same errors as [`hints`](crate::hints()); [`Error::Forked`].
    pub fn hints(&self, text: &str) -> Result<Vec<Hint>> {
        let indices: BTreeMap<_, _> = self.indices()?.into_iter().collect();
        hints(text, |name| indices.get(name).copied())
    }

    /// Returns the nodes that have an attribute of this name and kind but aren't in the index of this name.
    pub(crate) fn not_indexed(&self, name: &str, kind: Kind) -> Result<Vec<u64>> {
        let held = self.query_prepared(&attribute(name).any(kind).prepare()?)?;
        let mut lacking = Vec::new();
        for node in self.nodes() {
            let node = node?;
            if held.binary_search(&node).is_err() && self.get(node, name)?.map(|value| value.kind()) == Some(kind) {
                lacking.push(node);
            }
        }
        Ok(lacking)
    }

    /// Converts the library's refusal of a query, and adds the first missing index.
    pub(crate) fn query_error(&self, refused: Refused, text: impl FnOnce() -> String) -> Error {
        let error = of_query(refused, text);
        if refused.code != sys::BES_NOT_COVERED {
            return error;
        }
        match self.indices() {
            Ok(indices) => with_missing(error, |name| indices.iter().any(|(index, _)| index == name)),
            Err(_) => error,
        }
    }

    /// Returns comparisons whose indices cover the query, joined by ` || `, and a score that depends only on the operators, such as
    /// `"size"<"0" score 3`. Running the query may read other indices instead: those whose ranges have the fewest keys, by an estimate.
    ///
    /// # Errors
    /// The same errors as [`query`](Self::query).
    pub fn explain(&self, text: &str) -> Result<String> {
        let answer = self.pass.raw().explain(text);
        let bytes = answer.map_err(|refused| self.query_error(refused, || text.into()))?;
        Ok(String::from_utf8_lossy(&bytes).into_owned())
    }

    /// Runs a query, and says why it takes as long as it does: returns a line for each range of index keys that the answer walked, such as
    /// `"size"  500 .. <600  about 90 keys, 100 walked`. It has the name of the index, the lowest and the highest value of the range, about
    /// how many keys the range was estimated to have, and how many it has. A value that the range excludes has `<` or `>` before it, an
    /// open end is left out, and `"ann"*` stands for the last string that begins with `ann`.
    ///
    /// This takes the time of the query, and that of listing each range once more.
    ///
    /// # Errors
    /// The same errors as [`query`](Self::query).
    pub fn ways(&self, text: &str) -> Result<String> {
        let answer = self.pass.raw().ways(text);
        let bytes = answer.map_err(|refused| self.query_error(refused, || text.into()))?;
        Ok(String::from_utf8_lossy(&bytes).into_owned())
    }

    /// Returns all nodes in ascending order, whether or not they have attributes.
    pub fn nodes(&self) -> Nodes<'_> {
        self.nodes_from(0)
    }

    /// Returns the nodes from this number on, in ascending order.
    pub fn nodes_from(&self, from: u64) -> Nodes<'_> {
        Nodes {
            snapshot: self,
            read: Vec::new().into_iter(),
            from: Some(from),
        }
    }

    /// Returns `true` if the node exists.
    ///
    /// # Errors
    /// [`Error::OutOfMemory`], [`Error::Forked`].
    pub fn contains(&self, node: u64) -> Result<bool> {
        Ok(self.pass.raw().nodes(node, 1)?.first() == Some(&node))
    }

    /// Returns the number that the next node will have if it is created on top of this snapshot.
    ///
    /// # Errors
    /// [`Error::Forked`].
    pub fn next_node(&self) -> Result<u64> {
        Ok(self.pass.raw().next()?)
    }

    /// Returns an attribute, or `None` if the node or the attribute doesn't exist.
    ///
    /// # Errors
    /// [`Error::NameLength`], [`Error::HasNul`], [`Error::Forked`].
    pub fn get(&self, node: u64, name: &str) -> Result<Option<Value>> {
        let mut bytes = [0; 255];
        let answer = self.pass.raw().get(node, name, &mut bytes);
        value_read(answer, &bytes)
    }

    /// Reads one attribute of many nodes: returns each node's value, or `None` if the node has no such attribute.
    ///
    /// # Errors
    /// The same errors as [`Snapshot::columns`].
    pub fn column(&self, nodes: &[u64], name: &str) -> Result<Vec<Option<Value>>> {
        Ok(self.columns(nodes, &[name])?.pop().unwrap_or_default())
    }

    /// Reads several attributes of many nodes. For each name, returns a list with each node's value, or `None` if the node has no such
    /// attribute. If the names are in ascending order and few other attributes of the node lie between, the node takes only one tree search,
    /// which is faster than calling [`Snapshot::get`] for each.
    ///
    /// # Errors
    /// [`Error::NameLength`], [`Error::HasNul`], [`Error::Forked`].
    pub fn columns(&self, nodes: &[u64], names: &[&str]) -> Result<Vec<Vec<Option<Value>>>> {
        let mut order: Vec<usize> = (0..names.len()).collect();
        order.sort_by_key(|&place| names[place]);
        let checked = order
            .iter()
            .map(|&place| checked_name(names[place]))
            .collect::<std::result::Result<Vec<_>, Refused>>()?;
        self.pass.succession().check()?;
        let mut columns: Vec<Vec<Option<Value>>> = names.iter().map(|_| Vec::with_capacity(nodes.len())).collect();
        for part in nodes.chunks((VALUES / names.len().max(1)).max(1)) {
            let (cells, bytes) = self.pass.raw().columns(part, &checked)?;
            for row in cells.chunks(names.len().max(1)) {
                for (cell, &place) in row.iter().zip(&order) {
                    columns[place].push(value_of(cell, &bytes));
                }
            }
        }
        Ok(columns)
    }

    /// Returns a node's attributes, sorted by name.
    ///
    /// # Errors
    /// [`Error::NoNode`], [`Error::OutOfMemory`], [`Error::Forked`].
    pub fn attributes(&self, node: u64) -> Result<Vec<(String, Value)>> {
        let list = self.pass.raw().attributes(node)?;
        Ok(named(&list, |operation| list.value(operation)))
    }

    /// Returns the indices with their kinds, sorted by name.
    ///
    /// # Errors
    /// [`Error::OutOfMemory`], [`Error::Forked`].
    pub fn indices(&self) -> Result<Vec<(String, Kind)>> {
        let list = self.pass.raw().indices()?;
        Ok(named(&list, |operation| {
            Kind::from_code(operation.code).unwrap_or(Kind::Raw)
        }))
    }

    /// Returns `true` if the index of this name has the node's attribute. It doesn't have an attribute that was set before the index was
    /// created, or that has another kind. This takes a search of the index.
    ///
    /// # Errors
    /// [`Error::NameLength`], [`Error::HasNul`], [`Error::OutOfMemory`], [`Error::Forked`].
    pub fn is_held(&self, node: u64, name: &str) -> Result<bool> {
        Ok(self.pass.raw().is_held(node, name)?)
    }

    /// Returns the batches of the snapshot's [listing](crate::listing), from which a [`Builder`](crate::Builder) builds a store with the same
    /// volume. The next node number isn't part of them. A batch has about 64 KiB. An empty volume has no batches.
    ///
    /// The cost is that of reading each node with its attributes, and of [`is_held`](Self::is_held) for each attribute whose name and kind
    /// are those of an index.
    ///
    /// ```
    /// # use bestore::{Builder, Limits, Store};
    /// # let mut pass = Store::open(Limits::default())?.pass()?;
    /// # pass.new_node()?;
    /// let snapshot = pass.pin()?;
    /// let mut builder = Builder::new(Limits::default())?;
    /// for batch in snapshot.listing() {
    ///     builder.batch(&batch?)?;
    /// }
    /// let other = builder.finish(snapshot.next_node()?)?;
    /// # assert_eq!(other.pass()?.new_node()?, 2);
    /// # Ok::<(), bestore::Error>(())
    /// ```
    pub fn listing(&self) -> Listing<'_> {
        Listing::new(self)
    }
}

impl Drop for Snapshot<'_> {
    fn drop(&mut self) {
        if self.pass.held().is_none() {
            // This fails only in a forked child, where nothing is pinned.
            let _ = self.pass.raw().unpin();
        }
    }
}

/// Returns the value of an attribute that has been read, if any. Its bytes are at the start of `bytes`.
pub(crate) fn value_read(answer: Answer<sys::bes_attribute>, bytes: &[u8; 255]) -> Result<Option<Value>> {
    match answer {
        Ok(attribute) => {
            let kind = Kind::from_code(attribute.code).unwrap_or(Kind::Raw);
            let length = (attribute.length as usize).min(bytes.len());
            Ok(Some(Value::of_parts(kind, attribute.number, &bytes[..length])))
        }
        Err(refused) if refused.code == sys::BES_NO_ATTRIBUTE => Ok(None),
        Err(refused) => Err(refused.into()),
    }
}

fn named<T>(list: &List, read: impl Fn(&RawOperation) -> T) -> Vec<(String, T)> {
    list.operations
        .iter()
        .map(|operation| (list.name(operation).to_owned(), read(operation)))
        .collect()
}

/// Returns the value in a cell. Its bytes are part of `bytes`.
fn value_of(cell: &sys::bes_cell, bytes: &[u8]) -> Option<Value> {
    if cell.error != sys::BES_OK {
        return None;
    }
    let (kind, from) = (Kind::from_code(cell.code).unwrap_or(Kind::Raw), cell.offset as usize);
    let content = bytes.get(from..from + cell.length as usize).unwrap_or_default();
    Some(Value::of_parts(kind, cell.number, content))
}

/// The number of nodes to read at a time.
const NODES: usize = 1024;

/// The number of values to read at a time, unless there are more names.
const VALUES: usize = 4096;

/// An iterator over the nodes in a snapshot, returned by [`Snapshot::nodes`]. An error ends the iteration.
#[derive(Debug)]
pub struct Nodes<'a> {
    snapshot: &'a Snapshot<'a>,
    read: std::vec::IntoIter<u64>,
    from: Option<u64>,
}

impl Nodes<'_> {
    fn read_on(&mut self, from: u64) -> Result<()> {
        self.from = None;
        let nodes = self.snapshot.pass.raw().nodes(from, NODES)?;
        if nodes.len() == NODES {
            self.from = nodes.last().and_then(|last| last.checked_add(1));
        }
        self.read = nodes.into_iter();
        Ok(())
    }
}

impl Iterator for Nodes<'_> {
    type Item = Result<u64>;

    fn next(&mut self) -> Option<Result<u64>> {
        if let Some(node) = self.read.next() {
            return Some(Ok(node));
        }
        let from = self.from?;
        match self.read_on(from) {
            Ok(()) => self.read.next().map(Ok),
            Err(error) => Some(Err(error)),
        }
    }
}

impl std::iter::FusedIterator for Nodes<'_> {}
