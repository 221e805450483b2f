//! A volume in maps, into which a file is read without a store: one in an earlier format, one of several that are joined, or one whose
//! entries don't fit into a store one after another.

use super::Result;
use crate::listing::{records, Record, Writer};
use crate::{Batch, Error, Kind, Operation, Value};
use std::collections::BTreeMap;

/// The maximum numbers of a node's attributes and of indices.
const ATTRIBUTES: usize = 64;
const INDICES: usize = 32;

/// The number of items in a full page of a tree.
const ITEMS: u64 = 12;

/// The number of node numbers that a volume of 0.4.0 has in its shelf.
const NUMBERS: u64 = 100_000_000_000_000;

/// An index. Each index that is created gets another mark, which the attributes that it holds have too.
#[derive(Clone, Copy, Debug)]
struct Index {
    kind: Kind,
    mark: u64,
    /// In a joined volume, the first volume that had the index.
    volume: u32,
}

#[derive(Debug)]
struct Attribute {
    name: Box<str>,
    value: Value,
    /// The mark of the index that has the attribute, or 0. The index may have been removed since.
    mark: u64,
}

/// A volume. Operations on it have the outcomes that they have in a store.
#[derive(Debug)]
pub struct Volume {
    next: u64,
    indices: BTreeMap<Box<str>, Index>,
    /// The nodes with their attributes, which are sorted by name.
    nodes: BTreeMap<u64, Vec<Attribute>>,
    last_mark: u64,
}

impl Default for Volume {
    fn default() -> Self {
        Self {
            next: 1,
            indices: BTreeMap::new(),
            nodes: BTreeMap::new(),
            last_mark: 0,
        }
    }
}

/// Returns where the attribute of this name is, or where it would be.
fn find(attributes: &[Attribute], name: &str) -> std::result::Result<usize, usize> {
    attributes.binary_search_by(|attribute| (*attribute.name).cmp(name))
}

impl Volume {
    /// Returns the next node number.
    pub fn next(&self) -> u64 {
        self.next
    }

    /// Sets the next node number.
    ///
    /// # Errors
    /// [`Error::NoNode`] if there is a node with this number or a higher one.
    pub fn set_next(&mut self, next: u64) -> crate::Result<()> {
        match self.nodes.range(next..).next() {
            Some(_) => Err(Error::NoNode),
            None => {
                self.next = next;
                Ok(())
            }
        }
    }

    /// Returns the number of pages that a store takes that begins with this volume: the version page, those of a tree with an item for each
    /// node and attribute, and those of each index's tree.
    pub fn pages(&self) -> u64 {
        let mut held: BTreeMap<&str, u64> = BTreeMap::new();
        let mut items = 0;
        for attributes in self.nodes.values() {
            items += 1 + attributes.len() as u64;
            for attribute in attributes.iter().filter(|attribute| self.is_held(attribute)) {
                *held.entry(&attribute.name).or_default() += 1;
            }
        }
        1 + pages_of_tree(items) + held.values().copied().map(pages_of_tree).sum::<u64>()
    }

    /// Applies the operations. If a node that one of them creates has a number in the batch, it must be the same one now.
    ///
    /// # Errors
    /// The errors that a store has; [`Error::Other`] for another node. The operations before the error have been applied.
    pub fn apply(&mut self, batch: &Batch) -> crate::Result<()> {
        batch.operations().try_for_each(|operation| self.step(operation))
    }

    fn step(&mut self, operation: Operation<'_>) -> crate::Result<()> {
        match operation {
            Operation::NewNode { node } => self.make_node(node),
            Operation::RemoveNode { node } => self.nodes.remove(&node).map(drop).ok_or(Error::NoNode),
            Operation::Set { node, name, value } => self.set(node, name, value),
            Operation::Unset { node, name } => {
                let attributes = self.nodes.get_mut(&node).ok_or(Error::NoNode)?;
                let at = find(attributes, name).map_err(|_| Error::NoAttribute)?;
                attributes.remove(at);
                Ok(())
            }
            Operation::MakeIndex { name, kind } => self.make_index(name, kind),
            Operation::RemoveIndex { name } => self.indices.remove(name).map(drop).ok_or(Error::NoIndex),
        }
    }

    fn make_node(&mut self, expected: u64) -> crate::Result<()> {
        if expected != 0 && expected != self.next {
            return Err(Error::other("it makes different nodes now"));
        }
        self.nodes.insert(self.next, Vec::new());
        self.next += 1;
        Ok(())
    }

    fn set(&mut self, node: u64, name: &str, value: Value) -> crate::Result<()> {
        let mark = self.mark_for(name, value.kind());
        let attributes = self.nodes.get_mut(&node).ok_or(Error::NoNode)?;
        match find(attributes, name) {
            Ok(at) => {
                attributes[at].value = value;
                attributes[at].mark = mark;
            }
            Err(_) if attributes.len() == ATTRIBUTES => return Err(Error::TooManyAttributes),
            Err(at) => {
                let name = name.into();
                attributes.insert(at, Attribute { name, value, mark });
            }
        }
        Ok(())
    }

    fn make_index(&mut self, name: &str, kind: Kind) -> crate::Result<()> {
        if self.indices.contains_key(name) {
            return Err(Error::IndexExists);
        }
        if !kind.is_indexable() {
            return Err(Error::NotIndexable);
        }
        if self.indices.len() == INDICES {
            return Err(Error::TooManyIndices);
        }
        self.last_mark += 1;
        let mark = self.last_mark;
        let volume = 0;
        self.indices.insert(name.into(), Index { kind, mark, volume });
        Ok(())
    }

    /// Returns the mark of an attribute of this name and kind that is set now.
    fn mark_for(&self, name: &str, kind: Kind) -> u64 {
        let index = self.indices.get(name).filter(|index| index.kind == kind);
        index.map_or(0, |index| index.mark)
    }

    fn is_held(&self, attribute: &Attribute) -> bool {
        attribute.mark != 0 && attribute.mark == self.mark_for(&attribute.name, attribute.value.kind())
    }

    /// Adds the next batch of a listing.
    ///
    /// # Errors
    /// Those of a builder of stores; [`Error::BadBatch`]. The records before the error have been added.
    pub fn add(&mut self, batch: &[u8]) -> crate::Result<()> {
        records(batch)?.try_for_each(|record| match record? {
            Record::Index { name, kind } => match self.indices.iter().next_back() {
                Some((last, _)) if **last >= *name => Err(Error::IndexExists),
                _ => self.make_index(name, kind),
            },
            Record::Node { node } => match self.nodes.range(node..).next() {
                Some(_) => Err(Error::NoNode),
                None => {
                    self.nodes.insert(node, Vec::new());
                    Ok(())
                }
            },
            Record::Attribute { name, value, is_held } => self.add_attribute(name, value.to_value(), is_held),
        })
    }

    /// Adds an attribute of the last node.
    fn add_attribute(&mut self, name: &str, value: Value, is_held: bool) -> crate::Result<()> {
        let mark = match is_held {
            true => self.mark_for(name, value.kind()),
            false => 0,
        };
        let attributes = self.nodes.values_mut().next_back().ok_or(Error::NoNode)?;
        match attributes.last() {
            _ if is_held && mark == 0 => return Err(Error::NoIndex),
            _ if attributes.len() == ATTRIBUTES => return Err(Error::TooManyAttributes),
            Some(last) if *last.name >= *name => return Err(Error::NoAttribute),
            _ => {}
        }
        let name = name.into();
        attributes.push(Attribute { name, value, mark });
        Ok(())
    }

    /// Passes each batch of the volume's listing to the closure, in order, with its index.
    ///
    /// # Errors
    /// Those of the closure; [`super::Error::Store`] if a name or a value isn't valid.
    pub fn each_batch(&self, mut take: impl FnMut(u64, &[u8]) -> Result<()>) -> Result<()> {
        let mut batches = Batches::new(&mut take);
        for (name, index) in &self.indices {
            batches.writer.index(name, index.kind)?;
        }
        for (node, attributes) in &self.nodes {
            batches.writer.node(*node);
            batches.take_if_full()?;
            for attribute in attributes {
                let (name, value) = (&attribute.name, (&attribute.value).into());
                batches.writer.attribute(name, value, self.is_held(attribute))?;
                batches.take_if_full()?;
            }
        }
        batches.take_last()
    }

    /// Moves everything from this volume of a shelf of 0.4.0, with the numbers that nodes had in the shelf. The volumes must be joined in
    /// ascending order.
    ///
    /// # Errors
    /// [`NotJoined::OtherKind`] for an index that has another kind here; [`Error::TooManyIndices`]; [`Error::Other`] for a next node number
    /// that no volume of a shelf could have.
    pub(super) fn join(&mut self, volume: u32, mut from: Volume) -> std::result::Result<(), NotJoined> {
        if from.next > NUMBERS {
            let why = "its node numbers are too large for a volume";
            return Err(NotJoined::Store(Error::other(why)));
        }
        for (name, index) in &from.indices {
            match self.indices.get(name) {
                Some(own) if own.kind != index.kind => {
                    let (name, first, second) = (name.to_string(), (own.volume, own.kind), index.kind);
                    return Err(NotJoined::OtherKind { name, first, second });
                }
                Some(_) => {}
                None => {
                    self.make_index(name, index.kind).map_err(NotJoined::Store)?;
                    self.indices.entry(name.clone()).and_modify(|own| own.volume = volume);
                }
            }
        }
        for (node, mut attributes) in std::mem::take(&mut from.nodes) {
            for attribute in &mut attributes {
                let is_held = from.is_held(attribute);
                attribute.mark = match is_held {
                    true => self.mark_for(&attribute.name, attribute.value.kind()),
                    false => 0,
                };
            }
            self.nodes.insert(in_shelf(volume, node), attributes);
        }
        self.next = in_shelf(volume, from.next);
        Ok(())
    }
}

/// Returns the number that a node of this volume had in its shelf.
pub(super) fn in_shelf(volume: u32, node: u64) -> u64 {
    u64::from(volume) * NUMBERS + node
}

/// Returns the number of pages of a tree whose pages are full.
fn pages_of_tree(items: u64) -> u64 {
    let (mut pages, mut level) = (0, items);
    while level > 1 || pages == 0 && level == 1 {
        level = (level + ITEMS - 1) / ITEMS;
        pages += level;
    }
    pages
}

/// Passes a listing's batches to a closure.
struct Batches<T> {
    writer: Writer,
    index: u64,
    take: T,
}

impl<T: FnMut(u64, &[u8]) -> Result<()>> Batches<T> {
    fn new(take: T) -> Self {
        let writer = Writer::new();
        Self { writer, index: 0, take }
    }

    fn take_if_full(&mut self) -> Result<()> {
        if self.writer.is_full() {
            (self.take)(self.index, &self.writer.take())?;
            self.index += 1;
        }
        Ok(())
    }

    fn take_last(mut self) -> Result<()> {
        match self.writer.is_empty() {
            true => Ok(()),
            false => (self.take)(self.index, &self.writer.take()),
        }
    }
}

/// Why volumes can't be joined.
#[derive(Debug)]
pub(super) enum NotJoined {
    /// An index has another kind than in an earlier volume.
    OtherKind {
        name: String,
        first: (u32, Kind),
        second: Kind,
    },
    Store(Error),
}

#[cfg(test)]
mod tests {
    use super::*;

    #[test]
    fn a_tree_has_as_many_pages_as_its_items_need() {
        let pages = [0, 1, 12, 13, 144, 145, 1728].map(pages_of_tree);
        assert_eq!(pages, [0, 1, 1, 3, 13, 16, 157]);
    }

    #[test]
    fn operations_have_the_outcomes_of_a_store() {
        let mut volume = Volume::default();
        let mut batch = Batch::new();
        batch
            .new_node()
            .set(1, "late", 1_i64)
            .make_index("late", Kind::Int64)
            .set(1, "other", "text");
        batch
            .new_node()
            .set(2, "late", 2_i64)
            .set(2, "late", "text")
            .unset(1, "other");
        volume.apply(&batch).unwrap();
        assert_eq!((volume.next(), volume.pages()), (3, 2));
        volume.apply(Batch::new().set(1, "late", 3_i64)).unwrap();
        assert_eq!(volume.pages(), 3);
        volume
            .apply(Batch::new().remove_index("late").make_index("late", Kind::Int64))
            .unwrap();
        assert_eq!(volume.pages(), 2);
        let refused = |batch: &mut Batch| Volume::apply(&mut Volume::default(), batch).unwrap_err();
        assert!(matches!(refused(Batch::new().remove_node(1)), Error::NoNode));
        assert!(matches!(
            refused(Batch::new().new_node().unset(1, "a")),
            Error::NoAttribute
        ));
        assert!(matches!(refused(Batch::new().remove_index("a")), Error::NoIndex));
        assert!(matches!(
            refused(Batch::new().make_index("a", Kind::Raw)),
            Error::NotIndexable
        ));
        let twice = refused(Batch::new().make_index("a", Kind::Text).make_index("a", Kind::Text));
        assert!(matches!(twice, Error::IndexExists));
        assert!(matches!(
            refused(Batch::new().new_node().set_nodes(&[2])),
            Error::Other(_)
        ));
    }

    #[test]
    fn a_listing_is_read_and_written_again() {
        let mut volume = Volume::default();
        let mut batch = Batch::new();
        batch
            .new_node()
            .new_node()
            .remove_node(1)
            .set(2, "a", 1_i64)
            .make_index("a", Kind::Int64);
        volume
            .apply(batch.make_index("b", Kind::Text).set(2, "b", "held"))
            .unwrap();
        let list = |volume: &Volume| {
            let mut batches = Vec::new();
            volume
                .each_batch(|_, batch| {
                    batches.push(batch.to_vec());
                    Ok(())
                })
                .unwrap();
            batches
        };
        let mut other = Volume::default();
        list(&volume).iter().for_each(|batch| other.add(batch).unwrap());
        assert!(matches!(other.set_next(2), Err(Error::NoNode)));
        other.set_next(3).unwrap();
        assert_eq!((list(&other), other.next()), (list(&volume), 3));
        assert!(matches!(other.add(&list(&volume)[0]), Err(Error::IndexExists)));
    }
}
