//! Building of a store from a volume that is given in order.

use crate::raw::RawBuilder;
use crate::{Kind, Limits, Pass, Result, Store};
use bestore_types::listing::{records, Record};
use bestore_types::{ValueRef, MOST_PASSES};

/// A store that is being built from a volume. The finished store begins with that volume, and its journal is empty.
///
/// A volume consists of its indices, its nodes with their attributes, and the next node number. It is given in order: first the indices, in
/// ascending order of names, then the nodes in ascending order, each followed by its attributes in ascending order of names. Names are
/// compared by their bytes. Nodes may be any numbers from 1 on, with gaps. [`Snapshot::listing`](crate::Snapshot::listing) lists a volume in
/// this order.
///
/// Building takes less time and memory than writing the same volume: about a third of the instructions, and as few pages as any store with
/// this volume has. It takes no entries of the journal.
///
/// ```
/// use bestore::{Builder, Kind, Limits};
/// let mut builder = Builder::new(Limits::default())?;
/// builder.index("MAIL:from", Kind::Text)?;
/// builder.node(7)?;
/// builder.attribute("MAIL:from", "Ada", true)?;
/// let store = builder.finish(8)?;
/// assert_eq!(store.pass()?.pin()?.query("MAIL:from==Ada")?, [7]);
/// assert_eq!(store.pass()?.new_node()?, 8);
/// # Ok::<(), bestore::Error>(())
/// ```
///
/// # Errors
/// After [`Error::Full`](crate::Error::Full) or [`Error::OutOfMemory`](crate::Error::OutOfMemory), each call returns that error again. After
/// any other error, the builder is as it was before the call. Each call can return [`Error::Forked`](crate::Error::Forked).
#[derive(Debug)]
pub struct Builder {
    raw: RawBuilder,
    limits: Limits,
}

impl Builder {
    /// Begins to build a store with these limits.
    ///
    /// # Errors
    /// [`Error::BadLimits`](crate::Error::BadLimits), [`Error::OutOfMemory`](crate::Error::OutOfMemory).
    pub fn new(limits: Limits) -> Result<Self> {
        if !(1..=MOST_PASSES).contains(&limits.passes) {
            return Err(crate::Error::BadLimits);
        }
        let raw = RawBuilder::new(limits.pages, limits.passes + 1, limits.commits)?;
        Ok(Self { raw, limits })
    }

    /// Adds an index for values of this kind.
    ///
    /// # Errors
    /// [`Error::IndexExists`](crate::Error::IndexExists) if the name isn't greater than that of the last index;
    /// [`Error::NoNode`](crate::Error::NoNode) after the first node; [`Error::NotIndexable`](crate::Error::NotIndexable),
    /// [`Error::TooManyIndices`](crate::Error::TooManyIndices), [`Error::NameLength`](crate::Error::NameLength),
    /// [`Error::HasNul`](crate::Error::HasNul), [`Error::Full`](crate::Error::Full), [`Error::OutOfMemory`](crate::Error::OutOfMemory).
    pub fn index(&mut self, name: &str, kind: Kind) -> Result<()> {
        Ok(self.raw.index(name, kind.code())?)
    }

    /// Adds a node without attributes.
    ///
    /// # Errors
    /// [`Error::NoNode`](crate::Error::NoNode) if the node isn't greater than the last one, or is 2^63 or more;
    /// [`Error::Full`](crate::Error::Full), [`Error::OutOfMemory`](crate::Error::OutOfMemory).
    pub fn node(&mut self, node: u64) -> Result<()> {
        Ok(self.raw.node(node)?)
    }

    /// Adds an attribute of the last node. If `is_held`, the index of this name has it. An index doesn't have what was set before it was
    /// created.
    ///
    /// # Errors
    /// [`Error::NoNode`](crate::Error::NoNode) if there is no node; [`Error::NoAttribute`](crate::Error::NoAttribute) if the name isn't
    /// greater than that of the node's last attribute; [`Error::NoIndex`](crate::Error::NoIndex) or
    /// [`Error::NotIndexable`](crate::Error::NotIndexable) if it is held, but no index has this name or its kind;
    /// [`Error::TooManyAttributes`](crate::Error::TooManyAttributes), [`Error::NameLength`](crate::Error::NameLength),
    /// [`Error::DataLength`](crate::Error::DataLength), [`Error::HasNul`](crate::Error::HasNul), [`Error::Full`](crate::Error::Full),
    /// [`Error::OutOfMemory`](crate::Error::OutOfMemory).
    pub fn attribute<'v>(&mut self, name: &str, value: impl Into<ValueRef<'v>>, is_held: bool) -> Result<()> {
        Ok(self.raw.attribute(name, value.into(), is_held)?)
    }

    /// Adds the next batch of a [listing](crate::listing). This allocates no memory besides the store's own.
    ///
    /// # Errors
    /// [`Error::BadBatch`](crate::Error::BadBatch) if the bytes aren't such a batch; otherwise the errors of the calls above. The records
    /// before the error have been added.
    pub fn batch(&mut self, batch: &[u8]) -> Result<()> {
        for record in records(batch)? {
            match record? {
                Record::Index { name, kind } => self.index(name, kind)?,
                Record::Node { node } => self.node(node)?,
                Record::Attribute { name, value, is_held } => self.attribute(name, value, is_held)?,
            }
        }
        Ok(())
    }

    /// Opens the store, as [`Store::open`] does. Its next node has the number `next`.
    ///
    /// # Errors
    /// [`Error::NoNode`](crate::Error::NoNode) if `next` isn't greater than the last node, or is 0 or greater than 2^63.
    /// [`Error::Full`](crate::Error::Full) only if no store with this volume fits into these pages;
    /// [`Error::OutOfMemory`](crate::Error::OutOfMemory).
    pub fn finish(self, next: u64) -> Result<Store> {
        self.finish_pass(next).map(Store::of_pass)
    }

    /// Opens the store, and returns the store's own pass.
    pub(crate) fn finish_pass(self, next: u64) -> Result<Pass> {
        Ok(Pass::of_store(self.raw.finish(next)?, self.limits))
    }
}
