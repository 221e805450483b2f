//! Listing of a snapshot's volume.

use crate::{Kind, Nodes, Result, Snapshot};
use bestore_types::listing::Writer;
use bestore_types::raw::{List, RawOperation};
use bestore_types::ValueRef;

/// An iterator over the batches of a snapshot's listing, returned by [`Snapshot::listing`]. An error ends the iteration.
#[derive(Debug)]
pub struct Listing<'a> {
    snapshot: &'a Snapshot<'a>,
    /// The indices in ascending order of names, once they have been listed.
    indices: Option<Vec<(String, Kind)>>,
    nodes: Nodes<'a>,
    attributes: List,
    writer: Writer,
    /// A batch that is full. A node's records fill at most one.
    full: Option<Vec<u8>>,
    is_over: bool,
}

impl<'a> Listing<'a> {
    pub(crate) fn new(snapshot: &'a Snapshot<'a>) -> Self {
        Self {
            snapshot,
            indices: None,
            nodes: snapshot.nodes(),
            attributes: List::default(),
            writer: Writer::new(),
            full: None,
            is_over: false,
        }
    }

    /// Adds records until the batch is full or nothing is left. Returns `None` if there is no record.
    fn batch(&mut self) -> Result<Option<Vec<u8>>> {
        if self.indices.is_none() {
            self.add_indices()?;
        }
        loop {
            if let Some(full) = self.full.take() {
                return Ok(Some(full));
            }
            match self.nodes.next() {
                Some(node) => self.add_node(node?)?,
                None if self.writer.is_empty() => return Ok(None),
                None => {
                    let mut last = self.writer.take();
                    last.shrink_to_fit();
                    return Ok(Some(last));
                }
            }
        }
    }

    fn add_indices(&mut self) -> Result<()> {
        let indices = self.snapshot.indices()?;
        for (name, kind) in &indices {
            self.writer.index(name, *kind)?;
        }
        self.indices = Some(indices);
        Ok(())
    }

    fn add_node(&mut self, node: u64) -> Result<()> {
        let raw = self.snapshot.pass().raw();
        raw.attributes_into(node, &mut self.attributes)?;
        self.writer.node(node);
        self.full = full(&mut self.writer);
        for operation in &self.attributes.operations {
            let name = self.attributes.name(operation);
            let value = value_of(&self.attributes, operation);
            let is_held = self.may_be_held(name, value.kind()) && raw.is_held(node, name)?;
            self.writer.attribute(name, value, is_held)?;
            self.full = self.full.take().or_else(|| full(&mut self.writer));
        }
        Ok(())
    }

    /// Returns whether there is an index of this name and kind.
    fn may_be_held(&self, name: &str, kind: Kind) -> bool {
        let indices = self.indices.as_deref().unwrap_or_default();
        let found = indices.binary_search_by(|(index, _)| index.as_str().cmp(name));
        found.map_or(false, |at| indices[at].1 == kind)
    }
}

/// Takes the batch if it is full.
fn full(writer: &mut Writer) -> Option<Vec<u8>> {
    writer.is_full().then(|| writer.take())
}

/// Returns the value of an attribute in the list.
fn value_of<'l>(list: &'l List, operation: &RawOperation) -> ValueRef<'l> {
    let kind = Kind::from_code(operation.code).unwrap_or(Kind::Raw);
    ValueRef::of_parts(kind, operation.number, list.value_bytes(operation))
}

impl Iterator for Listing<'_> {
    type Item = Result<Vec<u8>>;

    fn next(&mut self) -> Option<Result<Vec<u8>>> {
        if self.is_over {
            return None;
        }
        let batch = self.batch().transpose();
        self.is_over = !matches!(batch, Some(Ok(_)));
        batch
    }
}

impl std::iter::FusedIterator for Listing<'_> {}
