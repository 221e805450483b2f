//! Changes: atomic reads and writes.

use crate::raw::{Parts, RawDraft, Refused};
use crate::refused::of_write;
use crate::waits::Waits;
use crate::{Batch, Error, Kind, Pass, Result, Snapshot, Value};
use bestore_sys as sys;

/// A change in progress. The closure of [`Pass::change`] uses it to read the store and collect up to 64 operations.
///
/// [`get`](Self::get) reads the snapshot with the operations so far applied. [`snapshot`](Self::snapshot) returns the snapshot without
/// them.
#[derive(Debug)]
pub struct Change<'a> {
    snapshot: &'a Snapshot<'a>,
    draft: RawDraft,
    /// The operations in the draft.
    batch: Batch,
    /// The numbers of the nodes that the change creates. The next one will get number `next`.
    nodes: Vec<u64>,
    next: u64,
    /// The error from an operation that wasn't collected, if its method couldn't return it. The change fails with this error.
    refused: Option<Error>,
}

impl<'a> Change<'a> {
    pub(crate) fn new(snapshot: &'a Snapshot<'a>) -> Result<Self> {
        let (draft, next) = snapshot.pass().raw().begin_change()?;
        Ok(Self {
            snapshot,
            draft,
            batch: Batch::new(),
            nodes: Vec::new(),
            next,
            refused: None,
        })
    }

    /// Returns the snapshot that the change is based on.
    #[must_use]
    pub fn snapshot(&self) -> &'a Snapshot<'a> {
        self.snapshot
    }

    /// Returns the commit number that the change will have.
    #[must_use]
    pub fn number(&self) -> u64 {
        self.snapshot.number() + 1
    }

    /// Returns the operations that have been collected.
    #[must_use]
    pub fn batch(&self) -> &Batch {
        &self.batch
    }

    /// Returns an attribute with the operations so far applied, or `None` if the node or the attribute doesn't exist then.
    ///
    /// # Errors
    /// The same errors as [`Snapshot::get`].
    pub fn get(&self, node: u64, name: &str) -> Result<Option<Value>> {
        let mut bytes = [0; 255];
        let answer = self
            .snapshot
            .pass()
            .raw()
            .change_get(&self.draft, node, name, &mut bytes);
        crate::snapshot::value_read(answer, &bytes)
    }

    /// Accepts values of any kind from now on. Before this call, setting a value whose kind differs from that of its index is an error,
    /// because no query would find the value.
    pub fn any_kind(&mut self) -> &mut Self {
        // This fails only in a forked child, where every other call fails too.
        let _ = self.draft.any_kind();
        self
    }

    /// Creates a node and returns the number that it will have. If this method or one of those below adds a 65th operation, the change
    /// fails with [`Error::BadCount`].
    pub fn new_node(&mut self) -> u64 {
        let node = self.next;
        self.next += 1;
        if self.collect_or_keep_error(sys::BES_NEW_NODE, 0, "") {
            self.nodes.push(node);
            self.batch.new_node();
        }
        node
    }

    /// Removes the node and all its attributes.
    pub fn remove_node(&mut self, node: u64) -> &mut Self {
        if self.collect_or_keep_error(sys::BES_REMOVE_NODE, node, "") {
            self.batch.remove_node(node);
        }
        self
    }

    /// Sets the attribute.
    ///
    /// # Errors
    /// [`Error::KindMismatch`] if an index of this name holds values of another kind: the attribute would be set, but no query would find
    /// it. [`Error::NameLength`], [`Error::DataLength`], [`Error::HasNul`], [`Error::BadCount`], [`Error::OutOfMemory`]. After an error,
    /// nothing has been collected.
    pub fn set(&mut self, node: u64, name: &str, value: impl Into<Value>) -> Result<&mut Self> {
        let value = value.into();
        let bytes = value.as_bytes().unwrap_or_default();
        self.collect(&Parts {
            kind: sys::BES_SET,
            node,
            name,
            code: value.kind().code(),
            number: value.number(),
            value: bytes,
        })?;
        self.batch.set(node, name, value);
        Ok(self)
    }

    /// Sets each node's attribute of this name again to its current value, if that value is of this kind. Returns the number of attributes
    /// set.
    pub(crate) fn set_again(&mut self, nodes: &[u64], name: &str, kind: Kind) -> Result<u64> {
        let mut count = 0;
        for node in nodes {
            match self.snapshot.get(*node, name)? {
                Some(value) if value.kind() == kind => {
                    self.set(*node, name, value)?;
                    count += 1;
                }
                _ => {}
            }
        }
        Ok(count)
    }

    /// Removes the attribute.
    pub fn unset(&mut self, node: u64, name: &str) -> &mut Self {
        if self.collect_or_keep_error(sys::BES_UNSET, node, name) {
            self.batch.unset(node, name);
        }
        self
    }

    /// Creates an index with this name for values of this kind.
    ///
    /// # Errors
    /// [`Error::NameLength`], [`Error::HasNul`], [`Error::BadCount`], [`Error::OutOfMemory`]. After an error, nothing has been collected.
    pub fn make_index(&mut self, name: &str, kind: Kind) -> Result<&mut Self> {
        self.collect(&of_index(sys::BES_MAKE_INDEX, name, kind.code()))?;
        self.batch.make_index(name, kind);
        Ok(self)
    }

    /// Removes the index with this name.
    ///
    /// # Errors
    /// The same errors as [`make_index`](Self::make_index).
    pub fn remove_index(&mut self, name: &str) -> Result<&mut Self> {
        self.collect(&of_index(sys::BES_REMOVE_INDEX, name, 0))?;
        self.batch.remove_index(name);
        Ok(self)
    }

    /// Adds an operation to the draft.
    fn collect(&mut self, parts: &Parts<'_>) -> Result<()> {
        let (index, refused) = match self.draft.add(parts) {
            Ok(_) => return Ok(()),
            Err(refused) => (self.batch.len(), refused),
        };
        if refused.code == sys::BES_WRONG_KIND {
            let kind = |code| Kind::from_code(code).unwrap_or(Kind::Raw);
            return Err(Error::KindMismatch {
                name: parts.name.into(),
                index: kind(u32::try_from(refused.carried).unwrap_or_default()),
                value: kind(parts.code),
            });
        }
        let at_operation = Refused {
            carried: index as u64,
            ..refused
        };
        Err(of_write(at_operation, index + 1, None))
    }

    /// Adds an operation without a value, and returns whether it was added. After an operation that can't be added, the change will fail
    /// with its error, so no more are added.
    fn collect_or_keep_error(&mut self, kind: u32, node: u64, name: &str) -> bool {
        if self.refused.is_some() {
            return false;
        }
        let parts = Parts {
            node,
            ..of_index(kind, name, 0)
        };
        self.refused = self.collect(&parts).err();
        self.refused.is_none()
    }

    /// Returns `true` if there is anything to write.
    ///
    /// # Errors
    /// The error from an operation that wasn't collected, if its method couldn't return it.
    pub(crate) fn has_operations(&mut self) -> Result<bool> {
        match self.refused.take() {
            Some(error) => Err(error),
            None => Ok(!self.batch.is_empty()),
        }
    }

    /// Writes the operations if nothing else has been written since the snapshot. Returns the number for `end_write`.
    pub(crate) fn end(self) -> Result<u64> {
        let pass = self.snapshot.pass();
        pass.end_change(&self.draft, self.snapshot.number(), &self.batch, self.nodes)
    }

    /// Runs the closure on successively newer snapshots until its operations have been written on top of the snapshot that it read.
    pub(crate) fn run<T>(pass: &mut Pass, closure: &mut impl FnMut(&mut Change<'_>) -> Result<T>) -> Result<T> {
        let mut waits = Waits::of_change(pass);
        loop {
            let snapshot = pass.pin()?;
            let mut change = Change::new(&snapshot)?;
            let value = snapshot.pass().while_changing(|| closure(&mut change))?;
            if !change.has_operations()? {
                return Ok(value);
            }
            let ended = change.end();
            drop(snapshot);
            match ended {
                Ok(number) => return pass.end_write(number).map(|()| value),
                Err(error) => waits.after(pass, error)?,
            }
        }
    }
}

/// Returns the parts of an operation that has neither a value nor a node.
fn of_index(kind: u32, name: &str, code: u32) -> Parts<'_> {
    Parts {
        kind,
        node: 0,
        name,
        code,
        number: 0,
        value: &[],
    }
}
