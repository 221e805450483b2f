//! Queries that are parsed once.

use crate::raw::{RawPass, RawPrepared, RawUpdates};
use crate::refused::of_query;
use crate::{Error, Result, Snapshot};
use bestore_types::raw::crc32;
use std::cell::Cell;
use std::fmt;

/// A query that has been parsed, or built by [`Predicate::prepare`](crate::Predicate::prepare). It isn't tied to a store, so it can be run
/// in any snapshot.
///
/// ```
/// use bestore::Prepared;
/// let query: Prepared = "size>=5 && !(name=*.c)".parse()?;
/// assert_eq!(query.text()?, r#""size">="5" && "name"!="*.c""#);
/// # Ok::<(), bestore::Error>(())
/// ```
#[derive(Debug)]
pub struct Prepared {
    raw: RawPrepared,
    /// The CRC-32 of the canonical text, computed on first use.
    check: Cell<Option<u32>>,
}

impl Prepared {
    /// Parses the query.
    ///
    /// # Errors
    /// [`Error::Query`], [`Error::OutOfMemory`].
    pub fn new(text: &str) -> Result<Self> {
        match RawPrepared::parse(text) {
            Ok(prepared) => Ok(Self::of_raw(prepared)),
            Err(refused) => Err(of_query(refused, || text.into())),
        }
    }

    pub(crate) fn of_raw(raw: RawPrepared) -> Self {
        Self {
            raw,
            check: Cell::new(None),
        }
    }

    /// Returns the query's canonical text.
    ///
    /// # Errors
    /// [`Error::OutOfMemory`], [`Error::Forked`].
    pub fn text(&self) -> Result<String> {
        Ok(String::from_utf8_lossy(&self.raw.text()?).into_owned())
    }

    pub(crate) fn text_or_empty(&self) -> String {
        self.text().unwrap_or_default()
    }

    /// Returns the checksum that identifies this query in its cursors.
    pub(crate) fn check(&self) -> Result<u32> {
        match self.check.get() {
            Some(check) => Ok(check),
            None => {
                let check = crc32(&self.raw.text()?);
                self.check.set(Some(check));
                Ok(check)
            }
        }
    }

    pub(crate) fn raw(&self) -> &RawPrepared {
        &self.raw
    }
}

impl std::str::FromStr for Prepared {
    type Err = Error;

    fn from_str(text: &str) -> Result<Self> {
        Self::new(text)
    }
}

impl From<Prepared> for Live {
    fn from(prepared: Prepared) -> Self {
        Self { prepared, store: None }
    }
}

/// The canonical text.
impl fmt::Display for Prepared {
    fn fmt(&self, f: &mut fmt::Formatter<'_>) -> fmt::Result {
        f.write_str(&self.text().map_err(|_| fmt::Error)?)
    }
}

/// The changes in a live query's result. Both lists are in ascending order.
#[derive(Clone, Debug, Default, PartialEq, Eq)]
pub struct Updates {
    /// The nodes that the result has gained.
    pub created: Vec<u64>,
    /// The nodes that the result has lost.
    pub removed: Vec<u64>,
}

/// A live query: each refresh returns what has changed since the last one. The first refresh returns all nodes in the result.
///
/// ```
/// # use bestore::{Kind, Limits, Live, Store};
/// # let mut pass = Store::open(Limits::default())?.pass()?;
/// # pass.make_index("size", Kind::Int64)?;
/// # let node = pass.new_node()?;
/// # pass.set(node, "size", 5_i64)?;
/// let mut large = Live::new("size>=5")?;
/// assert_eq!(large.refresh(&pass.pin()?)?.created, [node]);
/// pass.set(node, "size", 4_i64)?;
/// assert_eq!(large.refresh(&pass.pin()?)?.removed, [node]);
/// # Ok::<(), bestore::Error>(())
/// ```
#[derive(Debug)]
pub struct Live {
    prepared: Prepared,
    /// The store of the last refresh, identified by the store number in its passes.
    store: Option<u64>,
}

impl Live {
    /// Parses the query.
    ///
    /// # Errors
    /// [`Error::Query`], [`Error::OutOfMemory`].
    pub fn new(text: &str) -> Result<Self> {
        Prepared::new(text).map(Self::from)
    }

    /// Runs the query, and compares the result with that of the last refresh. Nodes are compared by number, so always use snapshots of the
    /// same store, or of another store into which its state was copied. This method runs the whole query and takes no lock, so it never
    /// makes another pass's write return [`Error::Busy`].
    ///
    /// # Errors
    /// The same errors as [`Snapshot::query`]. After an error, the query is unchanged.
    pub fn refresh(&mut self, snapshot: &Snapshot<'_>) -> Result<Updates> {
        self.refresh_by(snapshot, RawPass::refresh)
    }

    /// Like [`refresh`](Self::refresh), but if the result has 96 nodes or more and few nodes were written since the last refresh, checks
    /// only those nodes, which takes less time. It finds them by reading the journal's entries since then, during which other passes'
    /// writes return [`Error::Busy`]. In all other cases, or if the last refresh was in another store, it runs the whole query.
    ///
    /// # Errors
    /// The same errors as `refresh`.
    pub fn refresh_changed(&mut self, snapshot: &Snapshot<'_>) -> Result<Updates> {
        // The library requires that the last refresh was in this store, because it reads this store's entries.
        match self.store == Some(snapshot.pass().raw().store()) {
            true => self.refresh_by(snapshot, RawPass::refresh_changed),
            false => self.refresh(snapshot),
        }
    }

    fn refresh_by(
        &mut self,
        snapshot: &Snapshot<'_>,
        call: impl Fn(&RawPass, &RawPrepared) -> RawUpdates,
    ) -> Result<Updates> {
        let pass = snapshot.pass().raw();
        match call(pass, self.prepared.raw()) {
            Ok((created, removed)) => {
                self.store = Some(pass.store());
                Ok(Updates { created, removed })
            }
            Err(refused) => Err(snapshot.query_error(refused, || self.prepared.text_or_empty())),
        }
    }

    /// Returns the query, so that you can run it without refreshing.
    #[must_use]
    pub fn prepared(&self) -> &Prepared {
        &self.prepared
    }
}
