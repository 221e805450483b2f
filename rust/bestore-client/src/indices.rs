//! Index operations that take several requests.

use crate::wire::{self, Command, ErrorName, Form, Nothing, Refusal};
use crate::{Client, Error, Result};
use bestore_types::{all_in, Hint, Kind, Value};
use std::collections::BTreeMap;

/// The maximum number of operations in a batch, and the number of requests sent before the first reply is read.
const OPERATIONS: usize = 64;

impl Client {
    /// Returns the names of the indices, with their kinds.
    ///
    /// # Errors
    /// The same as [`call`](Self::call).
    pub fn indices(&mut self) -> Result<BTreeMap<String, Kind>> {
        let read: wire::Indices = self.call(Command::Indices(Nothing {}))?;
        let named = read.indices.into_iter();
        Ok(named
            .filter_map(|(name, kind)| Some((name, wire::kind_named(&kind)?)))
            .collect())
    }

    fn index(&mut self, name: &str) -> Result<Kind> {
        self.indices()?
            .remove(name)
            .ok_or_else(|| Error::Refused(Refusal::new(ErrorName::NoIndex, format!("there is no index {name:?}"))))
    }

    /// Returns how many (value, node) pairs the index with this name holds.
    ///
    /// # Errors
    /// `NoIndex`; otherwise the same as [`call`](Self::call).
    pub fn pairs(&mut self, name: &str) -> Result<u64> {
        let kind = self.index(name)?;
        self.count(&all_in(name, kind))
    }

    /// Returns the comparisons in a query, from left to right. The server only parses the text; it doesn't read its store.
    ///
    /// # Errors
    /// `Syntax`, `BadPattern`, `TooLong`, `TooDeep` or `TooMany` if the text isn't a valid query. Otherwise the
    /// same as [`call`](Self::call).
    pub fn comparisons(&mut self, query: &str) -> Result<Vec<wire::Comparison>> {
        let query = query.into();
        let read: wire::Comparisons = self.call(Command::Text(wire::QueryText { query }))?;
        Ok(read.comparisons)
    }

    /// Returns the comparisons in a query that can never be true with the store's indices, such as `size>1.5`.
    ///
    /// # Errors
    /// The same as [`comparisons`](Self::comparisons).
    pub fn hints(&mut self, query: &str) -> Result<Vec<Hint>> {
        let compared = self.comparisons(query)?;
        if compared.iter().all(|one| one.never.is_empty()) {
            return Ok(Vec::new());
        }
        let indices = self.indices()?;
        let hint = |one: wire::Comparison| {
            let kind = *indices.get(&one.name).filter(|kind| one.is_never(**kind))?;
            Some(Hint {
                name: one.name,
                value: one.value,
                kind,
                offset: usize::try_from(one.offset).unwrap_or(usize::MAX),
                is_number: one.form == Form::Number,
            })
        };
        Ok(compared.into_iter().filter_map(hint).collect())
    }

    /// Indexes the attributes with this name that were set before their index was created, by setting them to the same values again.
    /// Returns how many were set. The attributes are set in changes of up to 64, so no newer value is lost. This call reads every node that
    /// isn't in the index.
    ///
    /// # Errors
    /// `NoIndex`; otherwise the same as [`change`](Self::change).
    pub fn reindex(&mut self, name: &str) -> Result<u64> {
        let kind = self.index(name)?;
        let lacking = self.not_indexed(name, kind)?;
        let mut set = 0;
        for nodes in lacking.chunks(OPERATIONS) {
            set += self.change(|change| {
                let values = change.client().values_of(nodes, name, kind)?;
                for (node, value) in &values {
                    change.batch().set(*node, name, value.clone());
                }
                Ok(values.len() as u64)
            })?;
        }
        Ok(set)
    }

    /// Returns the nodes that have an attribute with this name and kind but aren't in the index with that name.
    fn not_indexed(&mut self, name: &str, kind: Kind) -> Result<Vec<u64>> {
        let held = self.query(&all_in(name, kind))?;
        let (mut lacking, mut from) = (Vec::new(), Some(0));
        while let Some(first) = from {
            let page: wire::Nodes = self.call(Command::Nodes(wire::NodesFrom {
                from: first,
                ..wire::NodesFrom::default()
            }))?;
            let others: Vec<u64> = page
                .nodes
                .into_iter()
                .filter(|node| held.binary_search(node).is_err())
                .collect();
            for nodes in others.chunks(OPERATIONS) {
                lacking.extend(self.values_of(nodes, name, kind)?.into_iter().map(|(node, _)| node));
            }
            from = page.more;
        }
        Ok(lacking)
    }

    /// Returns the values of these nodes' attributes with this name, omitting values of other kinds. All requests are sent before the first
    /// reply is read.
    fn values_of(&mut self, nodes: &[u64], name: &str, kind: Kind) -> Result<Vec<(u64, Value)>> {
        let mut asked = Vec::with_capacity(nodes.len());
        for &node in nodes {
            let name = name.into();
            asked.push((node, self.send(Command::Get(wire::Get { node, name }))?));
        }
        let mut values = Vec::new();
        for (node, id) in asked {
            let read: wire::Value = self.receive(id)?;
            let value = read.value.map(|value| value.0);
            values.extend(value.filter(|value| value.kind() == kind).map(|value| (node, value)));
        }
        Ok(values)
    }
}
