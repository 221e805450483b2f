//! Warnings about names in a query that no node and no index has. They are probably mistyped.

use crate::server::rows_of;
use crate::text::escaped;
use bestore_client::wire::{Command, Comparison, Nodes, NodesFrom};
use bestore_client::{Client, Error};
use std::collections::{BTreeMap, BTreeSet};

/// How many nodes are read to find one with the name. This limits how long the warning can take.
const LOOKED_AT: u64 = 65_536;

/// How many nodes to request at a time.
const PAGE: u64 = 1_024;

/// How many names to look for. A request can't have more.
const NAMES: usize = 64;

/// A name in a query that no index has, and none of the nodes that were read.
#[derive(Debug, PartialEq, Eq)]
pub struct Unknown {
    pub name: String,
    /// The byte offset in the text of the first comparison with this name.
    pub offset: usize,
    /// How many nodes were read, unless these were all nodes.
    pub only: Option<u64>,
}

impl Unknown {
    /// Returns what is wrong with the name.
    pub fn message(&self) -> String {
        let name = escaped(&self.name);
        match self.only {
            None => format!("no node has an attribute {name}, and no index has this name"),
            Some(count) => {
                format!("none of the first {count} nodes has an attribute {name}, and no index has this name")
            }
        }
    }
}

/// Returns the names in the comparisons that no index and no node has. Reads nodes until one has the name, so call it only if the query finds
/// nothing.
pub fn unknown(
    client: &mut Client,
    compared: &[Comparison],
    indices: &BTreeMap<String, String>,
) -> Result<Vec<Unknown>, Error> {
    let mut left = without_index(compared, indices);
    let mut next = Some(0);
    let mut count = 0;
    while let Some(from) = next.filter(|_| count < LOOKED_AT && !left.is_empty()) {
        let limit = Some(PAGE);
        let page: Nodes = client.call(Command::Nodes(NodesFrom { from, limit }))?;
        let names: Vec<&str> = left.iter().map(|one| one.name.as_str()).collect();
        let rows = rows_of(client, &page.nodes, &names)?;
        let had: BTreeSet<usize> = rows
            .iter()
            .flat_map(|row| (0..row.len()).filter(|place| row[*place].is_some()))
            .collect();
        let mut places = 0..;
        left.retain(|_| places.next().map_or(true, |place| !had.contains(&place)));
        count += page.nodes.len() as u64;
        next = page.more;
    }
    if next.is_some() {
        left.iter_mut().for_each(|one| one.only = Some(count));
    }
    Ok(left)
}

/// Returns the names in the comparisons that no index has, each once.
fn without_index(compared: &[Comparison], indices: &BTreeMap<String, String>) -> Vec<Unknown> {
    let mut found: Vec<Unknown> = Vec::new();
    for one in compared {
        let is_new = !indices.contains_key(&one.name) && found.iter().all(|other| other.name != one.name);
        if let (true, Ok(offset)) = (is_new && found.len() < NAMES, usize::try_from(one.offset)) {
            let name = one.name.clone();
            found.push(Unknown {
                name,
                offset,
                only: None,
            });
        }
    }
    found
}
