//! Files and their nodes. `be import` creates a node for each file; these functions find the node for a file, and the file for a node.

use crate::failure::Failure;
use crate::found::Row;
use crate::import::content::{name_in, NAME, PARENT, ROOT, STAT, VALUE};
use crate::import::stat::Stat;
use crate::server::{pinned, rows_of};
use bestore_client::wire::{Command, Json, Nodes, NodesFrom};
use bestore_client::{Client, ErrorName};
use bestore_types::Value;
use std::collections::HashMap;
use std::ffi::OsString;
use std::fs;
use std::os::unix::ffi::OsStringExt;
use std::path::{Path, PathBuf};

/// The maximum number of folders in a path. More would mean a cycle, which only another program can have made.
const DEPTH: usize = 4_096;

/// The attributes from which paths are built.
pub const COLUMNS: [&str; 4] = ["name", NAME, PARENT, ROOT];

/// What a word on the command line stands for.
#[derive(Clone, Debug, PartialEq, Eq)]
pub enum Place {
    /// A node, by its number.
    Node(u64),
    /// A file, by its path.
    File(PathBuf),
}

impl From<OsString> for Place {
    /// Parses a word: digits are a node's number, and anything else is a path.
    fn from(word: OsString) -> Self {
        let number = word
            .to_str()
            .filter(|text| text.bytes().all(|byte| byte.is_ascii_digit()));
        match number.and_then(|text| text.parse().ok()) {
            Some(node) => Place::Node(node),
            None => Place::File(word.into()),
        }
    }
}

/// Returns the nodes that the words stand for. A path that isn't that of an imported file is an error.
pub fn nodes_of(client: &mut Client, places: &[Place]) -> Result<Vec<u64>, Failure> {
    let node = |place: &Place| match place {
        Place::Node(node) => Ok(*node),
        Place::File(path) => node_of(client, path),
    };
    places.iter().map(node).collect()
}

/// Returns the node of a file. If two nodes have its name and inode, returns the one with its path.
fn node_of(client: &mut Client, path: &Path) -> Result<u64, Failure> {
    let failed = |error| Failure::File(path.into(), error);
    let about = fs::symlink_metadata(path).map_err(failed)?;
    let whole = whole_path(path, &about).map_err(failed)?;
    let name = bestore_types::escape(&crate::import::mail::cut(&name_in(&whole).to_string_lossy()));
    let identity = Stat::from(&about).identity;
    let text = format!("name==\"{name}\" && {STAT}==\"{identity}:*\"");
    let found = pinned(client, |client| match client.query(&text) {
        // If there is no index of names, nothing was imported.
        Err(error) if error.is(ErrorName::NotCovered) => Ok(None),
        answer => {
            let nodes = answer?;
            let mut paths = Paths::default();
            for node in &nodes {
                if paths.of(client, *node)?.as_ref() == Some(&whole) {
                    return Ok(Some(*node));
                }
            }
            Ok(nodes.first().copied())
        }
    })?;
    found.ok_or_else(|| match name_in(&whole).len() {
        0..=VALUE => Failure::NotImported(path.into()),
        _ => Failure::LongName(path.into()),
    })
}

/// Returns the absolute path, with symlinks to folders resolved. If the file itself is a symlink, it isn't followed, unless the path has a
/// slash at its end. `about` is what the system reports about the path, so it is a folder then.
fn whole_path(path: &Path, about: &fs::Metadata) -> std::io::Result<PathBuf> {
    match (path.parent(), path.file_name()) {
        (Some(folder), Some(name)) if !about.is_dir() => {
            let here = folder.as_os_str().is_empty();
            Ok(fs::canonicalize(if here { Path::new(".") } else { folder })?.join(name))
        }
        _ => fs::canonicalize(path),
    }
}

/// What a node's attributes contribute to its path.
#[derive(Clone, Debug, Default)]
pub struct Step {
    pub name: OsString,
    pub parent: Option<u64>,
    pub root: Option<PathBuf>,
}

impl Step {
    /// Builds a step from the values of [`COLUMNS`]. Returns `None` if the node has no name.
    pub fn read<'a>(mut value: impl FnMut(&str) -> Option<&'a Value>) -> Option<Self> {
        let bytes = |value: &Value| value.as_bytes().map(|bytes| OsString::from_vec(bytes.to_vec()));
        Some(Self {
            name: value(NAME).or_else(|| value("name")).and_then(bytes)?,
            parent: match value(PARENT) {
                Some(Value::Int64(parent)) => u64::try_from(*parent).ok(),
                _ => None,
            },
            root: value(ROOT).and_then(bytes).map(PathBuf::from),
        })
    }
}

/// Requests a node's step. Returns `None` if there is no such node, or if it has no name.
fn step_of(client: &mut Client, node: u64) -> Result<Option<Step>, Failure> {
    match client.attributes(node) {
        Err(error) if error.is(ErrorName::NoNode) => Ok(None),
        answer => {
            let attributes = answer?;
            Ok(Step::read(|name| attributes.get(name)))
        }
    }
}

/// Finds the paths of nodes. The paths of folders are cached, so that each is requested only once.
#[derive(Debug, Default)]
pub struct Paths {
    folders: HashMap<u64, Option<PathBuf>>,
}

impl Paths {
    /// Returns the path of a node, or `None` if the node isn't a file's.
    pub fn of(&mut self, client: &mut Client, node: u64) -> Result<Option<PathBuf>, Failure> {
        self.found(node, |node| step_of(client, node))
    }

    /// Returns the path of a node, calling the closure to look up each step.
    pub fn found<E>(
        &mut self,
        node: u64,
        mut step: impl FnMut(u64) -> Result<Option<Step>, E>,
    ) -> Result<Option<PathBuf>, E> {
        let mut names: Vec<(u64, OsString)> = Vec::new();
        let mut at = node;
        let mut path = loop {
            if let Some(path) = self.folders.get(&at) {
                break path.clone();
            }
            match step(at)? {
                Some(Step { root: Some(root), .. }) => {
                    self.folders.insert(at, Some(root.clone()));
                    break Some(root);
                }
                Some(Step {
                    name,
                    parent: Some(parent),
                    ..
                }) if names.len() < DEPTH => {
                    names.push((at, name));
                    at = parent;
                }
                _ => break None,
            }
        };
        for (folder, name) in names.iter().rev() {
            path = path.map(|path| path.join(name));
            if *folder != node {
                self.folders.insert(*folder, path.clone());
            }
        }
        Ok(path)
    }
}

/// Returns the paths of these nodes, in the same order.
pub fn paths_of(client: &mut Client, nodes: &[u64]) -> Result<Vec<Option<PathBuf>>, Failure> {
    let mut paths = Paths::default();
    let rows = rows_of(client, nodes, &COLUMNS)?;
    let path = |(node, row): (&u64, &Row)| {
        paths.found(*node, |at| match at == *node {
            true => Ok(Step::read(|name| value_of(&COLUMNS, row, name))),
            false => step_of(client, at),
        })
    };
    nodes.iter().zip(&rows).map(path).collect()
}

/// Returns the value in this column of a row.
pub fn value_of<'a>(columns: &[&str], row: &'a [Option<Json>], name: &str) -> Option<&'a Value> {
    let at = columns.iter().position(|column| *column == name)?;
    row.get(at)?.as_ref().map(|Json(value)| value)
}

/// Calls the closure for each node, passing the node and its values in the columns. If the client has a snapshot pinned, all come from it.
/// This doesn't use the index of names, which may lack nodes if it was removed and created again.
pub fn each_node(
    client: &mut Client,
    columns: &[&str],
    mut each: impl FnMut(u64, &[Option<Json>]),
) -> Result<(), Failure> {
    let mut next = Some(0);
    while let Some(from) = next {
        let page: Nodes = client.call(Command::Nodes(NodesFrom { from, limit: None }))?;
        let rows = rows_of(client, &page.nodes, columns)?;
        page.nodes.iter().zip(&rows).for_each(|(node, row)| each(*node, row));
        next = page.more;
    }
    Ok(())
}

#[cfg(test)]
mod tests {
    use super::*;

    fn step(name: &str, parent: u64) -> Step {
        Step {
            name: name.into(),
            parent: Some(parent),
            root: None,
        }
    }

    #[test]
    fn a_path_goes_up_to_the_imported_folder() {
        let root = Step {
            name: "home".into(),
            parent: None,
            root: Some("/home".into()),
        };
        let steps: HashMap<u64, Step> = [
            (1, root),
            (2, step("ann", 1)),
            (3, step("a\nb", 2)),
            (4, step("lost", 9)),
            (5, step("ring", 6)),
            (6, step("ring", 5)),
        ]
        .into();
        let mut paths = Paths::default();
        let mut path = |node: u64| {
            paths
                .found(node, |node| Ok::<_, ()>(steps.get(&node).cloned()))
                .unwrap()
        };
        assert_eq!(path(3), Some("/home/ann/a\nb".into()));
        assert_eq!(path(2), Some("/home/ann".into()));
        assert_eq!(path(1), Some("/home".into()));
        assert_eq!((path(4), path(5), path(7)), (None, None, None));
    }

    #[test]
    fn digits_are_a_node_and_other_words_a_path() {
        assert_eq!(Place::from(OsString::from("17")), Place::Node(17));
        for word in ["./17", "a", "-1", "", "99999999999999999999"] {
            assert_eq!(Place::from(OsString::from(word)), Place::File(word.into()));
        }
    }
}
