//! What the store knows about the files in a folder.

use super::content::STAT;
use super::stat::{Identity, Stat};
use crate::failure::Failure;
use crate::paths::{each_node, value_of, Paths, Step, COLUMNS};
use crate::server::pinned;
use bestore_client::Client;
use bestore_types::Value;
use std::collections::{BTreeMap, HashMap, HashSet};
use std::fs;
use std::path::{Path, PathBuf};

/// A file that has a node.
#[derive(Clone, Debug, PartialEq, Eq)]
pub struct Known {
    pub node: u64,
    /// The node of the folder that contains the file. `None` for the imported folder itself.
    pub parent: Option<u64>,
    /// The value of `FILE:stat`.
    pub stat: String,
}

impl Known {
    pub fn identity(&self) -> Option<Identity> {
        Identity::read(&self.stat)
    }
}

/// The files of a folder that have nodes.
#[derive(Debug, Default)]
pub struct Tree {
    /// The files by path. This order puts a folder's contents after the folder.
    pub files: BTreeMap<PathBuf, Known>,
    /// Extra nodes for paths that are already in `files`. They exist if a file was renamed onto another during a scan, or if two imports
    /// ran at the same time.
    pub doubles: Vec<(PathBuf, Known)>,
    /// Files whose folder no longer has a node.
    pub lost: Vec<Known>,
    /// Whether the folder was imported at another path, from which it has been moved.
    pub is_moved: bool,
}

impl Tree {
    /// Loads what the store knows about the folder and everything below it, skipping the nodes in `without`.
    pub fn read(client: &mut Client, folder: &Path, without: &HashSet<u64>) -> Result<Self, Failure> {
        let columns: Vec<&str> = COLUMNS.into_iter().chain([STAT]).collect();
        let (steps, mut stats) = pinned(client, |client| {
            let (mut steps, mut stats) = (HashMap::new(), HashMap::new());
            each_node(client, &columns, |node, row| {
                let value = |name: &str| value_of(&columns, row, name);
                if let Some((step, stat)) = Step::read(value).and_then(|step| with_stat(step, value(STAT))) {
                    steps.insert(node, step);
                    stats.insert(node, stat);
                }
            })?;
            Ok((steps, stats))
        })?;
        stats.retain(|node, _| !without.contains(node));
        Ok(Self::of_steps(&steps, stats, folder))
    }

    fn of_steps(steps: &HashMap<u64, Step>, stats: HashMap<u64, String>, folder: &Path) -> Self {
        let moved = moved_from(steps, &stats, folder);
        let mut tree = Self {
            is_moved: moved.is_some(),
            ..Self::default()
        };
        let mut paths = Paths::default();
        for (node, stat) in stats {
            let parent = steps.get(&node).and_then(|step| step.parent);
            let known = Known { node, parent, stat };
            match paths.found(node, |node| {
                Ok::<_, std::convert::Infallible>(steps.get(&node).cloned())
            }) {
                Ok(Some(path)) if path.starts_with(folder) => tree.add(path, known),
                Ok(Some(path)) => match moved.as_deref().and_then(|moved| path.strip_prefix(moved).ok()) {
                    // The folder's own node is recognised by its identity, like that of any folder that is renamed.
                    Some(below) if below.as_os_str().is_empty() => tree.add(path, known),
                    Some(below) => tree.add(folder.join(below), known),
                    None => {}
                },
                Ok(None) => tree.lost.push(known),
                Err(never) => match never {},
            }
        }
        tree
    }

    fn add(&mut self, path: PathBuf, known: Known) {
        if let Some(other) = self.files.insert(path.clone(), known) {
            self.doubles.push((path, other));
        }
    }

    /// Removes and returns the file at this path and everything below it.
    pub fn take_below(&mut self, path: &Path) -> Vec<(PathBuf, Known)> {
        let range = self.files.range(path.to_path_buf()..);
        let below: Vec<PathBuf> = range
            .take_while(|(below, _)| below.starts_with(path))
            .map(|(below, _)| below.clone())
            .collect();
        below
            .into_iter()
            .filter_map(|path| self.files.remove_entry(&path))
            .collect()
    }
}

/// Returns the path at which the folder was imported, if it has been moved since.
fn moved_from(steps: &HashMap<u64, Step>, stats: &HashMap<u64, String>, folder: &Path) -> Option<PathBuf> {
    let identity = |path: &Path| fs::symlink_metadata(path).ok().map(|about| Stat::from(&about).identity);
    let own = identity(folder)?;
    steps.iter().find_map(|(node, step)| {
        let root = step.root.as_ref().filter(|root| *root != folder)?;
        let was = Identity::read(stats.get(node)?)?;
        (was == own && identity(root) != Some(own)).then(|| root.clone())
    })
}

/// Returns the step and the state of a file's node, or `None` if the node isn't a file's. `FILE:stat` is written last, so a node lacks it
/// if an import was cut off while it was creating the node. Such a file is recognised only by its path.
fn with_stat(step: Step, stat: Option<&Value>) -> Option<(Step, String)> {
    match stat {
        Some(Value::Text(stat)) => Some((step, stat.clone())),
        None if step.parent.is_some() || step.root.is_some() => Some((step, String::new())),
        _ => None,
    }
}

#[cfg(test)]
mod tests {
    use super::*;

    #[test]
    fn what_is_below_a_folder_is_taken_with_it() {
        let mut tree = Tree::default();
        for (node, path) in ["/a", "/a/b", "/a/b/c", "/a/b-c", "/a/bc"].into_iter().enumerate() {
            let known = Known {
                node: node as u64,
                parent: None,
                stat: String::new(),
            };
            tree.add(path.into(), known);
        }
        let taken = tree.take_below(Path::new("/a/b"));
        assert_eq!(taken.iter().map(|(_, known)| known.node).collect::<Vec<_>>(), [1, 2]);
        assert_eq!(tree.files.len(), 3);
        assert!(tree.take_below(Path::new("/b")).is_empty());
    }
}
