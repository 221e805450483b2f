//! Decides which node belongs to each file. A file keeps its node when it is changed, renamed or moved, so the attributes that users have
//! set are preserved.

use super::edit::More;
use super::known::Known;
use super::stat::Identity;
use super::walk::Found;
use std::cmp::Reverse;
use std::collections::{HashMap, HashSet};
use std::path::PathBuf;

/// A file with its existing node, and the path that it had before.
#[derive(Debug)]
pub struct Matched {
    pub found: Found,
    pub known: Option<(PathBuf, Known)>,
}

/// Files matched with their nodes, and the nodes that no longer have a file.
#[derive(Debug, Default)]
pub struct Matching {
    pub files: Vec<Matched>,
    pub gone: Vec<(PathBuf, Known)>,
}

/// The nodes that haven't been assigned to a file yet.
struct Left {
    nodes: HashMap<u64, (PathBuf, Known)>,
    by_path: HashMap<PathBuf, Vec<u64>>,
    by_identity: HashMap<Identity, Vec<u64>>,
}

impl Left {
    fn new(known: Vec<(PathBuf, Known)>) -> Self {
        let mut left = Self {
            nodes: HashMap::new(),
            by_path: HashMap::new(),
            by_identity: HashMap::new(),
        };
        for (path, known) in known {
            left.by_path.entry(path.clone()).or_default().push(known.node);
            if let Some(identity) = known.identity() {
                left.by_identity.entry(identity).or_default().push(known.node);
            }
            left.nodes.insert(known.node, (path, known));
        }
        left
    }

    fn take(&mut self, node: u64) -> Option<(PathBuf, Known)> {
        self.nodes.remove(&node)
    }

    /// Returns the node at this file's path, unless it has been assigned to another file.
    fn at_path(&self, found: &Found) -> Option<u64> {
        let nodes = self.by_path.get(&found.path)?;
        nodes.iter().copied().find(|node| self.nodes.contains_key(node))
    }

    /// Sorts the nodes at this file's path so that the one to keep comes first.
    fn sort_at_path<E>(&mut self, found: &Found, more: &mut impl FnMut(u64) -> Result<More, E>) -> Result<(), E> {
        let several = match self.by_path.get(&found.path) {
            Some(nodes) if nodes.len() > 1 => nodes,
            _ => return Ok(()),
        };
        let mut ranked = Vec::new();
        for node in several {
            let is_another = self.identity(*node) != Some(found.stat.identity);
            ranked.push((Reverse(more(*node)?), is_another, *node));
        }
        ranked.sort_unstable();
        let sorted = ranked.into_iter().map(|(_, _, node)| node).collect();
        self.by_path.insert(found.path.clone(), sorted);
        Ok(())
    }

    /// Returns a node of the same file, unless it has been assigned to another file.
    fn same_file(&self, found: &Found) -> Option<u64> {
        let nodes = self.by_identity.get(&found.stat.identity)?;
        nodes.iter().copied().find(|node| self.nodes.contains_key(node))
    }

    fn identity(&self, node: u64) -> Option<Identity> {
        self.nodes.get(&node).and_then(|(_, known)| known.identity())
    }
}

/// Assigns the nodes to the files. `more` returns which attributes a node has besides those that every file has.
///
/// 1. A file that is still at the same path keeps its node.
/// 2. A file that is now at another path keeps its node too.
/// 3. A different file at the same path takes over the node there, as when an editor has replaced the file.
/// 4. Every other file has no node yet.
///
/// If one file was moved onto another, rules 2 and 3 give different nodes. Rule 2 wins, unless rule 3's node has more. Attributes that a
/// user has set count for more than those that come from extended attributes, because a program that replaces a file may have copied the
/// latter.
///
/// If several nodes have the same path, the node that has more comes first, then the same file's node, then the oldest.
pub fn matched<E>(
    found: Vec<Found>,
    known: Vec<(PathBuf, Known)>,
    mut more: impl FnMut(u64) -> Result<More, E>,
) -> Result<Matching, E> {
    let mut left = Left::new(known);
    let mut files: Vec<Matched> = found.into_iter().map(|found| Matched { found, known: None }).collect();
    for file in &mut files {
        left.sort_at_path(&file.found, &mut more)?;
        match left.at_path(&file.found) {
            Some(node) if left.identity(node) == Some(file.found.stat.identity) => file.known = left.take(node),
            _ => {}
        }
    }
    let elsewhere: HashSet<Identity> = without(&mut files).map(|file| file.found.stat.identity).collect();
    for file in without(&mut files) {
        if let Some(node) = left.same_file(&file.found) {
            let replaced = left.at_path(&file.found);
            let replaced = replaced.filter(|there| left.identity(*there).map_or(true, |it| !elsewhere.contains(&it)));
            let node = match replaced {
                Some(there) if more(there)? > more(node)? => there,
                _ => node,
            };
            file.known = left.take(node);
        }
    }
    for file in without(&mut files) {
        file.known = left.at_path(&file.found).and_then(|node| left.take(node));
    }
    let gone = left.nodes.into_values().collect();
    Ok(Matching { files, gone })
}

fn without(files: &mut [Matched]) -> impl Iterator<Item = &mut Matched> {
    files.iter_mut().filter(|file| file.known.is_none())
}

#[cfg(test)]
mod tests {
    use super::super::stat::Stat;
    use super::*;
    use std::fs;

    /// Each name stands for a different file, whatever its path.
    struct Files {
        folder: PathBuf,
    }

    impl Files {
        fn new(test: &str) -> Self {
            let folder = std::env::temp_dir().join(format!("be-matching-{test}-{}", std::process::id()));
            fs::create_dir_all(&folder).unwrap();
            Self { folder }
        }

        fn stat(&self, file: &str) -> Stat {
            let path = self.folder.join(file);
            if !path.exists() {
                fs::write(&path, file).unwrap();
            }
            Stat::from(&fs::symlink_metadata(path).unwrap())
        }

        fn found(&self, files: &[(&str, &str)]) -> Vec<Found> {
            let found = |(path, file): &(&str, &str)| Found {
                path: path.into(),
                stat: self.stat(file),
            };
            files.iter().map(found).collect()
        }

        fn known(&self, files: &[(u64, &str, &str)]) -> Vec<(PathBuf, Known)> {
            let known = |(node, path, file): &(u64, &str, &str)| {
                let stat = self.stat(file).text();
                let parent = Some(0);
                (
                    PathBuf::from(path),
                    Known {
                        node: *node,
                        parent,
                        stat,
                    },
                )
            };
            files.iter().map(known).collect()
        }

        /// Returns the nodes assigned to the files, and those that no longer have a file.
        fn nodes(
            &self,
            found: &[(&str, &str)],
            known: &[(u64, &str, &str)],
            more: &[(u64, More)],
        ) -> (Vec<Option<u64>>, Vec<u64>) {
            let more = |node: u64| {
                let of_node = more.iter().find(|(of, _)| *of == node);
                Ok::<_, ()>(of_node.map_or(More::None, |(_, more)| *more))
            };
            let matching = matched(self.found(found), self.known(known), more).unwrap();
            let node = |file: &Matched| file.known.as_ref().map(|(_, known)| known.node);
            let mut gone: Vec<u64> = matching.gone.iter().map(|(_, known)| known.node).collect();
            gone.sort_unstable();
            (matching.files.iter().map(node).collect(), gone)
        }
    }

    impl Drop for Files {
        fn drop(&mut self) {
            let _ = fs::remove_dir_all(&self.folder);
        }
    }

    #[test]
    fn a_file_keeps_its_node() {
        let files = Files::new("keeps");
        let known = [(1, "/a", "A"), (2, "/b", "B")];
        for (found, nodes, gone) in [
            (vec![("/a", "A"), ("/b", "B")], vec![Some(1), Some(2)], vec![]),
            (vec![("/c", "A"), ("/b", "B")], vec![Some(1), Some(2)], vec![]),
            (vec![("/a", "B"), ("/b", "A")], vec![Some(2), Some(1)], vec![]),
            (vec![("/a", "C"), ("/b", "B")], vec![Some(1), Some(2)], vec![]),
            (vec![("/b", "A")], vec![Some(1)], vec![2]),
            (vec![("/c", "C")], vec![None], vec![1, 2]),
            (vec![], vec![], vec![1, 2]),
        ] {
            assert_eq!(files.nodes(&found, &known, &[]), (nodes, gone), "{found:?}");
        }
    }

    #[test]
    fn what_a_user_has_set_stays_if_a_file_is_moved_onto_another() {
        let files = Files::new("onto");
        let known = [(1, "/new", "A"), (2, "/b", "B")];
        let found = [("/b", "A")];
        let (own, others) = ((vec![Some(1)], vec![2]), (vec![Some(2)], vec![1]));
        for (of_own, of_other, stays) in [
            (More::None, More::None, &own),
            (More::None, More::Extended, &others),
            (More::None, More::OfUser, &others),
            (More::Extended, More::Extended, &own),
            (More::Extended, More::OfUser, &others),
            (More::OfUser, More::Extended, &own),
            (More::OfUser, More::OfUser, &own),
        ] {
            let more = [(1, of_own), (2, of_other)];
            assert_eq!(&files.nodes(&found, &known, &more), stays, "{more:?}");
        }
        // The file that was there has moved elsewhere.
        let found = [("/b", "A"), ("/c", "B")];
        let more = [(2, More::OfUser)];
        assert_eq!(files.nodes(&found, &known, &more), (vec![Some(1), Some(2)], vec![]));
    }

    #[test]
    fn of_two_nodes_at_one_path_one_stays() {
        let files = Files::new("doubles");
        for (first, second) in [("A", "old"), ("old", "A"), ("A", "A"), ("old", "older")] {
            let known = [(1, "/a", first), (2, "/a", second)];
            let own = if second == "A" && first != "A" { 2 } else { 1 };
            let (one, two) = ((1, More::OfUser), (2, More::OfUser));
            let extended = (3 - own, More::Extended);
            for (more, stays) in [
                (vec![], own),
                (vec![one], 1),
                (vec![two], 2),
                (vec![one, two], own),
                (vec![extended], 3 - own),
                (vec![extended, (own, More::OfUser)], own),
            ] {
                let (nodes, gone) = (vec![Some(stays)], vec![3 - stays]);
                assert_eq!(
                    files.nodes(&[("/a", "A")], &known, &more),
                    (nodes, gone),
                    "{known:?} {more:?}"
                );
                assert_eq!(
                    files.nodes(&[], &known, &more),
                    (vec![], vec![1, 2]),
                    "{known:?} {more:?}"
                );
            }
        }
        // The file of one of these nodes is elsewhere.
        let known = [(1, "/a", "A"), (2, "/a", "B")];
        for more in [vec![], vec![(1, More::OfUser)], vec![(2, More::OfUser)]] {
            let found = [("/a", "A"), ("/b", "B")];
            assert_eq!(files.nodes(&found, &known, &more), (vec![Some(1), Some(2)], vec![]));
        }
    }

    #[test]
    fn each_name_of_one_file_has_a_node() {
        let files = Files::new("links");
        let known = [(1, "/a", "A"), (2, "/b", "A")];
        let nodes = |found: &[(&str, &str)]| files.nodes(found, &known, &[]);
        assert_eq!(nodes(&[("/a", "A"), ("/b", "A")]), (vec![Some(1), Some(2)], vec![]));
        assert_eq!(nodes(&[("/b", "A"), ("/c", "A")]), (vec![Some(2), Some(1)], vec![]));
        let (given, _) = nodes(&[("/b", "A"), ("/c", "A"), ("/d", "A")]);
        assert_eq!(given, [Some(2), Some(1), None]);
    }
}
