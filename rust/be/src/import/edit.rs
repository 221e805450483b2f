//! Changes to the nodes of files that already have one.

use super::content::{is_same, MOST, OWN, PARENT, ROOT, STAT, SUM, XATTRS};
use bestore_types::{Batch, Value};
use std::collections::{BTreeMap, BTreeSet};
use std::path::{Path, PathBuf};

/// The maximum number of operations in a batch.
pub const OPERATIONS: usize = 64;

/// One change to a node.
#[derive(Clone, Debug, PartialEq)]
pub enum Edit {
    Set(String, Value),
    Unset(String),
    Remove,
}

/// All changes to one node.
#[derive(Clone, Debug)]
pub struct Edits {
    pub path: PathBuf,
    pub node: u64,
    pub edits: Vec<Edit>,
}

impl Edits {
    /// Returns the change that removes a node.
    pub fn remove(path: PathBuf, node: u64) -> Self {
        let edits = vec![Edit::Remove];
        Self { path, node, edits }
    }

    /// Returns these changes to a node, in parts that each fit into a batch.
    pub fn parts<'e>(path: &'e Path, node: u64, edits: &'e [Edit]) -> impl Iterator<Item = Self> + 'e {
        edits.chunks(OPERATIONS).map(move |edits| Self {
            path: path.into(),
            node,
            edits: edits.to_vec(),
        })
    }

    /// Adds the changes to a batch.
    pub fn add_to(&self, batch: &mut Batch) {
        for edit in &self.edits {
            match edit {
                Edit::Set(name, value) => batch.set(self.node, name, value.clone()),
                Edit::Unset(name) => batch.unset(self.node, name),
                Edit::Remove => batch.remove_node(self.node),
            };
        }
    }
}

/// Returns the changes that turn a node's attributes into its file's. Attributes that users have set are preserved, and so is what they have
/// done to those that come from extended attributes, unless the file's extended attributes have changed.
///
/// If `is_replaced` is true, the attributes are those of another file, which this one has replaced. Most editors don't copy extended
/// attributes, so this file's lack of them doesn't mean that a user has removed them. They stay on the node if it has room for them.
pub fn between(had: &BTreeMap<String, Value>, wanted: &BTreeMap<String, Value>, is_replaced: bool) -> Vec<Edit> {
    let names: BTreeSet<&String> = had.keys().chain(wanted.keys()).collect();
    let listed = match is_replaced && names.len() <= MOST {
        true => BTreeSet::new(),
        false => names_listed(had),
    };
    let is_from_file = |name: &&String| OWN.contains(&name.as_str()) || listed.contains(name.as_str());
    let unset = had
        .keys()
        .filter(is_from_file)
        .filter(|name| !wanted.contains_key(*name))
        .map(|name| Edit::Unset(name.clone()));
    let is_newer = sum_listed(had).is_some() && sum_listed(had) == sum_listed(wanted);
    let is_needed = |(name, value): &(&String, &Value)| match had.get(*name) {
        Some(had) if is_same(had, value) => is_text_of(had, value),
        _ => !is_newer || OWN.contains(&name.as_str()),
    };
    let set = stat_last(wanted)
        .filter(is_needed)
        .map(|(name, value)| Edit::Set(name.clone(), value.clone()));
    unset.chain(set).collect()
}

/// Replaces what was read of a file's extended attributes with what its node has of them, because not all of them could be read.
pub fn keep_extended(had: &BTreeMap<String, Value>, wanted: &mut BTreeMap<String, Value>) {
    let is_extended = |name: &String| name == XATTRS || !OWN.contains(&name.as_str());
    let listed = names_listed(had);
    let kept = had.iter().filter(|(name, _)| *name == XATTRS || listed.contains(*name));
    wanted.retain(|name, _| !is_extended(name));
    wanted.extend(kept.map(|(name, value)| (name.clone(), value.clone())));
}

/// Returns whether the first value is a string with the digits of the second. An attribute is such a string if the file was read before the
/// index with its name was created.
fn is_text_of(one: &Value, other: &Value) -> bool {
    one.as_str().is_some() && other.as_bytes().is_none()
}

/// Returns the attributes with `FILE:stat` last, so that if they take more than one batch, it is written only after all the others.
pub fn stat_last(values: &BTreeMap<String, Value>) -> impl Iterator<Item = (&String, &Value)> {
    let others = values.iter().filter(|(name, _)| *name != STAT);
    others.chain(values.get_key_value(STAT))
}

/// Returns the names of the attributes that come from the file's extended attributes.
pub fn names_listed(attributes: &BTreeMap<String, Value>) -> BTreeSet<String> {
    let names = parts_listed(attributes).filter(|name| !name.is_empty() && name[0] != SUM);
    names.map(|name| String::from_utf8_lossy(name).into_owned()).collect()
}

/// Returns the sum of the file's extended attributes, which earlier versions didn't record.
fn sum_listed(attributes: &BTreeMap<String, Value>) -> Option<&[u8]> {
    parts_listed(attributes).find(|part| part.first() == Some(&SUM))
}

fn parts_listed(attributes: &BTreeMap<String, Value>) -> impl Iterator<Item = &[u8]> {
    let bytes = attributes.get(XATTRS).and_then(Value::as_bytes).unwrap_or_default();
    bytes.split(|byte| *byte == 0)
}

/// Which attributes a node has besides those that an import sets on every file.
#[derive(Clone, Copy, Debug, PartialEq, Eq, PartialOrd, Ord)]
pub enum More {
    None,
    /// Only attributes that come from extended attributes. The file itself may still have them.
    Extended,
    /// Attributes that a user has set.
    OfUser,
}

impl More {
    pub fn of(attributes: &BTreeMap<String, Value>) -> Self {
        let listed = names_listed(attributes);
        let others = attributes.keys().filter(|name| !OWN.contains(&name.as_str()));
        let each = others.map(|name| match listed.contains(name) {
            true => More::Extended,
            false => More::OfUser,
        });
        each.max().unwrap_or(More::None)
    }
}

/// Records which folder contains the file: the folder's node, or the path for the imported folder itself.
pub fn place(values: &mut BTreeMap<String, Value>, parent: Option<u64>, root: Option<Value>) {
    match (parent, root) {
        (Some(parent), _) => {
            let parent = i64::try_from(parent).unwrap_or(i64::MAX);
            values.insert(PARENT.into(), parent.into());
        }
        (None, Some(root)) => {
            values.insert(ROOT.into(), root);
        }
        (None, None) => {}
    }
}

#[cfg(test)]
mod tests {
    use super::*;

    fn attributes(list: &[(&str, &str)]) -> BTreeMap<String, Value> {
        let pair = |(name, value): &(&str, &str)| (name.to_string(), Value::from(*value));
        list.iter().map(pair).collect()
    }

    #[test]
    fn the_state_of_a_file_is_written_last() {
        let values = attributes(&[("FILE:stat", "1"), ("name", "a"), ("FILE:parent", "2")]);
        let names: Vec<&str> = stat_last(&values).map(|(name, _)| name.as_str()).collect();
        assert_eq!(names, ["FILE:parent", "name", "FILE:stat"]);
    }

    #[test]
    fn what_a_user_has_set_stays() {
        let mut had = attributes(&[
            ("name", "a"),
            ("MAIL:to", "x"),
            ("rating", "5"),
            ("from-file", "y"),
            ("size", "1"),
        ]);
        had.insert(XATTRS.into(), b"from-file\0other".to_vec().into());
        let wanted = attributes(&[("name", "b"), ("size", "1")]);
        assert_eq!(
            between(&had, &wanted, false),
            [
                Edit::Unset(XATTRS.into()),
                Edit::Unset("MAIL:to".into()),
                Edit::Unset("from-file".into()),
                Edit::Set("name".into(), "b".into()),
            ]
        );
        assert!(between(&wanted, &wanted, false).is_empty());
        assert_eq!((More::of(&had), More::of(&wanted)), (More::OfUser, More::None));
        had.remove("rating");
        assert_eq!(More::of(&had), More::Extended);
    }

    #[test]
    fn what_cannot_be_read_stays() {
        let mut had = attributes(&[("name", "a"), ("mark", "x"), ("rating", "5")]);
        had.insert(XATTRS.into(), b"mark\0\xff01234567".to_vec().into());
        for read in [&[("name", "b")][..], &[("name", "b"), ("mark", "y"), ("other", "z")]] {
            let mut wanted = attributes(read);
            keep_extended(&had, &mut wanted);
            assert_eq!(between(&had, &wanted, false), [Edit::Set("name".into(), "b".into())]);
        }
    }

    #[test]
    fn what_comes_from_a_replaced_file_stays_if_there_is_room() {
        let mut had = attributes(&[("name", "a"), ("MAIL:to", "x"), ("mark", "y")]);
        had.insert(XATTRS.into(), b"mark".to_vec().into());
        let mut wanted = attributes(&[("name", "a")]);
        let unset = |name: &str| Edit::Unset(name.into());
        assert_eq!(between(&had, &wanted, true), [unset(XATTRS), unset("MAIL:to")]);
        wanted.extend((0..60_i32).map(|number| (format!("x{number}"), number.into())));
        assert!(!between(&had, &wanted, true).contains(&unset("mark")));
        wanted.insert("x60".into(), 60_i32.into());
        assert!(between(&had, &wanted, true).contains(&unset("mark")));
    }
}
