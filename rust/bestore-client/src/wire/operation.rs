//! The operations of a batch as JSON.

use super::value::{kind_name, kind_named, Json, Text};
use bestore_types::{Batch, Kind, Operation};
use serde::de::{self, Deserialize, DeserializeSeed, Deserializer, IgnoredAny, SeqAccess, Visitor};
use serde::ser::{Serialize, SerializeSeq, Serializer};
use std::fmt;

/// The maximum number of operations that are kept from a list.
const KEPT: usize = 64;

/// The operations of a batch, read from JSON. Of a list that is too long, only the first 64 are kept.
#[derive(Clone, Debug, Default, PartialEq, Eq)]
pub struct Operations {
    /// The operations.
    pub batch: Batch,
    /// How many operations the list had.
    pub count: usize,
}

impl std::convert::From<Batch> for Operations {
    fn from(batch: Batch) -> Self {
        let count = batch.len();
        Self { batch, count }
    }
}

impl Serialize for Operations {
    fn serialize<S: Serializer>(&self, to: S) -> Result<S::Ok, S::Error> {
        ShownOperations(&self.batch).serialize(to)
    }
}

impl<'de> Deserialize<'de> for Operations {
    fn deserialize<D: Deserializer<'de>>(from: D) -> Result<Self, D::Error> {
        from.deserialize_seq(ListVisitor { are_made: true })
    }
}

/// The operations in a request. Their new nodes have no numbers yet; the server assigns them.
pub(super) mod asked_operations {
    use super::{made, Deserializer, ListVisitor, Operations, Serialize, Serializer};

    pub(in crate::wire) fn serialize<S: Serializer>(asked: &Operations, to: S) -> Result<S::Ok, S::Error> {
        if made(&asked.batch).all(|node| node == 0) {
            return asked.serialize(to);
        }
        let mut batch = asked.batch.clone();
        batch.set_nodes(&vec![0; made(&asked.batch).count()]);
        Operations::from(batch).serialize(to)
    }

    pub(in crate::wire) fn deserialize<'de, D: Deserializer<'de>>(from: D) -> Result<Operations, D::Error> {
        from.deserialize_seq(ListVisitor { are_made: false })
    }
}

/// Reads a list of operations. New nodes have numbers only if they have already been created.
struct ListVisitor {
    are_made: bool,
}

impl<'de> Visitor<'de> for ListVisitor {
    type Value = Operations;

    fn expecting(&self, f: &mut fmt::Formatter<'_>) -> fmt::Result {
        f.write_str("a list of operations")
    }

    fn visit_seq<A: SeqAccess<'de>>(self, mut list: A) -> Result<Operations, A::Error> {
        let mut read = Operations::default();
        while read.count < KEPT {
            let one = OneOperation {
                batch: &mut read.batch,
                is_made: self.are_made,
            };
            match list.next_element_seed(one)? {
                Some(()) => read.count += 1,
                None => return Ok(read),
            }
        }
        while list.next_element::<IgnoredAny>()?.is_some() {
            read.count += 1;
        }
        Ok(read)
    }
}

/// Reads one operation, and appends it to a batch.
struct OneOperation<'a> {
    batch: &'a mut Batch,
    is_made: bool,
}

impl OneOperation<'_> {
    fn make_node<E: de::Error>(self, made: Option<u64>) -> Result<(), E> {
        self.batch.new_node();
        match made {
            Some(_) if !self.is_made => Err(E::custom("the server numbers new nodes; [\"new\"] makes one")),
            Some(node) => {
                set_last_node(self.batch, node);
                Ok(())
            }
            None => Ok(()),
        }
    }
}

impl<'de> DeserializeSeed<'de> for OneOperation<'_> {
    type Value = ();

    fn deserialize<D: Deserializer<'de>>(self, from: D) -> Result<(), D::Error> {
        from.deserialize_seq(self)
    }
}

impl<'de> Visitor<'de> for OneOperation<'_> {
    type Value = ();

    fn expecting(&self, f: &mut fmt::Formatter<'_>) -> fmt::Result {
        f.write_str("an operation, such as [\"set\",1,\"size\",5]")
    }

    fn visit_seq<A: SeqAccess<'de>>(self, mut parts: A) -> Result<(), A::Error> {
        let what: Text<'_> = next(&mut parts, "an operation")?;
        match &*what.0 {
            "new" => {
                let made = parts.next_element()?;
                self.make_node(made)?;
            }
            "remove" => {
                self.batch.remove_node(next(&mut parts, "a node")?);
            }
            "set" => {
                let node = next(&mut parts, "a node")?;
                let name: Text<'_> = next(&mut parts, "a name")?;
                let value: Json = next(&mut parts, "a value")?;
                self.batch.set(node, &name.0, value.0);
            }
            "unset" => {
                let node = next(&mut parts, "a node")?;
                let name: Text<'_> = next(&mut parts, "a name")?;
                self.batch.unset(node, &name.0);
            }
            "index" => {
                let name: Text<'_> = next(&mut parts, "a name")?;
                let kind = kind(next(&mut parts, "a kind")?)?;
                self.batch.make_index(&name.0, kind);
            }
            "unindex" => {
                let name: Text<'_> = next(&mut parts, "a name")?;
                self.batch.remove_index(&name.0);
            }
            _ => {
                return Err(de::Error::custom(
                    "no operation has this name; the operations are new, remove, set, unset, index and unindex",
                ))
            }
        }
        match parts.next_element::<IgnoredAny>()? {
            None => Ok(()),
            Some(_) => Err(de::Error::custom("the operation has too many parts")),
        }
    }
}

fn next<'de, T: Deserialize<'de>, A: SeqAccess<'de>>(parts: &mut A, what: &str) -> Result<T, A::Error> {
    parts
        .next_element()?
        .ok_or_else(|| de::Error::custom(format_args!("{what} is missing")))
}

fn kind<E: de::Error>(name: Text<'_>) -> Result<Kind, E> {
    kind_named(&name.0).ok_or_else(|| E::custom(super::value::NO_KIND))
}

/// Sets the node number in the last operation that creates a node.
fn set_last_node(batch: &mut Batch, node: u64) {
    let mut made: Vec<u64> = made(batch).collect();
    if let Some(last) = made.last_mut() {
        *last = node;
    }
    batch.set_nodes(&made);
}

fn made(batch: &Batch) -> impl Iterator<Item = u64> + '_ {
    batch.operations().filter_map(|operation| match operation {
        Operation::NewNode { node } => Some(node),
        _ => None,
    })
}

/// The operations of a batch, to be written as JSON.
#[derive(Clone, Copy, Debug)]
pub struct ShownOperations<'a>(pub &'a Batch);

impl Serialize for ShownOperations<'_> {
    fn serialize<S: Serializer>(&self, to: S) -> Result<S::Ok, S::Error> {
        let mut list = to.serialize_seq(Some(self.0.len()))?;
        for operation in self.0.operations() {
            match operation {
                Operation::NewNode { node: 0 } => list.serialize_element(&["new"])?,
                Operation::NewNode { node } => list.serialize_element(&("new", node))?,
                Operation::RemoveNode { node } => list.serialize_element(&("remove", node))?,
                Operation::Set { node, name, value } => {
                    list.serialize_element(&("set", node, name, Json(value)))?;
                }
                Operation::Unset { node, name } => list.serialize_element(&("unset", node, name))?,
                Operation::MakeIndex { name, kind } => {
                    list.serialize_element(&("index", name, kind_name(kind)))?;
                }
                Operation::RemoveIndex { name } => list.serialize_element(&("unindex", name))?,
            }
        }
        list.end()
    }
}

impl ShownOperations<'_> {
    /// Returns how many bytes of JSON the operations take, or slightly more.
    #[must_use]
    pub fn length(&self) -> usize {
        let lengths = self.0.operations().map(|operation| match operation {
            Operation::NewNode { .. } | Operation::RemoveNode { .. } => 34,
            Operation::Set { name, value, .. } => 34 + 6 * name.len() + Json(value).length(),
            Operation::Unset { name, .. } | Operation::MakeIndex { name, .. } | Operation::RemoveIndex { name } => {
                36 + 6 * name.len()
            }
        });
        2 + lengths.sum::<usize>()
    }
}

#[cfg(test)]
mod tests {
    use super::*;

    #[test]
    fn operations_go_there_and_back() {
        let json = concat!(
            r#"[["index","size","int64"],["new"],["new",7],["set",7,"a\"b",5],["set",1,"r",{"raw":"AP8="}],"#,
            r#"["unset",7,"size"],["remove",7],["unindex","size"]]"#
        );
        let read: Operations = serde_json::from_str(json).unwrap();
        assert_eq!(read.count, 8);
        assert_eq!(serde_json::to_string(&read).unwrap(), json);
        assert!(ShownOperations(&read.batch).length() >= json.len());
    }

    #[test]
    fn a_list_that_is_too_long_is_counted() {
        let json = format!("[{}]", vec!["[\"new\"]"; 1000].join(","));
        let read: Operations = serde_json::from_str(&json).unwrap();
        assert_eq!((read.count, read.batch.len()), (1000, 64));
    }

    #[test]
    fn what_is_no_operation_is_refused() {
        for json in [
            "{}",
            "[1]",
            "[[]]",
            r#"[["make"]]"#,
            r#"[["remove"]]"#,
            r#"[["remove",-1]]"#,
            r#"[["remove",1,2]]"#,
            r#"[["new",1,2]]"#,
            r#"[["set",1,"size"]]"#,
            r#"[["set",1,"size",null]]"#,
            r#"[["index","size","date"]]"#,
        ] {
            assert!(serde_json::from_str::<Operations>(json).is_err(), "{json}");
        }
    }

    #[test]
    fn a_request_numbers_no_node() {
        let json = r#"[["new",7],["set",7,"size",5]]"#;
        let made: Operations = serde_json::from_str(json).unwrap();
        let asked = asked_operations::serialize(&made, serde_json::value::Serializer).unwrap();
        assert_eq!(asked.to_string(), r#"[["new"],["set",7,"size",5]]"#);
        assert!(asked_operations::deserialize(asked).is_ok());
        assert!(asked_operations::deserialize(&mut serde_json::Deserializer::from_str(json)).is_err());
    }
}
