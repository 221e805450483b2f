//! `addattr`, `catattr`, `listattr`, `rmattr` and `rmnode`.

use crate::command_line::{AddAttribute, ListAttributes, RemoveAttribute, RemoveNode, ShowAttribute};
use crate::failure::{complain, Failure};
use crate::import::content::{NAME, PARENT, ROOT, STAT, XATTRS};
use crate::kind::{kind_name, size};
use crate::output::Output;
use crate::paths::{nodes_of, Place};
use crate::server::{self, all_done, pinned, report};
use crate::text::{escaped, hexadecimal};
use bestore_client::wire::Json;
use bestore_client::{Client, ErrorName};
use bestore_types::{Batch, Value};
use serde::Serialize;
use std::collections::{BTreeMap, BTreeSet};
use std::fs::File;
use std::io::{self, Read};
use std::os::unix::ffi::OsStringExt;
use std::path::Path;

/// The size from which a file is rejected as too long for a value. The server refuses any value of more than 255 bytes.
const READ: u64 = 1 << 16;

/// The attributes by which an import finds a file's node again.
const TIES: [&str; 6] = ["name", NAME, PARENT, ROOT, STAT, XATTRS];

/// What `addattr` is to do, parsed from its command line.
#[derive(Debug)]
pub struct Added {
    name: String,
    value: Value,
    places: Vec<Place>,
    new: bool,
}

impl Added {
    /// Parses the command line, and reads the value. The outer error is a message about an invalid command line.
    pub fn read(line: AddAttribute) -> Result<Result<Self, Failure>, String> {
        let AddAttribute {
            r#type,
            file,
            new,
            name,
            rest,
        } = line;
        let mut rest = rest.into_iter();
        let given = match &file {
            Some(_) => None,
            None => Some(rest.next().ok_or("the value is missing")?),
        };
        let places: Vec<Place> = rest.map(Place::from).collect();
        match (new, places.is_empty()) {
            (true, false) => return Err("--new makes the node, so no node can be given".into()),
            (false, true) => return Err("the nodes are missing".into()),
            _ => {}
        }
        let bytes = match (&file, given) {
            (Some(path), _) => read_file(path).map_err(|error| Failure::File(path.clone(), error)),
            (None, given) => Ok(given.unwrap_or_default().into_vec()),
        };
        let value = bytes.and_then(|bytes| r#type.value(bytes));
        Ok(value.map(|value| Self {
            name,
            value,
            places,
            new,
        }))
    }
}

fn read_file(path: &Path) -> io::Result<Vec<u8>> {
    let mut bytes = Vec::new();
    if path == Path::new("-") {
        io::stdin().lock().take(READ).read_to_end(&mut bytes)?;
    } else {
        File::open(path)?.take(READ).read_to_end(&mut bytes)?;
    }
    if bytes.len() as u64 == READ {
        return Err(io::Error::new(io::ErrorKind::InvalidData, "too long for a value"));
    }
    Ok(bytes)
}

pub fn add(client: &mut Client, added: &Added, output: &mut Output) -> Result<(), Failure> {
    let Added {
        name,
        value,
        places,
        new,
    } = added;
    warn_of_index(client, name, value)?;
    if !*new {
        return write_each(client, name, places, |batch, node| {
            batch.set(node, name, value.clone());
        });
    }
    let node = client.change(|change| {
        let node = change.new_node();
        change.any_kind().batch().set(node, name, value.clone());
        Ok(node)
    })?;
    output.line(node.to_string().as_bytes())
}

/// Warns if the index with this name won't include the value.
fn warn_of_index(client: &mut Client, name: &str, value: &Value) -> Result<(), Failure> {
    let indices = server::indices(client)?;
    let taken = indices
        .get(name)
        .and_then(|kind| bestore_client::wire::kind_named(kind));
    match taken {
        Some(kind) if kind != value.kind() => {
            let (taken, given) = (kind_name(kind), kind_name(value.kind()));
            let name = escaped(name);
            complain(&format!(
                "warning: the index {name} holds {taken}, so it omits this {given}"
            ));
        }
        _ => {}
    }
    Ok(())
}

pub fn remove(client: &mut Client, line: &RemoveAttribute) -> Result<(), Failure> {
    write_each(client, &line.name, &line.nodes, |batch, node| {
        batch.unset(node, &line.name);
    })
}

/// Writes the attribute with this name on each node. Refuses it on files' nodes if it ties them to their files, because a file that no
/// longer has a node gets another one in the next import, without its attributes.
fn write_each(client: &mut Client, name: &str, places: &[Place], add: impl Fn(&mut Batch, u64)) -> Result<(), Failure> {
    let nodes = nodes_of(client, places)?;
    let tied = match TIES.contains(&name) {
        true => files_of(client, &nodes)?,
        false => BTreeSet::new(),
    };
    for node in &tied {
        report(
            *node,
            &format!("{name} ties the node to its file, so only be import writes it; rename or move the file instead"),
        );
    }
    let others: Vec<u64> = nodes.into_iter().filter(|node| !tied.contains(node)).collect();
    server::apply_each(client, &others, add)?;
    all_done(tied.is_empty())
}

/// Returns those of the nodes that belong to files.
fn files_of(client: &mut Client, nodes: &[u64]) -> Result<BTreeSet<u64>, Failure> {
    let rows = server::rows_of(client, nodes, &[PARENT, ROOT])?;
    let files = nodes
        .iter()
        .zip(&rows)
        .filter(|(_, row)| row.iter().any(Option::is_some));
    Ok(files.map(|(node, _)| *node).collect())
}

pub fn remove_nodes(client: &mut Client, line: &RemoveNode) -> Result<(), Failure> {
    let nodes = nodes_of(client, &line.nodes)?;
    server::apply_each(client, &nodes, |batch: &mut Batch, node| {
        batch.remove_node(node);
    })
}

/// An attribute as a line of JSON.
#[derive(Serialize)]
struct Attribute<'a> {
    node: u64,
    name: &'a str,
    value: Json,
}

pub fn show(client: &mut Client, line: &ShowAttribute, output: &mut Output) -> Result<(), Failure> {
    let nodes = nodes_of(client, &line.nodes)?;
    let values = pinned(client, |client| {
        let values = nodes
            .iter()
            .map(|node| Ok((*node, value_of(client, *node, &line.name)?)));
        values.collect::<Result<Vec<_>, Failure>>()
    })?;
    let mut all = true;
    for (node, value) in values {
        match value {
            Ok(value) => show_value(line, node, value, output)?,
            Err(why) => {
                report(node, &why);
                all = false;
            }
        }
    }
    output.flush()?;
    all_done(all)
}

/// Returns the value of an attribute, or why there is none.
fn value_of(client: &mut Client, node: u64, name: &str) -> Result<Result<Value, String>, Failure> {
    if let Some(value) = client.get(node, name)? {
        return Ok(Ok(value));
    }
    match client.attributes(node) {
        Err(error) if error.is(ErrorName::NoNode) => Ok(Err(ErrorName::NoNode.text().into())),
        answer => answer
            .map(|_| Err(format!("no attribute {}", escaped(name))))
            .map_err(Failure::from),
    }
}

fn show_value(line: &ShowAttribute, node: u64, value: Value, output: &mut Output) -> Result<(), Failure> {
    if line.json {
        let (name, value) = (line.name.as_str(), Json(value));
        return output.json(&Attribute { node, name, value });
    }
    if line.raw {
        return output.bytes(&output.value(&value));
    }
    let kind = kind_name(value.kind());
    match &value {
        Value::Raw(bytes) => {
            output.line(format!("{node} : {kind} : {} bytes", bytes.len()).as_bytes())?;
            let lines = hexadecimal(bytes);
            lines.iter().try_for_each(|line| output.line(line.as_bytes()))
        }
        _ => {
            output.bytes(format!("{node} : {kind} : ").as_bytes())?;
            output.line(&output.value(&value))
        }
    }
}

/// The attributes of a node as a line of JSON.
#[derive(Serialize)]
struct Attributes<'a> {
    node: u64,
    attributes: BTreeMap<&'a str, Json>,
}

pub fn list(client: &mut Client, line: &ListAttributes, output: &mut Output) -> Result<(), Failure> {
    let nodes = nodes_of(client, &line.nodes)?;
    let read = pinned(client, |client| {
        let read = nodes.iter().map(|node| match client.attributes(*node) {
            Err(error) if error.is(ErrorName::NoNode) => Ok((*node, None)),
            answer => Ok((*node, Some(answer?))),
        });
        read.collect::<Result<Vec<_>, Failure>>()
    })?;
    let mut all = true;
    for (node, attributes) in read {
        match attributes {
            Some(attributes) if line.json => {
                let attributes = attributes
                    .iter()
                    .map(|(name, value)| (name.as_str(), Json(value.clone())))
                    .collect();
                output.json(&Attributes { node, attributes })?;
            }
            Some(attributes) => list_node(line, node, &attributes, output)?,
            None => {
                report(node, ErrorName::NoNode.text());
                all = false;
            }
        }
    }
    output.flush()?;
    all_done(all)
}

fn list_node(
    line: &ListAttributes,
    node: u64,
    attributes: &BTreeMap<String, Value>,
    output: &mut Output,
) -> Result<(), Failure> {
    output.line(format!("Node: {node}").as_bytes())?;
    let contents = if line.long { "  Contents" } else { "" };
    output.line(format!("{:>8} {:>6}  Name{contents}", "Type", "Size").as_bytes())?;
    output.line(format!("{:->8} {:->6}  {:-<32}", "", "", "").as_bytes())?;
    for (name, value) in attributes {
        let (kind, name) = (kind_name(value.kind()), output.name(name));
        let mut text = format!("{kind:>8} {:>6}  \"{name}\"", size(value)).into_bytes();
        if line.long {
            text.extend_from_slice(b"  ");
            text.extend(output.value(value));
        }
        output.line(&text)?;
        if line.hexdump {
            for line in hexadecimal(&bytes_of(value)) {
                output.line(format!("{:17}{line}", "").as_bytes())?;
            }
        }
    }
    let total: usize = attributes.values().map(size).sum();
    output.line(format!("\n{total} bytes total in attributes").as_bytes())
}

/// Returns the value's bytes as BeOS stores them, with numbers in little-endian order.
fn bytes_of(value: &Value) -> Vec<u8> {
    match value.as_bytes() {
        Some(bytes) => bytes.to_vec(),
        None => value.number().to_le_bytes()[..size(value)].to_vec(),
    }
}
