//! Listings: a volume's indices and nodes in order, encoded as batches of bytes. All numbers are little-endian.
//!
//! A store begins with a listing, and a snapshot returns one; kept files and backups contain one. The libraries for Python and Rust and
//! the server share the encoding. A listing has, in this order:
//! - the indices with their kinds, in ascending order of names;
//! - the nodes in ascending order, with gaps where nodes were removed. Each is followed by its attributes in ascending order of names.
//!   An attribute is *held* if the index of its name has it: an index doesn't take what was set before it was created.
//!
//! The next node number isn't part of it. A batch begins with the three bytes `BEV` and the encoding's version (1) in one byte. Then come
//! records up to the batch's end, each with one byte for what it is:
//! - 1, an index: the name and the type code, as in a [`Batch`](crate::Batch) that creates the index;
//! - 2, a node: the node, 8 bytes;
//! - 3, an attribute of the last node that isn't held, and 4, one that is: the name, the type code and the value, as in a batch that sets
//!   it.
//!
//! A listing is cut between two records once a batch has 64 KiB. A node's attributes may continue in the next batch.
//!
//! ```
//! use bestore_types::listing::{records, Record, Writer};
//! use bestore_types::{Kind, Value};
//!
//! let mut writer = Writer::new();
//! writer.index("MAIL:from", Kind::Text)?;
//! writer.node(7);
//! let ada = Value::from("Ada");
//! writer.attribute("MAIL:from", (&ada).into(), true)?;
//! let batch = writer.take();
//! assert_eq!(records(&batch)?.count(), 3);
//! # Ok::<(), bestore_types::Error>(())
//! ```

use crate::fields::{write_name, write_value, Reader};
use crate::{Kind, Result, ValueRef};
use std::mem;

const BEGINNING: [u8; 4] = *b"BEV\x01";

/// The size in bytes from which a batch is full.
const FULL: usize = 64 << 10;

/// The most bytes that a record has: an attribute's with the longest name and value.
const LONGEST: usize = 1 + (1 + 63) + 4 + (1 + 255);

const INDEX: u8 = 1;
const NODE: u8 = 2;
const ATTRIBUTE: u8 = 3;
const HELD: u8 = 4;

/// A record of a listing.
#[derive(Clone, Copy, Debug, PartialEq, Eq)]
pub enum Record<'a> {
    /// An index.
    Index {
        /// The name of the attributes that it holds.
        name: &'a str,
        /// The kind of their values.
        kind: Kind,
    },
    /// A node.
    Node {
        /// Its number.
        node: u64,
    },
    /// An attribute of the last node.
    Attribute {
        /// The name of the attribute.
        name: &'a str,
        /// The value.
        value: ValueRef<'a>,
        /// Whether the index of this name has the attribute.
        is_held: bool,
    },
}

/// Returns the records in a batch. Their order isn't checked.
///
/// # Errors
/// [`BadBatch`](crate::Error::BadBatch) if the bytes have another beginning. The iterator returns the same error, with the offset of the
/// first invalid byte, of the first byte of a part that is cut off, or of a number that doesn't fit its kind. It ends with the error.
pub fn records(batch: &[u8]) -> Result<Records<'_>> {
    let mut reader = Reader::new(batch);
    reader.beginning(BEGINNING, "the bytes don't begin with BEV, as those of a listing do")?;
    Ok(Records { reader, is_over: false })
}

/// An iterator over the records in a batch, returned by [`records`].
#[derive(Clone, Debug)]
pub struct Records<'a> {
    reader: Reader<'a>,
    is_over: bool,
}

impl<'a> Iterator for Records<'a> {
    type Item = Result<Record<'a>>;

    fn next(&mut self) -> Option<Result<Record<'a>>> {
        if self.is_over || self.reader.is_at_end() {
            return None;
        }
        let record = read(&mut self.reader);
        self.is_over = record.is_err();
        Some(record)
    }
}

impl std::iter::FusedIterator for Records<'_> {}

fn read<'a>(reader: &mut Reader<'a>) -> Result<Record<'a>> {
    match reader.byte()? {
        INDEX => Ok(Record::Index {
            name: reader.name()?,
            kind: reader.kind()?,
        }),
        NODE => Ok(Record::Node { node: reader.number()? }),
        what @ (ATTRIBUTE | HELD) => {
            let (name, kind) = (reader.name()?, reader.kind()?);
            Ok(Record::Attribute {
                name,
                value: reader.value(kind)?,
                is_held: what == HELD,
            })
        }
        _ => reader.bad(1, "no record has this number; records are numbered 1 to 4"),
    }
}

/// Encodes a listing, record by record. Whenever it [is full](Self::is_full), [`take`](Self::take) the batch.
#[derive(Clone, Debug)]
pub struct Writer {
    bytes: Vec<u8>,
}

impl Default for Writer {
    fn default() -> Self {
        Self {
            bytes: BEGINNING.to_vec(),
        }
    }
}

impl Writer {
    /// Begins a batch.
    #[must_use]
    pub fn new() -> Self {
        Self::default()
    }

    /// Adds an index.
    ///
    /// # Errors
    /// [`NameLength`](crate::Error::NameLength), [`HasNul`](crate::Error::HasNul); the batch is then unchanged.
    pub fn index(&mut self, name: &str, kind: Kind) -> Result<()> {
        self.add(INDEX, |to| {
            write_name(name, None, to)?;
            to.extend_from_slice(&kind.code().to_le_bytes());
            Ok(())
        })
    }

    /// Adds a node.
    pub fn node(&mut self, node: u64) {
        self.bytes.push(NODE);
        self.bytes.extend_from_slice(&node.to_le_bytes());
    }

    /// Adds an attribute of the last node.
    ///
    /// # Errors
    /// [`NameLength`](crate::Error::NameLength), [`DataLength`](crate::Error::DataLength), [`HasNul`](crate::Error::HasNul); the batch is
    /// then unchanged.
    pub fn attribute(&mut self, name: &str, value: ValueRef<'_>, is_held: bool) -> Result<()> {
        self.add(if is_held { HELD } else { ATTRIBUTE }, |to| {
            write_name(name, None, to)?;
            to.extend_from_slice(&value.kind().code().to_le_bytes());
            write_value(value, None, to)
        })
    }

    /// Adds a record of another listing.
    ///
    /// # Errors
    /// The same errors as [`attribute`](Self::attribute).
    pub fn record(&mut self, record: &Record<'_>) -> Result<()> {
        match *record {
            Record::Index { name, kind } => self.index(name, kind),
            Record::Node { node } => {
                self.node(node);
                Ok(())
            }
            Record::Attribute { name, value, is_held } => self.attribute(name, value, is_held),
        }
    }

    fn add(&mut self, what: u8, write: impl FnOnce(&mut Vec<u8>) -> Result<()>) -> Result<()> {
        let length = self.bytes.len();
        self.bytes.push(what);
        let written = write(&mut self.bytes);
        if written.is_err() {
            self.bytes.truncate(length);
        }
        written
    }

    /// Returns `true` if the batch has no records.
    #[must_use]
    pub fn is_empty(&self) -> bool {
        self.bytes.len() == BEGINNING.len()
    }

    /// Returns `true` if the batch has 64 KiB or more.
    #[must_use]
    pub fn is_full(&self) -> bool {
        self.bytes.len() >= FULL
    }

    /// Returns the batch, and begins another one.
    pub fn take(&mut self) -> Vec<u8> {
        let mut next = Vec::new();
        if self.is_full() {
            next.reserve(FULL + LONGEST);
        }
        next.extend_from_slice(&BEGINNING);
        mem::replace(&mut self.bytes, next)
    }
}

#[cfg(test)]
mod tests {
    use super::*;
    use crate::table::lines;
    use crate::{Error, Value};

    /// Returns numbers that look random.
    fn numbers(mut seed: u64) -> impl FnMut(u64) -> u64 {
        move |below| {
            seed ^= seed << 13;
            seed ^= seed >> 7;
            seed ^= seed << 17;
            seed % below
        }
    }

    fn text(next: &mut impl FnMut(u64) -> u64, most: u64) -> String {
        let length = next(most + 1);
        let letters = (0..length).map(|_| char::from_u32(1 + next(0x7ff) as u32).unwrap_or('a'));
        let mut text: String = letters.collect();
        while text.len() > most as usize {
            text.pop();
        }
        text
    }

    fn value(next: &mut impl FnMut(u64) -> u64, most: u64) -> Value {
        let number = next(u64::MAX) << next(64);
        match Kind::ALL[next(7) as usize] {
            Kind::Text => Value::Text(text(next, most)),
            Kind::Mime => Value::Mime(text(next, most)),
            Kind::Raw => Value::Raw((0..next(most + 1)).map(|_| next(256) as u8).collect()),
            kind => Value::of_parts(kind, number, &[]),
        }
    }

    /// A record with its own values.
    #[derive(Clone, Debug)]
    enum Own {
        Index(String, Kind),
        Node(u64),
        Attribute(String, Value, bool),
    }

    impl Own {
        fn drawn(next: &mut impl FnMut(u64) -> u64, most: u64) -> Self {
            let name = format!("n{}", text(next, most.min(62)));
            match next(6) {
                0 => Own::Index(name, Kind::ALL[next(7) as usize]),
                1 => Own::Node(next(u64::MAX)),
                _ => Own::Attribute(name, value(next, most), next(2) == 0),
            }
        }

        fn record(&self) -> Record<'_> {
            match self {
                Own::Index(name, kind) => Record::Index { name, kind: *kind },
                Own::Node(node) => Record::Node { node: *node },
                Own::Attribute(name, value, is_held) => Record::Attribute {
                    name,
                    value: value.into(),
                    is_held: *is_held,
                },
            }
        }
    }

    fn written(records: &[Own]) -> Vec<u8> {
        let mut writer = Writer::new();
        records.iter().for_each(|own| writer.record(&own.record()).unwrap());
        writer.take()
    }

    /// Returns records with values of at most this many bytes.
    fn drawn(seed: u64, count: u64, most: u64) -> Vec<Own> {
        let mut next = numbers(seed);
        (0..count).map(|_| Own::drawn(&mut next, most)).collect()
    }

    /// Reads the batch. If it's valid, checks that writing its records gives the same bytes.
    fn read_again(batch: &[u8]) -> Result<()> {
        let mut writer = Writer::new();
        for record in records(batch)? {
            writer.record(&record?)?;
        }
        assert_eq!(writer.take(), batch);
        Ok(())
    }

    #[test]
    fn records_come_back() {
        for seed in 1..50 {
            let own = drawn(seed, 50, 255);
            let batch = written(&own);
            let read: Vec<_> = records(&batch).unwrap().collect::<Result<_>>().unwrap();
            assert!(read.iter().copied().eq(own.iter().map(Own::record)), "seed {seed}");
        }
        assert_eq!(records(&Writer::new().take()).unwrap().count(), 0);
    }

    #[test]
    fn every_cut_is_an_error_at_its_place_or_a_shorter_listing() {
        for seed in 1..10 {
            let batch = written(&drawn(seed, 8, 255));
            for length in 0..batch.len() {
                match read_again(&batch[..length]) {
                    Ok(()) => {}
                    Err(Error::BadBatch { offset, why }) => {
                        assert!(offset <= length && why == "the batch is cut off", "{length}: {why}");
                    }
                    Err(error) => panic!("{error}"),
                }
            }
        }
    }

    #[test]
    fn every_changed_byte_is_an_error_or_another_listing() {
        for seed in 1..5 {
            let batch = written(&drawn(seed, 4, 8));
            for (at, byte) in (0..batch.len()).flat_map(|at| (0..=255).map(move |byte| (at, byte))) {
                let mut changed = batch.clone();
                changed[at] = byte;
                match read_again(&changed) {
                    Ok(()) => {}
                    Err(Error::BadBatch { offset, .. }) => assert!(offset <= batch.len()),
                    Err(error) => panic!("{error}"),
                }
            }
        }
    }

    #[test]
    fn an_error_ends_the_records() {
        let batch = [&BEGINNING[..], &[0, NODE, 1]].concat();
        let read: Vec<_> = records(&batch).unwrap().collect();
        assert!(matches!(read[..], [Err(Error::BadBatch { offset: 4, .. })]), "{read:?}");
    }

    #[test]
    fn what_no_store_has_is_not_written() {
        let mut writer = Writer::new();
        writer.node(1);
        for name in ["", &"x".repeat(64)] {
            assert!(matches!(writer.index(name, Kind::Text), Err(Error::NameLength { .. })));
        }
        let (long, zero) = (Value::Raw(vec![0; 256]), Value::from("\0"));
        let refused = writer.attribute("a", (&long).into(), true);
        assert!(matches!(refused, Err(Error::DataLength { .. })));
        let refused = writer.attribute("a", (&zero).into(), true);
        assert!(matches!(refused, Err(Error::HasNul { .. })));
        assert_eq!(records(&writer.take()).unwrap().count(), 1);
    }

    #[test]
    fn a_batch_is_full_from_64_kibibytes_on() {
        let mut writer = Writer::new();
        let mut nodes = 0;
        while !writer.is_full() {
            writer.node(nodes);
            nodes += 1;
        }
        assert_eq!(nodes, (FULL as u64 - 4 + 8) / 9);
        assert_eq!(records(&writer.take()).unwrap().count() as u64, nodes);
        assert!(writer.is_empty() && !writer.is_full());
    }

    #[test]
    fn records_have_the_bytes_of_the_table() {
        let mut all = BEGINNING.to_vec();
        for (bytes, words) in lines("listings.txt", " = ") {
            let batch = [&BEGINNING[..], &bytes].concat();
            read_again(&batch).unwrap();
            let read: Vec<_> = records(&batch).unwrap().collect::<Result<_>>().unwrap();
            assert_eq!(read.iter().map(shown).collect::<Vec<_>>(), [words]);
            all.extend(bytes);
        }
        read_again(&all).unwrap();
        assert!(records(&all).unwrap().count() > 15);
    }

    /// Describes a record in the table's words.
    fn shown(record: &Record<'_>) -> String {
        let hex = |bytes: &[u8]| match bytes {
            [] => "-".to_owned(),
            bytes => bytes.iter().map(|byte| format!("{byte:02x}")).collect(),
        };
        match *record {
            Record::Index { name, kind } => format!("index {} {}", hex(name.as_bytes()), kind.name()),
            Record::Node { node } => format!("node {node}"),
            Record::Attribute { name, value, is_held } => {
                let what = if is_held { "held" } else { "attribute" };
                let number = match value.to_value() {
                    Value::Uint64(number) => number.to_string(),
                    value => value.as_i64().unwrap_or(0).to_string(),
                };
                let (name, bytes) = (hex(name.as_bytes()), hex(value.bytes()));
                format!("{what} {name} {} {number} {bytes}", value.kind().name())
            }
        }
    }

    #[test]
    fn what_the_table_refuses_is_refused_there() {
        let refusals = lines("listings.txt", " ! ");
        assert!(refusals.len() > 12);
        for (bytes, words) in refusals {
            let (offset, part) = words.split_once(' ').unwrap();
            let expected = match part {
                "beginning" => "the bytes don't begin with BEV, as those of a listing do",
                "version" => "the batch's format has another version; only version 1 can be read",
                "record" => "no record has this number; records are numbered 1 to 4",
                "name" => "a name has 1 to 63 bytes",
                "kind" => "no kind has this type code",
                "number" => "the number doesn't fit its kind",
                "utf8" => "a name or a text isn't valid UTF-8",
                "nul" => "a name or a text has a zero byte",
                _ => "the batch is cut off",
            };
            match read_again(&bytes) {
                Err(Error::BadBatch { offset: at, why }) => {
                    assert_eq!((at, why), (offset.parse().unwrap(), expected), "{words}");
                }
                other => panic!("{words}: {other:?}"),
            }
        }
    }
}
