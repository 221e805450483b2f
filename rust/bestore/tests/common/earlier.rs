//! Files as earlier versions wrote them.

use bestore::listing::{records, Record};
use bestore::Batch;
use bestore_types::raw::crc32;
use rusqlite::Connection;
use std::path::Path;

fn checksum(place: u64, batch: &[u8]) -> u32 {
    let length = batch.len() as u64;
    crc32(&[&place.to_le_bytes()[..], &length.to_le_bytes()[..], batch].concat())
}

/// Collects operations in batches of 64.
#[derive(Default)]
struct Operations {
    batches: Vec<Batch>,
    last: Batch,
}

impl Operations {
    fn add(&mut self, add: impl FnOnce(&mut Batch)) {
        add(&mut self.last);
        if self.last.is_full() {
            self.batches.push(std::mem::take(&mut self.last));
        }
    }

    fn finish(mut self) -> Vec<Batch> {
        if !self.last.is_empty() {
            self.batches.push(self.last);
        }
        self.batches
    }
}

/// Returns operations that make the state of a file: its nodes and those that were removed, the attributes that no index has, the indices,
/// and the attributes that they have.
fn state_of(path: &Path) -> Vec<Batch> {
    let contents = bestore_types::saved::read(path).unwrap();
    let of_batch = |batch| records(batch).unwrap().map(Result::unwrap);
    let all = || contents.state.iter().flat_map(|batch| of_batch(batch));
    let mut operations = Operations::default();
    let mut next = 1;
    let nodes = all().filter_map(|record| match record {
        Record::Node { node } => Some(node),
        _ => None,
    });
    for node in nodes.chain([contents.about.next]) {
        for removed in next..node {
            operations.add(|batch| _ = batch.new_node());
            operations.add(|batch| _ = batch.remove_node(removed));
        }
        if node < contents.about.next {
            operations.add(|batch| _ = batch.new_node());
        }
        next = node + 1;
    }
    set(&mut operations, all(), false);
    for record in all() {
        if let Record::Index { name, kind } = record {
            operations.add(|batch| _ = batch.make_index(name, kind));
        }
    }
    set(&mut operations, all(), true);
    operations.finish()
}

/// Sets the attributes that indices have, or those that they don't have.
fn set<'a>(operations: &mut Operations, records: impl Iterator<Item = Record<'a>>, are_held: bool) {
    let mut last = 0;
    for record in records {
        match record {
            Record::Node { node } => last = node,
            Record::Attribute { name, value, is_held } if is_held == are_held => {
                operations.add(|batch| _ = batch.set(last, name, value.to_value()));
            }
            _ => {}
        }
    }
}

/// Converts a closed file to this format: 1, in which rows have no checksums, or 2. In both, the state consists of operations.
pub fn convert_back(path: &Path, format: u32) {
    let state = state_of(path);
    let mut file = Connection::open(path).unwrap();
    let change = file.transaction().unwrap();
    change.execute("DELETE FROM state", []).unwrap();
    for (place, batch) in (0_u64..).zip(state) {
        let bytes = batch.to_bytes().unwrap();
        let row = (place as i64, &bytes, checksum(place, &bytes));
        change.execute("INSERT INTO state VALUES (?, ?, ?)", row).unwrap();
    }
    if format == 1 {
        for table in ["about", "state", "entry", "token"] {
            let drop = format!("ALTER TABLE {table} DROP COLUMN checksum");
            change.execute_batch(&drop).unwrap();
        }
        change.execute("DELETE FROM about WHERE what = 'file'", []).unwrap();
    }
    change
        .execute_batch(&format!("PRAGMA user_version = {format}"))
        .unwrap();
    change.commit().unwrap();
}
