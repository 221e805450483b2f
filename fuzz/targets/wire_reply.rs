//! Reads a line from a server. A reply that can be read must be written as a line that reads the same. The first byte says as which
//! reply to read the line.
#![no_main]

use bestore_client::wire::{self, Json};
use serde::de::DeserializeOwned;
use serde::Serialize;
use serde_json::Value as Detail;
use std::fmt::Debug;

bestore_fuzz::target!(|input| {
    let Some((which, line)) = input.split_first() else {
        return;
    };
    READERS[usize::from(*which) % READERS.len()](line);
});

/// A reader for each kind of reply. The first bytes of the inputs in the corpus depend on the order, so append new readers.
const READERS: [fn(&[u8]); 20] = [
    goes_there_and_back::<wire::Hello>,
    goes_there_and_back::<wire::Written>,
    goes_there_and_back::<wire::LogStatus>,
    goes_there_and_back::<wire::Next>,
    goes_there_and_back::<wire::Hits>,
    goes_there_and_back::<wire::Value>,
    goes_there_and_back::<wire::Rows>,
    goes_there_and_back::<wire::Attributes>,
    goes_there_and_back::<wire::Indices>,
    goes_there_and_back::<wire::Nodes>,
    goes_there_and_back::<wire::Explained>,
    goes_there_and_back::<wire::Watched>,
    goes_there_and_back::<wire::Status>,
    goes_there_and_back::<wire::Journal>,
    goes_there_and_back::<wire::State>,
    goes_there_and_back::<wire::Push>,
    refuses,
    has_length,
    goes_there_and_back::<wire::Comparisons>,
    goes_there_and_back::<wire::Restored>,
];

fn goes_there_and_back<T: DeserializeOwned + Serialize + PartialEq + Debug>(line: &[u8]) {
    let Ok(read) = serde_json::from_slice::<T>(line) else {
        return;
    };
    let line = serde_json::to_string(&read).expect("a reply that was read can be written");
    assert!(!line.contains('\n'), "{line}");
    let again: T = serde_json::from_str(&line).expect("a reply that was written can be read");
    // A journal may have entries with more than 64 operations, of which only 64 are kept. Writing and reading these again changes
    // nothing.
    let written = serde_json::to_string(&again).expect("a reply that was read can be written");
    assert_eq!(line, written);
}

/// Checks that an error can be displayed whatever it contains, even if the caret's position is past the end of the query.
fn refuses(line: &[u8]) {
    if let Ok(mut refusal) = serde_json::from_slice::<wire::Refusal>(line) {
        if refusal.details.values().all(is_exact) {
            goes_there_and_back::<wire::Refusal>(line);
        }
        refusal.query = Some(refusal.message.clone());
        assert!(refusal.to_string().starts_with(refusal.name.as_str()));
    }
}

/// Returns whether a detail has no fraction. No detail in the protocol has one, and serde_json doesn't read fractions exactly.
fn is_exact(detail: &Detail) -> bool {
    match detail {
        Detail::Number(number) => !number.is_f64(),
        Detail::Array(list) => list.iter().all(is_exact),
        Detail::Object(members) => members.values().all(is_exact),
        _ => true,
    }
}

/// Checks that a value doesn't take more bytes than a page of a reply counts for it.
fn has_length(line: &[u8]) {
    goes_there_and_back::<Json>(line);
    if let Ok(value) = serde_json::from_slice::<Json>(line) {
        let written = serde_json::to_string(&value).expect("a value that was read can be written");
        assert!(
            value.length() >= written.len(),
            "{written} has {}, and {} were counted",
            written.len(),
            value.length()
        );
    }
}
