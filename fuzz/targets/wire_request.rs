//! Reads a line from a client. A request that can be read must be written as a line that reads the same.
#![no_main]

use bestore_client::wire::{id_of, Command, Request, EXACT};

bestore_fuzz::target!(|input| {
    let Ok(request) = serde_json::from_slice::<Request<'_>>(input) else {
        // The reply to an invalid request has the request's id, if the request has one.
        assert!(id_of(input).map_or(true, |id| id <= EXACT));
        return;
    };
    assert_eq!(
        id_of(input),
        Some(request.id),
        "the id of a request isn't found without the rest"
    );
    let line = serde_json::to_string(&request).expect("a request that was read can be written");
    assert!(!line.contains('\n'), "{line}");
    let again: Request<'_> = serde_json::from_str(&line).expect("a request that was written can be read");
    assert_eq!(is_cut(&again), None, "{line}");
    match is_cut(&request) {
        // The server refuses a batch with more than 64 operations, since only 64 of them are kept.
        Some(count) => assert!(count > 64, "{count}"),
        None => assert_eq!(request, again),
    }
});

/// Returns how many operations a batch had, if it had more than are kept.
fn is_cut(request: &Request<'_>) -> Option<usize> {
    match &request.command {
        Command::Batch(write) if write.operations.count > write.operations.batch.len() => Some(write.operations.count),
        _ => None,
    }
}
