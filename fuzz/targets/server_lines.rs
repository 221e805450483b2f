//! Sends lines to a server. Each line must get exactly one reply, with the line's id.
#![no_main]

use bestore_client::wire::{id_of, Command, Request};
use serde_json::Value;

/// The maximum number of bytes to send, which fit into a socket's buffer.
const MOST: usize = 1 << 14;

bestore_fuzz::target!(|input| {
    let lines: Vec<&[u8]> = input[..input.len().min(MOST)]
        .split(|byte| *byte == b'\n')
        .filter(|line| !waits(line))
        .collect();
    let sent: Vec<u8> = lines.iter().flat_map(|line| [line, &b"\n"[..]].concat()).collect();
    let replies = bestored::in_process::replies_to(&sent).expect("the server ends as the client does");
    let replies = String::from_utf8(replies).expect("replies are UTF-8");
    let replies: Vec<&str> = replies.split_terminator('\n').collect();
    assert_eq!(replies.len(), lines.len(), "{replies:#?}");
    for (line, reply) in lines.into_iter().zip(replies) {
        answers(line, reply);
    }
});

/// Returns whether the reply may arrive only after a timeout. No input is worth such a wait.
fn waits(line: &[u8]) -> bool {
    let request = serde_json::from_slice::<Request<'_>>(line);
    matches!(
        request.map(|request| request.command),
        Ok(Command::Reach(_) | Command::Log(_))
    )
}

/// Checks that the reply to a line is an object with the line's id and either a result or an error.
fn answers(line: &[u8], reply: &str) {
    let read: Value = serde_json::from_str(reply).expect("a reply is JSON");
    assert_eq!(read["id"].as_u64(), id_of(line), "{reply}");
    let error = &read["error"];
    assert!(read["ok"].is_object() != error.is_object(), "{reply}");
    if error.is_object() {
        assert!(error["name"].is_string() && error["message"].is_string(), "{reply}");
    } else {
        assert!(serde_json::from_slice::<Request<'_>>(line).is_ok(), "{reply}");
    }
}
