//! Tests clients that pin a snapshot and then read their replies slowly or not at all.

use crate::common::{start, wait_until, Folder, Server, Talk};
use bestore::Batch;
use bestore_client::wire::Journal;
use std::io::Read;
use std::sync::atomic::{AtomicBool, Ordering::Relaxed};
use std::thread;
use std::time::{Duration, Instant};

/// The number of pages: so few that writes soon need the snapshot's pages.
const PAGES: &str = "128";

/// How long a write may wait. The server ends a snapshot that blocks writes after one second. The rest allows for a busy machine.
const MOST: Duration = Duration::from_secs(2);

/// The number of entries. Their strings become six times as long in JSON, so a line holds about ten entries.
const ENTRIES: u64 = 16;

/// Creates a node, and a journal that doesn't fit into the buffers between the server and a client that doesn't read.
pub fn begin(server: &Server) {
    let mut client = server.client();
    client.apply(Batch::new().new_node()).unwrap();
    for _ in 0..ENTRIES {
        let mut batch = Batch::new();
        for name in 0..64 {
            batch.set(1, &format!("text{name}"), "\u{1}".repeat(255));
        }
        client.apply(&batch).unwrap();
    }
}

/// Returns a client that has pinned a snapshot and doesn't read the long reply that follows.
pub fn pinned(server: &Server) -> Talk {
    let mut talk = server.talk();
    talk.send(b"{\"id\":1,\"pin\":{}}\n{\"id\":2,\"journal\":{}}\n");
    wait_until("a snapshot is kept", || {
        server.client().status().unwrap().oldest.is_some()
    });
    talk
}

/// Starts a server with a journal, and pins a snapshot.
fn start_pinned(options: &[&str]) -> (Folder, Server, Talk) {
    let (folder, server) = start(&[&["--pages", PAGES], options].concat());
    begin(&server);
    let talk = pinned(&server);
    (folder, server, talk)
}

/// Writes until all pages have been used several times. No write may be refused or wait for long.
fn write(server: &Server) {
    let mut client = server.client();
    for count in 0..400_u64 {
        let begin = Instant::now();
        client.apply(Batch::new().set(1, "text0", count)).unwrap();
        let waited = begin.elapsed();
        assert!(waited < MOST, "write {count} waited for {waited:?}");
    }
}

/// Reads the replies to the requests that `pinned` sent, and checks that they say what happened to the snapshot.
pub fn check_replies(talk: &mut Talk) {
    assert_eq!(talk.line(), r#"{"id":1,"ok":{"commit":17,"next":2}}"#);
    let line: serde_json::Value = serde_json::from_str(&talk.line()).unwrap();
    let journal: Journal = serde_json::from_value(line["ok"].clone()).unwrap();
    assert_eq!(journal.entries.len() as u64, journal.more.unwrap());
    let refused = talk.ask(r#"{"id":3,"get":{"node":1,"name":"text0"}}"#);
    assert!(refused.contains(r#""name":"Expired""#), "{refused}");
    talk.check(r#""unpin":{}"#, r#""ok":{}"#);
}

#[test]
fn who_reads_nothing_gives_its_snapshot_back() {
    let (_folder, server, mut talk) = start_pinned(&[]);
    write(&server);
    check_replies(&mut talk);
}

#[test]
fn a_snapshot_is_taken_back_after_its_time_though_its_client_reads_nothing() {
    let (_folder, server, mut talk) = start_pinned(&["--hold", "1"]);
    let begin = Instant::now();
    wait_until("the snapshot is given back", || {
        assert!(begin.elapsed() < MOST + MOST);
        server.client().status().unwrap().oldest.is_none()
    });
    check_replies(&mut talk);
}

#[test]
fn who_reads_slowly_gives_its_snapshot_back() {
    let (_folder, server, mut talk) = start_pinned(&[]);
    let (mut stream, is_over) = (talk.stream.try_clone().unwrap(), &AtomicBool::new(false));
    thread::scope(|scope| {
        let reading = scope.spawn(move || {
            let (mut read, mut some) = (Vec::new(), vec![0; 10_000]);
            while !is_over.load(Relaxed) && read.len() < 800_000 {
                let count = stream.read(&mut some).unwrap();
                read.extend_from_slice(&some[..count]);
                thread::sleep(Duration::from_millis(50));
            }
            read
        });
        write(&server);
        is_over.store(true, Relaxed);
        talk.begin_with(reading.join().unwrap());
    });
    check_replies(&mut talk);
}
