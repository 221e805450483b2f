//! Tests that a server whose memory is limited refuses requests that it has no memory for, and goes on.

use crate::common::{command, wait_until, Folder, Server, Talk};
use bestore::{Batch, Kind};
use std::io::Write;
use std::os::unix::net::UnixStream;
use std::process::Command;
use std::thread;

/// The limits in MiB. Under the lowest ones, the server can't open its store.
const LIMITS: std::ops::RangeInclusive<usize> = 36..=76;
const STEP: usize = 8;

const NODES: u64 = 1_500;
const CLIENTS: usize = 8;
const OPTIONS: [&str; 4] = ["--pages", "2048", "--passes", "12"];

/// The errors that a request may get. `NotPinned` follows a `pin` that was refused.
const ERRORS: [&str; 4] = ["OutOfMemory", "TooManyCopies", "NotPinned", "Busy"];

/// Fills a kept store with nodes, each with a number and a long text.
fn fill(folder: &Folder) {
    let server = Server::start_kept(folder, &OPTIONS);
    let mut client = server.client();
    let mut batch = Batch::new();
    batch.make_index("size", Kind::Int64).make_index("text", Kind::Text);
    for node in 1..=NODES {
        batch.new_node().set(node, "size", node as i64);
        batch.set(node, "text", format!("{node} {}", "x".repeat(200)));
        if batch.len() > 60 || node == NODES {
            client.apply(&batch).unwrap();
            batch.clear();
        }
    }
    assert!(server.end_by("TERM").success());
}

/// Starts a server that may use this many MiB of addresses.
fn start(folder: &Folder, limit: usize) -> Server {
    let (socket, keep) = (folder.join("socket"), folder.join("kept"));
    let server = command(&socket, &[&OPTIONS[..], &["--keep", keep.to_str().unwrap()]].concat());
    let mut limited = Command::new("sh");
    limited.args(["-c", "ulimit -v $0 && exec \"$@\"", &(limit << 10).to_string()]);
    limited.arg(server.get_program()).args(server.get_args());
    Server::run(limited, &socket)
}

/// Sends a request, and returns the reply, or nothing if the server has closed the connection.
fn ask(talk: &mut Talk, request: &str) -> Option<String> {
    // A connection that was refused is closed, but the refusal can still be read.
    let _ = talk.stream.write_all(format!("{{\"id\":1,{request}}}\n").as_bytes());
    Some(talk.line()).filter(|line| !line.is_empty())
}

fn is_ok(reply: &str) -> bool {
    reply.starts_with("{\"id\":1,\"ok\":")
}

/// Returns requests whose replies are long, that make copies, or that are long themselves.
fn requests() -> Vec<String> {
    let all: Vec<String> = (1..=NODES).map(|node| node.to_string()).collect();
    let all = all.join(",");
    let sets: Vec<String> = (1..=64)
        .map(|node| format!("[\"set\",{node},\"size\",{node}]"))
        .collect();
    let (sets, ones) = (sets.join(","), "1,".repeat(60_000));
    vec![
        r#""query":{"query":"size>=0"}"#.into(),
        r#""query":{"query":"size>=0","columns":["size","text"]}"#.into(),
        r#""query":{"query":"size>=0","by":"text","columns":["text"]}"#.into(),
        r#""collect":{}"#.into(),
        r#""state":{}"#.into(),
        r#""journal":{}"#.into(),
        format!("\"batch\":{{\"operations\":[{sets}]}}"),
        r#""nodes":{}"#.into(),
        r#""pin":{}"#.into(),
        r#""state":{"from":5}"#.into(),
        r#""query":{"query":"text==\"*7*\""}"#.into(),
        r#""unpin":{}"#.into(),
        format!("\"columns\":{{\"nodes\":[{all}],\"names\":[\"text\",\"size\"]}}"),
        format!("\"columns\":{{\"nodes\":[{ones}1],\"names\":[\"size\"]}}"),
        r#""watch":{"query":"size>=0"}"#.into(),
    ]
}

/// Sends each request twice. Returns how many of them were refused because there was no memory.
fn talk(server: &Server) -> usize {
    let mut talk = match UnixStream::connect(server.socket()) {
        Ok(stream) => Talk::new(stream),
        Err(_) => return 0,
    };
    let mut refused = 0;
    for request in [requests(), requests()].concat() {
        let reply = match ask(&mut talk, &request) {
            Some(reply) => reply,
            None => break,
        };
        let is_named = |name: &str| reply.contains(&format!("\"error\":{{\"name\":\"{name}\""));
        let is_expected = is_ok(&reply) || ERRORS.iter().any(|name| is_named(name));
        assert!(is_expected, "{}", &reply[..reply.len().min(200)]);
        refused += usize::from(is_named("OutOfMemory"));
    }
    refused
}

#[test]
fn a_server_without_memory_refuses_requests_and_goes_on() {
    let folder = Folder::in_memory();
    fill(&folder);
    let (mut servers, mut refused) = (0, 0);
    for limit in LIMITS.step_by(STEP) {
        let server = start(&folder, limit);
        let mut is_there = false;
        wait_until("the server listens or ends", || {
            is_there = UnixStream::connect(server.socket()).is_ok();
            is_there || server.has_ended()
        });
        if !is_there {
            continue;
        }
        servers += 1;
        refused += thread::scope(|scope| {
            let talks: Vec<_> = (0..CLIENTS).map(|_| scope.spawn(|| talk(&server))).collect();
            talks.into_iter().map(|talk| talk.join().unwrap()).sum::<usize>()
        });
        // The clients have left, so there is memory again.
        wait_until("the server answers", || {
            assert!(!server.has_ended(), "the server ended under {limit} MiB");
            ask(&mut server.talk(), r#""status":{}"#).map_or(false, |reply| is_ok(&reply))
        });
        assert!(server.end_by("TERM").success());
    }
    println!("{refused} requests were refused by {servers} servers");
    assert!(servers > 3 && refused > 20);
}
