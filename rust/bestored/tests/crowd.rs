//! Tests a server with many clients at a time, half of which misbehave.

use crate::common::{Folder, Server, Talk};
use bestore::{Batch, Kind};
use std::io::{self, Write};
use std::os::unix::net::UnixStream;
use std::sync::atomic::{AtomicBool, AtomicU64, Ordering::Relaxed};
use std::thread;
use std::time::{Duration, Instant};

/// The number of clients that behave well.
const GOOD: u64 = 16;

/// The number of clients that misbehave, in addition to one that does nothing and one that takes all available passes.
const BAD: u64 = 14;

/// The number of passes that the server has. At times, there are more connections than passes.
const PASSES: usize = 36;

const TIME: Duration = Duration::from_secs(5);

/// The maximum memory that the server may use, in KiB. The store takes 16 MiB of it.
const MEMORY: u64 = 200 << 10;

/// Runs a client that behaves well and checks each reply. Returns the number of requests that it made.
fn good(server: &Server, number: u64, until: Instant) -> u64 {
    let mut client = server.patient_client();
    let name = format!("client{number}");
    client.apply(Batch::new().make_index(&name, Kind::Int64)).unwrap();
    let mut own = Vec::new();
    let mut requests = 1;
    while Instant::now() < until {
        let count = own.len() as i64;
        let made = client.change(|change| {
            let node = change.new_node();
            change.batch().set(node, &name, count);
            Ok(node)
        });
        own.push(made.unwrap());
        assert_eq!(client.query(&format!("{name}>=0")).unwrap(), own);
        let last = client.get(own[own.len() - 1], &name).unwrap();
        assert_eq!(last, Some(count.into()));
        if own.len() > 30 {
            let oldest = own.remove(0);
            client.apply(Batch::new().remove_node(oldest)).unwrap();
            own.iter().enumerate().for_each(|(at, node)| {
                client.apply(Batch::new().set(*node, &name, at as i64)).unwrap();
            });
        }
        requests += 5;
    }
    requests
}

/// Misbehaves again and again, each time on a new connection.
fn bad(server: &Server, number: u64, is_over: &AtomicBool) {
    while !is_over.load(Relaxed) {
        let mut stream = match UnixStream::connect(server.socket()) {
            Ok(stream) => stream,
            Err(_) => continue,
        };
        stream.set_write_timeout(Some(TIME / 4)).unwrap();
        // The server may close the connection at any moment. The replies aren't checked.
        let _ = misbehave(&mut stream, number, is_over);
    }
}

fn misbehave(stream: &mut UnixStream, number: u64, is_over: &AtomicBool) -> io::Result<()> {
    match number % 10 {
        // Disconnects in the middle of a line.
        0 => return stream.write_all(b"{\"id\":1,\"batch\":{\"oper"),
        // Stalls in the middle of a line.
        1 => stream.write_all(b"{\"id\":1,\"ge")?,
        // Sends a line of 100 MB.
        2 => return (0..100).try_for_each(|_| stream.write_all(&[b'a'; 1 << 20])),
        // Sends binary data.
        3 => return (0..1000_u32).try_for_each(|at| stream.write_all(&at.wrapping_mul(0x9e37_79b9).to_le_bytes())),
        // Sends JSON that isn't a request, and reads no replies.
        4 => return send(stream, 20_000, |at| format!("{{\"id\":{at},\"set\":[]}}\n")),
        // Sends 10,000 requests that have long replies, and reads none of them.
        5 => send(stream, 10_000, |at| format!("{{\"id\":{at},\"journal\":{{}}}}\n"))?,
        // Sends 10,000 writes, and reads no replies.
        6 => send(stream, 10_000, |at| {
            format!("{{\"id\":{at},\"batch\":{{\"operations\":[[\"set\",1,\"a\",{at}]]}}}}\n")
        })?,
        // Starts one more live query than it may have, and reads nothing.
        7 => send(stream, 33, |at| {
            format!("{{\"id\":{at},\"watch\":{{\"query\":\"client{}>=0\"}}}}\n", at % GOOD)
        })?,
        // Pins a snapshot, starts a live query, and stalls.
        8 => stream.write_all(b"{\"id\":1,\"pin\":{}}\n{\"id\":2,\"watch\":{\"query\":\"client8>=0\"}}\n")?,
        // Connects and disconnects.
        _ => return Ok(()),
    }
    rest(TIME / 4, is_over);
    Ok(())
}

fn send(stream: &mut UnixStream, count: u64, line: impl Fn(u64) -> String) -> io::Result<()> {
    (0..count).try_for_each(|at| stream.write_all(line(at).as_bytes()))
}

fn rest(time: Duration, is_over: &AtomicBool) {
    let until = Instant::now() + time;
    while !is_over.load(Relaxed) && Instant::now() < until {
        thread::sleep(Duration::from_millis(10));
    }
}

/// Runs a client that does nothing until the end, and then still gets a reply.
fn idle(server: &Server, is_over: &AtomicBool) {
    let mut client = server.patient_client();
    rest(TIME * 100, is_over);
    client.hello().unwrap();
}

/// Repeatedly takes all remaining passes and tries to get more. Each connection gets either its reply or `NoPass`. Returns how
/// many got `NoPass`.
fn surplus(server: &Server, is_over: &AtomicBool) -> u64 {
    let mut refused = 0;
    while !is_over.load(Relaxed) {
        let mut talks: Vec<Talk> = (0..PASSES).map(|_| server.talk()).collect();
        for talk in &mut talks {
            // This fails if the server has already closed the connection. It sends the reason before it closes one.
            let _ = talk.stream.write_all(b"{\"id\":1,\"next\":{}}\n");
            let line = talk.line();
            let is_answered = line.starts_with("{\"id\":1,\"ok\":{\"commit\":");
            let is_refused = line.starts_with("{\"id\":null,\"error\":{\"name\":\"NoPass\",\"number\":68,");
            assert!(is_answered || is_refused, "{line}");
            refused += u64::from(is_refused);
        }
        drop(talks);
        rest(TIME / 10, is_over);
    }
    refused
}

#[test]
fn bad_clients_disturb_nobody() {
    let folder = Folder::new();
    let server = &Server::start(&folder, &["--hold", "1", "--passes", &PASSES.to_string()]);
    let until = Instant::now() + TIME;
    let (is_over, requests, refused) = (&AtomicBool::new(false), &AtomicU64::new(0), &AtomicU64::new(0));
    thread::scope(|scope| {
        let good: Vec<_> = (0..GOOD)
            .map(|number| scope.spawn(move || requests.fetch_add(good(server, number, until), Relaxed)))
            .collect();
        for number in 0..BAD {
            scope.spawn(move || bad(server, number, is_over));
        }
        scope.spawn(move || idle(server, is_over));
        scope.spawn(move || refused.fetch_add(surplus(server, is_over), Relaxed));
        let answers: Vec<_> = good.into_iter().map(|client| client.join()).collect();
        is_over.store(true, Relaxed);
        assert!(answers.iter().all(|answer| answer.is_ok()));
    });
    let (requests, refused) = (requests.load(Relaxed), refused.load(Relaxed));
    let memory = server.most_memory();
    println!(
        "{requests} requests, {refused} clients without a pass, {} MiB",
        memory >> 10
    );
    assert!(memory < MEMORY, "{memory} KiB");
    assert!(refused > 0);
    crate::common::wait_until("the clients are gone", || {
        let status = server.client().status();
        status.map_or(false, |status| status.clients == 1)
    });
}
