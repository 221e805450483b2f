//! Tests of `clients` and `kick` while every place is taken and many programs wait for one.

use crate::common::Server;
use bestore_client::Client;
use std::path::Path;
use std::sync::atomic::{AtomicBool, Ordering::Relaxed};
use std::thread;
use std::time::Duration;

/// How many programs try to get a place and keep it, and how many take a visitor's place and keep it.
const RETRYING: usize = 60;
const VISITING: usize = 20;

/// How often each command is run.
const ROUNDS: usize = 30;

/// How long a program waits before it tries again.
const AGAIN: Duration = Duration::from_millis(5);

/// Connects again and again. Keeps each connection, by calling the function, until the server closes it.
fn crowd(socket: &Path, is_over: &AtomicBool, keep: impl Fn(&mut Client) -> bool) {
    while !is_over.load(Relaxed) {
        if let Ok(mut client) = Client::connect(socket) {
            while keep(&mut client) && !is_over.load(Relaxed) {
                thread::sleep(AGAIN);
            }
        }
        thread::sleep(AGAIN);
    }
}

/// Returns the numbers of the clients that `be clients` lists.
fn listed(server: &Server) -> Vec<String> {
    let rows = server.done(&["clients"]);
    let numbers = rows.lines().skip(1).filter_map(|row| row.split_whitespace().next());
    numbers.map(String::from).collect()
}

/// Ends the programs, even if the test fails.
struct Over<'a>(&'a AtomicBool);

impl Drop for Over<'_> {
    fn drop(&mut self) {
        self.0.store(true, Relaxed);
    }
}

#[test]
fn clients_are_listed_and_ended_however_many_wait() {
    let server = server!(Server::start_with(&["--passes", "4"]));
    let (socket, is_over) = (&*server.socket(), &AtomicBool::new(false));
    thread::scope(|scope| {
        let _over = Over(is_over);
        for _ in 0..RETRYING {
            scope.spawn(move || crowd(socket, is_over, |client| client.hello().is_ok()));
        }
        for _ in 0..VISITING {
            scope.spawn(move || crowd(socket, is_over, |client| client.visit().is_ok()));
        }
        while listed(&server).len() < 4 {
            thread::sleep(AGAIN);
        }
        let mut ended = 0;
        for _ in 0..ROUNDS {
            let clients = listed(&server);
            let said = server.be(&["kick", &clients[0]]);
            // The client may have left in the meantime.
            let is_gone = said.error.contains("no client has the number");
            assert!(said.status == 0 || is_gone, "{}", said.error);
            ended += usize::from(!is_gone);
        }
        assert!(ended > 0);
    });
}
