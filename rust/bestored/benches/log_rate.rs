//! Measures how many writes per second a leader makes with a log in a PostgreSQL on the same machine. Also measures how much later
//! the followers have these writes, and how long another server needs to take over from a leader that was killed.
//!
//! Run it with `cargo bench -p bestored --features log --bench log_rate`. The database writes to the disk that holds the folder for
//! temporary files (`TMPDIR`). Each client is a thread that sends a write and waits for the reply. For each case, the best round
//! counts.

#[path = "../tests/common/mod.rs"]
mod common;

use bestore::Batch;
use bestore_client::Client;
use common::postgres::{Database, Postgres};
use common::{command, wait_until, Folder, Server};
use std::fs;
use std::path::Path;
use std::process::Stdio;
use std::thread;
use std::time::{Duration, Instant};

const ROUNDS: usize = 3;
const TIME: Duration = Duration::from_secs(2);
const CLIENTS: [usize; 3] = [1, 8, 32];
const VALUE: &str = "Ada Lovelace <ada@example.org>";

/// The number of writes used to measure the lag, and the number of leaders that are killed.
const WRITES: usize = 500;
const KILLS: usize = 10;

/// A server in its own folder.
struct Member {
    folder: Folder,
    server: Server,
}

impl Member {
    fn start(options: &[&str]) -> Self {
        Self::start_in(Folder::new(), options)
    }

    fn start_in(folder: Folder, options: &[&str]) -> Self {
        let socket = folder.join("socket");
        let options = [&["--pages", "16384"], options].concat();
        let mut command = command(&socket, &options);
        command.stderr(Stdio::null());
        let server = Server::run(command, &socket);
        assert!(server.answers(), "the server starts");
        Self { folder, server }
    }

    fn leads(&self) -> bool {
        let log = Client::connect(self.server.socket()).and_then(|mut client| client.log());
        log.map_or(false, |log| log.role == "leader")
    }
}

/// Returns the times, in microseconds, within which 50% and 99% of the writes finish.
fn half_and_most(mut times: Vec<Duration>) -> (f64, f64) {
    times.sort_unstable();
    let at = |part: usize| times[times.len() * part / 100].as_secs_f64() * 1e6;
    (at(50), at(99))
}

/// Returns how long each write took. Each client makes its writes one after another.
fn write(socket: &Path, clients: usize) -> Vec<Duration> {
    let write = |node: u64| {
        let mut client = Client::connect(socket).expect("the server listens");
        let mut batch = Batch::new();
        batch.set(node, "name", VALUE);
        let (mut times, begin) = (Vec::new(), Instant::now());
        while begin.elapsed() < TIME {
            let before = Instant::now();
            client.apply(&batch).expect("the server writes");
            times.push(before.elapsed());
        }
        times
    };
    thread::scope(|scope| {
        let running: Vec<_> = (1..=clients as u64)
            .map(|node| scope.spawn(move || write(node)))
            .collect();
        let times = running.into_iter().map(|client| client.join().expect("a client ends"));
        times.flatten().collect()
    })
}

/// Prints one row for each number of clients.
fn measure(name: &str, member: &Member) {
    let mut client = member.server.client();
    for _ in 0..*CLIENTS.iter().max().unwrap_or(&1) {
        client.apply(Batch::new().new_node()).expect("the server writes");
    }
    for clients in CLIENTS {
        let rounds = (0..ROUNDS).map(|_| write(member.server.socket(), clients));
        let times = rounds.max_by_key(Vec::len).unwrap_or_default();
        let rate = times.len() as f64 / TIME.as_secs_f64();
        let (half, most) = half_and_most(times);
        println!("| {name} | {clients} | {rate:.0} | {half:.0} | {most:.0} |");
    }
}

/// Prints how long after the reply to a write each follower has the write.
fn measure_lag(leader: &Member, followers: &[Member]) {
    for (number, follower) in (1..).zip(followers) {
        let (mut to, mut from) = (leader.server.client(), follower.server.client());
        let shift = to
            .log()
            .map(|log| log.entry - log.commit)
            .expect("the server has a log");
        let times = (0..WRITES).map(|_| {
            let written = to.apply(Batch::new().set(1, "name", VALUE)).expect("the server writes");
            let before = Instant::now();
            let entry = written.number + shift;
            from.wait_for_entry(entry, Duration::from_secs(60))
                .expect("the follower gets it");
            before.elapsed()
        });
        let (half, most) = half_and_most(times.collect());
        println!("| lag of follower {number} | 1 | | {half:.0} | {most:.0} |");
    }
}

/// Prints how long it takes until another server accepts a write after the leader has been killed.
fn measure_change(mut members: Vec<Member>, database: &Database) {
    let mut times = Vec::new();
    for _ in 0..KILLS {
        let mut leader = None;
        wait_until("one leads", || {
            leader = members.iter().position(Member::leads);
            leader.is_some()
        });
        let killed = members.remove(leader.expect("one leads"));
        let before = Instant::now();
        killed.server.kill();
        wait_until("another one writes", || {
            members
                .iter()
                .any(|member| member.server.client().apply(Batch::new().new_node()).is_ok())
        });
        times.push(before.elapsed());
        members.push(Member::start_in(killed.folder, &["--follow", &database.url()]));
    }
    let (half, most) = half_and_most(times);
    println!("| from the end of a leader to the next write | 1 | | {half:.0} | {most:.0} |");
}

fn main() {
    let database = Postgres::on_disk().expect("PostgreSQL is installed").database();
    let load = fs::read_to_string("/proc/loadavg").unwrap_or_default();
    println!("{}; load average {}", database.sql("SELECT version()"), load.trim());
    println!("| case | clients | per second | p50 µs | p99 µs |");
    println!("|---|---|---|---|---|");
    let folder = Folder::new();
    let file = folder.join("file");
    measure("set, in memory alone", &Member::start(&[]));
    measure(
        "set, `--keep`",
        &Member::start(&["--keep", file.to_str().expect("the path is text")]),
    );
    let url = database.url();
    let leader = Member::start(&["--log", &url]);
    measure("set, `--log`, no follower", &leader);
    let followers = vec![Member::start(&["--follow", &url]), Member::start(&["--follow", &url])];
    measure("set, `--log`, two followers", &leader);
    measure_lag(&leader, &followers);
    measure_change(followers.into_iter().chain([leader]).collect(), &database);
}
