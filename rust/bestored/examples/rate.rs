//! Measures how many requests per second bestored answers through its socket. If redis-server is installed, measures it too, for
//! comparison.
//!
//! Run it with `cargo build --release && cargo run --release --example rate`. Each client is a thread that sends a request and
//! waits for the reply. In each case, the servers take turns for several rounds, and the best round counts.

use std::fs;
use std::io::{Read, Write};
use std::os::unix::net::UnixStream;
use std::path::{Path, PathBuf};
use std::process::{Child, Command, Stdio};
use std::thread;
use std::time::{Duration, Instant};

const NODES: u64 = 10_000;
const ROUNDS: usize = 3;
const TIME: Duration = Duration::from_millis(700);
const CLIENTS: [usize; 3] = [1, 8, 32];
const VALUE: &str = "Ada Lovelace <ada@example.org>";

/// A server, which is killed when it is dropped.
struct Server {
    child: Child,
    socket: PathBuf,
}

impl Drop for Server {
    fn drop(&mut self) {
        let _ = self.child.kill();
        let _ = self.child.wait();
    }
}

impl Server {
    fn start(command: &mut Command, socket: &Path) -> Option<Self> {
        let child = command.stdout(Stdio::null()).spawn().ok()?;
        let server = Self {
            child,
            socket: socket.into(),
        };
        for _ in 0..1000 {
            if UnixStream::connect(socket).is_ok() {
                return Some(server);
            }
            thread::sleep(Duration::from_millis(5));
        }
        None
    }
}

/// A kind of request: the number of lines in its reply, and a function that writes the request with a given number.
struct Case {
    name: &'static str,
    lines: usize,
    request: fn(u64, &mut Vec<u8>),
}

fn put(to: &mut Vec<u8>, text: std::fmt::Arguments<'_>) {
    to.clear();
    to.write_fmt(text).expect("memory can hold what is written");
}

/// Writes a Redis command with a key and an optional value.
fn redis(to: &mut Vec<u8>, command: &str, key: u64, value: Option<&str>) {
    let key = format!("node:{key}");
    put(
        to,
        format_args!("*{}\r\n$3\r\n{command}\r\n", 2 + usize::from(value.is_some())),
    );
    for part in [Some(&*key), value].into_iter().flatten() {
        to.extend_from_slice(format!("${}\r\n{part}\r\n", part.len()).as_bytes());
    }
}

const OURS: [Case; 3] = [
    Case {
        name: "get",
        lines: 1,
        request: |at, to| {
            put(
                to,
                format_args!("{{\"id\":1,\"get\":{{\"node\":{},\"name\":\"name\"}}}}\n", at + 1),
            )
        },
    },
    Case {
        name: "set",
        lines: 1,
        request: |at, to| {
            let node = at + 1;
            put(
                to,
                format_args!("{{\"id\":1,\"batch\":{{\"operations\":[[\"set\",{node},\"name\",\"{VALUE}\"]]}}}}\n"),
            );
        },
    },
    Case {
        name: "query of 100 nodes",
        lines: 1,
        request: |at, to| {
            let from = at % (NODES - 100);
            let until = from + 100;
            put(
                to,
                format_args!("{{\"id\":1,\"query\":{{\"query\":\"size>={from} && size<{until}\"}}}}\n"),
            );
        },
    },
];

const REDIS: [Case; 2] = [
    Case {
        name: "get",
        lines: 2,
        request: |at, to| redis(to, "GET", at, None),
    },
    Case {
        name: "set",
        lines: 1,
        request: |at, to| redis(to, "SET", at, Some(VALUE)),
    },
];

/// A connection, with buffers for requests and replies.
struct Client {
    stream: UnixStream,
    request: Vec<u8>,
    reply: Vec<u8>,
}

impl Client {
    fn connect(socket: &Path) -> Self {
        Self {
            stream: UnixStream::connect(socket).expect("the server listens"),
            request: Vec::new(),
            reply: vec![0; 1 << 16],
        }
    }

    fn ask(&mut self, case: &Case, at: u64) {
        (case.request)(at, &mut self.request);
        self.stream.write_all(&self.request).expect("the server reads");
        let mut ends = 0;
        while ends < case.lines {
            let count = self.stream.read(&mut self.reply).expect("the server answers");
            assert!(count > 0, "the server has ended");
            let reply = &self.reply[..count];
            assert!(!reply.starts_with(b"-") && !reply.windows(8).any(|part| part == b"\"error\":"));
            ends += reply.iter().filter(|byte| **byte == b'\n').count();
        }
    }
}

/// Returns how long each request took. Each client sends its requests one after another.
fn run(socket: &Path, case: &Case, clients: usize) -> Vec<u32> {
    thread::scope(|scope| {
        let running: Vec<_> = (0..clients)
            .map(|client| {
                scope.spawn(move || {
                    let mut connection = Client::connect(socket);
                    connection.ask(case, 0);
                    let (mut times, mut at) = (Vec::new(), client as u64 * 7919);
                    let until = Instant::now() + TIME;
                    let mut before = Instant::now();
                    while before < until {
                        at = (at * 31 + 17) % NODES;
                        connection.ask(case, at);
                        let now = Instant::now();
                        times.push((now - before).as_nanos() as u32);
                        before = now;
                    }
                    times
                })
            })
            .collect();
        running
            .into_iter()
            .flat_map(|client| client.join().expect("a client ends"))
            .collect()
    })
}

/// Requests per second, and the times, in microseconds, within which 50% and 99% of them finish.
#[derive(Clone, Copy, Default)]
struct Figures {
    rate: f64,
    half: f64,
    most: f64,
}

impl Figures {
    fn of(mut times: Vec<u32>) -> Self {
        times.sort_unstable();
        let at = |part: usize| f64::from(times[times.len() * part / 100]) / 1000.0;
        Self {
            rate: times.len() as f64 / TIME.as_secs_f64(),
            half: at(50),
            most: at(99),
        }
    }

    fn better(self, other: Self) -> Self {
        if self.rate > other.rate {
            self
        } else {
            other
        }
    }
}

fn fill(socket: &Path) {
    let mut client = Client::connect(socket);
    let ask = |client: &mut Client, operations: String| {
        let case = Case {
            name: "",
            lines: 1,
            request: |_, _| {},
        };
        client.request = format!("{{\"id\":1,\"batch\":{{\"operations\":[{operations}]}}}}\n").into_bytes();
        client.ask(&case, 0);
    };
    ask(&mut client, r#"["index","size","int64"]"#.into());
    for at in 0..NODES {
        let node = at + 1;
        ask(
            &mut client,
            format!(r#"["new"],["set",{node},"size",{at}],["set",{node},"name","{VALUE}"]"#),
        );
    }
}

/// Starts both servers in the folder and fills them. The second is `None` if redis-server isn't installed.
fn start(folder: &Path) -> (Server, Option<Server>) {
    let program = std::env::current_exe().expect("this program has a path");
    let program = program.ancestors().nth(2).expect("it is in examples").join("bestored");
    let socket = folder.join("bestored");
    let mut command = Command::new(program);
    command.arg("--pages=16384").arg("--socket").arg(&socket);
    let ours = Server::start(&mut command, &socket).expect("bestored starts");
    fill(&ours.socket);
    let socket = folder.join("redis");
    let options = ["--port", "0", "--save", "", "--appendonly", "no", "--unixsocket"];
    let redis = Server::start(Command::new("redis-server").args(options).arg(&socket), &socket);
    if let Some(redis) = &redis {
        let mut client = Client::connect(&redis.socket);
        (0..NODES).for_each(|at| client.ask(&REDIS[1], at));
    }
    (ours, redis)
}

/// Measures one case with this many clients, and prints a row of the table.
fn measure(case: &Case, clients: usize, ours: &Server, peer: Option<(&Server, &Case)>) {
    let (mut own, mut other) = (Figures::default(), Figures::default());
    for _ in 0..ROUNDS {
        own = own.better(Figures::of(run(&ours.socket, case, clients)));
        if let Some((server, peer)) = peer {
            other = other.better(Figures::of(run(&server.socket, peer, clients)));
        }
    }
    let shown = |figures: Figures| format!("{:.0} | {:.1} | {:.1}", figures.rate, figures.half, figures.most);
    let beside = peer.map(|_| format!("{} | {:.2}", shown(other), own.rate / other.rate));
    let beside = beside.unwrap_or_else(|| " | | |".into());
    println!("| {} | {clients} | {} | {beside} |", case.name, shown(own));
}

fn main() {
    let folder = std::env::temp_dir().join(format!("bestored-rate-{}", std::process::id()));
    fs::create_dir(&folder).expect("there is room for a folder");
    let (ours, redis) = start(&folder);
    println!(
        "| case | clients | bestored, per second | p50 µs | p99 µs | redis, per second | p50 µs | p99 µs | ratio |"
    );
    println!("|---|---|---|---|---|---|---|---|---|");
    for case in &OURS {
        let peer = redis.as_ref().zip(REDIS.iter().find(|peer| peer.name == case.name));
        for clients in CLIENTS {
            measure(case, clients, &ours, peer);
        }
    }
    drop((ours, redis));
    // If this fails, what is left is removed along with the folder for temporary files.
    let _ = fs::remove_dir_all(&folder);
}
