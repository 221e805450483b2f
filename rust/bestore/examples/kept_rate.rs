//! Measures how fast a kept store writes, compared with rusqlite, and how fast it opens. Needs the feature `saved`.
//!
//! `cargo run --release -p bestore --features saved --example kept_rate -- FOLDER [ROUNDS]`. The folder must be on a disk, because in
//! memory no commit would have to wait. The cases take turns for several rounds, and the table shows the medians.

use bestore::{saved, Batch, Kind, Limits};
use rusqlite::Connection;
use std::error::Error;
use std::fs;
use std::path::Path;
use std::sync::{Barrier, Mutex};
use std::thread;
use std::time::{Duration, Instant};

const FILES: u64 = 15_000;
const TIME: Duration = Duration::from_millis(500);
const ROUNDS: usize = 7;

type Outcome<T> = Result<T, Box<dyn Error>>;
type Write<'a> = Box<dyn FnMut(i64) + Send + 'a>;

/// Measures how many writes per second these threads perform.
fn rate(writes: Vec<Write<'_>>) -> f64 {
    let start = Barrier::new(writes.len());
    let begin = |mut write: Write<'_>| {
        write(0);
        start.wait();
        let (until, mut count) = (Instant::now() + TIME, 0);
        while Instant::now() < until {
            count += 1;
            write(count);
        }
        count
    };
    let before = Instant::now();
    let counts: Vec<i64> = thread::scope(|scope| {
        let begin = &begin;
        let running: Vec<_> = writes
            .into_iter()
            .map(|write| scope.spawn(move || begin(write)))
            .collect();
        let ended = running.into_iter().map(|writer| writer.join().expect("a writer ends"));
        ended.collect()
    });
    counts.iter().sum::<i64>() as f64 / before.elapsed().as_secs_f64()
}

fn kept(path: &Path, writers: usize) -> Outcome<f64> {
    let store = saved::open(path)?;
    store.pass()?.new_node()?;
    let mut writes: Vec<Write<'_>> = Vec::new();
    for _ in 0..writers {
        let pass = store.pass()?;
        writes.push(Box::new(move |count| {
            pass.set(1, "size", count).expect("a write is saved");
        }));
    }
    Ok(rate(writes))
}

fn connected(path: &Path, is_exclusive: bool) -> rusqlite::Result<Connection> {
    let connection = Connection::open(path)?;
    connection.busy_timeout(Duration::from_secs(600))?;
    if is_exclusive {
        connection.pragma_update(None, "locking_mode", "EXCLUSIVE")?;
    }
    connection.execute_batch(
        "PRAGMA journal_mode = WAL; PRAGMA synchronous = FULL;
        CREATE TABLE IF NOT EXISTS entry (number INTEGER PRIMARY KEY, pass INTEGER NOT NULL, batch BLOB NOT NULL)",
    )?;
    Ok(connection)
}

/// Inserts a row as long as one of the kept store's entries.
fn insert(connection: &Connection) {
    let insert = connection.prepare_cached("INSERT INTO entry (pass, batch) VALUES (?, ?)");
    let inserted = insert.and_then(|mut insert| insert.execute((1_i64, &[0_u8; 31][..])));
    inserted.expect("a row is inserted");
}

/// All threads share one connection and wait for its lock.
fn shared(path: &Path, writers: usize, is_exclusive: bool) -> Outcome<f64> {
    let connection = Mutex::new(connected(path, is_exclusive)?);
    let write = || -> Write<'_> { Box::new(|_| insert(&connection.lock().expect("no writer panics"))) };
    Ok(rate((0..writers).map(|_| write()).collect()))
}

/// Each thread has its own connection and waits while another one is writing.
fn each(path: &Path, writers: usize) -> Outcome<f64> {
    let mut writes: Vec<Write<'_>> = Vec::new();
    for _ in 0..writers {
        let connection = connected(path, false)?;
        writes.push(Box::new(move |_| insert(&connection)));
    }
    Ok(rate(writes))
}

struct Case {
    name: &'static str,
    writers: usize,
    run: fn(&Path, usize) -> Outcome<f64>,
    found: Vec<f64>,
}

/// The cases. The kept store comes before those with which it is compared.
fn cases() -> Vec<Case> {
    let case = |name, writers, run| Case {
        name,
        writers,
        run,
        found: Vec::new(),
    };
    vec![
        case("kept store", 1, kept),
        case("rusqlite", 1, |path, writers| shared(path, writers, false)),
        case("rusqlite, `EXCLUSIVE`", 1, |path, writers| shared(path, writers, true)),
        case("kept store", 8, kept),
        case("rusqlite, a connection per thread", 8, each),
        case("rusqlite, one connection and a lock", 8, |path, writers| {
            shared(path, writers, false)
        }),
        case("the same, `EXCLUSIVE`", 8, |path, writers| shared(path, writers, true)),
    ]
}

fn median(values: &mut [f64]) -> f64 {
    values.sort_by(f64::total_cmp);
    values[values.len() / 2]
}

fn measure(folder: &Path, rounds: usize) -> Outcome<()> {
    let mut cases = cases();
    for _ in 0..rounds {
        for case in &mut cases {
            let inner = folder.join("case");
            fs::create_dir(&inner)?;
            case.found.push((case.run)(&inner.join("file"), case.writers)?);
            fs::remove_dir_all(inner)?;
        }
    }
    println!("| from Rust | writers | writes per second | lowest to highest | the kept store's speedup |");
    println!("|---|---|---|---|---|");
    let mut own = 0.0;
    for case in &mut cases {
        let middle = median(&mut case.found);
        let is_own = case.name == "kept store";
        own = if is_own { middle } else { own };
        let beside = if is_own {
            String::new()
        } else {
            format!("{:.2}", own / middle)
        };
        let (least, most) = (case.found[0], case.found[case.found.len() - 1]);
        println!(
            "| {} | {} | {middle:.0} | {least:.0} to {most:.0} | {beside} |",
            case.name, case.writers
        );
    }
    Ok(())
}

/// Creates ten files with five attributes each, as nodes with this number and the following ones.
fn file_batch(first: u64) -> Batch {
    let mut batch = Batch::new();
    for node in first..first + 10 {
        batch.new_node().set(node, "name", format!("file{node:05}.txt"));
        batch
            .set(node, "size", (node * 7) as i64)
            .set(node, "when", 1_700_000_000 + node as i64);
        batch
            .set(node, "kind", "text/plain")
            .set(node, "path", format!("/home/x/{node}"));
    }
    batch
}

fn measure_opening(folder: &Path, rounds: usize) -> Outcome<()> {
    let path = folder.join("files");
    let mut options = saved::Options::new();
    options.limits(Limits {
        pages: 16_384,
        ..Limits::default()
    });
    {
        let store = options.clone().every(Duration::from_secs(3600)).open(&path)?;
        let pass = store.pass()?;
        pass.make_index("name", Kind::Text)?;
        pass.make_index("size", Kind::Int64)?;
        pass.make_index("when", Kind::Int64)?;
        for first in (1..=FILES).step_by(10) {
            pass.apply(&file_batch(first))?;
        }
        store.close()?;
    }
    let open = || -> Outcome<f64> {
        let before = Instant::now();
        let store = options.open(&path)?;
        let taken = before.elapsed().as_secs_f64();
        store.close()?;
        Ok(taken)
    };
    let from_entries = open()?;
    let mut from_state = (0..rounds).map(|_| open()).collect::<Outcome<Vec<_>>>()?;
    println!("\n| opening {FILES} files of 5 attributes, 3 indexed, from Rust | seconds |");
    println!("|---|---|");
    println!(
        "| from {} entries, then writing the state | {from_entries:.2} |",
        FILES / 10
    );
    println!("| from the state | {:.2} |", median(&mut from_state));
    Ok(())
}

fn main() -> Outcome<()> {
    let mut arguments = std::env::args_os().skip(1);
    let folder = arguments.next().ok_or("usage: kept_rate FOLDER [ROUNDS]")?;
    let rounds = match arguments.next() {
        Some(rounds) => rounds.to_string_lossy().parse()?,
        None => ROUNDS,
    };
    let folder = Path::new(&folder).join(format!("bestore-kept-{}", std::process::id()));
    fs::create_dir(&folder)?;
    let measured = measure(&folder, rounds).and_then(|()| measure_opening(&folder, rounds));
    fs::remove_dir_all(&folder)?;
    println!(
        "\nMedians of {rounds} rounds, in which the cases took turns of {TIME:?}; SQLite {}.",
        rusqlite::version()
    );
    measured
}
