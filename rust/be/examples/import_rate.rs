//! Measures how long `be import` takes for a folder, compared with inserting the same attributes into an SQLite table, and how soon `be
//! import --follow` has written a change.
//!
//! `cargo build --release && cargo run --release -p be --example import_rate [FOLDER]`. The default folder is /usr/share. Rows are printed
//! in the form that docs/MEASURED.md uses.

use bestore_client::{Client, Query};
use bestore_types::Value;
use std::collections::BTreeSet;
use std::path::{Path, PathBuf};
use std::process::{Child, Command, Stdio};
use std::time::{Duration, Instant};
use std::{env, fs, thread};

type Result<T> = std::result::Result<T, Box<dyn std::error::Error>>;

/// How many times to make each change to a followed folder.
const ROUNDS: usize = 30;
const COLUMNS: [&str; 8] = [
    "name",
    "size",
    "last_modified",
    "created",
    "BEOS:TYPE",
    "FILE:parent",
    "FILE:stat",
    "FILE:root",
];

/// A server with its own folder. Dropping this stops the server and removes the folder.
struct Server {
    child: Child,
    folder: PathBuf,
}

impl Server {
    fn start(kept: bool) -> Result<Self> {
        let folder = env::temp_dir().join(format!("be-import-rate-{}-{kept}", std::process::id()));
        fs::create_dir(&folder)?;
        let mut command = Command::new(program("bestored")?);
        command
            .arg("--socket")
            .arg(folder.join("socket"))
            .args(["--pages", "1048576"]);
        if kept {
            command.arg("--keep").arg(folder.join("kept")).args(["--every", "1000"]);
        }
        let server = Self {
            child: command.spawn()?,
            folder,
        };
        while Client::connect(server.socket()).is_err() {
            thread::sleep(Duration::from_millis(5));
        }
        Ok(server)
    }

    fn socket(&self) -> PathBuf {
        self.folder.join("socket")
    }

    fn be(&self, words: &[&str]) -> Result<Command> {
        let mut command = Command::new(program("be")?);
        command.env("BESTORE_SOCKET", self.socket()).args(words);
        Ok(command)
    }

    /// Imports the folder. Returns how many seconds this took, and the counts as JSON.
    fn import(&self, folder: &str) -> Result<(f64, serde_json::Value)> {
        let begun = Instant::now();
        let output = self
            .be(&["import", "--json", folder])?
            .stderr(Stdio::inherit())
            .output()?;
        let seconds = begun.elapsed().as_secs_f64();
        Ok((seconds, serde_json::from_slice(&output.stdout)?))
    }
}

impl Drop for Server {
    fn drop(&mut self) {
        let _ = self.child.kill();
        let _ = self.child.wait();
        let _ = fs::remove_dir_all(&self.folder);
    }
}

/// Returns the path of a program that cargo has built next to this one.
fn program(name: &str) -> Result<PathBuf> {
    let here = env::current_exe()?;
    let folder = here
        .parent()
        .and_then(Path::parent)
        .ok_or("there is no folder of programs")?;
    Ok(folder.join(name))
}

/// Returns the paths that `find` prints.
fn find(folder: &str, words: &[&str]) -> Result<BTreeSet<Vec<u8>>> {
    let output = Command::new("find").arg(folder).args(words).arg("-print0").output()?;
    Ok(split(&output.stdout))
}

fn split(list: &[u8]) -> BTreeSet<Vec<u8>> {
    let paths = list.split(|byte| *byte == 0).filter(|path| !path.is_empty());
    paths.map(<[u8]>::to_vec).collect()
}

/// Checks that queries return the same files as `find`.
fn compare(server: &Server, folder: &str) -> Result<()> {
    for (query, words) in [
        ("name==*", &[][..]),
        (
            "name==\"*.png\" && size>=5000",
            &["-name", "*.png", "-type", "f", "-size", "+4999c"],
        ),
        ("BEOS:TYPE==inode/directory", &["-type", "d"]),
        ("BEOS:TYPE==inode/symlink", &["-type", "l"]),
        ("size>=1000000", &["-type", "f", "-size", "+999999c"]),
        (
            "name==\"[A-C]*\" && size<100 && size>0",
            &["-name", "[A-C]*", "-type", "f", "-size", "-100c", "-not", "-empty"],
        ),
    ] {
        let begun = Instant::now();
        let output = server.be(&["query", "-0", "--path", query])?.output()?;
        let seconds = begun.elapsed().as_secs_f64();
        let (found, wanted) = (split(&output.stdout), find(folder, words)?);
        let same = if found == wanted {
            "the same as find"
        } else {
            "NOT the same as find"
        };
        println!("| `{query}` | {} files in {seconds:.2} s, {same} |", found.len());
    }
    Ok(())
}

/// A file's row in the SQLite table.
type Row = Vec<Option<Value>>;

/// Reads the attributes of all files from the store.
fn rows(server: &Server) -> Result<Vec<(u64, Row)>> {
    let mut client = Client::connect(server.socket())?;
    let mut query = Query {
        text: "name==*",
        columns: &COLUMNS,
        ..Query::default()
    };
    let mut all = Vec::new();
    loop {
        let page = client.hits(query)?;
        let rows = page.rows.unwrap_or_default().into_iter();
        let rows = rows.map(|row| row.into_iter().map(|value| value.map(|json| json.0)).collect());
        all.extend(page.nodes.unwrap_or_default().into_iter().zip(rows));
        match page.more {
            Some(from) => query.from = from,
            None => return Ok(all),
        }
    }
}

/// Measures how long SQLite takes to insert the rows in one transaction, with an index for each attribute that is indexed in the store.
fn sqlite(rows: &[(u64, Row)], file: Option<&Path>) -> Result<f64> {
    let mut base = match file {
        Some(file) => rusqlite::Connection::open(file)?,
        None => rusqlite::Connection::open_in_memory()?,
    };
    let begun = Instant::now();
    let work = base.transaction()?;
    work.execute_batch(
        "CREATE TABLE files (node INTEGER PRIMARY KEY, name, size, last_modified, created, type, parent, stat, root);
         CREATE INDEX names ON files (name); CREATE INDEX sizes ON files (size);
         CREATE INDEX times ON files (last_modified); CREATE INDEX types ON files (type);",
    )?;
    let mut insert = work.prepare("INSERT INTO files VALUES (?, ?, ?, ?, ?, ?, ?, ?, ?)")?;
    for (node, row) in rows {
        insert.raw_bind_parameter(1, i64::try_from(*node)?)?;
        for (at, value) in (2..).zip(row) {
            match value {
                Some(Value::Int64(number)) => insert.raw_bind_parameter(at, number)?,
                Some(value) => insert.raw_bind_parameter(at, value.as_str())?,
                None => insert.raw_bind_parameter(at, rusqlite::types::Null)?,
            }
        }
        insert.raw_execute()?;
    }
    drop(insert);
    work.commit()?;
    Ok(begun.elapsed().as_secs_f64())
}

fn shown(what: &str, (seconds, counts): &(f64, serde_json::Value)) {
    let files = counts["files"].as_f64().unwrap_or(0.0);
    let of = |name: &str| counts[name].as_u64().unwrap_or(0);
    let pages = of("used") as f64;
    println!(
        "| {what} | {files} files, {} new, {} omitted, in {seconds:.2} s ({:.0} files per second); {:.2} files per page |",
        of("new"),
        of("left"),
        files / seconds,
        files / pages
    );
}

/// Returns how many milliseconds pass until the query finds this many files.
fn until(client: &mut Client, query: &str, count: u64) -> Result<u128> {
    let begun = Instant::now();
    while client.count(query)? != count {
        thread::sleep(Duration::from_millis(2));
    }
    Ok(begun.elapsed().as_millis())
}

/// Creates, changes, renames and removes a file in a followed folder, and returns how long each change took to appear.
fn change_file(client: &mut Client, folder: &Path, round: usize) -> Result<[u128; 4]> {
    let (name, other) = (format!("round-{round}"), format!("other-{round}"));
    let size = 7_000_000 + round;
    fs::write(folder.join(&name), "new")?;
    let new = until(client, &format!("name=={name}"), 1)?;
    fs::write(folder.join(&name), vec![b'x'; size])?;
    let changed = until(client, &format!("name=={name} && size=={size}"), 1)?;
    fs::rename(folder.join(&name), folder.join(&other))?;
    let renamed = until(client, &format!("name=={other}"), 1)?;
    fs::remove_file(folder.join(&other))?;
    let removed = until(client, &format!("name=={other}"), 0)?;
    Ok([new, changed, renamed, removed])
}

/// Measures how long it takes until a change made in a followed folder is in the store.
fn follow(server: &Server) -> Result<()> {
    let folder = server.folder.join("followed");
    fs::create_dir(&folder)?;
    let mut command = server.be(&["import", "--follow", &folder.to_string_lossy()])?;
    let mut follower = command.stdout(Stdio::null()).spawn()?;
    let mut client = Client::connect(server.socket())?;
    until(&mut client, "name==followed", 1)?;
    thread::sleep(Duration::from_millis(500));
    let times: Vec<[u128; 4]> = (0..ROUNDS)
        .map(|round| change_file(&mut client, &folder, round))
        .collect::<Result<_>>()?;
    follower.kill()?;
    follower.wait()?;
    for (at, what) in ["new", "changed", "renamed", "removed"].iter().enumerate() {
        let mut times: Vec<u128> = times.iter().map(|times| times[at]).collect();
        times.sort_unstable();
        println!(
            "| following a {what} file | {} ms, at most {} ms ({ROUNDS} files) |",
            times[ROUNDS / 2],
            times[ROUNDS - 1]
        );
    }
    Ok(())
}

fn main() -> Result<()> {
    let folder = env::args().nth(1).unwrap_or_else(|| "/usr/share".into());
    let count = find(&folder, &[])?.len();
    println!("| {folder} | {count} files found by find |");
    let server = Server::start(false)?;
    shown("first import, in memory", &server.import(&folder)?);
    shown("second import, with nothing new", &server.import(&folder)?);
    compare(&server, &folder)?;
    let rows = rows(&server)?;
    follow(&server)?;
    drop(server);
    let kept = Server::start(true)?;
    shown("first import, kept with --every 1000", &kept.import(&folder)?);
    println!(
        "| inserting the same attributes into SQLite, in one transaction, in memory | {} rows in {:.2} s |",
        rows.len(),
        sqlite(&rows, None)?
    );
    let file = kept.folder.join("sqlite");
    println!(
        "| the same, in a file | {} rows in {:.2} s |",
        rows.len(),
        sqlite(&rows, Some(&file))?
    );
    Ok(())
}
