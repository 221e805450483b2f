//! A test's PostgreSQL server, in a folder of its own.

use super::{wait_until, Folder};
use std::fs;
use std::net::TcpListener;
use std::os::unix::process::CommandExt;
use std::path::{Path, PathBuf};
use std::process::{Child, Command, Stdio};
use std::sync::atomic::{AtomicU32, Ordering};
use std::sync::{Arc, Mutex, PoisonError, Weak};

/// The options that every database server gets.
const OPTIONS: [&str; 5] = [
    "listen_addresses=127.0.0.1",
    "max_connections=100",
    "shared_buffers=32MB",
    "log_min_messages=fatal",
    "max_wal_size=64MB",
];

/// A database server, which is stopped when the tests end.
#[derive(Debug)]
pub struct Postgres {
    child: Mutex<Option<Child>>,
    folder: Folder,
    programs: PathBuf,
    user: Option<(u32, u32)>,
    pub port: u16,
    fsync: &'static str,
}

impl Drop for Postgres {
    fn drop(&mut self) {
        self.end("QUIT");
    }
}

/// Returns the folder of the latest installed version.
fn programs() -> Option<PathBuf> {
    let versions = fs::read_dir("/usr/lib/postgresql").ok()?;
    let programs = versions.flatten().map(|version| version.path().join("bin"));
    let mut programs: Vec<_> = programs.filter(|folder| folder.join("initdb").exists()).collect();
    programs.sort();
    programs.pop()
}

/// If the tests run as root, returns another user to run PostgreSQL as, since PostgreSQL refuses to run as root.
fn other_user() -> Option<(u32, u32)> {
    let status = fs::read_to_string("/proc/self/status").ok()?;
    let ids = status.lines().find_map(|line| line.strip_prefix("Uid:"))?;
    if ids.split_whitespace().nth(1) != Some("0") {
        return None;
    }
    let users = fs::read_to_string("/etc/passwd").ok()?;
    let id_of = |name: &str| {
        let line = users.lines().find(|line| line.split(':').next() == Some(name))?;
        let mut ids = line.split(':').skip(2).map(|id| id.parse().ok());
        Some((ids.next()??, ids.next()??))
    };
    id_of("postgres").or_else(|| id_of("nobody"))
}

/// Returns a port that nobody is listening on.
fn free_port() -> u16 {
    let listener = TcpListener::bind("127.0.0.1:0").unwrap();
    listener.local_addr().unwrap().port()
}

impl Postgres {
    /// Starts a server in memory. Tests kill only the server and never the machine, so nothing needs to be on a disk. Returns
    /// `None` if PostgreSQL isn't installed.
    pub fn start() -> Option<Arc<Self>> {
        Self::start_in(Folder::in_memory(), "fsync=off")
    }

    /// Starts a server that writes to the disk.
    pub fn on_disk() -> Option<Arc<Self>> {
        Self::start_in(Folder::new(), "fsync=on")
    }

    /// Returns the server that all running tests share, and starts it if necessary.
    pub fn shared() -> Option<Arc<Self>> {
        static SHARED: Mutex<Option<Weak<Postgres>>> = Mutex::new(None);
        let mut shared = SHARED.lock().unwrap_or_else(PoisonError::into_inner);
        if let Some(running) = shared.as_ref().and_then(Weak::upgrade) {
            return Some(running);
        }
        let started = Self::start()?;
        *shared = Some(Arc::downgrade(&started));
        Some(started)
    }

    fn start_in(folder: Folder, fsync: &'static str) -> Option<Arc<Self>> {
        let postgres = Self {
            child: Mutex::new(None),
            folder,
            programs: programs()?,
            user: other_user(),
            port: free_port(),
            fsync,
        };
        if let Some((user, group)) = postgres.user {
            let owner = format!("{user}:{group}");
            let changed = Command::new("chown").arg(owner).arg(postgres.path()).status();
            assert!(changed.unwrap().success());
        }
        let mut initdb = postgres.command("initdb");
        initdb.args([
            "--no-sync",
            "--username=bestore",
            "--auth=trust",
            "--encoding=UTF8",
            "--locale=C",
            "-D",
        ]);
        let made = initdb.arg(postgres.data()).stdout(Stdio::null()).output().unwrap();
        assert!(made.status.success(), "{}", String::from_utf8_lossy(&made.stderr));
        postgres.begin();
        Some(Arc::new(postgres))
    }

    /// From now on, requires a password from this role over TCP.
    pub fn ask_for_password(&self, role: &str) {
        let path = self.data().join("pg_hba.conf");
        let rules = fs::read_to_string(&path).unwrap();
        fs::write(path, format!("host all {role} 127.0.0.1/32 scram-sha-256\n{rules}")).unwrap();
        self.sql("postgres", "SELECT pg_reload_conf()");
    }

    /// Creates a database.
    pub fn database(self: &Arc<Self>) -> Database {
        self.database_in("UTF8")
    }

    /// Creates a database with this encoding.
    pub fn database_in(self: &Arc<Self>, encoding: &str) -> Database {
        static LAST: AtomicU32 = AtomicU32::new(0);
        let name = format!("test{}", LAST.fetch_add(1, Ordering::Relaxed));
        let sql = format!("CREATE DATABASE {name} ENCODING '{encoding}' TEMPLATE template0");
        self.sql("postgres", &sql);
        Database {
            postgres: self.clone(),
            name,
        }
    }

    fn path(&self) -> &Path {
        self.folder.path()
    }

    fn data(&self) -> PathBuf {
        self.folder.join("data")
    }

    fn command(&self, program: &str) -> Command {
        let mut command = Command::new(self.programs.join(program));
        command.current_dir("/");
        command.env("PGPORT", self.port.to_string());
        if let Some((user, group)) = self.user {
            command.uid(user).gid(group);
        }
        command
    }

    /// Starts the server, and waits until it accepts connections.
    pub fn begin(&self) {
        let mut command = self.command("postgres");
        command.arg("-D").arg(self.data()).arg("-k").arg(self.path());
        command.args(OPTIONS.iter().chain([&self.fsync]).flat_map(|option| ["-c", option]));
        let child = command.stdin(Stdio::null()).stderr(Stdio::null()).spawn().unwrap();
        *self.child.lock().unwrap() = Some(child);
        wait_until("PostgreSQL takes connections", || {
            let mut ready = self.command("pg_isready");
            ready.arg("-q").arg("-h").arg(self.path()).status().unwrap().success()
        });
    }

    /// Shuts the server down with a signal. INT rolls its sessions back, and QUIT acts like a crash.
    pub fn end(&self, signal: &str) {
        if let Some(mut child) = self.child.lock().unwrap().take() {
            let number = child.id().to_string();
            let _ = Command::new("kill").args(["-s", signal, &number]).status();
            let _ = child.wait();
        }
    }

    #[track_caller]
    fn sql(&self, database: &str, statements: &str) -> String {
        let mut command = self.command("psql");
        command.args([
            "-X",
            "-q",
            "-A",
            "-t",
            "-v",
            "ON_ERROR_STOP=1",
            "-U",
            "bestore",
            "-d",
            database,
            "-h",
        ]);
        let output = command.arg(self.path()).args(["-c", statements]).output().unwrap();
        assert!(output.status.success(), "{}", String::from_utf8_lossy(&output.stderr));
        String::from_utf8(output.stdout).unwrap().trim().to_owned()
    }
}

/// A test's database.
#[derive(Debug)]
pub struct Database {
    pub postgres: Arc<Postgres>,
    name: String,
}

impl Database {
    /// Returns the database's URL over a Unix socket.
    pub fn url(&self) -> String {
        let (folder, port) = (self.postgres.path().display(), self.postgres.port);
        format!("postgresql:///{}?user=bestore&host={folder}&port={port}", self.name)
    }

    /// Returns the database's URL over TCP.
    pub fn url_of_tcp(&self) -> String {
        self.url_at(self.postgres.port)
    }

    /// Returns the database's URL over TCP for this role.
    pub fn url_of(&self, role: &str) -> String {
        format!("postgresql://{role}@127.0.0.1:{}/{}", self.postgres.port, self.name)
    }

    /// Returns the database's URL through the listener on this port.
    pub fn url_at(&self, port: u16) -> String {
        format!("postgresql://bestore@127.0.0.1:{port}/{}", self.name)
    }

    /// Runs statements, and returns the rows of the last one, with `|` between columns.
    #[track_caller]
    pub fn sql(&self, statements: &str) -> String {
        self.postgres.sql(&self.name, statements)
    }
}
