//! Folders of files, for tests that import them.

use super::{Said, Server};
use std::collections::BTreeSet;
use std::ffi::OsStr;
use std::fs;
use std::os::unix::ffi::{OsStrExt, OsStringExt};
use std::path::{Path, PathBuf};
use std::process::{Command, Stdio};
use std::sync::atomic::{AtomicU32, Ordering};

/// A folder that is removed at the end of the test.
pub struct Folder(pub PathBuf);

impl Folder {
    pub fn new() -> Self {
        static MADE: AtomicU32 = AtomicU32::new(0);
        let number = MADE.fetch_add(1, Ordering::Relaxed);
        let path = std::env::temp_dir().join(format!("be-files-{}-{number}", std::process::id()));
        fs::create_dir(&path).unwrap();
        Self(path.canonicalize().unwrap())
    }

    /// Starts a server, and creates a folder to import. Returns `None` if the server isn't built.
    pub fn with_server() -> Option<(Server, Self)> {
        Some((Server::start()?, Self::new()))
    }

    /// Starts a server, and creates a folder with a few files. Returns `None` if the server isn't built.
    pub fn small_with_server() -> Option<(Server, Self)> {
        Some((Server::start()?, small()))
    }

    /// Like [`small_with_server`](Self::small_with_server), and imports the folder.
    pub fn imported() -> Option<(Server, Self)> {
        let (server, folder) = Self::small_with_server()?;
        server.import(&folder);
        Some((server, folder))
    }

    /// Like [`small_with_server`](Self::small_with_server), and sets an extended attribute of a file. Also returns `None` if the file system
    /// has none.
    pub fn with_extended(test: &str, name: &str, attribute: &str, value: &str) -> Option<(Server, Self)> {
        let (server, folder) = Self::small_with_server()?;
        can_set(test, &folder.path(name), attribute, value).then_some((server, folder))
    }

    pub fn path(&self, name: impl AsRef<OsStr>) -> PathBuf {
        self.0.join(name.as_ref())
    }

    /// Returns the path of one of the folder's files, as a command-line argument.
    pub fn word(&self, name: &str) -> String {
        self.path(name).to_str().unwrap().into()
    }

    /// Returns the path of the folder itself, as a command-line argument.
    pub fn all(&self) -> String {
        self.0.to_str().unwrap().into()
    }

    pub fn folder(&self, name: &str) -> PathBuf {
        let path = self.path(name);
        fs::create_dir_all(&path).unwrap();
        path
    }

    pub fn file(&self, name: &str, content: impl AsRef<[u8]>) -> PathBuf {
        let path = self.path(name);
        fs::write(&path, content).unwrap();
        path
    }

    pub fn rename(&self, from: &str, to: &str) {
        fs::rename(self.path(from), self.path(to)).unwrap();
    }

    /// Returns the paths of the folder and everything below it, as the file system reports them.
    pub fn paths(&self) -> BTreeSet<PathBuf> {
        let mut paths = BTreeSet::from([self.0.clone()]);
        let mut waiting = vec![self.0.clone()];
        while let Some(folder) = waiting.pop() {
            for entry in fs::read_dir(folder).unwrap() {
                let entry = entry.unwrap();
                if entry.file_type().unwrap().is_dir() {
                    waiting.push(entry.path());
                }
                paths.insert(entry.path());
            }
        }
        paths
    }
}

impl Drop for Folder {
    fn drop(&mut self) {
        let _ = fs::remove_dir_all(&self.0);
    }
}

/// An in-memory file system mounted over a folder.
pub struct Mount(PathBuf);

impl Mount {
    /// Mounts the file system, if this user is allowed to.
    pub fn over(folder: &Path) -> Option<Self> {
        let mut command = Command::new("mount");
        command.args(["-t", "tmpfs", "tmpfs"]).arg(folder).stderr(Stdio::null());
        let is_mounted = command.status().map_or(false, |status| status.success());
        is_mounted.then(|| Self(folder.into()))
    }
}

impl Drop for Mount {
    fn drop(&mut self) {
        let _ = Command::new("umount").arg("-l").arg(&self.0).status();
    }
}

impl Server {
    /// Imports a folder, and returns the counts: new, changed, renamed, removed.
    pub fn import(&self, folder: &Folder) -> [u64; 4] {
        let json = self.done(&["import", "--json", &folder.all()]);
        counts(&json)
    }

    /// Returns the paths of the files that a query finds.
    pub fn paths(&self, query: &str) -> BTreeSet<PathBuf> {
        let paths = self.listed(query);
        let count = paths.len();
        let set: BTreeSet<PathBuf> = paths.into_iter().collect();
        assert_eq!(set.len(), count, "a path comes twice");
        set
    }

    /// Returns the paths of the nodes that a query finds, sorted. While an import is writing, two nodes may briefly have the same path.
    pub fn listed(&self, query: &str) -> Vec<PathBuf> {
        let output = self.command(&["query", "-0", "--path", query]).output().unwrap();
        assert!(output.status.success(), "{output:?}");
        let mut paths: Vec<PathBuf> = output
            .stdout
            .split(|byte| *byte == 0)
            .map(|path| std::ffi::OsString::from_vec(path.to_vec()).into())
            .collect();
        assert_eq!(paths.pop(), Some(PathBuf::new()));
        paths.sort_unstable();
        paths
    }

    /// Returns the value of a file's attribute, as `catattr --raw` prints it.
    pub fn value(&self, name: &str, path: &Path) -> String {
        let said: Said = self
            .command(&[
                OsStr::new("catattr"),
                OsStr::new("-r"),
                OsStr::new(name),
                path.as_os_str(),
            ])
            .output()
            .unwrap()
            .into();
        assert_eq!((said.status, said.error.as_str()), (0, ""), "{name} of {path:?}");
        said.out
    }

    /// Returns how many entries the journal has.
    pub fn entries(&self) -> u64 {
        let status: serde_json::Value = serde_json::from_str(&self.done(&["status", "--json"])).unwrap();
        status["entries"].as_u64().unwrap()
    }
}

/// Returns the counts that `import --json` printed.
pub fn counts(json: &str) -> [u64; 4] {
    let read: serde_json::Value = serde_json::from_str(json).unwrap();
    ["new", "changed", "renamed", "removed"].map(|name| read[name].as_u64().unwrap())
}

/// Creates a folder with a few files.
pub fn small() -> Folder {
    let folder = Folder::new();
    folder.folder("a/b");
    folder.file("a/x.txt", "hello");
    folder.file("a/b/y.h", "int y;");
    folder.file("z", "no extension\n");
    folder
}

/// Sets an extended attribute. If the file system has none, prints that the test is skipped, and returns `false`.
pub fn can_set(test: &str, file: &Path, name: &str, value: &str) -> bool {
    let set = xattr::set(file, name, value.as_bytes());
    if let Err(error) = &set {
        println!("be, {test}: skipped, {error}");
    }
    set.is_ok()
}

/// Returns the number of a file's node.
pub fn node_of(server: &Server, folder: &Folder, name: &str) -> u64 {
    let printed = server.done(&["listattr", "--json", &folder.word(name)]);
    let read: serde_json::Value = serde_json::from_str(&printed).unwrap();
    read["node"].as_u64().unwrap()
}

/// Returns a name that isn't UTF-8.
pub fn name_of_bytes(bytes: &[u8]) -> &OsStr {
    OsStr::from_bytes(bytes)
}
