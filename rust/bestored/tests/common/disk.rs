//! A small disk that fills up.

use super::Folder;
use std::cell::Cell;
use std::io::{BufRead, BufReader};
use std::path::{Path, PathBuf};
use std::process::{Child, Command, Stdio};

/// A command that mounts an in-memory file system, prints that it is mounted, and keeps the namespace until its input is closed.
const HOLD: &str = "mount -t tmpfs -o size=8m tmpfs \"$1\" && echo mounted && exec cat";

/// A command that runs a program whose files may have up to this many blocks of 512 bytes.
const LIMITED: &str = "trap '' XFSZ && ulimit -f \"$1\" && shift && exec \"$@\"";

/// A disk whose size can be changed.
#[derive(Debug)]
pub enum Disk {
    /// An in-memory file system in its own namespace. It exists for as long as the process that keeps the namespace runs.
    Mounted {
        folder: Folder,
        holder: Child,
        /// The options for `nsenter`.
        enter: Vec<String>,
    },
    /// A folder whose files may have up to this many KiB.
    Limited { folder: Folder, size: Cell<u64> },
}

impl Drop for Disk {
    fn drop(&mut self) {
        if let Disk::Mounted { holder, .. } = self {
            let _ = holder.kill();
            let _ = holder.wait();
        }
    }
}

impl Disk {
    /// Mounts a file system, if this user is allowed to: root is, and so is any user who can create a user namespace.
    pub fn mounted() -> Option<Self> {
        Self::held(&["--mount"], &[]).or_else(|| {
            let entered = ["--user", "--preserve-credentials"];
            Self::held(&["--mount", "--user", "--map-root-user"], &entered)
        })
    }

    fn held(new: &[&str], entered: &[&str]) -> Option<Self> {
        let folder = Folder::new();
        let mut holder = Command::new("unshare")
            .args(new)
            .args(["sh", "-c", HOLD, "sh"])
            .arg(folder.path())
            .stdin(Stdio::piped())
            .stdout(Stdio::piped())
            .stderr(Stdio::null())
            .spawn()
            .ok()?;
        let mut said = String::new();
        BufReader::new(holder.stdout.take()?).read_line(&mut said).ok()?;
        let mut enter = vec![format!("--target={}", holder.id()), "--mount".into()];
        enter.extend(entered.iter().map(|option| option.to_string()));
        let disk = Disk::Mounted { folder, holder, enter };
        (said == "mounted\n" && disk.run("true").status().map_or(false, |status| status.success())).then_some(disk)
    }

    /// Returns a folder whose files may have up to 8 MiB.
    pub fn limited() -> Self {
        Disk::Limited {
            folder: Folder::in_memory(),
            size: Cell::new(8 << 10),
        }
    }

    fn folder(&self) -> &Path {
        match self {
            Disk::Mounted { folder, .. } | Disk::Limited { folder, .. } => folder.path(),
        }
    }

    /// Returns a file's path as it is seen by a program that `run` starts.
    pub fn join(&self, name: &str) -> PathBuf {
        self.folder().join(name)
    }

    /// Returns a command for a program that can use this disk.
    pub fn run(&self, program: &str) -> Command {
        match self {
            Disk::Mounted { enter, .. } => {
                let mut command = Command::new("nsenter");
                command.args(enter).arg("--").arg(program);
                command
            }
            Disk::Limited { size, .. } => {
                let mut command = Command::new("sh");
                command.args(["-c", LIMITED, "sh"]);
                command.arg((2 * size.get()).to_string()).arg(program);
                command
            }
        }
    }

    fn output(&self, program: &str, arguments: &[&str]) -> String {
        let output = self.run(program).args(arguments).arg(self.folder()).output().unwrap();
        assert!(
            output.status.success(),
            "{program}: {}",
            String::from_utf8_lossy(&output.stderr)
        );
        String::from_utf8(output.stdout).unwrap()
    }

    /// Sets the size, in KiB.
    pub fn resize(&self, kib: u64) {
        match self {
            // Because the command gives the type and the source, it needn't repeat the current options.
            Disk::Mounted { .. } => {
                let options = format!("remount,size={kib}k");
                self.output("mount", &["-t", "tmpfs", "-o", &options, "tmpfs"]);
            }
            Disk::Limited { size, .. } => size.set(kib),
        }
    }

    /// Returns how many KiB the files take.
    pub fn used(&self) -> u64 {
        let said = self.output("du", &["-k", "-s"]);
        said.split_whitespace().next().unwrap().parse().unwrap()
    }

    /// Removes the files.
    pub fn clear(&self) {
        let removed = self
            .run("find")
            .arg(self.folder())
            .args(["-type", "f", "-delete"])
            .status();
        assert!(removed.unwrap().success());
    }
}
