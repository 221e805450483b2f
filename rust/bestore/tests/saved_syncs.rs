//! Counts how often a kept store waits for its disk: at least once for each commit, whatever the commit saves.
#![cfg(feature = "saved")]

mod common;

use bestore::saved::{self, Saved};
use common::{preload, Folder};
use std::env;
use std::fs::{self, File};
use std::path::Path;
use std::process::Command;

/// A library to preload. For each call that waits until a file's data is on the disk, it adds a byte to a file.
const LIBRARY: &str = r#"
#include <fcntl.h>
#include <stdlib.h>
#include <sys/syscall.h>
#include <unistd.h>

static int sync_by(long call, int file)
{
    int counter = open(getenv("BESTORE_TEST_SYNCS"), O_WRONLY | O_APPEND | O_CREAT, 0600);
    if (counter < 0 || write(counter, "", 1) != 1)
        abort();
    close(counter);
    return (int)syscall(call, file);
}

int fsync(int file) { return sync_by(SYS_fsync, file); }
int fdatasync(int file) { return sync_by(SYS_fdatasync, file); }
"#;

/// The file to which the library adds bytes, and the folder of the child process, another run of this test program.
const SYNCS: &str = "BESTORE_TEST_SYNCS";
const CHILD: &str = "BESTORE_TEST_CHILD";

/// How many writes a commit saves.
const WRITES: [u64; 5] = [1, 2, 64, 65, 100];

/// Runs the call, and returns how often it has waited for the disk.
fn counted(call: impl FnOnce()) -> u64 {
    let syncs = || fs::metadata(env::var_os(SYNCS).unwrap()).map_or(0, |file| file.len());
    let before = syncs();
    call();
    syncs() - before
}

fn write(saved: &Saved) {
    saved.pass().unwrap().new_node().unwrap();
}

/// Does nothing in the test program itself.
#[test]
fn in_a_child() {
    let folder = match env::var_os(CHILD) {
        Some(folder) => Folder(folder.into()),
        None => return,
    };
    let other = File::create(folder.0.join("other")).unwrap();
    if counted(|| other.sync_data().unwrap()) != 1 {
        return println!("syncs of a kept store: skipped, the preloaded library counts nothing");
    }
    each_write_waits(&folder.file());
    each_flush_waits(&folder);
}

fn each_write_waits(path: &Path) {
    let saved = saved::open(path).unwrap();
    for index in 0..10 {
        assert_ne!(counted(|| write(&saved)), 0, "write {index}");
    }
    saved.close().unwrap();
}

fn each_flush_waits(folder: &Folder) {
    let saved = folder.open_lazily(256);
    for writes in WRITES {
        let syncs = counted(|| {
            (0..writes).for_each(|_| write(&saved));
            saved.flush().unwrap();
        });
        assert_ne!(syncs, 0, "a commit of {writes}");
    }
    write(&saved);
    assert_ne!(counted(|| saved.compact().unwrap()), 0, "a state");
    write(&saved);
    assert_ne!(counted(|| saved.close().unwrap()), 0, "a close");
}

#[test]
fn each_commit_waits_for_the_disk() {
    let folder = Folder::new("syncs");
    let library = match preload::compile(&folder.0, LIBRARY, "syncs of a kept store") {
        Some(library) => library,
        None => return,
    };
    let child = Command::new(env::current_exe().unwrap())
        .args(["--exact", "in_a_child", "--nocapture"])
        .env("LD_PRELOAD", library)
        .env(SYNCS, folder.0.join("syncs"))
        .env(CHILD, &folder.0)
        .output()
        .unwrap();
    let said = String::from_utf8_lossy(&child.stdout);
    said.lines()
        .filter(|line| line.contains("skipped"))
        .for_each(|line| println!("{line}"));
    assert!(child.status.success(), "{}", String::from_utf8_lossy(&child.stderr));
}
