//! Tests of how `import --follow` handles changes.

use crate::common::files::{Folder, Mount};
use crate::common::refuser::Refuser;
use crate::common::{send_signal, Said, Server, NOBODY};
use std::fs;
use std::io::{BufRead, BufReader, Read, Write};
use std::os::unix::fs::PermissionsExt;
use std::os::unix::process::CommandExt;
use std::process::{Child, ChildStderr, ChildStdout, Command, Stdio};
use std::sync::atomic::{AtomicBool, Ordering};
use std::sync::mpsc::{channel, Receiver};
use std::thread;
use std::time::{Duration, Instant};

/// The maximum time for a change on a busy machine.
const WITHIN: Duration = Duration::from_secs(20);

/// An import that follows its folder.
struct Follower {
    child: Child,
    out: BufReader<ChildStdout>,
    /// The lines that the import writes to standard error.
    error: Receiver<String>,
}

impl Follower {
    /// Starts an import, and returns once it has read the folder.
    fn start(server: &Server, folder: &Folder) -> Self {
        Self::run(server.command(&["import", "--follow", "--json", &folder.all()]))
    }

    /// Starts the import with this command.
    fn run(mut command: Command) -> Self {
        let mut child = command.stdout(Stdio::piped()).stderr(Stdio::piped()).spawn().unwrap();
        let mut out = BufReader::new(child.stdout.take().unwrap());
        let error = lines_of(child.stderr.take().unwrap());
        let mut line = String::new();
        while !line.starts_with("{\"files\":") {
            line.clear();
            assert_ne!(out.read_line(&mut line).unwrap(), 0, "the import has ended");
        }
        Self { child, out, error }
    }

    /// Reads the import's standard error up to a line that contains these words.
    fn wait_until_it_says(&self, words: &str) {
        while !self.error.recv_timeout(WITHIN).expect(words).contains(words) {}
    }

    /// Ends the import, and returns what it has printed since reading the folder.
    fn said(mut self) -> String {
        self.child.kill().unwrap();
        let mut said = String::new();
        self.out.read_to_string(&mut said).unwrap();
        said
    }

    /// Waits until the import ends of its own accord.
    fn end(mut self) -> Said {
        let begun = Instant::now();
        while self.child.try_wait().unwrap().is_none() {
            assert!(begun.elapsed() < WITHIN, "the import doesn't end");
            thread::sleep(Duration::from_millis(10));
        }
        let error = self.error.iter().map(|line| line + "\n").collect();
        let status = self.child.wait().unwrap().code().unwrap_or(-1);
        Said {
            status,
            out: String::new(),
            error,
        }
    }
}

impl Drop for Follower {
    fn drop(&mut self) {
        let _ = self.child.kill();
        let _ = self.child.wait();
    }
}

/// Forwards each line of a process as it arrives.
fn lines_of(error: ChildStderr) -> Receiver<String> {
    let (sender, receiver) = channel();
    thread::spawn(move || {
        for line in BufReader::new(error).lines().map_while(Result::ok) {
            // The test may have stopped listening.
            let _ = sender.send(line);
        }
    });
    receiver
}

/// Waits until the condition is true, and prints how long that took.
fn soon(what: &str, is_so: impl Fn() -> bool) {
    let begun = Instant::now();
    while !is_so() {
        assert!(begun.elapsed() < WITHIN, "{what}");
        thread::sleep(Duration::from_millis(20));
    }
    println!("{what}: {} ms", begun.elapsed().as_millis());
}

fn same(server: &Server, folder: &Folder) -> bool {
    server.listed("name==\"*\"") == folder.paths().into_iter().collect::<Vec<_>>()
}

#[test]
fn what_changes_is_followed() {
    let (server, folder) = server!(Folder::with_server());
    folder.folder("a/b");
    folder.file("a/x", "x");
    let _follower = Follower::start(&server, &folder);
    let count = |query: &str| server.paths(query).len();
    server.done(&["addattr", "mark", "x", &folder.word("a/x"), &folder.word("a/b")]);
    let marked = |name: &str| {
        let said = server.be(&["catattr", "-r", "mark", &folder.word(name)]);
        said.out == "x"
    };

    folder.file("a/new", "");
    soon("a new file", || same(&server, &folder));
    folder.file("a/x", "more of it");
    soon("a changed file", || count("size==10") == 1);
    folder.rename("a/x", "y");
    soon("a renamed file", || count("name==y") == 1 && same(&server, &folder));
    assert!(marked("y"));
    fs::remove_file(folder.path("a/new")).unwrap();
    soon("a removed file", || same(&server, &folder));

    folder.folder("c/d/e");
    folder.file("c/d/e/f", "");
    soon("new folders", || same(&server, &folder));
    folder.file("c/d/e/g", "");
    soon("a file in a new folder", || same(&server, &folder));
    folder.rename("c", "a/b/c");
    folder.rename("a", "z");
    soon("renamed folders", || same(&server, &folder));
    assert!(marked("z/b"));
    folder.file("z/b/c/d/e/h", "");
    soon("a file in a renamed folder", || same(&server, &folder));
    fs::remove_dir_all(folder.path("z")).unwrap();
    soon("removed folders", || same(&server, &folder));
}

/// Otherwise each write would change the store's own files, which would cause the next write.
#[test]
fn a_store_that_is_kept_in_the_followed_folder_comes_to_rest() {
    let folder = Folder::new();
    let kept = folder.word("own.bestore");
    let server = server!(Server::start_with(&["--pages", "1024", "--keep", &kept]));
    let _follower = Follower::start(&server, &folder);
    folder.file("x", "");
    soon("a new file", || server.paths("name==x").len() == 1);
    soon("a second without writes", || {
        let entries = server.entries();
        thread::sleep(Duration::from_secs(1));
        server.entries() == entries
    });
    assert_eq!(server.paths("name==\"own*\"").len(), 0);
}

#[test]
fn a_followed_file_keeps_its_node_when_an_editor_saves() {
    let (server, folder) = server!(Folder::with_server());
    folder.file("y", "");
    let _follower = Follower::start(&server, &folder);
    server.done(&["addattr", "mark", "x", &folder.word("y")]);
    folder.file("y.tmp", "saved by an editor");
    folder.rename("y.tmp", "y");
    soon("a replaced file", || {
        server.paths("size==18").len() == 1 && same(&server, &folder)
    });
    assert_eq!(server.value("mark", &folder.path("y")), "x");
    // Rename files faster than their names can be read.
    for round in 0..200 {
        folder.rename("y", &format!("y{round}"));
        folder.rename(&format!("y{round}"), "y");
        thread::sleep(Duration::from_millis(round % 9));
    }
    folder.rename("y", "z");
    soon("a file of many names", || {
        same(&server, &folder) && server.paths("name==z").len() == 1
    });
    assert_eq!(server.value("mark", &folder.path("z")), "x");
}

#[test]
fn a_file_that_leaves_the_folder_goes_and_may_come_back() {
    let server = server!(Server::start());
    let (folder, away) = (Folder::new(), Folder::new());
    folder.folder("a");
    folder.file("a/x", "");
    let _follower = Follower::start(&server, &folder);
    fs::rename(folder.path("a"), away.path("a")).unwrap();
    soon("a folder that left", || same(&server, &folder));
    fs::rename(away.path("a"), folder.path("b")).unwrap();
    soon("a folder that came", || same(&server, &folder));
    folder.file("b/y", "");
    soon("a file in it", || same(&server, &folder));
}

#[test]
fn many_changes_at_once_are_followed() {
    let server = server!(Server::start_with(&["--pages", "1024"]));
    let folder = Folder::new();
    let _follower = Follower::start(&server, &folder);
    for number in 0..400 {
        let inner = format!("d{}", number % 9);
        folder.folder(&inner);
        folder.file(&format!("{inner}/f{number}"), format!("{number}"));
        match number % 5 {
            0 => fs::remove_file(folder.path(format!("{inner}/f{number}"))).unwrap(),
            1 => folder.rename(&format!("{inner}/f{number}"), &format!("g{number}")),
            2 if number % 4 == 0 => folder.rename(&inner, &format!("e{number}")),
            3 => fs::remove_dir_all(folder.path(&inner)).unwrap(),
            _ => {}
        }
    }
    soon("many changes", || same(&server, &folder));
    thread::sleep(Duration::from_millis(700));
    assert!(same(&server, &folder));
    // A full import finds no new files and no removed files.
    let [new, _, _, removed] = server.import(&folder);
    assert_eq!((new, removed), (0, 0));
}

#[test]
fn events_that_were_lost_are_made_good() {
    let server = server!(Server::start());
    let most = fs::read_to_string("/proc/sys/fs/inotify/max_queued_events").unwrap();
    let most: usize = most.trim().parse().unwrap();
    if most > 100_000 {
        println!("be, lost events: skipped, {most} are kept");
        return;
    }
    let folder = Folder::new();
    folder.file("a", "");
    folder.file("b", "");
    let follower = Follower::start(&server, &folder);
    send_signal(&follower.child, "-STOP");
    // Alternate between two events, because the kernel merges identical ones.
    for number in 0..most {
        let mode = fs::Permissions::from_mode(0o600 + (number / 2 % 2) as u32 * 0o44);
        fs::set_permissions(folder.path(["a", "b"][number % 2]), mode).unwrap();
    }
    folder.folder("lost/too");
    folder.file("lost/too/file", "");
    folder.rename("a", "c");
    send_signal(&follower.child, "-CONT");
    soon("lost events", || same(&server, &folder));
    folder.file("lost/too/later", "");
    soon("a file after them", || same(&server, &folder));
}

#[test]
fn a_follower_ends_if_its_folder_is_gone() {
    let mut server = server!(Server::start());
    let folder = Folder::new();
    let inner = Folder(folder.folder("inner"));
    inner.file("x", "");
    let follower = Follower::start(&server, &inner);
    folder.rename("inner", "other");
    let said = follower.end();
    assert_eq!(said.status, 1);
    assert!(said.error.contains("is gone, and nothing was removed"), "{said:?}");
    assert_eq!(server.done(&["query", "--count", "name==\"*\""]), "2\n");

    // Do the same while the import is waiting for its server.
    folder.rename("other", "inner");
    let follower = Follower::start(&server, &inner);
    server.end();
    follower.wait_until_it_says("waiting for the server");
    folder.rename("inner", "other");
    let said = follower.end();
    assert_eq!(said.status, 1);
    assert!(said.error.contains("is gone, and nothing was removed"), "{said:?}");
}

#[test]
fn a_follower_waits_for_its_server_and_catches_up() {
    for options in [&["--pages", "1024", "--keep", "store"][..], &["--pages", "1024"]] {
        let is_kept = options.contains(&"--keep");
        let mut server = server!(Server::start_with(options));
        let folder = Folder::new();
        for name in ["changed", "removed", "renamed"] {
            folder.file(name, "x");
        }
        folder.folder("a/b");
        let follower = Follower::start(&server, &folder);
        server.done(&["addattr", "mark", "x", &folder.word("renamed"), &folder.word("a/b")]);
        server.end();
        // The import notices this even if nothing has changed in the folder.
        follower.wait_until_it_says("the server closed the connection; waiting for the server");
        folder.file("changed", "more of it");
        folder.file("a/new", "");
        fs::remove_file(folder.path("removed")).unwrap();
        folder.rename("renamed", "a/other");
        folder.rename("a", "z");
        server.start_again();
        follower.wait_until_it_says("the server is back");
        soon("what has changed meanwhile", || {
            same(&server, &folder) && server.paths("size==10").len() == 1
        });
        for name in ["z/other", "z/b"] {
            let said = server.be(&["catattr", "-r", "mark", &folder.word(name)]);
            assert_eq!(said.out == "x", is_kept, "{name}: {said:?}");
        }
        folder.file("z/b/later", "");
        fs::remove_file(folder.path("changed")).unwrap();
        soon("what changes later", || same(&server, &folder));
    }
}

#[test]
fn a_server_that_is_killed_again_and_again_is_caught_up_with() {
    let mut server = server!(Server::start_with(&["--pages", "1024", "--keep", "store"]));
    let folder = Folder::new();
    folder.file("x", "");
    let follower = Follower::start(&server, &folder);
    let ended = AtomicBool::new(false);
    thread::scope(|scope| {
        scope.spawn(|| {
            for number in (0..).take_while(|_| !ended.load(Ordering::Relaxed)) {
                let inner = folder.folder(&format!("d{}", number % 7));
                fs::write(inner.join("f"), format!("{number}")).unwrap();
                folder.rename(&format!("d{}/f", number % 7), &format!("f{}", number % 30));
                if number % 3 == 0 {
                    fs::remove_dir_all(inner).unwrap();
                }
                thread::sleep(Duration::from_millis(1));
            }
        });
        for round in 0..8 {
            let entries = server.entries();
            soon("a write", || server.entries() > entries);
            thread::sleep(Duration::from_millis(7 * round));
            server.end();
            follower.wait_until_it_says("waiting for the server");
            server.start_again();
            follower.wait_until_it_says("the server is back");
        }
        ended.store(true, Ordering::Relaxed);
    });
    soon("all changes", || same(&server, &folder));
    let [new, _, _, removed] = server.import(&folder);
    assert_eq!((new, removed), (0, 0));
}

#[test]
fn what_is_refused_for_a_moment_is_written_later() {
    let (server, refuser, folder) = server!(Refuser::with_server());
    folder.file("changed", "x");
    folder.file("removed", "");
    let command = refuser.command(&server, &["import", "--follow", "--json", "--verbose", &folder.all()]);
    let follower = Follower::run(command);
    refuser.refuse("[");
    folder.file("changed", "more of it");
    folder.file("new", "");
    fs::remove_file(folder.path("removed")).unwrap();
    soon("refusals", || {
        let operations = [r#"["set","#, r#"["new"]"#, r#"["remove","#];
        operations.iter().all(|operation| refuser.has_refused(operation))
    });
    refuser.accept();
    soon("what was refused", || {
        same(&server, &folder) && server.paths("size==10").len() == 1
    });
    let said = follower.said();
    for (fate, name) in [("changed", "changed"), ("new", "new"), ("removed", "removed")] {
        let line = format!("{fate} {}", folder.word(name));
        assert_eq!(said.lines().filter(|said| **said == line).count(), 1, "{line}: {said}");
    }
}

#[test]
fn a_node_that_is_not_removed_goes_later_though_its_file_is_there_again() {
    let (server, refuser, folder) = server!(Refuser::with_server());
    let file = folder.file("x", "");
    let command = refuser.command(&server, &["import", "--follow", "--json", &folder.all()]);
    let _follower = Follower::run(command);
    let count = |query: &str| server.done(&["query", "--count", query]);
    refuser.refuse(r#"["remove","#);
    fs::remove_file(&file).unwrap();
    soon("a refusal", || refuser.has_refused(r#"["remove","#));
    folder.file("x", "another");
    soon("another file", || count("size==7") == "1\n");
    refuser.accept();
    soon("the first one's end", || count("name==x") == "1\n");
    assert_eq!(server.paths("size==7"), [file].into());
    assert!(same(&server, &folder));
}

#[test]
fn a_file_whose_node_was_removed_gets_another_when_it_changes() {
    let (server, folder) = server!(Folder::with_server());
    folder.folder("a/b");
    folder.file("a/x", "x");
    let _follower = Follower::start(&server, &folder);
    server.done(&["rmnode", &folder.word("a/x"), &folder.word("a")]);
    folder.file("a/x", "changed");
    folder.file("a/b/new", "");
    soon("a removed node", || {
        same(&server, &folder) && server.paths("size==7").len() == 1
    });
    folder.file("a/later", "");
    soon("a later file", || same(&server, &folder));
}

#[test]
fn a_file_is_read_after_each_change_even_within_one_tick_of_the_clock() {
    let (server, folder) = server!(Folder::with_server());
    let file = folder.file("x", "content");
    let _follower = Follower::start(&server, &folder);
    // The node has an earlier size, and the file's times are those that the node has, as if both had been written within one tick.
    server.done(&["addattr", "-t", "int64", "size", "3", &folder.word("x")]);
    drop(fs::OpenOptions::new().write(true).open(&file).unwrap());
    soon("a change within one tick", || server.paths("size==7").len() == 1);
}

#[test]
fn a_new_server_that_refuses_indices_for_a_moment_is_caught_up_with() {
    let (mut server, refuser, folder) = server!(Refuser::with_server());
    folder.file("x", "");
    let command = refuser.command(&server, &["import", "--follow", "--json", &folder.all()]);
    let follower = Follower::run(command);
    refuser.refuse(r#"["index","#);
    server.end();
    follower.wait_until_it_says("waiting for the server");
    // Its store is empty, so it has no indices yet.
    server.start_again();
    soon("a refusal", || refuser.has_refused(r#"["index","#));
    refuser.accept();
    follower.wait_until_it_says("the server is back");
    soon("what was refused", || same(&server, &folder));
}

#[test]
fn a_follower_whose_connection_is_closed_goes_on_though_the_server_has_one_place() {
    let server = server!(Server::start_with(&["--pages", "256", "--passes", "1"]));
    let folder = Folder::new();
    let follower = Follower::start(&server, &folder);
    let clients: Vec<serde_json::Value> = serde_json::from_str(&server.done(&["clients", "--json"])).unwrap();
    let own = clients.iter().filter(|client| client["process"] == follower.child.id());
    let own: Vec<u64> = own.map(|client| client["client"].as_u64().unwrap()).collect();
    assert_eq!(own.len(), 1);
    // It waits for the server while nothing changes.
    server.done(&["kick", &own[0].to_string()]);
    follower.wait_until_it_says("the server is back");
    folder.file("later", "");
    soon("a later file", || same(&server, &folder));
}

/// Starts an import as another user, which can't read everything. If that isn't possible, prints why and returns `None`.
fn follower_as_nobody(server: &Server, refuser: &Refuser, folder: &Folder) -> Option<Follower> {
    for path in [server.socket().parent().unwrap(), &folder.0] {
        fs::set_permissions(path, fs::Permissions::from_mode(0o755)).unwrap();
    }
    fs::set_permissions(refuser.socket(), fs::Permissions::from_mode(0o777)).unwrap();
    let as_nobody = |words: &[&str]| {
        let mut command = refuser.command(server, words);
        command.uid(NOBODY).gid(NOBODY);
        command
    };
    match as_nobody(&["status"]).output() {
        Ok(output) if output.status.success() => {}
        _ => {
            println!("be, a folder that may not be read: skipped, only root can act as another user, who may run be");
            return None;
        }
    }
    Some(Follower::run(as_nobody(&[
        "import",
        "--follow",
        "--json",
        &folder.all(),
    ])))
}

#[test]
fn a_folder_is_read_once_it_may_be_read() {
    let (server, refuser, folder) = server!(Refuser::with_server());
    let hidden = folder.folder("hidden");
    folder.file("hidden/x", "");
    let mode = |mode: u32| fs::set_permissions(&hidden, fs::Permissions::from_mode(mode)).unwrap();
    mode(0o700);
    let _follower = server!(follower_as_nobody(&server, &refuser, &folder));
    assert_eq!(server.paths("name==x"), Default::default());
    mode(0o755);
    soon("a folder that may be read now", || same(&server, &folder));
    folder.file("hidden/later", "");
    soon("a later file", || same(&server, &folder));
}

#[test]
fn a_file_that_may_not_be_read_any_more_keeps_its_node() {
    let (server, refuser, folder) = server!(Refuser::with_server());
    let hidden = folder.folder("hidden");
    let file = folder.file("hidden/x", "");
    let follower = server!(follower_as_nobody(&server, &refuser, &folder));
    server.done(&["addattr", "mark", "x", &folder.word("hidden/x")]);
    let mut open = fs::OpenOptions::new().append(true).open(&file).unwrap();
    fs::set_permissions(&hidden, fs::Permissions::from_mode(0o700)).unwrap();
    open.write_all(b"more of it").unwrap();
    follower.wait_until_it_says("hidden/x: Permission denied");
    // If the file were missing, its node would be removed when it is missed for the second time.
    folder.file("later", "");
    soon("a later file", || server.paths("name==later").len() == 1);
    assert_eq!(server.value("mark", &file), "x");
    fs::set_permissions(&hidden, fs::Permissions::from_mode(0o755)).unwrap();
    soon("a file that may be read again", || server.paths("size==10").len() == 1);
}

#[test]
fn files_keep_their_nodes_if_their_folder_is_moved_when_it_may_not_be_read_any_more() {
    let (server, refuser, folder) = server!(Refuser::with_server());
    folder.folder("hidden/inner");
    folder.file("hidden/inner/x", "");
    let follower = server!(follower_as_nobody(&server, &refuser, &folder));
    server.done(&["addattr", "mark", "x", &folder.word("hidden/inner/x")]);
    let mode =
        |name: &str, mode: u32| fs::set_permissions(folder.path(name), fs::Permissions::from_mode(mode)).unwrap();
    mode("hidden", 0o700);
    folder.rename("hidden", "moved");
    follower.wait_until_it_says("moved: Permission denied");
    // Missing files would lose their nodes when they are missed for the second time.
    folder.file("later", "");
    soon("a later file", || server.paths("name==later").len() == 1);
    assert_eq!(server.value("mark", &folder.path("moved/inner/x")), "x");
    mode("moved", 0o755);
    folder.file("moved/inner/y", "");
    soon("a folder that may be read again", || same(&server, &folder));
    assert_eq!(server.value("mark", &folder.path("moved/inner/x")), "x");
}

#[test]
fn a_file_system_that_is_mounted_later_is_not_read() {
    let (server, folder) = server!(Folder::with_server());
    let follower = Follower::run(server.command(&["import", "--follow", "-x", "--json", &folder.all()]));
    // The folder is created and mounted before it can be read.
    send_signal(&follower.child, "-STOP");
    let disk = folder.folder("disk");
    let _mount = match Mount::over(&disk) {
        Some(mount) => mount,
        None => return println!("be, a file system that is mounted later: skipped, this user can mount nothing"),
    };
    folder.folder("disk/inner");
    folder.file("disk/file", "");
    send_signal(&follower.child, "-CONT");
    soon("the folder", || server.paths("name==disk").len() == 1);
    folder.file("later", "");
    soon("a later file", || server.paths("name==later").len() == 1);
    assert_eq!(server.paths("name==inner || name==file"), Default::default());
}
