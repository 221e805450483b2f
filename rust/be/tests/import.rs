//! Tests of how `import` turns files into nodes, and of the tools that take their paths.

use crate::common::files::{name_of_bytes, Folder};
use crate::common::{Said, Server};
use std::collections::BTreeSet;
use std::fs::{self, File};
use std::os::unix::fs::symlink;
use std::os::unix::net::UnixListener;
use std::path::PathBuf;
use std::process::Command;
use std::sync::atomic::{AtomicBool, Ordering};
use std::thread;

fn fifo(path: &PathBuf) {
    let made = Command::new("mkfifo").arg(path).status();
    assert!(made.unwrap().success());
}

#[test]
fn each_file_is_a_node_with_the_attributes_of_be() {
    let (server, folder) = server!(Folder::small_with_server());
    assert_eq!(server.import(&folder), [6, 0, 0, 0]);
    assert_eq!(server.paths("name==\"*\""), folder.paths());
    let file = folder.path("a/x.txt");
    for (name, value) in [("name", "x.txt"), ("size", "5"), ("BEOS:TYPE", "text/plain")] {
        assert_eq!(server.value(name, &file), value);
    }
    let modified = fs::metadata(&file).unwrap().modified().unwrap();
    let seconds = modified.duration_since(std::time::UNIX_EPOCH).unwrap().as_secs();
    assert_eq!(server.value("last_modified", &file), seconds.to_string());
    assert_eq!(server.value("BEOS:TYPE", &folder.path("a")), "inode/directory");
    assert_eq!(server.value("BEOS:TYPE", &folder.path("z")), "text/plain");
    assert_eq!(server.value("FILE:root", &folder.0), folder.all());
    assert_eq!(
        server.paths("size>=6"),
        [folder.path("a/b/y.h"), folder.path("z")].into()
    );
    assert_eq!(
        server.done(&["lsindex"]),
        "BEOS:TYPE\nMAIL:from\nMAIL:status\nMAIL:subject\nMAIL:to\nMAIL:when\nlast_modified\nname\nsize\n"
    );
}

#[test]
fn what_ties_a_node_to_its_file_is_left_to_imports() {
    let (server, folder) = server!(Folder::imported());
    let word = folder.word("a/x.txt");
    let node = server.done(&["query", "name==x.txt"]).trim().to_owned();
    let other = server.done(&["addattr", "--new", "name", "free"]).trim().to_owned();
    let ties = |name: &str| {
        let help = "so only be import writes it; rename or move the file instead";
        format!("be: node {node}: {name} ties the node to its file, {help}\n")
    };
    let said = server.be(&["addattr", "name", "evil", &word, &other]);
    assert_eq!((said.status, said.error), (1, ties("name")));
    for name in ["name", "FILE:parent", "FILE:stat"] {
        let said = server.be(&["rmattr", name, &word]);
        assert_eq!((said.status, said.error), (1, ties(name)));
    }
    assert_eq!(server.done(&["catattr", "-r", "name", &word, &other]), "x.txtevil");
    server.done(&["addattr", "rating", "5", &word]);
    assert_eq!(server.import(&folder)[1..], [0, 0, 0]);
}

#[test]
fn files_of_kept_stores_are_left_out() {
    let (server, folder) = server!(Folder::small_with_server());
    for name in [
        "0.bestore",
        "0.bestore-last",
        "0.bestore-wal",
        "a/s.bestore-shm",
        "a/s.bestore-journal",
    ] {
        folder.file(name, "");
    }
    folder.folder("my.bestores");
    assert_eq!(server.import(&folder), [7, 0, 0, 0]);
    assert_eq!(server.paths("name==\"*bestore*\""), [folder.path("my.bestores")].into());
}

#[test]
fn a_second_import_writes_what_has_changed_alone() {
    let (server, folder) = server!(Folder::imported());
    let entries = server.entries();
    assert_eq!(server.import(&folder), [0; 4]);
    assert_eq!(server.entries(), entries);

    folder.file("a/x.txt", "hello again");
    fs::remove_file(folder.path("z")).unwrap();
    folder.file("a/b/new", "");
    // The two folders whose entries have changed count as changed too.
    assert_eq!(server.import(&folder), [1, 3, 0, 1]);
    assert_eq!(server.value("size", &folder.path("a/x.txt")), "11");
    assert_eq!(server.paths("name==\"*\""), folder.paths());
    assert_eq!(server.import(&folder), [0; 4]);
    let said = server.done(&["import", "--reread", &folder.all()]);
    assert!(
        said.starts_with("6 files: 0 new, 0 changed, 0 renamed, 0 removed\ntypes from "),
        "{said}"
    );
}

#[test]
fn two_names_of_one_file_are_two_nodes() {
    let (server, folder) = server!(Folder::small_with_server());
    fs::hard_link(folder.path("z"), folder.path("a/z")).unwrap();
    fs::hard_link(folder.path("z"), folder.path("y")).unwrap();
    server.import(&folder);
    assert_eq!(server.paths("name==\"*\""), folder.paths());
    for name in ["z", "a/z", "y"] {
        server.done(&["addattr", "mark", name, &folder.word(name)]);
    }
    assert_eq!(server.value("mark", &folder.path("z")), "z");
    assert_eq!(server.value("mark", &folder.path("a/z")), "a/z");
    fs::remove_file(folder.path("y")).unwrap();
    server.import(&folder);
    assert_eq!(server.paths("name==\"*\""), folder.paths());
    assert_eq!(server.value("mark", &folder.path("a/z")), "a/z");
}

/// Names that might trip up a shell, a query or a terminal.
const NAMES: [&[u8]; 10] = [
    b"bad\xff.txt",
    b"line\nfeed",
    b" ",
    b"*",
    b"\"q\"",
    b"\\",
    b"[x]",
    b"-n",
    "é".as_bytes(),
    &[0xff; 255],
];

#[test]
fn names_and_files_of_all_forms_are_imported() {
    let (server, folder) = server!(Folder::small_with_server());
    for name in NAMES {
        File::create(folder.path(name_of_bytes(name))).unwrap();
    }
    symlink("..", folder.path("a/up")).unwrap();
    symlink("self", folder.path("self")).unwrap();
    symlink("/nowhere", folder.path("nowhere")).unwrap();
    fifo(&folder.path("fifo"));
    let _socket = UnixListener::bind(folder.path("socket")).unwrap();
    assert_eq!(server.import(&folder), [21, 0, 0, 0]);
    assert_eq!(server.import(&folder), [0; 4]);
    assert_eq!(server.paths("name==\"*\""), folder.paths());
    for (name, mime) in [
        ("fifo", "inode/fifo"),
        ("socket", "inode/socket"),
        ("self", "inode/symlink"),
        ("*", "application/x-zerosize"),
    ] {
        assert_eq!(server.value("BEOS:TYPE", &folder.path(name)), mime, "{name}");
    }
    for name in NAMES {
        let name = name_of_bytes(name);
        let text = server.value("name", &folder.path(name));
        assert!(name.to_string_lossy().starts_with(&text), "{text}");
    }
    assert_eq!(
        server
            .value("FILE:name", &folder.path(name_of_bytes(b"bad\xff.txt")))
            .len(),
        10
    );
}

#[test]
fn what_cannot_be_read_is_named_and_keeps_its_nodes() {
    let (server, folder) = server!(Folder::small_with_server());
    // Build a path of more than 4,096 bytes by moving each folder into the next.
    let name = |number: usize| format!("{number:0>250}");
    folder.folder(&name(0));
    // The path of this file will be too long, but not that of its folder.
    folder.folder(&name(1));
    folder.file(&format!("{}/{}", name(1), name(99)), "");
    for number in 1..17 {
        folder.folder(&name(number));
        folder.rename(&name(number - 1), &format!("{}/{}", name(number), name(number - 1)));
    }
    let said = server.be(&["import", "--json", &folder.all()]);
    let read: serde_json::Value = serde_json::from_str(&said.out).unwrap();
    assert_eq!((said.status, read["unread"].as_u64()), (1, Some(1)), "{said:?}");
    assert_eq!(read["files"], 24, "{said:?}");
    assert!(said.error.ends_with("File name too long (os error 36)\n"), "{said:?}");

    let hidden = folder.folder("hidden");
    folder.file("hidden/file", "");
    server.be(&["import", &folder.all()]);
    let mode = |mode: u32| {
        use std::os::unix::fs::PermissionsExt;
        fs::set_permissions(&hidden, fs::Permissions::from_mode(mode)).unwrap();
    };
    mode(0);
    if fs::read_dir(&hidden).is_err() {
        let said = server.be(&["import", &folder.all()]);
        assert!(said.error.contains("hidden: Permission denied"), "{said:?}");
    } else {
        println!("be, a folder that may not be read: skipped, this user may read all");
    }
    mode(0o700);
    assert_eq!(server.value("name", &folder.path("hidden/file")), "file");
}

#[test]
fn files_that_come_and_go_meanwhile_do_no_harm() {
    let (server, folder) = server!(Folder::small_with_server());
    let ended = AtomicBool::new(false);
    thread::scope(|scope| {
        scope.spawn(|| {
            for number in (0..).take_while(|_| !ended.load(Ordering::Relaxed)) {
                let name = format!("f{}", number % 40);
                let inner = folder.folder(&format!("d{}", number % 7));
                let _ = fs::write(inner.join(&name), &name);
                let _ = fs::rename(inner.join(&name), folder.path(&name));
                let _ = fs::remove_dir_all(inner);
                if number % 3 == 0 {
                    let _ = fs::remove_file(folder.path(&name));
                }
            }
        });
        for _ in 0..10 {
            let said = server.be(&["import", "--json", &folder.all()]);
            assert_eq!((said.status, said.error.as_str()), (0, ""));
        }
        ended.store(true, Ordering::Relaxed);
    });
    server.import(&folder);
    assert_eq!(server.paths("name==\"*\""), folder.paths());
}

#[test]
fn files_that_become_folders_and_links_meanwhile_do_no_harm() {
    let (server, folder) = server!(Folder::small_with_server());
    let ended = AtomicBool::new(false);
    thread::scope(|scope| {
        scope.spawn(|| {
            let clear = |name: &str| {
                let path = folder.path(name);
                let _ = fs::remove_dir_all(&path).or_else(|_| fs::remove_file(&path));
            };
            for number in (0..).take_while(|_| !ended.load(Ordering::Relaxed)) {
                let name = format!("d{}", number % 5);
                clear(&name);
                match number % 3 {
                    0 => drop(folder.file(&name, "file")),
                    1 => symlink("a", folder.path(&name)).unwrap(),
                    _ => {
                        folder.folder(&format!("{name}/b/c"));
                        (0..20).for_each(|file| drop(folder.file(&format!("{name}/b/f{file}"), "")));
                    }
                }
            }
        });
        for _ in 0..15 {
            let said = server.be(&["import", "--json", &folder.all()]);
            assert_eq!((said.status, said.error.as_str()), (0, ""));
        }
        ended.store(true, Ordering::Relaxed);
    });
    server.import(&folder);
    assert_eq!(server.paths("name==\"*\""), folder.paths());
    assert_eq!(server.import(&folder), [0; 4]);
}

#[test]
fn the_tools_take_paths() {
    let (server, folder) = server!(Folder::small_with_server());
    let said = server.be(&["addattr", "mark", "x", &folder.word("z")]);
    assert_eq!(said.status, 1);
    assert!(
        said.error.contains("the file has no node\n  be import FOLDER"),
        "{said:?}"
    );
    server.import(&folder);
    let here = |words: &[&str]| -> Said {
        server
            .command(words)
            .current_dir(folder.path("a"))
            .output()
            .unwrap()
            .into()
    };
    assert_eq!(here(&["addattr", "mark", "x", "x.txt", "b/../b", "."]).status, 0);
    for name in ["a/x.txt", "a/b", "a"] {
        assert_eq!(server.value("mark", &folder.path(name)), "x");
    }
    assert_eq!(here(&["rmattr", "mark", "x.txt"]).status, 0);
    assert!(here(&["listattr", "x.txt"]).out.contains("\"size\""));
    // A slash after a symlink stands for its folder.
    symlink("b", folder.path("a/link")).unwrap();
    assert_eq!(here(&["addattr", "mark", "y", "link/"]).error, "");
    assert_eq!(server.value("mark", &folder.path("a/b")), "y");
    let said = here(&["catattr", "mark", "nowhere"]);
    assert_eq!(said.error, "be: nowhere: No such file or directory (os error 2)\n");
    assert_eq!(server.be(&["import", &folder.word("z")]).status, 1);
    assert_eq!(server.be(&["import", &folder.word("nowhere")]).status, 1);
    let long = "/x".repeat(200);
    assert_eq!(server.be(&["import", &long]).status, 1);
}

/// Creates files with many names and sizes in 35 folders, and a few symlinks.
fn many() -> Folder {
    let folder = Folder::new();
    for number in 0..700_usize {
        let inner = format!("{}/{}", number % 5, number % 7);
        folder.folder(&inner);
        let letter = char::from(b'a' + u8::try_from(number % 26).unwrap());
        let ending = ["h", "c", "txt", "H"][number % 4];
        let content = vec![b'x'; number * number % 30_000];
        folder.file(&format!("{inner}/{letter}{number}.{ending}"), content);
        if number % 50 == 0 {
            symlink("nowhere", folder.path(format!("link{number}.h"))).unwrap();
        }
    }
    folder
}

#[test]
fn queries_find_what_find_finds() {
    let server = server!(Server::start());
    if Command::new("find").arg("--version").output().is_err() {
        println!("be, beside find: skipped, there is no find");
        return;
    }
    let folder = many();
    assert_eq!(server.be(&["import", &folder.all()]).status, 0);
    for (query, words) in [
        (
            "name==\"*.h\" && size>=20000",
            &["-name", "*.h", "-type", "f", "-size", "+19999c"][..],
        ),
        (
            "name==\"[a-f]*\" && size>0 && size<1000 && BEOS:TYPE==\"text/x-c*\"",
            &[
                "-name",
                "[a-f]*.[hcH]",
                "-type",
                "f",
                "-size",
                "-1000c",
                "-not",
                "-empty",
            ],
        ),
        ("size>=29999 && name==\"*\"", &["-type", "f", "-size", "+29998c"]),
        ("BEOS:TYPE==\"inode/directory\"", &["-type", "d"]),
        ("BEOS:TYPE==\"inode/symlink\"", &["-type", "l"]),
    ] {
        let output = Command::new("find").arg(&folder.0).args(words).output().unwrap();
        let found = String::from_utf8(output.stdout).unwrap();
        let wanted: BTreeSet<PathBuf> = found.lines().map(PathBuf::from).collect();
        let paths = server.paths(query);
        assert_eq!(paths.len(), wanted.len(), "{query}");
        assert_eq!(paths, wanted, "{query}");
    }
}
