//! Tests of what a later `import` preserves, and of how it completes an earlier one.

use crate::common::files::{counts, node_of, small, Folder, Mount};
use crate::common::refuser::Refuser;
use crate::common::Server;
use bestore_client::{Batch, Client};
use std::collections::BTreeSet;
use std::fs;
use std::process::Stdio;
use std::thread;
use std::time::Duration;

#[test]
fn what_a_user_has_set_stays_when_a_file_is_renamed_or_moved() {
    let (server, folder) = server!(Folder::imported());
    let node = |name: &str| node_of(&server, &folder, name);
    let rating = ["addattr", "-t", "int32", "rating", "5"];
    server.done(&[&rating[..], &[&folder.word("a/x.txt"), &folder.word("a/b")]].concat());
    let (file, inner) = (node("a/x.txt"), node("a/b/y.h"));
    folder.rename("a/x.txt", "a/b/moved.txt");
    folder.rename("a/b", "c");
    assert_eq!(server.import(&folder)[2], 2);
    assert_eq!((node("c/moved.txt"), node("c/y.h")), (file, inner));
    assert_eq!(server.value("rating", &folder.path("c")), "5");
    assert_eq!(server.value("rating", &folder.path("c/moved.txt")), "5");
    assert_eq!(server.value("name", &folder.path("c/moved.txt")), "moved.txt");
    assert_eq!(server.paths("name==\"*\""), folder.paths());
}

#[test]
fn what_a_user_has_set_stays_when_an_editor_saves() {
    let (server, folder) = server!(Folder::imported());
    let node = node_of(&server, &folder, "a/x.txt");
    server.done(&["addattr", "mark", "x", &folder.word("a/x.txt")]);
    let stays = || {
        let file = folder.path("a/x.txt");
        assert_eq!(node_of(&server, &folder, "a/x.txt"), node);
        assert_eq!(server.value("mark", &file), "x");
        assert_eq!(
            server.value("size", &file),
            fs::metadata(file).unwrap().len().to_string()
        );
    };
    // A different file takes its place.
    folder.file("a/.x.swp", "saved");
    folder.rename("a/.x.swp", "a/x.txt");
    assert_eq!(server.import(&folder)[0], 0);
    stays();
    // This works even if the other file has already got a node.
    folder.file("a/.x.swp", "saved again");
    server.import(&folder);
    folder.rename("a/.x.swp", "a/x.txt");
    assert_eq!(server.import(&folder)[3], 1);
    stays();
    assert_eq!(server.paths("name==\"*\""), folder.paths());
}

/// Gives a file's path a second node, as an import does if another file is renamed onto this one at the same time. One of the two nodes
/// belongs to a file that is gone. Returns the file's own node and the other one.
fn double(server: &Server, folder: &Folder, name: &str, is_own_first: bool) -> [u64; 2] {
    let first = node_of(server, folder, name);
    let mut client = Client::connect(server.socket()).unwrap();
    let attributes = client.attributes(first).unwrap();
    let stat = attributes["FILE:stat"].as_str().unwrap();
    let (device, rest) = stat.split_once(':').unwrap();
    let (_, rest) = rest.split_once(':').unwrap();
    let gone = format!("{device}:fffffffffffff:{rest}");
    let made = client.change(|change| {
        let second = change.new_node();
        for (name, value) in &attributes {
            change.batch().set(second, name, value.clone());
        }
        let other = if is_own_first { second } else { first };
        change.batch().set(other, "FILE:stat", gone.as_str());
        Ok(second)
    });
    let second = made.unwrap();
    match is_own_first {
        true => [first, second],
        false => [second, first],
    }
}

#[test]
fn of_two_nodes_at_one_path_one_is_removed() {
    let (server, folder) = server!(Folder::small_with_server());
    // Each case specifies on which of the two nodes a user has set an attribute, and which node is kept.
    let cases = [
        ([false, false], 0),
        ([true, false], 0),
        ([false, true], 1),
        ([true, true], 0),
    ];
    let names: Vec<String> = (0..8).map(|number| format!("a/f{number}")).collect();
    names.iter().for_each(|name| drop(folder.file(name, name)));
    server.import(&folder);
    let mut stay = Vec::new();
    for (number, name) in names.iter().enumerate() {
        let nodes = double(&server, &folder, name, number % 2 == 0);
        let (are_set, stays) = cases[number / 2];
        for node in nodes
            .iter()
            .zip(are_set)
            .filter(|(_, is_set)| *is_set)
            .map(|(node, _)| node)
        {
            server.done(&["addattr", "mark", "x", &node.to_string()]);
        }
        stay.push((nodes[stays], are_set != [false; 2]));
    }
    assert_eq!(server.done(&["query", "--count", "name==\"f?\""]), "16\n");

    assert_eq!(server.import(&folder)[3], 8);
    assert_eq!(server.paths("name==\"*\""), folder.paths());
    for (name, (node, is_set)) in names.iter().zip(stay) {
        assert_eq!(node_of(&server, &folder, name), node, "{name}");
        assert_eq!(
            server.be(&["catattr", "mark", &folder.word(name)]).status == 0,
            is_set,
            "{name}"
        );
    }
    assert_eq!(server.import(&folder), [0; 4]);
}

#[test]
fn an_import_that_was_killed_is_completed_by_the_next() {
    let (server, folder) = server!(Folder::small_with_server());
    for number in 0..600 {
        folder.folder(&format!("d{}", number % 20));
        folder.file(&format!("d{}/f{number}", number % 20), "");
    }
    for pause in 0..12 {
        let mut command = server.command(&["import", &folder.all()]);
        let mut child = command.stdout(Stdio::null()).spawn().unwrap();
        thread::sleep(Duration::from_millis(5 + 9 * pause));
        let _ = child.kill();
        child.wait().unwrap();
        if pause == 6 {
            (0..20).for_each(|number| folder.rename(&format!("d{number}"), &format!("e{number}")));
        }
    }
    server.import(&folder);
    assert_eq!(server.paths("name==\"*\""), folder.paths());
    assert_eq!(server.import(&folder), [0; 4]);
}

#[test]
fn a_folder_may_be_imported_inside_another() {
    let (server, folder) = server!(Folder::small_with_server());
    let inner = || counts(&server.done(&["import", "--json", &folder.word("a")]));
    assert_eq!(inner(), [4, 0, 0, 0]);
    server.done(&["addattr", "mark", "x", &folder.word("a/x.txt")]);
    assert_eq!(server.import(&folder), [2, 1, 0, 0]);
    assert_eq!(server.value("mark", &folder.path("a/x.txt")), "x");
    assert_eq!(server.be(&["catattr", "FILE:root", &folder.word("a")]).status, 1);
    folder.file("a/new", "");
    folder.file("outside", "");
    assert_eq!(inner(), [1, 1, 0, 0]);
    assert_eq!(server.import(&folder), [1, 1, 0, 0]);
    assert_eq!(server.paths("name==\"*\""), folder.paths());
}

#[test]
fn a_folder_that_was_moved_keeps_its_nodes_when_it_is_imported_from_there() {
    let server = server!(Server::start());
    let outer = Folder::new();
    let import = |name: &str| counts(&server.done(&["import", "--json", &outer.word(name)]));
    outer.folder("photos/a/b");
    outer.file("photos/x", "");
    outer.file("photos/a/b/y", "");
    assert_eq!(import("photos"), [5, 0, 0, 0]);
    server.done(&["addattr", "mark", "x", &outer.word("photos/a/b/y")]);
    outer.folder("pictures");
    for (from, to) in [("photos", "pictures/photos"), ("pictures/photos", "images")] {
        outer.rename(from, to);
        assert_eq!(import(to), [0, 0, 1, 0]);
        let mut paths = outer.paths();
        paths.retain(|path| path.starts_with(outer.path(to)));
        assert_eq!(server.paths("name==\"*\""), paths);
        assert_eq!(server.value("mark", &outer.path(to).join("a/b/y")), "x");
        assert_eq!(import(to), [0; 4]);
    }
    // This is another folder.
    outer.folder("photos");
    outer.file("photos/x", "");
    assert_eq!(import("photos"), [2, 0, 0, 0]);
    assert_eq!(server.paths("name==x").len(), 2);
}

#[test]
fn files_whose_folder_was_removed_from_the_store_are_known_again() {
    let (server, folder) = server!(Folder::imported());
    server.done(&["addattr", "mark", "x", &folder.word("a/b/y.h")]);
    server.done(&["rmnode", &folder.word("a"), &folder.word("z")]);
    assert_eq!(server.import(&folder)[0], 2);
    assert_eq!(server.paths("name==\"*\""), folder.paths());
    assert_eq!(server.value("mark", &folder.path("a/b/y.h")), "x");
}

#[test]
fn indices_that_were_removed_are_created_again_with_all_files() {
    let (server, folder) = server!(Folder::imported());
    server.done(&["addattr", "mark", "x", &folder.word("z")]);
    for name in ["name", "size"] {
        server.done(&["rmindex", name]);
    }
    assert_eq!(server.import(&folder), [0; 4]);
    for query in ["name==\"*\"", "size>=0", "last_modified>0"] {
        assert_eq!(server.paths(query), folder.paths(), "{query}");
    }
    assert_eq!(server.value("mark", &folder.path("z")), "x");
    // An index of names that takes no strings doesn't double the files either.
    server.done(&["rmindex", "name"]);
    server.done(&["mkindex", "-t", "int32", "name"]);
    let said = server.be(&["import", "--json", &folder.all()]);
    assert_eq!((said.status, counts(&said.out)), (0, [0; 4]));
    assert!(said.error.contains("warning: the index name holds int32"), "{said:?}");
    assert_eq!(server.paths("size>=0"), folder.paths());
}

#[test]
fn a_node_that_was_being_created_when_an_import_was_cut_off_is_not_doubled() {
    let (server, folder) = server!(Folder::imported());
    let node = node_of(&server, &folder, "a/x.txt");
    // This attribute is written last.
    let mut client = Client::connect(server.socket()).unwrap();
    client.apply(Batch::new().unset(node, "FILE:stat")).unwrap();
    assert_eq!(server.import(&folder), [0, 1, 0, 0]);
    assert_eq!(node_of(&server, &folder, "a/x.txt"), node);
    assert_eq!(server.paths("name==\"*\""), folder.paths());
}

#[test]
fn files_in_a_folder_that_was_refused_are_not_said_to_have_no_room() {
    let (server, refuser, folder) = server!(Refuser::with_server_and(small()));
    refuser.refuse_with(r#""name","a"]"#, r#""name":"NotSaved","message":"it can't be saved""#);
    let said = refuser.be(&server, &["import", &folder.all()]);
    let (all, none) = (folder.all(), "the folder that contains it has no node");
    let error = format!(
        "be: {all}/a: it can't be saved\nbe: {all}/a/b: {none}\nbe: {all}/a/b/y.h: {none}\nbe: {all}/a/x.txt: {none}\n"
    );
    let lines = |text: &str| text.lines().map(String::from).collect::<BTreeSet<_>>();
    assert_eq!((said.status, lines(&said.error)), (1, lines(&error)));
    refuser.accept();
    assert_eq!(server.import(&folder), [4, 0, 0, 0]);
    assert_eq!(server.paths("name==\"*\""), folder.paths());
}

#[test]
fn files_on_a_disk_that_is_not_mounted_keep_their_nodes() {
    let (server, folder) = server!(Folder::small_with_server());
    let disk = folder.folder("disk");
    let mount = match Mount::over(&disk) {
        Some(mount) => mount,
        None => return println!("be, a disk that isn't mounted: skipped, this user can mount nothing"),
    };
    folder.folder("disk/inner");
    folder.file("disk/inner/x", "");
    server.import(&folder);
    let node = node_of(&server, &folder, "disk/inner/x").to_string();
    server.done(&["addattr", "mark", "x", &node]);
    drop(mount);
    for _ in 0..2 {
        let said = server.be(&["import", "--json", &folder.all()]);
        assert_eq!((said.status, counts(&said.out)), (1, [0; 4]), "{said:?}");
        assert!(
            said.error
                .starts_with(&format!("be: {}: the file system that was", disk.display())),
            "{said:?}"
        );
        assert_eq!(server.done(&["catattr", "-r", "mark", &node]), "x");
    }
    // A folder that was emptied isn't one.
    fs::remove_dir_all(folder.path("a")).unwrap();
    folder.folder("a");
    let said = server.be(&["import", "--json", &folder.all()]);
    assert_eq!(counts(&said.out)[3], 3, "{said:?}");
    let said = server.done(&["import", "--json", "--reread", &folder.all()]);
    assert_eq!(counts(&said), [0, 1, 0, 2]);
    assert_eq!(server.paths("name==\"*\""), folder.paths());
}

#[test]
fn an_empty_folder_in_the_place_of_another_removes_nothing() {
    let (server, folder) = server!(Folder::imported());
    let away = Folder::new();
    let kept = away.path("kept");
    fs::rename(&folder.0, &kept).unwrap();
    fs::create_dir(&folder.0).unwrap();
    let said = server.be(&["import", &folder.all()]);
    assert_eq!(said.status, 1);
    assert!(
        said.error.contains("isn't the same folder as before, and is empty"),
        "{said:?}"
    );
    assert_eq!(server.done(&["query", "--count", "name==\"*\""]), "6\n");
    fs::remove_dir(&folder.0).unwrap();
    fs::rename(&kept, &folder.0).unwrap();
    assert_eq!(server.import(&folder)[3], 0);
}
