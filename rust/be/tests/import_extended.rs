//! Tests of how `import` reads and writes extended attributes.

use crate::common::files::{can_set, counts, node_of, small, Folder};
use crate::common::refuser::Refuser;
use crate::common::{Said, Server};
use std::collections::BTreeSet;
use std::fs::{self, OpenOptions};
use std::io::Write;
use std::path::Path;

#[test]
fn extended_attributes_are_read_and_written() {
    let extended = Folder::with_extended("extended attributes", "a/x.txt", "user.rating", "5");
    let (server, folder) = server!(extended);
    let file = folder.path("a/x.txt");
    xattr::set(&file, "user.raw", &[0, 255]).unwrap();
    xattr::set(&file, "user.name", b"not this").unwrap();
    xattr::set(&file, "user.long", &[b'a'; 300]).unwrap();
    server.done(&["mkindex", "-t", "int32", "rating"]);
    let said = server.be(&["import", &folder.all()]);
    assert_eq!((said.status, said.error.lines().count()), (0, 1), "{said:?}");
    assert_eq!(
        said.error,
        "be: 2 extended attributes were left out: an import sets an attribute with that name itself, the name isn't text of up to 63 bytes, \
         the value has more than 255 bytes or can't be read, or the node has too many attributes\n"
    );
    assert_eq!(server.paths("rating==5"), [file.clone()].into());
    assert_eq!(server.value("name", &file), "x.txt");

    // Attributes set on the node are written to the file, and the next import doesn't count this as a change.
    server.done(&["addattr", "-t", "int32", "rating", "3", &folder.word("a/x.txt")]);
    server.done(&["addattr", "mark", "x", &folder.word("a/b"), &folder.word("a/x.txt")]);
    let json = server.be(&["import", "--json", "--xattr", &folder.all()]).out;
    assert_eq!(counts(&json), [0; 4]);
    assert!(json.contains("\"xattrs_written\":3"), "{json}");
    let read = |name: &str, attribute: &str| xattr::get(folder.path(name), attribute).unwrap().unwrap_or_default();
    assert_eq!(
        (read("a/x.txt", "user.rating"), read("a/b", "user.mark")),
        (b"3".to_vec(), b"x".to_vec())
    );
    assert_eq!(counts(&server.be(&["import", "--json", &folder.all()]).out), [0; 4]);

    // An attribute removed from the file is removed from the node.
    xattr::remove(&file, "user.rating").unwrap();
    server.be(&["import", &folder.all()]);
    assert_eq!(server.paths("rating==3"), BTreeSet::new());
    assert_eq!(server.value("mark", &file), "x");
}

#[test]
fn what_is_set_on_a_node_stays_until_the_files_extended_attributes_change() {
    let extended = Folder::with_extended("changes of extended attributes", "a/x.txt", "user.rating", "5");
    let (server, folder) = server!(extended);
    let (file, word) = (folder.path("a/x.txt"), folder.word("a/x.txt"));
    xattr::set(&file, "user.mark", b"x").unwrap();
    server.done(&["mkindex", "-t", "int32", "rating"]);
    server.import(&folder);
    for (rating, option) in [("3", "--json"), ("2", "--xattr"), ("1", "--reread")] {
        server.done(&["addattr", "-t", "int32", "rating", rating, &word]);
        fs::write(&file, rating.repeat(rating.parse::<usize>().unwrap() + 9)).unwrap();
        server.done(&["import", option, &folder.all()]);
        assert_eq!(server.value("rating", &file), rating);
    }
    server.done(&["rmattr", "mark", &word]);
    fs::write(&file, "changed").unwrap();
    server.import(&folder);
    assert!(!server.done(&["listattr", &word]).contains("mark"));
    xattr::set(&file, "user.rating", b"4").unwrap();
    server.import(&folder);
    assert_eq!(server.value("rating", &file), "4");
}

#[test]
fn a_file_of_as_many_attributes_as_a_node_holds_is_imported() {
    let (server, folder) = server!(Folder::small_with_server());
    let file = folder.path("z");
    for number in 0..70 {
        if !can_set("many extended attributes", &file, &format!("user.a{number}"), "1") {
            return;
        }
    }
    let said = server.be(&["import", "--json", &folder.all()]);
    assert_eq!((said.status, counts(&said.out)), (0, [6, 0, 0, 0]), "{said:?}");
    assert!(said.error.contains("extended attributes were left out"), "{said:?}");
    let count = || server.done(&["listattr", &folder.word("z")]).matches("\"a").count();
    assert!((50..60).contains(&count()), "{}", count());
    for number in 0..70 {
        xattr::remove(&file, format!("user.a{number}")).unwrap();
        xattr::set(&file, format!("user.b{number}"), b"2").unwrap();
    }
    let said = server.be(&["import", "--json", &folder.all()]);
    assert_eq!((said.status, counts(&said.out)), (0, [0, 1, 0, 0]), "{said:?}");
    assert_eq!(count(), 0);
}

#[test]
fn a_file_of_which_a_part_was_refused_is_written_by_the_next_import() {
    let (server, refuser, folder) = server!(Refuser::with_server());
    let file = folder.file("x", "");
    // Use more operations than fit in a batch.
    let names = |letter: char| (0..35).map(move |number| format!("user.{letter}{number}"));
    for name in names('a') {
        if !can_set("a file that is refused", &file, &name, "1") {
            return;
        }
    }
    assert_eq!(server.import(&folder), [2, 0, 0, 0]);
    for (old, new) in names('a').zip(names('b')) {
        xattr::remove(&file, old).unwrap();
        xattr::set(&file, new, b"2").unwrap();
    }
    refuser.refuse(r#"["unset","#);
    let said = refuser.be(&server, &["import", "--json", &folder.all()]);
    assert_eq!((said.status, counts(&said.out)), (1, [0, 0, 0, 0]), "{said:?}");
    assert!(said.error.contains("x: no page is free"), "{said:?}");
    assert_eq!(server.import(&folder), [0, 1, 0, 0]);
    let listed = server.done(&["listattr", &folder.word("x")]);
    assert_eq!(
        (listed.matches("\"a").count(), listed.matches("\"b").count()),
        (0, 35),
        "{listed}"
    );
}

#[test]
fn an_index_that_is_created_later_gets_numbers_once_files_are_read_again() {
    let extended = Folder::with_extended("an index that is created later", "z", "user.rating", "5");
    let (server, folder) = server!(extended);
    let (file, word) = (folder.path("z"), folder.word("z"));
    xattr::set(&file, "user.count", b"7").unwrap();
    server.import(&folder);
    assert_eq!(
        server.done(&["catattr", "rating", &word]).split(" : ").nth(1),
        Some("string")
    );
    // This user sets a number that has no index yet.
    server.done(&["addattr", "-t", "int64", "count", "7", &word]);
    server.done(&["mkindex", "-t", "int32", "rating"]);
    server.done(&["import", "--reread", &folder.all()]);
    assert_eq!(server.paths("rating>=4"), [file].into());
    assert_eq!(
        server.done(&["catattr", "count", &word]).split(" : ").nth(1),
        Some("int64")
    );
    let said = server.done(&["import", "--reread", "--json", &folder.all()]);
    assert_eq!(counts(&said), [0; 4]);
}

/// Replaces a file as editors do that don't copy extended attributes.
fn replace(folder: &Folder, name: &str, content: &str) {
    folder.file("saved", content);
    folder.rename("saved", name);
}

#[test]
fn attributes_stay_on_the_node_if_an_editor_drops_the_files_extended_attributes() {
    let test = "extended attributes that an editor drops";
    let (server, folder) = server!(Folder::with_extended(test, "a/x.txt", "user.tag", "t"));
    let (file, word) = (folder.path("a/x.txt"), folder.word("a/x.txt"));
    server.import(&folder);
    server.done(&["addattr", "mark", "x", &word]);
    server.done(&["import", "--xattr", &folder.all()]);
    let node = node_of(&server, &folder, "a/x.txt");
    let are_in_file = || ["user.mark", "user.tag"].map(|name| xattr::get(&file, name).unwrap().is_some());
    assert_eq!(are_in_file(), [true; 2]);

    replace(&folder, "a/x.txt", "saved by an editor");
    assert_eq!(are_in_file(), [false; 2]);
    server.import(&folder);
    assert_eq!(
        (node_of(&server, &folder, "a/x.txt"), &*server.value("size", &file)),
        (node, "18")
    );
    for _ in 0..2 {
        assert_eq!(
            (&*server.value("mark", &file), &*server.value("tag", &file)),
            ("x", "t")
        );
        fs::write(&file, "changed in place").unwrap();
        server.import(&folder);
    }
    // They are now attributes that a user has set, so --xattr writes them to the new file.
    server.done(&["import", "--xattr", &folder.all()]);
    assert_eq!(are_in_file(), [true; 2]);
    xattr::remove(&file, "user.mark").unwrap();
    server.import(&folder);
    let listed = server.done(&["listattr", &word]);
    assert!(!listed.contains("mark") && listed.contains("tag"), "{listed}");
}

#[test]
fn what_a_user_has_set_counts_for_more_than_copied_extended_attributes() {
    let extended = Folder::with_extended("copied extended attributes", "a/x.txt", "user.tag", "t");
    let (server, folder) = server!(extended);
    xattr::set(folder.file("a/.x.tmp", "saved"), "user.tag", b"t").unwrap();
    // Both files have nodes when one is moved over the other.
    server.import(&folder);
    let node = node_of(&server, &folder, "a/x.txt");
    server.done(&["addattr", "mark", "x", &folder.word("a/x.txt")]);
    folder.rename("a/.x.tmp", "a/x.txt");
    server.import(&folder);
    assert_eq!(node_of(&server, &folder, "a/x.txt"), node);
    let file = folder.path("a/x.txt");
    assert_eq!(
        (&*server.value("mark", &file), &*server.value("tag", &file)),
        ("x", "t")
    );
    assert_eq!(server.paths("name==\"*\""), folder.paths());
}

#[test]
fn what_a_user_has_set_stays_if_a_file_is_renamed_while_it_is_read() {
    let (server, refuser, folder) = server!(Refuser::with_server_and(small()));
    let (file, moved) = (folder.path("a/x.txt"), folder.path("a/moved.txt"));
    if !can_set("a file that is renamed while it is read", &file, "user.rating", "5") {
        return;
    }
    server.import(&folder);
    server.done(&["addattr", "rating", "3", &folder.word("a/x.txt")]);
    fs::write(&file, "changed").unwrap();
    // New folders get their nodes before changed files are read.
    folder.folder("new");
    let to = moved.clone();
    refuser.before(r#"["new"]"#, move || fs::rename(&file, to).unwrap());
    let said = refuser.be(&server, &["import", "--json", &folder.all()]);
    assert!(refuser.has_acted());
    assert_eq!((said.status, said.error.as_str()), (0, ""));
    server.import(&folder);
    assert_eq!(
        (&*server.value("rating", &moved), &*server.value("size", &moved)),
        ("3", "7")
    );
    assert_eq!(server.paths("name==\"*\""), folder.paths());
}

/// Imports a folder with `--xattr` after a user has set an attribute on a file, and does something just before the file gets it.
fn import_meddled(test: &str, meddle: impl FnOnce(&Path) + Send + 'static) -> Option<(Server, Folder, Said)> {
    let (server, refuser, folder) = Refuser::with_server_and(small())?;
    let file = folder.path("z");
    if !can_set(test, &file, "user.tag", "t") {
        return None;
    }
    server.import(&folder);
    server.done(&["addattr", "mark", "x", &folder.word("z")]);
    // Nothing has changed, so the import requests attributes only in order to write them.
    refuser.before(r#""attributes":"#, move || meddle(&file));
    let said = refuser.be(&server, &["import", "--xattr", "--json", &folder.all()]);
    assert!(refuser.has_acted());
    Some((server, folder, said))
}

#[test]
fn a_file_that_changes_while_it_gets_extended_attributes_is_read_by_the_next_import() {
    let meddled = import_meddled("a file that changes meanwhile", |file| {
        let file = OpenOptions::new().append(true).open(file);
        file.unwrap().write_all(b"and more").unwrap();
    });
    let (server, folder, said) = server!(meddled);
    assert_eq!((said.status, said.error.as_str()), (0, ""));
    let file = folder.path("z");
    assert_eq!(xattr::get(&file, "user.mark").unwrap(), Some(b"x".to_vec()));
    server.import(&folder);
    assert_eq!(
        server.value("size", &file),
        fs::metadata(&file).unwrap().len().to_string()
    );
    assert_eq!(server.import(&folder), [0; 4]);
}

#[test]
fn a_file_that_goes_before_it_gets_extended_attributes_is_no_error() {
    let meddled = import_meddled("a file that goes meanwhile", |file| fs::remove_file(file).unwrap());
    let (server, folder, said) = server!(meddled);
    assert_eq!((said.status, said.error.as_str()), (0, ""));
    server.import(&folder);
    assert_eq!(server.paths("name==\"*\""), folder.paths());
}

#[test]
fn another_file_does_not_get_the_extended_attributes_of_one_that_was_moved() {
    let meddled = import_meddled("a file that was moved meanwhile", |file| {
        fs::rename(file, file.with_file_name("moved")).unwrap();
        fs::write(file, "another").unwrap();
    });
    let (server, folder, said) = server!(meddled);
    assert_eq!((said.status, said.error.as_str()), (0, ""));
    assert_eq!(xattr::get(folder.path("z"), "user.mark").unwrap(), None);
    server.import(&folder);
    assert_eq!(server.value("mark", &folder.path("moved")), "x");
    assert_eq!(server.be(&["catattr", "mark", &folder.word("z")]).status, 1);
}
