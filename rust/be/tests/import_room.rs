//! Tests of `import` into a store that is nearly full.

use crate::common::files::small;
use crate::common::Server;
use bestore_client::{Batch, Client};
use std::fs;

#[test]
fn a_store_that_is_full_says_what_would_help() {
    let server = server!(Server::start_with(&["--pages", "256"]));
    let folder = small();
    (0..500).for_each(|number| drop(folder.file(&format!("f{number}"), "")));
    let said = server.be(&["import", "--json", &folder.all()]);
    let read: serde_json::Value = serde_json::from_str(&said.out).unwrap();
    let (files, left) = (read["files"].as_u64().unwrap(), read["left"].as_u64().unwrap());
    assert_eq!((said.status, files + left), (1, 506), "{said:?}");
    assert!(files > 100, "{said:?}");
    assert_eq!(
        said.error,
        format!(
            "be: the store is full: {files} files are in it, and {left} are not\n  bestored --pages 1024 has room for all\n"
        )
    );
    // The store can still be written to, and has room again once files are removed.
    server.done(&["addattr", "mark", "x", &folder.word("a")]);
    let roomy = server!(Server::start_with(&["--pages", "1024"]));
    assert_eq!(roomy.import(&folder)[0], 506);
    (0..450).for_each(|number| fs::remove_file(folder.path(format!("f{number}"))).unwrap());
    server.import(&folder);
    assert_eq!(server.paths("name==\"*\""), folder.paths());
}

#[test]
fn a_store_whose_pages_an_older_snapshot_keeps_is_not_full() {
    const PAGES: u64 = 1024;
    let server = server!(Server::start_with(&["--pages", &PAGES.to_string()]));
    let folder = small();
    server.import(&folder);
    let mut reader = Client::connect(server.socket()).unwrap();
    reader.pin().unwrap();
    let mut writer = Client::connect(server.socket()).unwrap();
    let mut mark = 0_i64;
    // One page in 64 has to be free for a new file.
    while writer.status().unwrap().free >= PAGES / 64 {
        mark += 1;
        writer.apply(Batch::new().set(1, "mark", mark)).unwrap();
    }
    folder.file("new", "");
    assert_eq!(server.import(&folder)[0], 1);
}
