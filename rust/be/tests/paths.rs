//! Tests of the paths that queries print.

use crate::common::files::{node_of, small, Folder};
use crate::common::refuser::Refuser;
use crate::common::Said;
use bestore_client::{Batch, Client};

#[test]
fn paths_come_from_the_snapshot_in_which_the_query_was_run() {
    for (words, path) in [
        // The names are read in one request, and those of the folders above in others.
        (r#"{"nodes":["#, "a/x.txt"),
        (r#""attributes":"#, "a"),
    ] {
        let (server, refuser, folder) = server!(Refuser::with_server_and(small()));
        server.import(&folder);
        let socket = server.socket();
        let renamed = node_of(&server, &folder, path);
        refuser.before(words, move || {
            let mut client = Client::connect(socket).unwrap();
            client.apply(Batch::new().set(renamed, "name", "other")).unwrap();
        });
        let said = refuser.be(&server, &["query", "--path", "name==\"*.txt\""]);
        assert!(refuser.has_acted(), "{words}");
        let (out, error) = (folder.word("a/x.txt") + "\n", String::new());
        assert_eq!(said, Said { status: 0, out, error }, "{words}");
    }
}

#[test]
fn a_query_with_paths_takes_few_requests() {
    let (server, folder) = server!(Folder::with_server());
    (0..300).for_each(|number| drop(folder.file(&format!("f{number}"), "")));
    server.import(&folder);
    let requests = || {
        let info: serde_json::Value = serde_json::from_str(&server.done(&["info", "--json"])).unwrap();
        info["requests"].as_u64().unwrap()
    };
    let before = requests();
    assert_eq!(server.paths("name==\"f*\"").len(), 300);
    assert!(requests() - before < 30, "{}", requests() - before);
}
