//! Tests of `info`, `clients` and `kick`.

use crate::common::Server;
use bestore_client::{Client, Error};

#[test]
fn who_is_connected_is_listed_and_ended() {
    let server = server!(Server::with_three());
    let mut client = Client::connect(server.socket()).unwrap();
    let commit = client.pin().unwrap().commit;
    let said = server.done(&["clients"]);
    let rows: Vec<Vec<_>> = said.lines().map(|line| line.split_whitespace().collect()).collect();
    assert_eq!(
        rows[0],
        ["Client", "Process", "Connected", "Requests", "Command", "Pinned"]
    );
    assert_eq!(rows.len(), 2, "{said}");
    assert_eq!(rows[1][1], std::process::id().to_string());
    assert!(rows[1].contains(&&*commit.to_string()), "{said}");

    let listed: Vec<serde_json::Value> = serde_json::from_str(&server.done(&["clients", "--json"])).unwrap();
    assert_eq!(listed[0]["pinned"]["commit"], commit);
    assert_eq!(listed[1]["own"], true);

    assert_eq!(server.done(&["kick", rows[1][0]]), "");
    assert!(matches!(client.unpin(), Err(Error::Closed)));
    let gone = server.be(&["kick", "999"]);
    assert_eq!((gone.status, gone.out.as_str()), (1, ""));
    assert_eq!(
        gone.error,
        "be: no client has the number 999; the clients may have changed\n"
    );
    assert_eq!(server.be(&["kick", "me"]).status, 2);
}

#[test]
fn what_goes_on_is_printed() {
    let server = server!(Server::start_with(&["--keep", "kept"]));
    server.done(&["addattr", "--new", "name", "a"]);
    let mut client = Client::connect(server.socket()).unwrap();
    client.pin().unwrap();
    let said = server.done(&["info"]);
    let value = |name: &str| {
        let line = said.lines().find(|line| line.starts_with(name)).unwrap_or_default();
        line[name.len()..].trim().to_owned()
    };
    let run = client.hello().unwrap().run;
    assert!(value("server").contains(&format!("run {run}, process ")), "{said}");
    assert!(value("writes  ").starts_with("1, "), "{said}");
    assert!(value("a write takes").contains("p99 "), "{said}");
    assert!(
        value("oldest snapshot").contains(&format!("(process {})", std::process::id())),
        "{said}"
    );
    assert!(value("file").ends_with(" of -wal"), "{said}");
    let json: serde_json::Value = serde_json::from_str(&server.done(&["info", "--json"])).unwrap();
    assert_eq!((&json["writes"], json["run"].as_str()), (&1.into(), Some(&*run)));
}
