//! Runs the server under valgrind's memcheck, to test that it accesses only its own memory and doesn't leak any.

use crate::common::{command, Folder, Server};
use std::path::Path;
use std::process::Command;

const VALGRIND: [&str; 6] = [
    "-q",
    "--fair-sched=try",
    "--leak-check=full",
    "--show-leak-kinds=definite",
    "--errors-for-leak-kinds=definite",
    "--error-exitcode=9",
];

/// Requests, each with a part of the expected reply.
const REQUESTS: [(&str, &str); 21] = [
    (r#""hello":{"protocol":2}"#, r#""kept":"each""#),
    (
        r#""batch":{"operations":[["index","size","int64"],["new"],["set",1,"size",5],["new"]]}"#,
        r#""nodes":[1,2]"#,
    ),
    (r#""batch":{"operations":[["remove",9]]}"#, "NoNode"),
    (r#""batch":{"operations":[["new"]],"expected":0}"#, "Conflict"),
    (r#""query":{"query":"size>1","columns":["size","name"]}"#, "[[5,null]]"),
    (r#""query":{"query":"size=>1"}"#, "Syntax"),
    (r#""get":{"node":1,"name":"size"}"#, r#""value":5"#),
    (r#""attributes":{"node":1}"#, r#"{"size":5}"#),
    (r#""indices":{}"#, r#"{"size":"int64"}"#),
    (r#""nodes":{}"#, r#""nodes":[1,2]"#),
    (r#""explain":{"query":"size>1"}"#, "score"),
    (r#""ways":{"query":"size>1"}"#, "walked"),
    (r#""pin":{}"#, r#""next":3"#),
    (r#""state":{}"#, r#""batches":["#),
    (r#""unpin":{}"#, r#""ok":{}"#),
    (r#""journal":{}"#, r#""length":1"#),
    (r#""status":{}"#, r#""entries":1"#),
    (r#""flush":{}"#, r#""ok":{}"#),
    (r#""compact":{}"#, r#""ok":{}"#),
    (r#""next":{}"#, r#""next":3"#),
    (r#""drop":{}"#, "BadRequest"),
];

fn start(folder: &Folder) -> Server {
    let socket = folder.join("socket");
    let keep = folder.join("file");
    let options = ["--pages", "64", "--passes", "4", "--keep", keep.to_str().unwrap()];
    let server = command(&socket, &options);
    let mut checked = Command::new("valgrind");
    checked.args(VALGRIND).arg(server.get_program()).args(server.get_args());
    Server::run(checked, Path::new(&socket))
}

fn talk_of_all(server: &Server) {
    let (mut talk, mut watching) = (server.talk(), server.talk());
    for (request, part) in REQUESTS {
        let said = talk.ask(&format!("{{\"id\":1,{request}}}"));
        assert!(said.contains(part), "{request}: {said}");
    }
    watching.check(
        r#""watch":{"query":"size>1"}"#,
        r#""ok":{"watch":1,"commit":1,"nodes":[1]}"#,
    );
    let set = r#""batch":{"operations":[["set",2,"size",7]]}"#;
    talk.check(set, r#""ok":{"commit":2,"nodes":[]}"#);
    assert_eq!(watching.line(), r#"{"watch":1,"commit":2,"created":[2],"removed":[]}"#);
    watching.check(r#""unwatch":{"watch":1}"#, r#""ok":{}"#);
    // Close the connection while it has a live query, a pinned snapshot and half a line.
    watching.check(r#""watch":{}"#, r#""ok":{"watch":2,"commit":2}"#);
    watching.check(r#""pin":{}"#, r#""ok":{"commit":2,"next":3}"#);
    watching.send(b"{\"id\":1,\"ge");
}

#[test]
fn memcheck_finds_nothing() {
    if Command::new("valgrind").arg("--version").output().is_err() {
        return println!("bestored under valgrind: skipped, there is no valgrind");
    }
    let folder = Folder::in_memory();
    let server = start(&folder);
    assert!(server.answers());
    talk_of_all(&server);
    assert!(server.end_by("TERM").success());
    // A restart replays the file's state and one entry.
    let server = start(&folder);
    assert!(server.answers());
    let mut talk = server.talk();
    assert!(talk
        .ask(r#"{"id":1,"query":{"query":"size>1"}}"#)
        .ends_with(r#""nodes":[1,2]}}"#));
    assert!(server.end_by("TERM").success());
}
