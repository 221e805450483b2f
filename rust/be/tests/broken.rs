//! Tests of servers that break the protocol, and of output that can't be written.

use crate::common::files::Folder;
use crate::common::{Said, Server, BE};
use std::fs::OpenOptions;
use std::io::{Read, Write};
use std::net::Shutdown;
use std::os::unix::net::{UnixListener, UnixStream};
use std::process::Command;
use std::sync::atomic::{AtomicBool, Ordering};
use std::sync::Arc;
use std::thread;

/// Sends these bytes to a client, and waits until it has disconnected.
fn answer(mut stream: UnixStream, bytes: &[u8]) {
    // The tool may disconnect before everything is sent.
    let _ = stream.read(&mut [0; 4_096]);
    let _ = stream.write_all(bytes);
    let _ = stream.shutdown(Shutdown::Write);
    let _ = stream.read_to_end(&mut Vec::new());
}

/// Returns what the tool prints when a server sends these bytes to each client and closes the connection.
fn told(number: usize, bytes: Vec<u8>, words: &[&str]) -> Said {
    let path = std::env::temp_dir().join(format!("be-broken-{}-{number}", std::process::id()));
    let listener = UnixListener::bind(&path).unwrap();
    let is_over = Arc::new(AtomicBool::new(false));
    let ends = is_over.clone();
    let server = thread::spawn(move || {
        let clients = listener.incoming().map(Result::unwrap);
        clients
            .take_while(|_| !ends.load(Ordering::SeqCst))
            .for_each(|stream| answer(stream, &bytes));
    });
    let mut command = Command::new(BE);
    let said = command.arg("--socket").arg(&path).args(words).output().unwrap().into();
    is_over.store(true, Ordering::SeqCst);
    UnixStream::connect(&path).unwrap();
    server.join().unwrap();
    std::fs::remove_file(path).unwrap();
    said
}

/// A valid reply to the tool's first request.
const HELLO: &str = concat!(
    r#"{"id":1,"ok":{"protocol":1,"server":"0","library":"0","run":"a","pass":1,"kept":"no","limits":"#,
    r#"{"pages":8,"passes":1,"commits":1,"operations":64,"line":1048576,"watches":32}}}"#
);

fn check(number: usize, bytes: &[u8]) {
    for words in [
        &["status"][..],
        &["query", "a==1"],
        &["query", "-w", "a==1"],
        &["lsindex"],
    ] {
        let said = told(number, bytes.to_vec(), words);
        assert_eq!((said.status, said.error.lines().count()), (1, 1), "{number}: {said:?}");
        assert!(
            said.out.is_empty() && said.error.starts_with("be: "),
            "{number}: {said:?}"
        );
        assert!(!said.error.contains('\x7f'), "{number}: {said:?}");
    }
}

#[test]
fn a_first_reply_that_is_wrong_is_an_error_of_one_line() {
    for (number, bytes) in [
        &b""[..],
        b"\n",
        b"\xff\xfe\0\n",
        b"{}\n",
        b"[1]\n",
        b"{\"id\":1,\"ok\":{\"protocol\":1}}\n",
        b"{\"id\":99,\"ok\":{}}\n",
        b"{\"id\":1,\"ok\"",
        &[b'a'; 5 << 20],
        b"{\"id\":null,\"error\":{\"name\":\"NoPass\",\"number\":68,\"message\":\"\x7f\",\"clients\":62}}\n",
    ]
    .into_iter()
    .enumerate()
    {
        check(number, bytes);
    }
}

#[test]
fn a_later_reply_that_is_wrong_is_an_error_of_one_line() {
    for (number, line) in [
        "",
        r#"{"id":2,"ok":{}}"#,
        r#"{"id":2,"error":{}}"#,
        r#"{"id":2,"error":{"name":"Syntax","message":"","offset":1e99}}"#,
        r#"{"watch":1,"commit":-1}"#,
    ]
    .into_iter()
    .enumerate()
    {
        check(100 + number, format!("{HELLO}\n{line}\n").as_bytes());
    }
}

#[test]
fn a_place_outside_the_query_is_shown_at_its_end() {
    let error = r#"{"id":2,"error":{"name":"Syntax","message":"wrong","offset":18446744073709551615}}"#;
    let said = told(
        200,
        format!("{HELLO}\n{error}\n").into_bytes(),
        &["query", "-w", "a==1"],
    );
    assert_eq!((said.status, said.error.as_str()), (1, "be: wrong\n  a==1\n      ^\n"));
}

/// Returns the first reply and these, which are the outcomes of the later requests.
fn lines(replies: &[&str]) -> Vec<u8> {
    let numbered = replies.iter().zip(2..);
    let lines = numbered.map(|(reply, id)| format!("{{\"id\":{id},{reply}}}\n"));
    format!("{HELLO}\n{}", lines.collect::<String>()).into_bytes()
}

/// The reply to a request to pin a snapshot, and the error if the server has taken it back.
const PIN: &str = r#""ok":{"commit":1,"next":2}"#;
const EXPIRED: &str = r#""error":{"name":"Expired","message":"taken back"}"#;

#[test]
fn a_snapshot_that_was_taken_back_is_followed_by_another() {
    let hits = r#""ok":{"commit":1,"count":1,"nodes":[1]}"#;
    let nothing = r#""ok":{}"#;
    // The last reply is for the request about the query's text.
    let bytes = lines(&[PIN, EXPIRED, nothing, PIN, hits, nothing, r#""ok":{"comparisons":[]}"#]);
    let said = told(201, bytes, &["query", "a==1"]);
    assert_eq!((said.status, said.out.as_str(), said.error.as_str()), (0, "1\n", ""));
    let said = told(202, lines(&[PIN, EXPIRED, nothing].repeat(9)), &["query", "a==1"]);
    assert_eq!((said.status, said.error.as_str()), (1, "be: taken back\n"));
}

#[test]
fn a_file_of_two_nodes_is_found_though_a_snapshot_was_taken_back() {
    let folder = Folder::new();
    folder.file("x", "");
    let path = folder.word("x");
    let nodes = r#""ok":{"commit":1,"count":2,"nodes":[7,8]}"#;
    let at = |path: &str| format!(r#""ok":{{"commit":1,"attributes":{{"name":"x","FILE:root":"{path}"}}}}"#);
    let (other, own) = (at("/other"), at(&path));
    let (nothing, value) = (r#""ok":{}"#, r#""ok":{"commit":1,"value":"y"}"#);
    let first = [PIN, nodes, EXPIRED, nothing];
    let second = [PIN, nodes, &other, &own, nothing];
    let bytes = lines(&[&first[..], &second, &[PIN, value, nothing]].concat());
    let said = told(203, bytes, &["catattr", "mark", &path]);
    assert_eq!((said.status, said.out.as_str()), (0, "8 : string : y\n"), "{said:?}");
}

#[test]
fn output_that_cannot_be_written_is_an_error() {
    let server = server!(Server::with_three());
    for words in [
        &["query", "name==*"][..],
        &["query", "--json", "name==*"],
        &["query", "-w", "name==*"],
        &["status"],
        &["catattr", "name", "1"],
        &["listattr", "1"],
        &["addattr", "--new", "name", "d"],
    ] {
        let full = OpenOptions::new().write(true).open("/dev/full").unwrap();
        let said: Said = server.command(words).stdout(full).output().unwrap().into();
        assert_eq!((said.status, said.error.lines().count()), (1, 1), "{words:?}: {said:?}");
        assert!(said.error.starts_with("be: the output can't be written: "), "{said:?}");
    }
    let closed = |end: &str| format!("{BE} status {end}; echo $?");
    for (end, status) in [(">&- 2>&-", "0\n"), ("nonsense 2>/dev/full", "2\n")] {
        let mut command = Command::new("sh");
        command
            .args(["-c", &closed(end)])
            .env("BESTORE_SOCKET", server.socket());
        let said: Said = command.output().unwrap().into();
        assert_eq!(said.out, status, "{end}");
    }
}
