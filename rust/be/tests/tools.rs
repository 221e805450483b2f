//! Tests of each command, each with its own server.

use crate::common::{Said, Server, BE};
use bestore_client::Client;
use std::collections::BTreeSet;
use std::os::unix::ffi::OsStrExt;
use std::process::{Command, Stdio};

fn refused(server: &Server, words: &[&str], error: &str) {
    let said = server.be(words);
    assert_eq!((said.status, said.error.as_str()), (1, error), "{words:?}");
}

#[test]
fn attributes_of_each_type_are_set_and_printed() {
    let server = server!(Server::start());
    assert_eq!(server.done(&["addattr", "--new", "t", "Ada é"]), "1\n");
    for (kind, value) in [
        ("mime", "text/plain"),
        ("int32", "-2147483648"),
        ("int64", "-9223372036854775808"),
        ("uint32", "4294967295"),
        ("uint64", "18446744073709551615"),
    ] {
        assert_eq!(server.done(&["addattr", "-t", kind, kind, value, "1"]), "");
        assert_eq!(server.done(&["catattr", kind, "1"]), format!("1 : {kind} : {value}\n"));
        assert_eq!(server.done(&["catattr", "-r", kind, "1"]), value);
    }
    assert_eq!(server.done(&["catattr", "t", "1"]), "1 : string : Ada é\n");
    assert_eq!(
        server.done(&["catattr", "--json", "t", "1"]),
        "{\"node\":1,\"name\":\"t\",\"value\":\"Ada é\"}\n"
    );
}

#[test]
fn the_old_names_of_types_are_taken() {
    let server = server!(Server::start());
    server.done(&["addattr", "--new", "t", "a"]);
    for (old, kind) in [
        ("int", "int32"),
        ("LONG", "int32"),
        ("llong", "int64"),
        ("ULLG", "uint64"),
    ] {
        server.done(&["addattr", "-t", old, "n", "5", "1"]);
        assert_eq!(server.done(&["catattr", "n", "1"]), format!("1 : {kind} : 5\n"));
    }
}

#[test]
fn values_are_read_from_standard_input_and_printed_raw() {
    let server = server!(Server::start());
    let bytes: Vec<u8> = (0..=254).collect();
    let said = server.fed(&["addattr", "-t", "raw", "--new", "-f", "-", "r"], &bytes);
    assert_eq!((said.status, said.out.as_str()), (0, "1\n"));
    let printed = server.command(&["catattr", "-r", "r", "1"]).output().unwrap();
    assert_eq!(printed.stdout, bytes);
    let shown = server.done(&["catattr", "r", "1"]);
    assert!(shown.starts_with("1 : raw : 255 bytes\n0000  00 01 02"), "{shown}");

    assert_eq!(server.fed(&["addattr", "-f", "-", "t", "1"], b"two\nlines\n").status, 0);
    assert_eq!(server.done(&["catattr", "-r", "t", "1"]), "two\nlines\n");
    assert_eq!(
        server
            .fed(&["addattr", "-t", "int32", "-f", "-", "n", "1"], b" 7\n")
            .status,
        0
    );
    assert_eq!(server.done(&["catattr", "-r", "n", "1"]), "7");
}

#[test]
fn values_that_do_not_fit_are_refused() {
    let server = server!(Server::start());
    server.done(&["addattr", "--new", "t", "a"]);
    let said = server.be(&["addattr", "-t", "int32", "n", "2147483648", "1"]);
    assert_eq!(
        (said.status, said.error.as_str()),
        (
            2,
            "be: the value doesn't fit the type int32, which takes a whole number in its range\n"
        )
    );
    let mut command = server.command(&["addattr", "t"]);
    command.arg(std::ffi::OsStr::from_bytes(b"\xff")).arg("1");
    let said: Said = command.output().unwrap().into();
    assert_eq!(
        (said.status, said.error.as_str()),
        (
            2,
            "be: the value isn't valid UTF-8, as a string must be; the type raw takes any bytes\n"
        )
    );
    let said = server.fed(&["addattr", "-f", "-", "t", "1"], &[b'a'; 1 << 20]);
    assert_eq!(said.status, 1, "{said:?}");
    let said = server.fed(&["addattr", "-f", "-", "t", "1"], b"a\0b");
    assert_eq!(said.status, 1, "{said:?}");
    let said = server.be(&["addattr", "-f", "/nowhere", "t", "1"]);
    assert_eq!((said.status, &said.error[..14]), (1, "be: /nowhere: "));
    assert_eq!(server.done(&["catattr", "-r", "t", "1"]), "a");
}

#[test]
fn attributes_are_listed_and_removed() {
    let server = server!(Server::with_three());
    server.done(&["addattr", "a\tb", "x\ty", "1"]);
    let listed = server.done(&["listattr", "-l", "1"]);
    let lines: Vec<&str> = listed.lines().collect();
    assert_eq!(lines[0], "Node: 1");
    assert_eq!(
        lines[3..6],
        [
            "  string      3  \"a\tb\"  x\ty",
            "  string      1  \"name\"  a",
            "   int64      8  \"size\"  10"
        ]
    );
    assert_eq!(lines.last(), Some(&"12 bytes total in attributes"));
    let dumped = server.done(&["listattr", "-x", "1"]);
    assert!(dumped.contains("0000  0a 00 00 00 00 00 00 00"), "{dumped}");
    let json = server.done(&["listattr", "--json", "1", "3"]);
    assert_eq!(
        json,
        "{\"node\":1,\"attributes\":{\"a\\tb\":\"x\\ty\",\"name\":\"a\",\"size\":10}}\n\
         {\"node\":3,\"attributes\":{\"name\":\"c\"}}\n"
    );

    server.done(&["rmattr", "size", "1", "2"]);
    assert_eq!(server.done(&["query", "--count", "size>=0"]), "0\n");
    let said = server.be(&["catattr", "size", "1"]);
    assert_eq!(
        (said.status, said.error.as_str()),
        (1, "be: node 1: no attribute size\n")
    );
    for words in [&["listattr", "99"][..], &["catattr", "size", "99"]] {
        refused(&server, words, "be: node 99: there is no such node\n");
    }
}

#[test]
fn an_error_at_one_node_does_not_keep_the_others() {
    let server = server!(Server::with_three());
    let said = server.be(&["addattr", "mark", "x", "1", "99", "3"]);
    assert_eq!(said.status, 1);
    assert!(said.error.starts_with("be: node 99: "), "{said:?}");
    assert_eq!(said.error.lines().count(), 1, "{said:?}");
    assert_eq!(
        server.done(&["catattr", "mark", "1", "3"]),
        "1 : string : x\n3 : string : x\n"
    );
    let said = server.be(&["rmattr", "mark", "1", "2", "3"]);
    assert_eq!(said.status, 1);
    assert!(said.error.starts_with("be: node 2: "), "{said:?}");
    let said = server.be(&["catattr", "mark", "1", "2", "3"]);
    assert_eq!((said.status, said.error.lines().count(), said.out.as_str()), (1, 3, ""));
}

#[test]
fn nodes_are_removed_with_their_attributes() {
    let server = server!(Server::with_three());
    server.done(&["rmnode", "1"]);
    assert_eq!(server.done(&["query", "name==*"]), "2\n3\n");
    refused(&server, &["listattr", "1"], "be: node 1: there is no such node\n");
    // A node that is gone or given twice doesn't prevent the others from being changed.
    refused(
        &server,
        &["rmnode", "2", "1", "2"],
        "be: node 1: there is no such node\nbe: node 2: there is no such node\n",
    );
    assert_eq!(server.done(&["query", "name==*"]), "3\n");
    // Node numbers aren't reused.
    assert_eq!(server.done(&["addattr", "--new", "name", "d"]), "4\n");
}

#[test]
fn many_nodes_are_removed() {
    let server = server!(Server::with_index("mark"));
    server.make(150, "mark", "x");
    let found = server.done(&["query", "mark==x"]);
    let nodes: Vec<&str> = found.lines().collect();
    server.done(&[&["rmnode"], &nodes[..]].concat());
    assert_eq!(server.done(&["query", "--count", "mark==*"]), "0\n");
}

#[test]
fn many_nodes_are_written() {
    let server = server!(Server::with_index("mark"));
    server.make(150, "n", "x");
    let nodes: Vec<String> = (1..=150).map(|node| node.to_string()).collect();
    let mut words = vec!["addattr", "mark", "y"];
    words.extend(nodes.iter().map(String::as_str));
    let entries =
        |server: &Server| -> serde_json::Value { serde_json::from_str(&server.done(&["status", "--json"])).unwrap() };
    let before = entries(&server)["entries"].as_u64().unwrap();
    server.done(&words);
    assert_eq!(server.done(&["query", "--count", "mark==y"]), "150\n");
    assert_eq!(entries(&server)["entries"].as_u64().unwrap(), before + 3);
}

#[test]
fn new_nodes_of_several_tools_are_apart() {
    let server = server!(Server::with_index("n"));
    let begin = |number: u32| {
        let number = number.to_string();
        let mut command = server.command(&["addattr", "--new", "n", &number]);
        command.stdout(Stdio::piped()).spawn().unwrap()
    };
    let children: Vec<_> = (0..24).map(begin).collect();
    let printed = |(number, child): (usize, std::process::Child)| {
        let said: Said = child.wait_with_output().unwrap().into();
        assert_eq!(said.status, 0);
        let node = said.out.trim().to_string();
        assert_eq!(server.done(&["catattr", "-r", "n", &node]), number.to_string());
        node
    };
    let nodes: BTreeSet<String> = children.into_iter().enumerate().map(printed).collect();
    assert_eq!(nodes.len(), 24);
    assert_eq!(server.done(&["query", "--count", "n==*"]), "24\n");
}

#[test]
fn indices_are_made_listed_and_removed() {
    let server = server!(Server::with_index("name"));
    server.done(&["mkindex", "--type=uint32", "a b"]);
    assert_eq!(server.done(&["lsindex"]), "a b\nname\n");
    assert_eq!(server.done(&["lsindex", "-l"]), "a b\tuint32\nname\tstring\n");
    assert_eq!(server.done(&["lsindex", "-v"]), server.done(&["lsindex", "--long"]));
    assert_eq!(
        server.done(&["lsindex", "--json"]),
        "{\"a b\":\"uint32\",\"name\":\"text\"}\n"
    );
    for words in [["mkindex", "name"], ["rmindex", "other"]] {
        let said = server.be(&words);
        assert_eq!((said.status, &said.error[..4]), (1, "be: "));
    }
    assert_eq!(server.be(&["mkindex", "-t", "raw", "r"]).status, 1);
    server.done(&["rmindex", "a b"]);
    assert_eq!(server.done(&["lsindex"]), "name\n");
}

#[test]
fn an_index_of_another_type_is_warned_of() {
    let server = server!(Server::with_three());
    let said = server.be(&["addattr", "size", "5", "3"]);
    assert_eq!(said.status, 0);
    assert_eq!(
        said.error,
        "be: warning: the index size holds int64, so it omits this string\n"
    );
}

#[test]
fn the_status_is_a_table_or_json() {
    let server = server!(Server::with_three());
    let table = server.done(&["status"]);
    let names: Vec<&str> = table.lines().map(|line| line.split("  ").next().unwrap()).collect();
    assert_eq!(
        names,
        [
            "pages",
            "free",
            "retired",
            "entries",
            "oldest snapshot",
            "clients",
            "live queries"
        ]
    );
    assert!(table.contains("entries          7 of "), "{table}");
    let json: serde_json::Value = serde_json::from_str(&server.done(&["status", "--json"])).unwrap();
    assert_eq!(json["entries"], 7);
    assert!(json["pages"].as_u64() >= json["free"].as_u64());
    assert!(json.get("oldest").is_some());
}

#[test]
fn an_index_gets_what_was_set_before_it() {
    let server = server!(Server::start_with(&["--pages", "1024"]));
    server.make(70, "a b", "x");
    assert_eq!(
        server
            .done(&["addattr", "--new", "-t", "int32", "a b", "5"])
            .lines()
            .count(),
        1
    );
    refused(&server, &["reindex", "a b"], "be: there is no index \"a b\"\n");
    server.done(&["mkindex", "a b"]);
    server.make(1, "a b", "x");
    assert_eq!(server.done(&["query", "--count", "'a b'==x"]), "1\n");
    assert_eq!(server.done(&["reindex", "a b"]), "70\n");
    assert_eq!(server.done(&["query", "--count", "'a b'==x"]), "71\n");
    assert_eq!(server.done(&["reindex", "a b"]), "0\n");
    let mut client = Client::connect(server.socket()).unwrap();
    assert_eq!(client.pairs("a b").unwrap(), 71);
    server.done(&["mkindex", "-t", "int64", "size"]);
    let hints = client.hints("'a b'==x && size==x").unwrap();
    assert_eq!(hints.iter().map(|hint| hint.offset).collect::<Vec<_>>(), [12]);
}

#[test]
fn exit_statuses_are_those_of_the_page() {
    let none = |words: &[&str]| -> Said {
        let mut command = Command::new(BE);
        command.env_remove("BESTORE_SOCKET").args(words);
        command.output().unwrap().into()
    };
    let said = none(&["--socket", "/nowhere/socket", "status"]);
    assert_eq!(said.status, 1);
    assert!(
        said.error.starts_with("be: no server answers at /nowhere/socket: "),
        "{said:?}"
    );
    assert!(
        said.error
            .ends_with("  bestored --background --socket /nowhere/socket starts one\n"),
        "{said:?}"
    );
    for words in [
        &[][..],
        &["nothing"],
        &["status", "--wait", "x"],
        &["status", "--wait", "-1"],
        &["status", "--timeout", "86401"],
        &["query"],
        &["query", "a==1", "b==1"],
        &["query", "--limit", "x", "a==1"],
        &["query", "--watch", "--limit", "5", "a==1"],
        &["addattr", "name"],
        &["addattr", "name", "value"],
        &["addattr", "--new", "name", "value", "1"],
        &["addattr", "-t", "float", "name", "value", "1"],
        &["catattr", "name"],
        &["catattr", "name", "-1"],
        &["rmindex", "a", "b"],
        &["rmnode"],
        &["status", "--table"],
    ] {
        let said = none(words);
        assert_eq!((said.status, said.out.as_str()), (2, ""), "{words:?}");
        assert!(said.error.contains("--help"), "{words:?}: {}", said.error);
    }
    for word in ["--\u{1b}[31mred", "-\u{9b}", "\u{1b}]0;title\u{7}", "x\ny\u{202e}"] {
        let said = none(&[word, word]);
        let shown = said
            .error
            .chars()
            .all(|sign| sign == '\n' || !sign.is_control() && sign != '\u{202e}');
        assert!(said.status == 2 && shown && !said.error.contains("x\ny"), "{said:?}");
    }
    let help = none(&["query", "--help"]).out;
    assert!(help.contains("<QUERY>") && !help.contains("TEXT"), "{help}");
    assert_eq!((none(&["--help"]).status, none(&["--version"]).status), (0, 0));
    let server = server!(Server::start());
    refused(&server, &["rmattr", "name", "7"], "be: node 7: there is no such node\n");
}
