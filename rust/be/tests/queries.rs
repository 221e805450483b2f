//! Tests of queries that are run once, counted, watched, refused, or printed on a terminal.

use crate::common::{Said, Server};
use bestore_client::Client;
use std::io::{BufRead, BufReader};
use std::path::Path;
use std::process::{Command, Stdio};
use std::sync::mpsc::{channel, Receiver};
use std::thread;
use std::time::{Duration, Instant};

#[test]
fn nodes_are_found_with_columns_up_to_a_limit_and_counted() {
    let server = server!(Server::with_three());
    assert_eq!(server.done(&["query", "name==*"]), "1\n2\n3\n");
    assert_eq!(server.done(&["query", "name==z"]), "");
    assert_eq!(server.done(&["query", "-n", "2", "name==*"]), "1\n2\n");
    assert_eq!(server.done(&["query", "--count", "name==*"]), "3\n");
    let columns = server.done(&["query", "--columns", "size,name", "name==[bc]"]);
    assert_eq!(columns, "2\t20\tb\n3\t\tc\n");
    let json = server.done(&["query", "--json", "-c", "size", "name==[bc]"]);
    assert_eq!(
        json,
        "{\"commit\":7,\"count\":2,\"nodes\":[2,3],\"rows\":[[20],[null]]}\n"
    );
    assert_eq!(
        server.done(&["query", "--json", "--count", "size>0"]),
        "{\"commit\":7,\"count\":2}\n"
    );
}

#[test]
fn the_ranges_that_a_query_walks_are_explained() {
    let server = server!(Server::with_three());
    assert_eq!(
        server.done(&["query", "--explain", "size>10 || name==[b]"]),
        "\"name\"  ..  about 3 keys, 3 walked\n\"size\"  >10 ..  about 1 key, 1 walked\n"
    );
    assert_eq!(
        server.done(&["query", "--explain", "--json", "size>10"]),
        "{\"commit\":7,\"text\":\"\\\"size\\\"  >10 ..  about 1 key, 1 walked\\n\"}\n"
    );
}

#[test]
fn an_answer_of_several_pages_is_whole() {
    let server = server!(Server::with_index("n"));
    let text = "x".repeat(255);
    server.make(300, "n", &text);
    let columns = vec!["n"; 64].join(",");
    let printed = server.done(&["query", "-c", &columns, "n==*"]);
    assert_eq!(printed.lines().count(), 300);
    let last = printed.lines().last().unwrap();
    assert_eq!((last.split('\t').next(), last.len()), (Some("300"), 3 + 64 * 256));
    assert_eq!(
        server
            .done(&["query", "-n", "250", "-c", &columns, "n==*"])
            .lines()
            .count(),
        250
    );
    let json: serde_json::Value =
        serde_json::from_str(&server.done(&["query", "--json", "-c", &columns, "n==*"])).unwrap();
    assert_eq!(json["rows"].as_array().unwrap().len(), 300);
    assert!(json.get("more").is_none());
}

#[test]
fn nodes_are_sorted_by_an_index_page_after_page() {
    let server = server!(Server::with_three());
    server.done(&["addattr", "-t", "int64", "size", "5", "3"]);
    assert_eq!(server.done(&["query", "--sort", "size", "name==*"]), "3\n1\n2\n");
    assert_eq!(
        server.done(&["query", "-s", "size", "-r", "-n", "2", "-c", "size,name", "name==*"]),
        "2\t20\tb\n1\t10\ta\n"
    );
    let page = |after: &[&str]| -> serde_json::Value {
        let words = [
            &["query", "--json", "-n", "1", "-c", "name", "-s", "size", "-r"],
            after,
            &["name==*"],
        ]
        .concat();
        serde_json::from_str(&server.done(&words)).unwrap()
    };
    let first = page(&[]);
    assert_eq!((&first["nodes"], &first["more"]), (&vec![2].into(), &true.into()));
    let second = page(&["--after", first["cursor"].as_str().unwrap()]);
    assert_eq!(
        (&second["nodes"], &second["rows"]),
        (&vec![1].into(), &serde_json::json!([["a"]]))
    );
    server.done(&["rmnode", "1"]);
    let third = page(&["--after", second["cursor"].as_str().unwrap()]);
    assert_eq!((&third["nodes"], third.get("more")), (&vec![3].into(), None));
    // A node without a size isn't listed when sorting by size.
    server.done(&["rmattr", "size", "3"]);
    assert_eq!(server.done(&["query", "--sort", "size", "name==*"]), "2\n");
}

#[test]
fn a_sorted_answer_of_several_pages_is_whole() {
    let server = server!(Server::with_index("n"));
    server.make(300, "n", &"x".repeat(255));
    let columns = vec!["n"; 64].join(",");
    let printed = server.done(&["query", "-c", &columns, "-s", "n", "-r", "n==*"]);
    let nodes: Vec<&str> = printed.lines().filter_map(|line| line.split('\t').next()).collect();
    assert_eq!((nodes.len(), nodes[0], nodes[299]), (300, "300", "1"));
    let limited = server.done(&["query", "-n", "250", "-c", &columns, "-s", "n", "n==*"]);
    assert_eq!(limited.lines().count(), 250);
}

#[test]
fn any_nodes_are_found() {
    let server = server!(Server::with_three());
    assert_eq!(server.done(&["query", "--any", "2", "name==*"]).lines().count(), 2);
    assert_eq!(server.done(&["query", "--any", "9", "-c", "name", "name==b"]), "2\tb\n");
    assert_eq!(server.done(&["query", "--any", "9", "name==z"]), "");
    // More than a line of the protocol holds.
    let many = ["query", "--any", "50001", "-c", "name", "name>=b"];
    assert_eq!(server.done(&many), server.done(&["query", "-c", "name", "name>=b"]));
    let json = |words: &[&str]| -> serde_json::Value { serde_json::from_str(&server.done(words)).unwrap() };
    assert_eq!(
        json(&["query", "--json", "--any", "50001", "-c", "name", "name>=b"]),
        json(&["query", "--json", "--any", "50000", "-c", "name", "name>=b"])
    );
}

#[test]
fn any_nodes_are_as_many_as_asked_for_with_all_their_columns() {
    let server = server!(Server::with_index("n"));
    server.make(300, "n", &"x".repeat(255));
    // The rows don't fit on one line of the protocol.
    let columns = vec!["n"; 64].join(",");
    let printed = server.done(&["query", "--any", "290", "-c", &columns, "n==*"]);
    assert_eq!(printed.lines().count(), 290);
    assert!(printed.lines().all(|line| line.len() > 64 * 256), "a row lacks values");
    let json = server.done(&["query", "--any", "290", "--json", "-c", &columns, "n==*"]);
    let json: serde_json::Value = serde_json::from_str(&json).unwrap();
    let count = |name: &str| json[name].as_array().unwrap().len();
    assert_eq!((count("nodes"), count("rows"), json.get("more")), (290, 290, None));
}

#[test]
fn what_can_not_be_sorted_is_said() {
    let server = server!(Server::with_three());
    let error = |words: &[&str]| {
        let said = server.be(&[&["query"], words, &["name==*"]].concat());
        (said.status, said.error)
    };
    assert_eq!(
        error(&["-s", "kind"]),
        (
            1,
            "be: an order needs an index, but there is none named \"kind\"\n  \
             the indices are: name (string), size (int64)\n"
                .into()
        )
    );
    assert_eq!(
        error(&["-s", "size", "--after", "AQ"]),
        (1, "be: this text isn't a cursor: it is cut off or changed\n".into())
    );
    let json: serde_json::Value =
        serde_json::from_str(&server.done(&["query", "--json", "-s", "size", "name==*"])).unwrap();
    let (status, other) = error(&["-s", "size", "-r", "--after", json["cursor"].as_str().unwrap()]);
    assert_eq!(
        (status, other.contains("keep the order, or begin without a cursor")),
        (1, true),
        "{other}"
    );
    assert_eq!(
        error(&["-s", "size", "-n", "0"]),
        (1, "be: `limit` is 0, and a page has 1 to 50000 nodes\n".into())
    );
}

#[test]
fn options_of_an_order_need_one() {
    let server = server!(Server::with_three());
    for words in [
        &["-r"][..],
        &["--after", "AQ"],
        &["--any", "1", "-n", "1"],
        &["--any", "1", "-s", "size"],
        &["-w", "-s", "size"],
        &["--count", "-s", "size"],
        &["--count", "--any", "1"],
        &["--any", "-1"],
    ] {
        let said = server.be(&[&["query"], words, &["name==*"]].concat());
        assert_eq!(
            (said.status, said.error.contains("error: ")),
            (2, true),
            "{words:?} {said:?}"
        );
    }
}

fn fault(server: &Server, query: &str) -> Vec<String> {
    let said = server.be(&["query", query]);
    assert_eq!((said.status, said.out.as_str()), (1, ""), "{said:?}");
    said.error.lines().map(String::from).collect()
}

#[test]
fn a_caret_shows_the_fault_of_a_query() {
    let server = server!(Server::with_three());
    for (query, shown, caret) in [
        ("name==a b", "name==a b", "        ^"),
        ("name==漢 b", "name==漢 b", "         ^"),
        ("name==\"[a\"", "name==\"[a\"", "       ^"),
        ("(name==a", "(name==a", "        ^"),
        ("name==a\n\u{1b}[2J b==1", r"name==a\n\x1b[2J b==1", "         ^"),
        ("", "", "^"),
    ] {
        let lines = fault(&server, query);
        assert!(lines[0].starts_with("be: "), "{lines:?}");
        assert_eq!(lines[1..], [format!("  {shown}"), format!("  {caret}")], "{query}");
    }
    let long = format!("{} b", vec!["name==a"; 300].join(" || "));
    let lines = fault(&server, &long[..3_000]);
    assert!(lines[0].starts_with("be: "), "{lines:?}");
    let lines = fault(&server, &format!("{} b", vec!["name==a"; 100].join(" || ")));
    assert!(
        lines[1].starts_with("  …") && lines[1].chars().count() < 80,
        "{lines:?}"
    );
    assert_eq!(lines[2].len(), lines[1].chars().count());
}

/// Returns what the tool prints about a query, in Berlin's time zone.
fn said(server: &Server, words: &[&str]) -> Said {
    let mut command = server.command(&[&["query"], words].concat());
    command.env("TZ", "CET-1CEST,M3.5.0,M10.5.0/3").output().unwrap().into()
}

#[test]
fn a_comparison_that_is_never_true_is_a_warning() {
    let server = server!(Server::with_three());
    for (query, message, shown, caret) in [
        (
            "name==* && size>1.5",
            "size>1.5 is never true: size is int64, and 1.5 isn't a whole number",
            "name==* && size>1.5",
            "           ^",
        ),
        (
            "size>=2026-11-01",
            "size>=2026-11-01 is never true: size is int64, and 2026-11-01 isn't a whole number; write a date as %2026-11-01%",
            "size>=2026-11-01",
            "^",
        ),
        (
            "size<%2024% && size==\u{1b}漢",
            r"size==\x1b漢 is never true: size is int64, and \x1b漢 isn't a whole number",
            r"size<%2024% && size==\x1b漢",
            "               ^",
        ),
    ] {
        let error = format!("be: warning: {message}\n  {shown}\n  {caret}\n");
        let out = String::new();
        assert_eq!(said(&server, &[query]), Said { status: 0, out, error });
    }
    let counted = said(&server, &["--count", "size==10 || size==x"]);
    assert_eq!(
        (counted.status, counted.out.as_str(), counted.error.lines().count()),
        (0, "1\n", 3)
    );
    server.done(&["addattr", "other", "1", "3"]);
    for query in ["size>1", "name>1.5 && other==1.5", "!(size==-1)"] {
        assert_eq!(said(&server, &[query]).error, "", "{query}");
    }
    // For a refused query, only its error is printed.
    assert_eq!(said(&server, &["size==x ||"]).error.lines().count(), 3);
    let mut command = server.command(&["query", "--watch", "size==x"]);
    let mut child = command.stderr(Stdio::piped()).spawn().unwrap();
    let mut line = String::new();
    BufReader::new(child.stderr.take().unwrap())
        .read_line(&mut line)
        .unwrap();
    assert!(line.starts_with("be: warning: size==x is never true"), "{line}");
    child.kill().unwrap();
    child.wait().unwrap();
}

#[test]
fn a_name_that_nothing_has_is_a_warning() {
    let server = server!(Server::with_three());
    let warning = |name: &str, query: &str, caret: &str| {
        format!("be: warning: no node has an attribute {name}, and no index has this name\n  {query}\n  {caret}\n")
    };
    let indices = "  the indices are: name (string), size (int64)\n";
    let query = "size>=0 && siz>5 && (siz<9 || size==1)";
    let error = warning("siz", query, "           ^") + indices;
    for (words, out) in [
        (vec![query], ""),
        (vec!["--count", query], "0\n"),
        (vec!["-s", "name", query], ""),
    ] {
        let out = out.to_string();
        let error = error.clone();
        assert_eq!(said(&server, &words), Said { status: 0, out, error }, "{words:?}");
    }
    let query = "name==a && (nam\u{1b}==b && whe>%2024%)";
    let error = said(&server, &[query]).error;
    assert_eq!(error.matches("no node has an attribute").count(), 2, "{error}");
    assert!(
        error.contains(r"attribute nam\x1b, and") && !error.contains('\u{1b}'),
        "{error}"
    );
    // A node's attribute needs no index to be known, and an answer is enough of an answer.
    server.done(&["addattr", "siz", "x", "3"]);
    for query in ["size>=0 && siz>5", "size>=0 || size==1 && none==1", "size>99"] {
        assert_eq!(said(&server, &[query]).error, "", "{query}");
    }
    let mut command = server.command(&["query", "--watch", "size>=0 && none==1"]);
    let mut child = command.stderr(Stdio::piped()).spawn().unwrap();
    let mut line = String::new();
    BufReader::new(child.stderr.take().unwrap())
        .read_line(&mut line)
        .unwrap();
    child.kill().unwrap();
    child.wait().unwrap();
    assert!(line.starts_with("be: warning: no node has an attribute none"), "{line}");
}

#[test]
fn a_name_is_looked_for_in_each_page_of_the_nodes() {
    let server = server!(Server::with_index("n"));
    let mut client = Client::connect(server.socket()).unwrap();
    for _ in 0..50 {
        let made = client.change(|change| {
            for _ in 0..30 {
                let node = change.new_node();
                change.batch().set(node, "n", "x");
            }
            Ok(())
        });
        made.unwrap();
    }
    let looked = |query: &str| said(&server, &[query]).error.lines().count();
    server.done(&["addattr", "last", "y", "1500"]);
    assert_eq!([looked("n==x && last==z"), looked("n==x && lost==z")], [0, 4]);
}

#[test]
fn dates_between_percent_signs_are_times() {
    let server = server!(Server::with_three());
    server.done(&["mkindex", "-t", "int64", "when"]);
    // In Berlin, these are the last second of 2023, the first of 2024, and the first of 2025.
    for (node, seconds) in [("1", "1704063599"), ("2", "1704063600"), ("3", "1735686000")] {
        server.done(&["addattr", "-t", "int64", "when", seconds, node]);
    }
    for (query, found) in [
        ("when>=%2024-01-01%", "2\n3\n"),
        ("when==%2024%", "2\n"),
        ("when!=%2024%", "1\n3\n"),
        ("when<%1 Jan 2024% || name==c", "1\n3\n"),
        ("when<=%yesterday% && when>%2024%", "3\n"),
        ("!(when<%2024%)", "2\n3\n"),
    ] {
        let (out, error) = (found.to_string(), String::new());
        assert_eq!(said(&server, &[query]), Said { status: 0, out, error }, "{query}");
    }
    let shown = said(&server, &["--watch", "when>%soon%"]);
    let error = "be: “soon” isn't a date, such as 2024-01-31, 31 Jan 2024, yesterday, last week, 2 days ago\n  \
                 when>%soon%\n       ^\n";
    assert_eq!((shown.status, shown.error.as_str()), (1, error));
    // The caret points into the text that the user typed.
    let error = said(&server, &["when==%2024% && name==[a"]).error;
    assert!(
        error.ends_with("\n  when==%2024% && name==[a\n                        ^\n"),
        "{error}"
    );
    let error = said(&server, &["kind==%2024%"]).error;
    assert!(
        error.contains("\n  kind==%2024%\n  ^\n  kind has no index\n"),
        "{error}"
    );
    // Within quotes, a percent sign is an ordinary character.
    server.done(&["addattr", "name", "%x%", "3"]);
    assert_eq!(said(&server, &["name==\"%x%\""]).out, "3\n");
}

#[test]
fn times_are_printed_as_dates_that_can_be_typed() {
    let server = server!(Server::with_three());
    server.done(&["mkindex", "-t", "int64", "when"]);
    server.done(&["addattr", "-t", "int64", "when", "1704063600", "1", "2"]);
    server.be(&["addattr", "when", "soon", "3"]);
    let found = said(&server, &["-d", "-c", "when,size", "name==*"]);
    let out = "1\t2024-01-01 00:00:00\t10\n2\t2024-01-01 00:00:00\t20\n3\tsoon\t\n";
    assert_eq!((found.out.as_str(), found.error.as_str()), (out, ""));
    assert_eq!(said(&server, &["when==%2024-01-01 00:00:00%"]).out, "1\n2\n");
    assert_eq!(said(&server, &["-c", "when", "size==10"]).out, "1\t1704063600\n");
    for words in [
        &["--dates", "size==10"][..],
        &["--dates", "--json", "-c", "when", "size==10"],
    ] {
        assert_eq!(said(&server, words).status, 2, "{words:?}");
    }
}

#[test]
fn a_missing_index_is_named_with_those_that_there_are() {
    let server = server!(Server::with_three());
    let lines = fault(&server, "name==a || kind==b");
    assert_eq!(
        lines[..],
        [
            "be: no index can answer the query; compare a name that has an index, on both sides of each ||",
            "  name==a || kind==b",
            "             ^",
            "  kind has no index",
            "  the indices are: name (string), size (int64)"
        ]
    );
    server.done(&["rmindex", "name"]);
    server.done(&["rmindex", "size"]);
    assert_eq!(fault(&server, "name==a").last().unwrap(), "  there are no indices");
    let said = server.be(&["query", "--watch", "name==a"]);
    assert_eq!((said.status, said.error.lines().count()), (1, 5), "{said:?}");
}

#[test]
fn other_errors_of_a_query_have_one_line() {
    let server = server!(Server::with_three());
    let columns = vec!["size"; 65].join(",");
    let said = server.be(&["query", "-c", &columns, "name==a"]);
    assert_eq!((said.status, said.error.lines().count()), (1, 1), "{said:?}");
    assert_eq!(fault(&server, &vec!["name==a"; 257].join("||")).len(), 1);
    assert_eq!(fault(&server, &format!("name=={}", "a".repeat(4_096))).len(), 1);
    assert_eq!(fault(&server, &format!("{}name==a", "(".repeat(65))).len(), 1);
}

/// Starts a watch. Returns its process, and a channel that receives its lines.
fn watched(server: &Server, words: &[&str]) -> (std::process::Child, Receiver<String>) {
    let mut all = vec!["query", "--watch"];
    all.extend(words);
    let mut command = server.command(&all);
    let mut child = command.stdout(Stdio::piped()).stderr(Stdio::piped()).spawn().unwrap();
    let out = BufReader::new(child.stdout.take().unwrap());
    let (sender, receiver) = channel();
    thread::spawn(move || {
        for line in out.lines() {
            if sender.send(line.unwrap()).is_err() {
                return;
            }
        }
    });
    (child, receiver)
}

fn next(lines: &Receiver<String>) -> String {
    lines.recv_timeout(Duration::from_secs(20)).unwrap()
}

#[test]
fn a_watch_prints_what_comes_and_goes() {
    let mut server = server!(Server::with_three());
    let (child, lines) = watched(&server, &["-c", "size", "size>=15"]);
    assert_eq!(next(&lines), "+2\t20");
    server.done(&["addattr", "-t", "int64", "size", "30", "1"]);
    assert_eq!(next(&lines), "+1\t30");
    server.done(&["rmattr", "size", "2"]);
    assert_eq!(next(&lines), "-2");
    server.end();
    let said: Said = child.wait_with_output().unwrap().into();
    assert_eq!((said.status, said.error.lines().count()), (1, 1), "{said:?}");
}

#[test]
fn a_watch_ends_its_lines_with_zero_bytes_if_asked_to() {
    let server = server!(Server::with_three());
    assert_eq!(server.done(&["query", "-0", "--count", "size>=15"]), "1\0");
    let mut command = server.command(&["query", "--watch", "-0", "-c", "name", "size>=15"]);
    let mut child = command.stdout(Stdio::piped()).spawn().unwrap();
    let mut out = BufReader::new(child.stdout.take().unwrap());
    let mut next = || {
        let mut line = Vec::new();
        out.read_until(0, &mut line).unwrap();
        String::from_utf8(line).unwrap()
    };
    assert_eq!(next(), "+2\tb\0");
    server.done(&["addattr", "name", "a\nb", "1"]);
    server.done(&["addattr", "-t", "int64", "size", "30", "1"]);
    assert_eq!(next(), "+1\ta\nb\0");
    server.done(&["rmnode", "2"]);
    assert_eq!(next(), "-2\0");
    child.kill().unwrap();
    child.wait().unwrap();
}

#[test]
fn a_watch_counts_and_ends_with_its_index() {
    let server = server!(Server::with_three());
    let (child, lines) = watched(&server, &["--count", "size>=15"]);
    assert_eq!(next(&lines), "1");
    server.done(&["addattr", "-t", "int64", "size", "30", "1", "3"]);
    assert_eq!(next(&lines), "3");
    server.done(&["rmindex", "size"]);
    let said: Said = child.wait_with_output().unwrap().into();
    assert_eq!(said.status, 1);
    assert!(
        said.error.contains("size has no index") || said.error.contains("no index"),
        "{said:?}"
    );
}

#[test]
fn a_watch_prints_json() {
    let server = server!(Server::with_three());
    let (mut child, lines) = watched(&server, &["--json", "-c", "name", "size>=15"]);
    let parsed = |line: String| -> serde_json::Value { serde_json::from_str(&line).unwrap() };
    let first = parsed(next(&lines));
    assert_eq!(
        (&first["commit"], &first["created"], &first["rows"]),
        (&7.into(), &vec![2].into(), &serde_json::json!([["b"]]))
    );
    server.done(&["rmattr", "size", "2"]);
    let second = parsed(next(&lines));
    assert_eq!((&second["commit"], &second["removed"]), (&8.into(), &vec![2].into()));
    child.kill().unwrap();
    child.wait().unwrap();
}

#[test]
fn a_reader_that_has_gone_is_no_error() {
    let server = server!(Server::with_three());
    let (mut child, lines) = watched(&server, &["size>=15"]);
    assert_eq!(next(&lines), "+2");
    drop(lines);
    for size in ["1", "99", "2", "98"] {
        server.done(&["addattr", "-t", "int64", "size", size, "1"]);
        thread::sleep(Duration::from_millis(100));
    }
    assert!(child.wait().unwrap().success());
}

#[test]
fn a_watch_ends_when_its_reader_has_gone_even_if_nothing_changes() {
    let server = server!(Server::with_three());
    let clients = || server.done(&["clients"]).lines().count();
    let before = clients();
    for words in [&["size>=15"][..], &["--json", "size>=15"], &["size>=99"]] {
        let mut command = server.command(&[&["query", "--watch"], words].concat());
        let mut child = command.stdout(Stdio::piped()).spawn().unwrap();
        let until = Instant::now() + Duration::from_secs(20);
        while clients() == before && Instant::now() < until {
            thread::sleep(Duration::from_millis(10));
        }
        drop(child.stdout.take());
        while child.try_wait().unwrap().is_none() {
            assert!(Instant::now() < until, "{words:?}: the watch doesn't end");
            thread::sleep(Duration::from_millis(10));
        }
        assert!(child.wait().unwrap().success(), "{words:?}");
    }
}

/// Returns what the tool prints on a terminal.
fn on_terminal(server: &Server, words: &str) -> Option<String> {
    let mut command = Command::new("script");
    command.args(["-qec", &format!("{} {words}", crate::common::BE), "/dev/null"]);
    command.env("BESTORE_SOCKET", server.socket()).stdin(Stdio::null());
    match command.output() {
        Ok(output) => Some(String::from_utf8(output.stdout).unwrap().replace("\r\n", "\n")),
        Err(_) => {
            println!("the tools on a terminal: skipped, there is no command script");
            None
        }
    }
}

#[test]
fn a_terminal_gets_escapes_and_columns() {
    let server = server!(Server::with_three());
    server.done(&["addattr", "name", "x\u{1b}[2J\n\\", "1"]);
    assert_eq!(server.done(&["catattr", "name", "1"]), "1 : string : x\u{1b}[2J\n\\\n");
    assert_eq!(
        server.done(&["query", "-e", "-c", "name", "size==10"]),
        "1\tx\\x1b[2J\\n\\\\\n"
    );
    let shown = match on_terminal(&server, "catattr name 1") {
        Some(shown) => shown,
        None => return,
    };
    assert_eq!(shown, "1 : string : x\\x1b[2J\\n\\\\\n");
    let shown = on_terminal(&server, "query -c name,size 'name==*'").unwrap();
    let lines: Vec<&str> = shown.lines().collect();
    assert_eq!(
        lines,
        [
            "Node  name          size",
            "1     x\\x1b[2J\\n\\\\  10",
            "2     b             20",
            "3     c"
        ]
    );
    assert_eq!(on_terminal(&server, "query 'name==b'").unwrap(), "2\n");
    server.done(&["addattr", "a\u{9b}b", "\u{9b}", "3"]);
    let listed = on_terminal(&server, "listattr -l 3").unwrap();
    assert!(listed.contains("  \"a\\u{9b}b\"  \\u{9b}\n"), "{listed}");
    let listed = on_terminal(&server, "listattr --json 3").unwrap();
    assert_eq!(
        listed,
        "{\"node\":3,\"attributes\":{\"a\\u009bb\":\"\\u009b\",\"name\":\"c\"}}\n"
    );
}

#[test]
fn words_are_completed() {
    let functions = "/usr/share/bash-completion/bash_completion";
    if !Path::new(functions).exists() {
        println!("the completion of words: skipped, there is no bash-completion");
        return;
    }
    let server = server!(Server::with_three());
    server.done(&["mkindex", "MAIL:from"]);
    let script = format!(
        ". {functions}; . {}/completion/be.bash; complete_line() {{ \
         COMP_LINE=$1; COMP_POINT=${{#1}}; local line=${{1//:/ : }}; read -ra COMP_WORDS <<<\"${{line//=/ = }}\"; \
         [[ $1 != *' ' ]] || COMP_WORDS+=(''); COMP_CWORD=$((${{#COMP_WORDS[@]}} - 1)); \
         _be; echo \"${{COMPREPLY[*]}}\"; }}; compopt() {{ echo \"$*\"; }}; \
         complete_line 'be lsi'; complete_line 'be query --co'; complete_line 'be addattr -t uint'; \
         complete_line 'be rmindex s'; complete_line 'be rmindex MAIL:f'; complete_line 'be query --sort si'; \
         complete_line 'be catattr size so'; complete_line 'be rmnode s'; \
         complete_line 'be --socket={socket} lsi'; complete_line 'be --socket={socket} rmindex s'; \
         complete_line 'be --wait 5 --timeout=9 query --co'",
        env!("CARGO_MANIFEST_DIR"),
        socket = server.socket().display()
    );
    let mut command = Command::new("bash");
    let folder = Path::new(crate::common::BE).parent().unwrap();
    let path = format!("{}:{}", folder.display(), std::env::var("PATH").unwrap());
    command
        .args(["-c", &script])
        .env("BESTORE_SOCKET", server.socket())
        .env("PATH", path);
    let said: Said = command.output().unwrap().into();
    assert_eq!(
        said.out,
        "lsindex\n--columns --count\nuint32 uint64\nsize\nfrom\nsize\n-o default\n\n-o default\n\nlsindex\nsize\n--columns --count\n",
        "{}",
        said.error
    );
}
