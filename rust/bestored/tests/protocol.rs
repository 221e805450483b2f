//! Tests each command, and each kind of request that the server refuses.

use crate::common::{start, wait_until, Folder, Server, Talk};
use std::time::{Duration, Instant};

/// Starts a server with an index `size` and with nodes 1 to 3, which have sizes 1 to 3.
fn three(options: &[&str]) -> (Folder, Server, Talk) {
    let (folder, server) = start(options);
    let mut talk = server.talk();
    talk.check(
        concat!(
            r#""batch":{"operations":[["index","size","int64"],["new"],["set",1,"size",1],"#,
            r#"["new"],["set",2,"size",2],["new"],["set",3,"size",3]]}"#
        ),
        r#""ok":{"commit":1,"nodes":[1,2,3]}"#,
    );
    (folder, server, talk)
}

#[test]
fn the_example_of_the_protocol() {
    let (_folder, server) = start(&[]);
    let mut talk = server.talk();
    for (request, reply) in [
        (
            r#"{"id":1,"batch":{"operations":[["index","size","int64"],["new"],["set",1,"size",5]]}}"#,
            r#"{"id":1,"ok":{"commit":1,"nodes":[1]}}"#,
        ),
        (
            r#"{"id":2,"query":{"query":"size>=5","columns":["size","name"]}}"#,
            r#"{"id":2,"ok":{"commit":1,"count":1,"nodes":[1],"rows":[[5,null]]}}"#,
        ),
        (
            r#"{"id":3,"query":{"query":"name==a"}}"#,
            concat!(
                r#"{"id":3,"error":{"name":"NotCovered","number":17,"message":"no index can answer the query; "#,
                r#"compare a name that has an index, on both sides of each ||","class":"mine","#,
                r#""missing":"name","offset":0}}"#
            ),
        ),
    ] {
        assert_eq!(talk.ask(request), reply);
    }
}

/// Requests that read the store that `three` creates, and their replies.
const READS: &[(&str, &str)] = &[
    (
        r#""query":{"query":"size>1"}"#,
        r#""ok":{"commit":1,"count":2,"nodes":[2,3]}"#,
    ),
    (
        r#""query":{"query":"size>0","limit":1}"#,
        r#""ok":{"commit":1,"count":3,"nodes":[1],"more":2}"#,
    ),
    (
        r#""query":{"query":"size>0","from":2,"limit":1,"columns":["size"]}"#,
        r#""ok":{"commit":1,"count":2,"nodes":[2],"rows":[[2]],"more":3}"#,
    ),
    (
        r#""query":{"query":"size>0","limit":0}"#,
        r#""ok":{"commit":1,"count":3,"nodes":[],"more":1}"#,
    ),
    (
        r#""query":{"query":"size>0","count":true}"#,
        r#""ok":{"commit":1,"count":3}"#,
    ),
    (r#""get":{"node":2,"name":"size"}"#, r#""ok":{"commit":1,"value":2}"#),
    (r#""get":{"node":9,"name":"size"}"#, r#""ok":{"commit":1,"value":null}"#),
    (
        r#""columns":{"nodes":[3,9,1,3,0],"names":["size","none","size"]}"#,
        r#""ok":{"commit":1,"rows":[[3,null,3],[null,null,null],[1,null,1],[3,null,3],[null,null,null]]}"#,
    ),
    (
        r#""columns":{"nodes":[],"names":["size"]}"#,
        r#""ok":{"commit":1,"rows":[]}"#,
    ),
    (
        r#""columns":{"nodes":[1,2],"names":[]}"#,
        r#""ok":{"commit":1,"rows":[[],[]]}"#,
    ),
    (
        r#""attributes":{"node":2}"#,
        r#""ok":{"commit":1,"attributes":{"size":2}}"#,
    ),
    (r#""indices":{}"#, r#""ok":{"commit":1,"indices":{"size":"int64"}}"#),
    (r#""nodes":{}"#, r#""ok":{"commit":1,"nodes":[1,2,3]}"#),
    (
        r#""nodes":{"from":2,"limit":1}"#,
        r#""ok":{"commit":1,"nodes":[2],"more":3}"#,
    ),
    (r#""next":{}"#, r#""ok":{"commit":1,"next":4}"#),
    (
        r#""explain":{"query":"size<0"}"#,
        r#""ok":{"commit":1,"text":"\"size\"<\"0\" score 3"}"#,
    ),
    (
        r#""ways":{"query":"size<0"}"#,
        r#""ok":{"commit":1,"text":"\"size\"  .. <0  about 0 keys, 0 walked\n"}"#,
    ),
    (
        r#""text":{"query":"!(size<=1.5) && 'a b' = x*"}"#,
        concat!(
            r#""ok":{"comparisons":[{"name":"size","operator":"<=","value":"1.5","form":"text","offset":2,"length":9,"negated":true,"#,
            r#""never":["int32","int64","uint32","uint64"]},{"name":"a b","operator":"==","value":"x*","form":"pattern","offset":16,"#,
            r#""length":10,"never":["int32","int64","uint32","uint64"]}]}"#
        ),
    ),
    (
        r#""text":{"query":"size>=5000000000"}"#,
        concat!(
            r#""ok":{"comparisons":[{"name":"size","operator":">=","value":"5000000000","form":"number","offset":0,"length":16,"#,
            r#""never":["int32","uint32"]}]}"#
        ),
    ),
];

/// Parsing a query's text doesn't need the store, so it works even when the client's snapshot can't be read any more.
#[test]
fn a_text_is_read_without_a_snapshot() {
    let (_folder, _server, mut talk) = three(&["--hold", "1"]);
    talk.ask(r#"{"id":1,"pin":{}}"#);
    wait_until("the snapshot was taken back", || {
        talk.ask(r#"{"id":1,"next":{}}"#).contains("Expired")
    });
    // The query need not be covered by an index.
    let reply = r#""ok":{"comparisons":[{"name":"none","operator":"!=","value":"a","form":"text","offset":0,"length":7,"never":"#;
    let said = talk.ask(r#"{"id":1,"text":{"query":"none!=a"}}"#);
    assert!(said.starts_with(&format!("{{\"id\":1,{reply}")), "{said}");
}

#[test]
fn reads() {
    let (_folder, _server, mut talk) = three(&[]);
    for (request, reply) in READS {
        talk.check(request, reply);
    }
    let status = talk.ask(r#"{"id":1,"status":{}}"#);
    assert!(
        status.contains(r#""pages":16384"#) && status.contains(r#""watches":0"#),
        "{status}"
    );
    let hello = talk.ask(r#"{"id":1,"hello":{"protocol":2}}"#);
    assert!(
        hello.starts_with(r#"{"id":1,"ok":{"protocol":2,"server":"0.4.0","#),
        "{hello}"
    );
}

#[test]
fn values_lose_nothing() {
    let (_folder, server) = start(&[]);
    let mut talk = server.talk();
    talk.check(
        r#""batch":{"operations":[["new"]]}"#,
        r#""ok":{"commit":1,"nodes":[1]}"#,
    );
    let values = concat!(
        r#"{"a":"é\"\u0001","b":-5,"c":{"int64":"9223372036854775807"},"d":{"int32":-2147483648},"e":{"uint32":4294967295},"#,
        r#""f":{"uint64":"18446744073709551615"},"g":{"mime":"text/plain"},"h":{"raw":"AP8="},"i":9007199254740991}"#
    );
    let read: serde_json::Map<String, serde_json::Value> = serde_json::from_str(values).unwrap();
    for (index, (name, value)) in read.iter().enumerate() {
        talk.check(
            &format!(r#""batch":{{"operations":[["set",1,"{name}",{value}]]}}"#),
            &format!(r#""ok":{{"commit":{},"nodes":[]}}"#, index + 2),
        );
    }
    talk.check(
        r#""attributes":{"node":1}"#,
        &format!(r#""ok":{{"commit":10,"attributes":{values}}}"#),
    );
}

/// Requests that are refused for the store that `three` creates, and how the errors begin.
const ERRORS: &[(&str, &str)] = &[
    (r#""batch":{"operations":[["remove",9]]}"#, r#""NoNode","number":2"#),
    (r#""batch":{"operations":[]}"#, r#""BadCount","number":69"#),
    (
        r#""batch":{"operations":[["new"],["set",1,"","a"]]}"#,
        r#""NameLength","number":18"#,
    ),
    (
        r#""batch":{"operations":[["unset",1,"aaaaaaaaaaaaaaaaaaaaaaaaaaaaaaaaaaaaaaaaaaaaaaaaaaaaaaaaaaaaaaaa"]]}"#,
        r#""NameLength","number":18"#,
    ),
    (
        r#""batch":{"operations":[["set",1,"a\u0000","a"]]}"#,
        r#""HasNul","number":20"#,
    ),
    (
        r#""batch":{"operations":[["index","size","int64"]]}"#,
        r#""IndexExists","number":5"#,
    ),
    (
        r#""batch":{"operations":[["index","a","raw"]]}"#,
        r#""NotIndexable","number":8"#,
    ),
    (r#""query":{"query":"size=>1"}"#, r#""Syntax","number":12"#),
    (r#""explain":{"query":"size==[a"}"#, r#""BadPattern","number":13"#),
    (r#""ways":{"query":"size==[a"}"#, r#""BadPattern","number":13"#),
    (r#""text":{"query":"size==[a"}"#, r#""BadPattern","number":13"#),
    (r#""text":{"query":"size>"}"#, r#""Syntax","number":12"#),
    (r#""watch":{"query":"name==a"}"#, r#""NotCovered","number":17"#),
    (r#""attributes":{"node":9}"#, r#""NoNode","number":2"#),
    (
        r#""columns":{"nodes":[1],"names":["size",""]}"#,
        r#""NameLength","number":18"#,
    ),
    (r#""columns":{"nodes":[-1],"names":[]}"#, r#""BadRequest""#),
    (r#""columns":{"nodes":[1]}"#, r#""BadRequest""#),
    (r#""unwatch":{"watch":1}"#, r#""NoWatch""#),
    (
        r#""reach":{"commit":9,"within":60001}"#,
        r#""BadRequest","message":"`within` is 60001 milliseconds, and a request can wait for up to 60000""#,
    ),
    (r#""flush":{}"#, r#""NotKept""#),
    (r#""state":{}"#, r#""NotPinned","number":66"#),
    (r#""unpin":{}"#, r#""NotPinned","number":66"#),
    (
        r#""hello":{"protocol":1}"#,
        concat!(
            r#""Protocol","message":"the server speaks version 2 of the protocol, and the client version 1; update the client","#,
            r#""class":"mine","known":[2]"#
        ),
    ),
    (
        r#""hello":{"protocol":3}"#,
        r#""Protocol","message":"the server speaks version 2 of the protocol, and the client version 3; update the server""#,
    ),
];

#[test]
fn errors_of_the_store() {
    let (_folder, _server, mut talk) = three(&[]);
    for (request, error) in ERRORS {
        let said = talk.ask(&format!("{{\"id\":1,{request}}}"));
        assert!(
            said.starts_with(&format!(r#"{{"id":1,"error":{{"name":{error}"#)),
            "{request}: {said}"
        );
    }
}

#[test]
fn conflicts_and_limits() {
    let (_folder, _server, mut talk) = three(&["--commits", "3"]);
    talk.check(
        r#""batch":{"operations":[["new"]],"expected":7}"#,
        concat!(
            r#""error":{"name":"Conflict","number":76,"message":"the journal's length isn't what the write expects "#,
            r#"(1, not 7); read again, and base the write on that","class":"retry","#,
            r#""expected":7,"found":1}"#
        ),
    );
    let many = vec![r#"["new"]"#; 65].join(",");
    let said = talk.ask(&format!("{{\"id\":1,\"batch\":{{\"operations\":[{many}]}}}}"));
    assert!(
        said.contains(r#""name":"BadCount","number":69"#) && said.contains(r#""count":65"#),
        "{said}"
    );
    talk.check(
        r#""batch":{"operations":[["new"]],"expected":1}"#,
        r#""ok":{"commit":2,"nodes":[4]}"#,
    );
    talk.check(
        r#""batch":{"operations":[["new"]]}"#,
        r#""ok":{"commit":3,"nodes":[5]}"#,
    );
    let said = talk.ask(r#"{"id":1,"batch":{"operations":[["new"]]}}"#);
    assert!(said.contains(r#""name":"CommitsSpent","number":9"#), "{said}");
}

#[test]
fn what_is_no_request() {
    let (_folder, server) = start(&[]);
    let mut talk = server.talk();
    for (line, id) in [
        ("", "null"),
        ("{", "null"),
        ("[]", "null"),
        ("null", "null"),
        (r#"{"id":7}"#, "7"),
        (r#"{"id":7,"drop":{}}"#, "7"),
        (r#"{"id":7,"get":{"node":1}}"#, "7"),
        (r#"{"id":7,"get":{"node":1,"name":"a","more":1}}"#, "7"),
        (r#"{"get":{"node":1,"name":"a"}}"#, "null"),
        (r#"{"id":7,"batch":{"operations":[["set",1,"a",1.5]]}}"#, "7"),
        (r#"{"id":7,"pin":{}} {"id":8,"pin":{}}"#, "7"),
        ("\u{1}\u{2}\u{3}", "null"),
    ] {
        let said = talk.ask(line);
        let expected = format!(r#"{{"id":{id},"error":{{"name":"BadRequest","message":""#);
        assert!(said.starts_with(&expected), "{line}: {said}");
    }
    talk.send(b"\xff\xfe{\"id\":1}\n");
    assert!(talk.line().contains("BadRequest"));
    let nested = talk.ask(&"[".repeat(100_000));
    assert!(nested.contains("BadRequest"), "{nested}");
    let said = talk.ask(r#"{"id":7,"gett":{}}"#);
    assert!(said.ends_with(r#""offset":13}}"#), "{said}");
    talk.check(r#""next":{}"#, r#""ok":{"commit":0,"next":1}"#);
}

/// Parameters that look valid but aren't are refused. The error says where the mistake is, and what would be right.
#[test]
fn no_parameter_is_read_loosely() {
    let (_folder, server) = start(&[]);
    let mut talk = server.talk();
    for (request, wrong, right) in [
        (r#""batch":{"operations":[["new"]],"expected":null}"#, "null", "u64"),
        (
            r#""batch":{"operations":[["new"]],"volume":0}"#,
            r#"":0"#,
            "unknown field",
        ),
        (r#""batch":{"operations":[["new",5]]}"#, "5", r#"["new"]"#),
        (
            r#""batch":{"operations":[["set",1,"a",{"int64":"+5"}]]}"#,
            r#""+5""#,
            "digits",
        ),
        (
            r#""batch":{"operations":[["set",1,"a",{"int64":"05"}]]}"#,
            r#""05""#,
            "digits",
        ),
        (
            r#""batch":{"operations":[["set",1,"a",{"raw":"AP8"}]]}"#,
            r#""AP8""#,
            "with padding",
        ),
        (r#""batch":[[["new"]]]"#, "[[[", "an object with parameters"),
        (r#""status":[]"#, "[]", "an object with parameters"),
        (r#""status":null"#, "null", "an object with parameters"),
        (r#""get":[1,"a"]"#, "[1", "an object with parameters"),
        (r#""watch":{"query":null}"#, "null", "string"),
        (r#""query":{"query":"a==1","columns":null}"#, "null", "a list of names"),
        (r#""nodes":{"limit":null}"#, "null", "u64"),
        (r#""reach":{"commit":0,"within":null}"#, "null", "u64"),
        (r#""hello":{"protocol":null}"#, "null", "u64"),
    ] {
        let line = format!("{{\"id\":7,{request}}}");
        let said: serde_json::Value = serde_json::from_str(&talk.ask(&line)).unwrap();
        let error = &said["error"];
        assert_eq!(
            (&said["id"], &error["name"]),
            (&7.into(), &"BadRequest".into()),
            "{line}: {said}"
        );
        assert!(error["message"].as_str().unwrap().contains(right), "{line}: {said}");
        // If the mistake is a list, the offset is that of the byte before the list.
        let begin = line.find(wrong).unwrap() as u64 - 1;
        let offset = error["offset"].as_u64().unwrap();
        assert!(
            (begin..=begin + 1 + wrong.len() as u64).contains(&offset),
            "{line}: {said}"
        );
    }
    talk.check(r#""next":{}"#, r#""ok":{"commit":0,"next":1}"#);
}

#[test]
fn a_line_that_is_too_long_ends_the_connection() {
    let (_folder, server) = start(&[]);
    let mut talk = server.talk();
    talk.send(&vec![b' '; 1 << 20]);
    let said = talk.line();
    assert!(
        said.starts_with(r#"{"id":null,"error":{"name":"LineTooLong","#),
        "{said}"
    );
    assert_eq!(talk.line(), "");
}

#[test]
fn replies_come_in_the_order_of_requests() {
    let (_folder, server) = start(&[]);
    let mut talk = server.talk();
    let mut sent = String::new();
    for id in 0..2000 {
        sent += &format!("{{\"id\":{id},\"batch\":{{\"operations\":[[\"new\"]]}}}}\n");
    }
    talk.send(sent.as_bytes());
    for id in 0..2000 {
        let node = id + 1;
        assert_eq!(
            talk.line(),
            format!("{{\"id\":{id},\"ok\":{{\"commit\":{node},\"nodes\":[{node}]}}}}")
        );
    }
}

#[test]
fn a_snapshot_stays_as_it_is() {
    let (_folder, server, mut talk) = three(&[]);
    let mut other = server.talk();
    talk.check(r#""pin":{}"#, r#""ok":{"commit":1,"next":4}"#);
    other.check(
        r#""batch":{"operations":[["remove",3]]}"#,
        r#""ok":{"commit":2,"nodes":[]}"#,
    );
    talk.check(
        r#""query":{"query":"size>1"}"#,
        r#""ok":{"commit":1,"count":2,"nodes":[2,3]}"#,
    );
    let said = talk.ask(r#"{"id":1,"pin":{}}"#);
    assert!(said.contains(r#""name":"Pinned","number":67"#), "{said}");
    let said = talk.ask(r#"{"id":1,"batch":{"operations":[["new"]],"expected":1}}"#);
    assert!(said.contains(r#""expected":1,"found":2"#), "{said}");
    talk.check(
        r#""batch":{"operations":[["remove",2]]}"#,
        r#""ok":{"commit":3,"nodes":[]}"#,
    );
    talk.check(r#""nodes":{}"#, r#""ok":{"commit":1,"nodes":[1,2,3]}"#);
    talk.check(r#""unpin":{}"#, r#""ok":{}"#);
    talk.check(r#""nodes":{}"#, r#""ok":{"commit":3,"nodes":[1]}"#);
    talk.check(r#""pin":{}"#, r#""ok":{"commit":3,"next":4}"#);
}

#[test]
fn a_snapshot_that_is_kept_too_long_is_taken_back() {
    let (_folder, server, mut talk) = three(&["--hold", "1"]);
    talk.check(r#""pin":{}"#, r#""ok":{"commit":1,"next":4}"#);
    wait_until("the snapshot is taken back", || {
        let status = server.talk().ask(r#"{"id":1,"status":{}}"#);
        status.contains(r#""oldest":null"#)
    });
    let said = talk.ask(r#"{"id":1,"nodes":{}}"#);
    assert!(said.starts_with(r#"{"id":1,"error":{"name":"Expired","#), "{said}");
    let said = talk.ask(r#"{"id":1,"state":{}}"#);
    assert!(said.starts_with(r#"{"id":1,"error":{"name":"Expired","#), "{said}");
    talk.check(
        r#""batch":{"operations":[["new"]]}"#,
        r#""ok":{"commit":2,"nodes":[4]}"#,
    );
    talk.check(r#""pin":{}"#, r#""ok":{"commit":2,"next":5}"#);
    talk.check(r#""unpin":{}"#, r#""ok":{}"#);
}

#[test]
fn a_snapshot_is_taken_back_while_its_client_waits_for_a_commit() {
    let (_folder, _server, mut talk) = three(&["--hold", "1"]);
    talk.check(r#""pin":{}"#, r#""ok":{"commit":1,"next":4}"#);
    let begin = Instant::now();
    talk.check(
        r#""reach":{"commit":2,"within":60000}"#,
        r#""error":{"name":"NotReached","message":"the journal isn't that long yet; ask again","class":"retry","expected":2,"found":1}"#,
    );
    assert!(begin.elapsed() < Duration::from_secs(50), "{:?}", begin.elapsed());
    let said = talk.ask(r#"{"id":1,"nodes":{}}"#);
    assert!(said.starts_with(r#"{"id":1,"error":{"name":"Expired","#), "{said}");
    // If no snapshot is pinned, the wait takes the full time.
    let begin = Instant::now();
    let said = talk.ask(r#"{"id":1,"reach":{"commit":2,"within":1500}}"#);
    assert!(said.contains("NotReached"), "{said}");
    assert!(begin.elapsed() >= Duration::from_millis(1500), "{:?}", begin.elapsed());
}

#[test]
fn a_client_that_waits_for_a_commit_gives_pages_back_to_writes() {
    let (_folder, server, mut talk) = three(&["--pages", "64"]);
    talk.check(r#""pin":{}"#, r#""ok":{"commit":1,"next":4}"#);
    talk.send(b"{\"id\":2,\"reach\":{\"commit\":99999999,\"within\":60000}}\n");
    let mut other = server.talk();
    for commit in 2..=300 {
        other.check(
            &format!(r#""batch":{{"operations":[["set",1,"size",{commit}]]}}"#),
            &format!(r#""ok":{{"commit":{commit},"nodes":[]}}"#),
        );
    }
    let said = talk.line();
    assert!(said.starts_with(r#"{"id":2,"error":{"name":"NotReached","#), "{said}");
}

#[test]
fn earlier_replies_come_while_a_commit_is_waited_for() {
    let (_folder, server) = start(&[]);
    let mut talk = server.talk();
    talk.send(b"{\"id\":1,\"next\":{}}\n{\"id\":2,\"reach\":{\"commit\":1,\"within\":20000}}\n");
    assert_eq!(talk.line(), r#"{"id":1,"ok":{"commit":0,"next":1}}"#);
    server.talk().check(
        r#""batch":{"operations":[["new"]]}"#,
        r#""ok":{"commit":1,"nodes":[1]}"#,
    );
    assert_eq!(talk.line(), r#"{"id":2,"ok":{"commit":1}}"#);
}

#[test]
fn the_journal_and_the_state() {
    let (_folder, _server, mut talk) = three(&[]);
    talk.check(
        r#""batch":{"operations":[["remove",3],["new"],["unset",2,"size"]]}"#,
        r#""ok":{"commit":2,"nodes":[4]}"#,
    );
    let pass: String = talk.ask(r#"{"id":1,"hello":{}}"#);
    let pass = pass
        .split("\"pass\":")
        .nth(1)
        .unwrap()
        .split(',')
        .next()
        .unwrap()
        .to_owned();
    talk.check(
        r#""journal":{"from":1}"#,
        &format!(
            r#""ok":{{"length":2,"entries":[{{"commit":2,"pass":{pass},"operations":[["remove",3],["new",4],["unset",2,"size"]]}}]}}"#
        ),
    );
    talk.check(r#""journal":{"from":2}"#, r#""ok":{"length":2,"entries":[]}"#);
    let said = talk.ask(r#"{"id":1,"journal":{"limit":1}}"#);
    assert!(said.ends_with(r#""more":1}}"#), "{said}");
    talk.check(r#""pin":{}"#, r#""ok":{"commit":2,"next":5}"#);
    let said = talk.ask(r#"{"id":1,"state":{}}"#);
    assert!(
        said.starts_with(r#"{"id":1,"ok":{"commit":2,"next":5,"batches":["QkVWA"#),
        "{said}"
    );
}

#[test]
fn a_copy_is_read_without_a_pin_and_keeps_no_pages() {
    let (_folder, server, mut talk) = three(&[]);
    talk.check(
        r#""state":{}"#,
        r#""error":{"name":"NotPinned","number":66,"message":"no snapshot is pinned; pin one before you read","class":"mine"}"#,
    );
    talk.check(r#""collect":{}"#, r#""ok":{"commit":1,"next":4}"#);
    talk.check(
        r#""batch":{"operations":[["remove",3]]}"#,
        r#""ok":{"commit":2,"nodes":[]}"#,
    );
    let copied = talk.ask(r#"{"id":1,"state":{}}"#);
    assert!(
        copied.starts_with(r#"{"id":1,"ok":{"commit":1,"next":4,"batches":["QkVWA"#),
        "{copied}"
    );
    assert!(server
        .talk()
        .ask(r#"{"id":1,"status":{}}"#)
        .contains(r#""oldest":null"#));
    talk.check(r#""state":{"from":99}"#, r#""ok":{"commit":1,"next":4,"batches":[]}"#);
    // A pinned snapshot takes precedence over a copy.
    talk.check(r#""pin":{}"#, r#""ok":{"commit":2,"next":4}"#);
    assert!(talk.ask(r#"{"id":1,"state":{}}"#).contains(r#""commit":2"#));
    talk.check(r#""unpin":{}"#, r#""ok":{}"#);
    talk.check(r#""collect":{}"#, r#""ok":{"commit":2,"next":4}"#);
    let later = talk.ask(r#"{"id":1,"state":{}}"#);
    assert!(later.len() < copied.len(), "{later}");
}

#[test]
fn two_clients_read_copies_at_the_same_time() {
    let (_folder, server) = start(&[]);
    let mut talks: Vec<_> = (0..3).map(|_| server.talk()).collect();
    let (copied, refused) = (
        r#""ok":{"commit":0,"next":1}"#,
        concat!(
            r#""error":{"name":"TooManyCopies","message":"2 clients are reading copies of snapshots, the most that "#,
            r#"can at the same time","class":"retry","most":2}"#
        ),
    );
    // A client's second copy replaces its first one.
    for (talk, reply) in [(0, copied), (1, copied), (1, copied), (2, refused)] {
        talks[talk].check(r#""collect":{}"#, reply);
    }
    drop(talks.remove(0));
    wait_until("its place is free", || {
        talks[1].ask(r#"{"id":1,"collect":{}}"#).contains("ok")
    });
}

#[test]
fn an_idle_client_keeps_no_other_from_a_copy() {
    let (_folder, server) = start(&["--hold", "1"]);
    let mut talks: Vec<_> = (0..3).map(|_| server.talk()).collect();
    for talk in &mut talks[..2] {
        talk.check(r#""collect":{}"#, r#""ok":{"commit":0,"next":1}"#);
    }
    wait_until("there is a place for the third", || {
        // The second client goes on reading its copy.
        talks[1].check_parts(r#""state":{}"#, &[r#""ok":{"commit":0,"#]);
        talks[2].ask(r#"{"id":1,"collect":{}}"#).contains(r#""ok""#)
    });
    for _ in 0..2 {
        talks[0].check(
            r#""state":{}"#,
            concat!(
                r#""error":{"name":"Expired","message":"the copy expired, because it wasn't read for too long and "#,
                r#"another client needed its place; send collect again","class":"gone"}"#
            ),
        );
    }
    for talk in &mut talks[1..] {
        talk.check_parts(r#""state":{}"#, &[r#""ok":{"commit":0,"#]);
    }
    talks.pop();
    wait_until("there is a place for the first", || {
        talks[0].ask(r#"{"id":1,"collect":{}}"#).contains(r#""ok""#)
    });
}
