//! Tests pages in the order of an index, pages of arbitrary nodes, and pages without a count.

use crate::common::{start, Folder, Server, Talk};
use bestore::{Batch, Kind, Value};
use bestore_client::wire::{self, Command};
use bestore_client::{Client, Query};

/// Starts a server with the indices `size` and `name` and four nodes. Nodes 1 to 3 have sizes 2, 1 and 2, and node 4 has no size.
/// The first two have names.
fn four() -> (Folder, Server, Talk) {
    let (folder, server) = start(&[]);
    let mut talk = server.talk();
    talk.check(
        concat!(
            r#""batch":{"operations":[["index","size","int64"],["index","name","text"],["new"],["set",1,"size",2],"#,
            r#"["set",1,"name","a"],["new"],["set",2,"size",1],["set",2,"name","b"],["new"],["set",3,"size",2],"#,
            r#"["new"],["set",4,"name","c"]]}"#
        ),
        r#""ok":{"commit":1,"nodes":[1,2,3,4]}"#,
    );
    (folder, server, talk)
}

/// Sends a request, and returns the cursor in its reply.
fn cursor_of(talk: &mut Talk, request: &str) -> String {
    let line = talk.ask(&format!("{{\"id\":1,{request}}}"));
    let reply: serde_json::Value = serde_json::from_str(&line).unwrap();
    reply["ok"]["cursor"].as_str().expect(&line).to_owned()
}

#[test]
fn pages_in_an_order() {
    let (_folder, _server, mut talk) = four();
    let one = cursor_of(&mut talk, r#""query":{"query":"size>0","by":"size","limit":1}"#);
    let all = cursor_of(&mut talk, r#""query":{"query":"size>0","by":"size"}"#);
    let down = cursor_of(
        &mut talk,
        r#""query":{"query":"size>0","by":"size","descending":true,"limit":2}"#,
    );
    for (parameters, reply) in [
        (
            r#""by":"size","limit":1"#.into(),
            format!(r#""nodes":[2],"more":true,"cursor":"{one}""#),
        ),
        (r#""by":"size""#.into(), format!(r#""nodes":[2,1,3],"cursor":"{all}""#)),
        (
            format!(r#""by":"size","after":"{one}""#),
            format!(r#""nodes":[1,3],"cursor":"{all}""#),
        ),
        (
            format!(r#""by":"size","after":"{all}""#),
            format!(r#""nodes":[],"cursor":"{all}""#),
        ),
        (
            r#""by":"size","descending":true,"limit":2,"columns":["name","size"]"#.into(),
            format!(r#""nodes":[3,1],"rows":[[null,2],["a",2]],"more":true,"cursor":"{down}""#),
        ),
        (r#""any":9"#.into(), r#""nodes":[2,1,3]"#.into()),
        (
            r#""any":9,"columns":["size"]"#.into(),
            r#""nodes":[2,1,3],"rows":[[1],[2],[2]]"#.into(),
        ),
        (
            r#""uncounted":true,"limit":2"#.into(),
            r#""nodes":[1,2],"more":3"#.into(),
        ),
        (r#""uncounted":true,"from":3"#.into(), r#""nodes":[3]"#.into()),
    ] {
        let request = format!(r#""query":{{"query":"size>0",{parameters}}}"#);
        talk.check(&request, &format!(r#""ok":{{"commit":1,{reply}}}"#));
    }
}

#[test]
fn nodes_without_a_value_are_not_in_the_order() {
    let (_folder, server, mut talk) = four();
    assert_eq!(server.client().any("size>0", 2).unwrap().len(), 2);
    let by_size = server
        .client()
        .page("name==*", &bestore::Order::by("size"), None, 9)
        .unwrap();
    assert_eq!((by_size.nodes, by_size.more), (vec![2, 1], false));
    let none = cursor_of(&mut talk, r#""query":{"query":"size>7","by":"size"}"#);
    let request = format!(r#""query":{{"query":"size>7","by":"size","after":"{none}"}}"#);
    talk.check(
        &request,
        &format!(r#""ok":{{"commit":1,"nodes":[],"cursor":"{none}"}}"#),
    );
}

/// Requests pages of `size>0` with each of these parameters, and checks the errors.
fn check_errors(talk: &mut Talk, errors: &[(&str, String)]) {
    for (parameters, error) in errors {
        let request = format!(r#""query":{{"query":"size>0",{parameters}}}"#);
        talk.check(&request, &format!(r#""error":{{{error}}}"#));
    }
}

#[test]
fn what_a_page_can_not_be() {
    let (_folder, _server, mut talk) = four();
    let bad = |why: &str| format!(r#""name":"BadRequest","message":"{why}","class":"mine""#);
    let count = |name: &str, nodes: &str| bad(&format!("`{name}` is {nodes}, and a page has 1 to 50000 nodes"));
    let errors = [
        (r#""by":"size","limit":0"#, count("limit", "0")),
        (r#""by":"size","limit":50001"#, count("limit", "50001")),
        (r#""any":0"#, count("any", "0")),
        (r#""any":18446744073709551615"#, count("any", "18446744073709551615")),
        (r#""any":1,"limit":1"#, bad("`any` can be used only with `columns`: it is a number of nodes")),
        (r#""any":1,"uncounted":true"#, bad("`any` can be used only with `columns`: it is a number of nodes")),
        (r#""by":"size","any":1"#, bad("`any` can't be used with `by`, since the nodes that it finds have no order")),
        (
            r#""by":"size","count":true"#,
            bad("`count` can't be used with `by`: a comparison finds the nodes with a value in the index"),
        ),
        (
            r#""by":"size","from":1"#,
            bad("`from` and `uncounted` can't be used with `by`, whose pages continue `after` a cursor"),
        ),
        (r#""descending":true"#, bad("`descending` needs `by`, the name of an index")),
        (r#""after":"AQ""#, bad("`after` needs `by`, the name of the index whose cursor it is")),
        (
            r#""by":"kind""#,
            r#""name":"NoIndex","number":6,"message":"an order needs an index, but there is none named \"kind\"","class":"mine","missing":"kind""#.into(),
        ),
    ];
    check_errors(&mut talk, &errors);
}

#[test]
fn a_cursor_of_another_page_is_refused() {
    let (_folder, _server, mut talk) = four();
    let cursor = cursor_of(&mut talk, r#""query":{"query":"size>0","by":"size","limit":1}"#);
    let fault = |why: &str| format!(r#""name":"BadCursor","number":78,"message":"{why}","class":"mine""#);
    let other_order = |order: &str| {
        fault(&format!(
            r#"the cursor belongs to the order by \"size\" ascending, but this page is in the order by {order}: {}"#,
            "keep the order, or begin without a cursor"
        ))
    };
    let errors = [
        (
            r#""by":"size","after":"AQ""#,
            fault("this text isn't a cursor: it is cut off or changed"),
        ),
        (
            &*format!(r#""by":"size","descending":true,"after":"{cursor}""#),
            other_order(r#"\"size\" descending"#),
        ),
        (
            &*format!(r#""by":"name","after":"{cursor}""#),
            other_order(r#"\"name\" ascending"#),
        ),
    ];
    check_errors(&mut talk, &errors);
    let other = format!(r#""query":{{"query":"size>1","by":"size","after":"{cursor}"}}"#);
    let why = "the cursor belongs to another query: ask the query that it came from, or begin without a cursor";
    talk.check(&other, &format!(r#""error":{{{}}}"#, fault(why)));
}

/// What is wrong with the order or the cursor is reported even if no index covers the query.
#[test]
fn a_page_of_a_query_that_is_not_covered() {
    let (_folder, _server, mut talk) = four();
    let cursor = cursor_of(&mut talk, r#""query":{"query":"size>0","by":"size","limit":1}"#);
    for (parameters, parts) in [
        (
            r#""by":"size""#.into(),
            [r#""name":"NotCovered""#, r#""missing":"kind""#],
        ),
        (r#""by":"kind""#.into(), [r#""name":"NoIndex""#, r#""missing":"kind""#]),
        (
            format!(r#""by":"size","after":"{cursor}""#),
            [r#""name":"BadCursor""#, "belongs to another query"],
        ),
    ] {
        talk.check_parts(&format!(r#""query":{{"query":"kind>0",{parameters}}}"#), &parts);
    }
}

/// A cursor is also valid for the same query written in a different way, but not for an index that has been removed and created
/// again.
#[test]
fn a_cursor_of_an_index_that_was_made_anew() {
    let (_folder, server, mut talk) = four();
    let cursor = cursor_of(&mut talk, r#""query":{"query":"name==*","by":"size","limit":1}"#);
    let again = format!(r#""query":{{"query":"( name==\"*\" )","by":"size","after":"{cursor}","limit":1}}"#);
    talk.check_parts(&again, &[r#""nodes":[1]"#]);
    let mut client = server.client();
    client.apply(Batch::new().remove_index("size")).unwrap();
    talk.check_parts(&again, &[r#""missing":"size""#]);
    client
        .apply(Batch::new().make_index("size", Kind::Uint32).set(3, "size", 7_u32))
        .unwrap();
    talk.check_parts(&again, &["BadCursor", "begin without a cursor"]);
}

/// Pages are read from the pinned snapshot for as long as it is pinned, and from the current one after that.
#[test]
fn pages_are_of_the_pinned_snapshot() {
    let (_folder, server, _talk) = four();
    let (mut client, mut other) = (server.client(), server.client());
    let order = bestore::Order::by("size");
    client.pin().unwrap();
    let first = client.page("size>0", &order, None, 1).unwrap();
    other.apply(Batch::new().set(1, "size", 9_i64).remove_node(3)).unwrap();
    let rest = client.page("size>0", &order, Some(&first.cursor), 9).unwrap();
    assert_eq!((first.nodes, rest.nodes), (vec![2], vec![1, 3]));
    client.unpin().unwrap();
    let now = client.page("size>0", &order, Some(&first.cursor), 9).unwrap();
    assert_eq!(now.nodes, [1]);
    assert_eq!(now.cursor.value(), Some(&Value::Int64(9)));
}

/// If not all rows fit on a line, the page has the rows of the first nodes, and the cursor is at the last of these.
#[test]
fn long_rows_end_a_page() {
    let (_folder, server) = start(&["--pages", "16384"]);
    let mut client = server.client();
    client.apply(Batch::new().make_index("size", Kind::Int64)).unwrap();
    let long = "\u{1}".repeat(255);
    for node in 1..=200 {
        let mut batch = Batch::new();
        batch.new_node().set(node, "size", 1_000 - node as i64);
        for name in 0..10 {
            batch.set(node, &format!("text{name}"), &*long);
        }
        client.apply(&batch).unwrap();
    }
    let names: Vec<String> = (0..10).map(|name| format!("text{name}")).collect();
    let columns: Vec<&str> = names.iter().map(|name| &**name).collect();
    let (mut found, mut pages, mut after) = (Vec::new(), 0, None);
    loop {
        let mut ordered = client.ordered("size>0", bestore::Order::by("size"));
        if let Some(cursor) = after {
            ordered = ordered.after(cursor);
        }
        let read = ordered.rows(200, &columns).unwrap();
        assert_eq!(read.rows.len(), read.page.nodes.len());
        found.extend(read.page.nodes);
        pages += 1;
        if !read.page.more {
            break;
        }
        after = Some(read.page.cursor);
    }
    assert_eq!(found, (1..=200).rev().collect::<Vec<u64>>());
    assert!((3..10).contains(&pages), "{pages} pages");
    let any: wire::Page = client
        .call(Command::Query(wire::Query {
            query: "size>0".into(),
            columns: Some(wire::Columns(columns.iter().map(|name| (*name).into()).collect())),
            any: Some(200),
            ..wire::Query::default()
        }))
        .unwrap();
    assert_eq!((any.more, any.nodes.len()), (true, any.rows.unwrap().len()));
}

/// A page's count is the number of nodes in the answer from the page's first node on, whatever the connection asked earlier.
#[test]
fn counts_of_pages() {
    let (_folder, server) = start(&[]);
    let (mut client, mut other) = (server.client(), server.client());
    let mut batch = Batch::new();
    batch.make_index("size", Kind::Int64);
    for node in 1..=20 {
        batch.new_node().set(node, "size", 1_i64);
    }
    client.apply(&batch).unwrap();
    let page = |client: &mut Client, text, from, limit| {
        let limit = Some(limit);
        let query = Query {
            text,
            limit,
            from,
            ..Query::default()
        };
        let hits = client.hits(query).unwrap();
        (hits.nodes.unwrap(), hits.count.unwrap(), hits.more)
    };
    assert_eq!(page(&mut client, "size>0", 0, 3), (vec![1, 2, 3], 20, Some(4)));
    assert_eq!(page(&mut client, "size>0", 4, 2), (vec![4, 5], 17, Some(6)));
    assert_eq!(page(&mut client, "size>1", 0, 2), (vec![], 0, None));
    other.apply(Batch::new().remove_node(9)).unwrap();
    assert_eq!(page(&mut client, "size>0", 6, 1), (vec![6], 14, Some(7)));
    assert_eq!(page(&mut client, "size>0", 18, 3), (vec![18, 19, 20], 3, None));
    assert_eq!(page(&mut client, "size>0", 7, 0), (vec![], 13, Some(7)));
    for text in [
        "size>0", "size!=7", "size==1", "size>=1", "size<9", "size<=9", "size<8", "size<7", "size<6",
    ] {
        assert_eq!(page(&mut client, text, 0, 5).1, 19, "{text}");
        assert_eq!(
            page(&mut client, text, 6, 5),
            (vec![6, 7, 8, 10, 11], 14, Some(12)),
            "{text}"
        );
    }
    assert_eq!(
        page(&mut client, "size>0", 12, 5),
        (vec![12, 13, 14, 15, 16], 9, Some(17))
    );
}
