//! Tests of snapshots and queries.

mod common;

use bestore::{any_case, attribute, escape, Error, Kind, Live, Operation, Prepared, QueryFault, Value};
use common::{store, ten};

#[test]
fn a_snapshot_stays_as_it_is() {
    let mut pass = ten();
    let snapshot = pass.pin().unwrap();
    snapshot.pass().set(1, "size", 100_i64).unwrap();
    snapshot.pass().remove_node(2).unwrap();
    assert_eq!(snapshot.get(1, "size").unwrap(), Some(Value::Int64(1)));
    assert!(snapshot.contains(2).unwrap());
    drop(snapshot);
    let snapshot = pass.pin().unwrap();
    assert_eq!(snapshot.get(1, "size").unwrap(), Some(Value::Int64(100)));
    assert!(!snapshot.contains(2).unwrap());
    assert_eq!(snapshot.get(2, "size").unwrap(), None);
}

#[test]
fn a_snapshot_that_was_forgotten_goes_at_the_next_pin() {
    let mut pass = ten();
    let first = pass.pin().unwrap().number();
    std::mem::forget(pass.pin().unwrap());
    pass.new_node().unwrap();
    assert_eq!(pass.pin().unwrap().number(), first + 1);
}

#[test]
fn a_snapshot_is_held_until_it_is_released() {
    let store = store();
    let (mut pass, other) = (store.pass().unwrap(), store.pass().unwrap());
    let number = pass.hold().unwrap();
    other.new_node().unwrap();
    assert_eq!(pass.hold().unwrap(), number);
    assert_eq!((pass.held(), pass.pin().unwrap().number()), (Some(number), number));
    let mut runs = 0;
    let refused = pass.change(|change| {
        runs += 1;
        change.new_node();
        Ok(())
    });
    assert!(matches!(refused, Err(Error::Conflict { .. })));
    assert_eq!(runs, 1);
    assert_eq!(other.status().unwrap().oldest.unwrap().snapshot, number);
    pass.release();
    pass.release();
    assert_eq!(other.status().unwrap().oldest, None);
    assert_eq!((pass.held(), pass.pin().unwrap().number()), (None, number + 1));
    pass.hold().unwrap();
    drop(pass);
    assert_eq!(other.status().unwrap().oldest, None);
}

#[test]
fn columns_are_what_get_reads() {
    let mut pass = store().pass().unwrap();
    for node in 1..=4 {
        assert_eq!(pass.new_node().unwrap(), node);
        pass.set(node, "size", node as i64 - 3).unwrap();
    }
    pass.set(2, "name", "é".repeat(127).as_str()).unwrap();
    pass.set(2, "data", vec![0, 255]).unwrap();
    pass.set(1, "name", "").unwrap();
    pass.remove_node(4).unwrap();
    let snapshot = pass.pin().unwrap();
    let (nodes, names) = ([2, 4, 1, 9, 3, 2], ["size", "none", "data", "name", "size"]);
    let columns = snapshot.columns(&nodes, &names).unwrap();
    for (name, column) in names.iter().zip(&columns) {
        assert_eq!(&snapshot.column(&nodes, name).unwrap(), column);
        let read: Vec<_> = nodes.iter().map(|&node| snapshot.get(node, name).unwrap()).collect();
        assert_eq!(&read, column);
    }
    assert_eq!(columns.len(), 5);
    assert_eq!(snapshot.columns(&[], &names).unwrap(), vec![Vec::new(); 5]);
    assert!(snapshot.columns(&nodes, &[]).unwrap().is_empty());
    assert!(matches!(
        snapshot.columns(&nodes, &["size", ""]),
        Err(Error::NameLength { .. })
    ));
    assert!(matches!(snapshot.column(&nodes, "a\0"), Err(Error::HasNul { .. })));
}

#[test]
fn every_kind_of_value_is_read_as_it_was_written() {
    let mut pass = store().pass().unwrap();
    let node = pass.new_node().unwrap();
    let values = [
        ("a", Value::from("Größe")),
        ("b", Value::from(i32::MIN)),
        ("c", Value::from(i64::MIN)),
        ("d", Value::from(u32::MAX)),
        ("e", Value::from(u64::MAX)),
        ("f", Value::Mime("text/plain".into())),
        ("g", Value::from(vec![0, 255])),
        ("h", Value::from("")),
    ];
    for (name, value) in &values {
        pass.set(node, name, value.clone()).unwrap();
    }
    let snapshot = pass.pin().unwrap();
    for (name, value) in &values {
        assert_eq!(snapshot.get(node, name).unwrap().as_ref(), Some(value));
    }
    let listed = snapshot.attributes(node).unwrap();
    let listed: Vec<_> = listed.iter().map(|(name, value)| (&**name, value.clone())).collect();
    assert_eq!(listed, values);
    assert!(matches!(snapshot.attributes(9), Err(Error::NoNode)));
}

#[test]
fn a_list_of_any_length_is_read_whole() {
    let mut pass = store().pass().unwrap();
    let node = pass.new_node().unwrap();
    for number in 0..64 {
        pass.set(node, &format!("{number:063}"), "x".repeat(255)).unwrap();
    }
    assert_eq!(pass.pin().unwrap().attributes(node).unwrap().len(), 64);
    for number in 0..32 {
        pass.make_index(&format!("{number:063}"), Kind::Text).unwrap();
    }
    let full = pass.make_index("one more", Kind::Text);
    assert!(matches!(full, Err(Error::TooManyIndices)));
    assert_eq!(pass.pin().unwrap().indices().unwrap().len(), 32);
}

#[test]
fn more_nodes_than_are_read_at_a_time() {
    let mut pass = common::sized(2048).pass().unwrap();
    pass.make_index("n", Kind::Int64).unwrap();
    for _ in 0..50 {
        pass.change(|change| {
            for _ in 0..32 {
                let node = change.new_node();
                change.set(node, "n", 1_i64)?;
            }
            Ok(())
        })
        .unwrap();
    }
    let snapshot = pass.pin().unwrap();
    let all: Vec<u64> = (1..=1600).collect();
    assert_eq!(snapshot.query("n==1").unwrap(), all);
    assert_eq!(snapshot.query("n==2").unwrap(), []);
    assert_eq!(snapshot.query("n==1").unwrap(), all);
    let nodes: Result<Vec<u64>, Error> = snapshot.nodes().collect();
    assert_eq!(nodes.unwrap(), all);
    assert_eq!(snapshot.nodes_from(1599).count(), 2);
    assert_eq!(snapshot.nodes_from(u64::MAX).count(), 0);
    let query = Prepared::new("n==1").unwrap();
    assert_eq!(snapshot.query_prepared(&query).unwrap(), all);
}

#[test]
fn a_querys_error_has_its_text_and_place() {
    let mut pass = ten();
    let snapshot = pass.pin().unwrap();
    let error = |text: &str| match snapshot.query(text) {
        Err(Error::Query(error)) => error,
        other => panic!("{other:?}"),
    };
    let bad = error("size<5 || größe==[");
    assert_eq!(bad.fault(), QueryFault::BadPattern);
    assert_eq!((bad.offset(), bad.column()), (Some(19), Some(17)));
    let said = concat!(
        "this pattern isn't valid here; a set such as [a-d] must be closed by ], must not be empty, and its ranges must ascend\n",
        "  size<5 || größe==[\n                   ^"
    );
    assert_eq!(bad.to_string(), said);
    assert_eq!(
        error("").to_string(),
        concat!(
            "this query isn't valid here; it needs comparisons such as size>=5, joined by && or ||\n",
            "  \n  ^"
        )
    );
    assert_eq!(error(&"x".repeat(5000)).fault(), QueryFault::TooLong);
    assert_eq!(error("name==x").fault(), QueryFault::NotCovered);
    let missing = error("size<5 || größe==x");
    assert_eq!((missing.offset(), missing.missing()), (Some(10), Some("größe")));
    let said = concat!("no index can answer the query: \"größe\" has none; compare a name that has an index, on both sides of each ||\n", "  size<5 || größe==x\n            ^");
    assert_eq!(missing.to_string(), said);
    assert!(matches!(snapshot.explain("size<"), Err(Error::Query(_))));
    assert!(matches!(Prepared::new("size<"), Err(Error::Query(_))));
    let prepared = Prepared::new("name=x").unwrap();
    let said = concat!("no index can answer the query: \"name\" has none; compare a name that has an index, on both sides of each ||\n", "  \"name\"==\"x\"\n  ^");
    assert_eq!(snapshot.query_prepared(&prepared).unwrap_err().to_string(), said);
}

#[test]
fn a_predicate_finds_what_its_text_finds() {
    let mut pass = ten();
    let prepared = (attribute("size").ge(3) & !attribute("size").gt(5)).prepare().unwrap();
    let snapshot = pass.pin().unwrap();
    assert_eq!(snapshot.query_prepared(&prepared).unwrap(), [3, 4, 5]);
    let mut live = Live::from(prepared);
    assert_eq!(live.refresh(&snapshot).unwrap().created, [3, 4, 5]);
}

#[test]
fn a_query_is_explained() {
    let mut pass = ten();
    let said = pass.pin().unwrap().explain("size<0").unwrap();
    assert_eq!(said, "\"size\"<\"0\" score 3");
}

#[test]
fn a_query_shows_its_ways() {
    let mut pass = ten();
    let snapshot = pass.pin().unwrap();
    let found = snapshot.query("size<0").unwrap().len();
    let said = format!("\"size\"  .. <0  about {found} keys, {found} walked\n");
    assert_eq!(snapshot.ways("size<0").unwrap(), said);
    assert_eq!(snapshot.ways("size<0 || size>0").unwrap().lines().count(), 2);
    assert!(matches!(snapshot.ways("size<"), Err(Error::Query(_))));
    assert!(matches!(snapshot.ways("größe==1"), Err(Error::Query(_))));
}

#[test]
fn a_live_query_returns_what_changed() {
    let mut pass = ten();
    let mut live = Live::new("size>=9").unwrap();
    let first = live.refresh(&pass.pin().unwrap()).unwrap();
    assert_eq!((first.created, first.removed), (vec![9, 10], vec![]));
    pass.set(1, "size", 11_i64).unwrap();
    pass.remove_node(9).unwrap();
    let second = live.refresh(&pass.pin().unwrap()).unwrap();
    assert_eq!((second.created, second.removed), (vec![1], vec![9]));
    let none = live.refresh(&pass.pin().unwrap()).unwrap();
    assert_eq!(none, bestore::Updates::default());
    let now = pass.pin().unwrap().query_prepared(live.prepared()).unwrap();
    assert_eq!(now, [1, 10]);
}

#[test]
fn escaped_texts_are_found_and_match_nothing_else() {
    let mut pass = store().pass().unwrap();
    pass.make_index("name", Kind::Text).unwrap();
    let every: String = (' '..='~').collect();
    let names = [&*every, "[draft].txt", "d", "*", "a b", "größe", "\\", "\"'", "A"];
    for name in names {
        let node = pass.new_node().unwrap();
        pass.set(node, "name", name).unwrap();
    }
    let snapshot = pass.pin().unwrap();
    for (node, name) in (1..).zip(names) {
        let word = escape(name);
        for query in [
            format!("name=={word}"),
            format!("name==\"{word}\""),
            format!("name=='{word}'"),
            format!("name>={word} && name<={word}"),
            format!("name==\"{}\"", any_case(name)),
        ] {
            assert_eq!(snapshot.query(&query).unwrap(), [node], "{query}");
        }
    }
    let any = any_case("GRÖSSE [draft]");
    assert_eq!(any, "[gG][rR][öÖ][sSſ][sSſ][eE]\\ \\[[dD][rR][aA][fF][tT]]");
    let found = snapshot.query(&format!("name==\"{}\"", any_case("GRÖßE"))).unwrap();
    assert_eq!(found, [6]);
}

#[test]
fn the_journal_has_each_write_with_its_outcomes() {
    let store = store();
    let (pass, other) = (store.pass().unwrap(), store.pass().unwrap());
    pass.make_index("size", Kind::Int64).unwrap();
    other.new_node().unwrap();
    let mut entries = pass.journal_from(0);
    let first = entries.next().unwrap().unwrap();
    assert_eq!((first.number, first.pass), (1, pass.number().unwrap()));
    let second = entries.next().unwrap().unwrap();
    assert_eq!((second.number, second.pass), (2, other.number().unwrap()));
    let made: Vec<_> = second.batch.operations().collect();
    assert_eq!(made, [Operation::NewNode { node: 1 }]);
    assert!(entries.next().is_none());
    other.set(1, "size", 5_i64).unwrap();
    assert_eq!(entries.next().unwrap().unwrap().number, 3);
    assert!(pass.journal_from(7).next().is_none());
    let text = pass.journal().unwrap();
    assert_eq!(text.lines().count(), 3);
    assert!(text.lines().nth(1).unwrap().ends_with("new -> node 1"), "{text}");
}

/// Values are read in parts, which begin and end at a node.
#[test]
fn many_values_are_read() {
    let mut pass = ten();
    let snapshot = pass.pin().unwrap();
    let nodes: Vec<u64> = (0..5000).map(|number| number % 13).collect();
    let sizes: Vec<_> = nodes.iter().map(|node| snapshot.get(*node, "size").unwrap()).collect();
    for width in [1, 2, 3, 5, 1365, 5000] {
        let (nodes, sizes) = (&nodes[..5000 / width], &sizes[..5000 / width]);
        let columns = snapshot.columns(nodes, &vec!["size"; width]).unwrap();
        assert_eq!(columns.len(), width);
        assert!(columns.iter().all(|column| column == sizes));
    }
    assert!(snapshot.columns(&nodes, &[]).unwrap().is_empty());
    let empty = snapshot.columns(&[], &["size", "none"]).unwrap();
    assert!(empty.len() == 2 && empty.iter().all(Vec::is_empty));
}

#[test]
fn names_that_no_attribute_has_are_refused() {
    let mut pass = ten();
    let snapshot = pass.pin().unwrap();
    assert!(matches!(snapshot.get(1, ""), Err(Error::NameLength { .. })));
    assert!(matches!(
        snapshot.get(1, &"x".repeat(64)),
        Err(Error::NameLength { .. })
    ));
    assert!(matches!(snapshot.get(1, "a\0"), Err(Error::HasNul { .. })));
}

#[test]
fn queries_and_pairs_are_counted() {
    let mut pass = ten();
    pass.set(1, "size", "no number").unwrap();
    let snapshot = pass.pin().unwrap();
    assert_eq!(snapshot.count("size>=5").unwrap(), 6);
    assert_eq!(snapshot.count_prepared(&"size<5".parse().unwrap()).unwrap(), 3);
    assert_eq!(snapshot.pairs("size").unwrap(), 9);
    assert!(matches!(snapshot.pairs("name"), Err(Error::NoIndex)));
    let refused = snapshot.count("size>=5 && [").unwrap_err();
    assert_eq!(
        refused.to_string(),
        snapshot.query("size>=5 && [").unwrap_err().to_string()
    );
    assert!(matches!(snapshot.count("name==a"), Err(Error::Query(error)) if error.missing() == Some("name")));
    // If a prepared query's canonical text is too long, that text isn't itself a valid query.
    let missing = |comparisons: usize| {
        let query = Prepared::new(&vec!["abcdefgh<1234"; comparisons].join("||")).unwrap();
        match snapshot.query_prepared(&query) {
            Err(Error::Query(error)) => error.missing().map(str::to_owned),
            other => panic!("{other:?}"),
        }
    };
    assert_eq!((missing(195), missing(196)), (Some("abcdefgh".into()), None));
}

#[test]
fn comparisons_that_are_never_true_are_found() {
    let mut pass = ten();
    let snapshot = pass.pin().unwrap();
    let hints = snapshot.hints("name==a || !(size<=1.5)").unwrap();
    let said: Vec<String> = hints.iter().map(|hint| hint.to_string()).collect();
    assert_eq!(said, [r#"never true: "size" is i64, and "1.5" isn't a whole number"#]);
    assert_eq!((hints[0].offset, hints[0].is_number), (13, false));
}
