//! Tests that pages in an index's order agree with the whole result, sorted and cut into pages.

use bestore::{attribute, Cursor, CursorFault, Error, Kind, Limits, Live, Order, Page, Pass, Prepared, Result};
use bestore::{Snapshot, Store, Value};
use std::sync::atomic::{AtomicBool, Ordering};
use std::thread;

const KINDS: [(&str, Kind); 5] = [
    ("text", Kind::Text),
    ("i32", Kind::Int32),
    ("i64", Kind::Int64),
    ("u32", Kind::Uint32),
    ("u64", Kind::Uint64),
];
const QUERIES: [&str; 8] = [
    "i64>=-3",
    "text==\"*a*\"",
    "u32<2",
    "text>\"a\" && i64<2",
    "text!=ab && !(i32==0)",
    "other==1 || u64>1",
    "i64==7777",
    "u64>=0",
];

/// A generator of pseudo-random numbers from a seed.
struct Chance(u64);

impl Chance {
    fn below(&mut self, most: u64) -> u64 {
        self.0 ^= self.0 << 13;
        self.0 ^= self.0 >> 7;
        self.0 ^= self.0 << 17;
        self.0 % most
    }

    fn value(&mut self, kind: Kind) -> Value {
        let small = self.below(5);
        match kind {
            Kind::Int32 => [i32::MIN, -1, 0, 1, i32::MAX][small as usize].into(),
            Kind::Int64 => [i64::MIN, -2, 0, 1, i64::MAX][small as usize].into(),
            Kind::Uint32 => [0, 1, 2, 1 << 31, u32::MAX][small as usize].into(),
            Kind::Uint64 => [0, 1, 2, 1 << 63, u64::MAX][small as usize].into(),
            _ => ["", "a", "ab", "b", "ä"][small as usize].into(),
        }
    }
}

/// A pass of a store with an index of each kind.
fn indexed() -> Pass {
    let mut pass = Store::open(Limits::default()).unwrap().pass().unwrap();
    // The attribute is set before the index is created, so the index doesn't hold it.
    pass.change(|change| {
        let node = change.new_node();
        change.set(node, "other", 1_i64).map(drop)
    })
    .unwrap();
    for (name, kind) in KINDS {
        pass.make_index(name, kind).unwrap();
    }
    pass.make_index("other", Kind::Int64).unwrap();
    pass
}

/// Performs random writes: creates and removes nodes, and changes values.
fn write(pass: &mut Pass, chance: &mut Chance, count: usize) {
    for _ in 0..count {
        let node = pass.change(|change| {
            let next = change.snapshot().next_node()?;
            let number = 1 + chance.below(next);
            let node = match number == next || !change.snapshot().contains(number)? {
                true => change.new_node(),
                false => number,
            };
            for (name, kind) in KINDS {
                if chance.below(3) > 0 {
                    change.set(node, name, chance.value(kind))?;
                }
            }
            change.set(node, "other", chance.below(3) as i64)?;
            Ok(node)
        });
        match chance.below(12) {
            0 => pass.remove_node(node.unwrap()).unwrap(),
            // The value isn't of the index's kind, so the node isn't in the index.
            1 => pass.set(node.unwrap(), "text", 5_i64).unwrap(),
            _ => {}
        }
    }
}

/// A sort key that orders values in the same way as Rust's own types.
fn rank(value: &Value) -> (i128, Vec<u8>) {
    match value {
        Value::Uint64(number) => ((*number).into(), Vec::new()),
        other => match other.as_i64() {
            Some(number) => (number.into(), Vec::new()),
            None => (0, other.as_bytes().unwrap_or_default().to_vec()),
        },
    }
}

/// The whole result in this order, each node with its value.
fn plain(snapshot: &Snapshot<'_>, query: &Prepared, order: &Order, kind: Kind) -> Vec<(Value, u64)> {
    let pairs = attribute(order.name()).any(kind).prepare().unwrap();
    let indexed = snapshot.query_prepared(&pairs).unwrap();
    let found = snapshot.query_prepared(query).unwrap().into_iter();
    let found = found.filter(|node| indexed.contains(node));
    let mut found: Vec<_> = found
        .map(|node| (snapshot.get(node, order.name()).unwrap().unwrap(), node))
        .collect();
    found.sort_by_key(|(value, node)| (rank(value), *node));
    if order.is_descending() {
        found.reverse();
    }
    found
}

/// Returns the page after a cursor, taken from the whole result.
fn cut(all: &[(Value, u64)], after: Option<&Cursor>, is_descending: bool, most: usize) -> (Vec<u64>, bool) {
    let at = after.and_then(|after| Some((rank(after.value()?), after.node()?)));
    let is_after = |(value, node): &&(Value, u64)| match &at {
        None => true,
        Some(at) if is_descending => (rank(value), *node) < *at,
        Some(at) => (rank(value), *node) > *at,
    };
    let rest: Vec<u64> = all.iter().filter(is_after).map(|(_, node)| *node).collect();
    let page: Vec<u64> = rest.iter().copied().take(most).collect();
    let more = page.len() < rest.len();
    (page, more)
}

/// Reads page after page, writing in between. Compares each page with its snapshot's whole result.
fn page_on(pass: &mut Pass, chance: &mut Chance, query: &str, order: &Order, kind: Kind) {
    let prepared = Prepared::new(query).unwrap();
    let mut after: Option<Cursor> = None;
    for _ in 0..12 {
        let most = [1, 2, 7, 40][chance.below(4) as usize];
        let snapshot = pass.pin().unwrap();
        let page = snapshot.page(&prepared, order, after.as_ref(), most).unwrap();
        let all = plain(&snapshot, &prepared, order, kind);
        let (nodes, more) = cut(&all, after.as_ref(), order.is_descending(), most);
        assert_eq!(
            (&page.nodes, page.more),
            (&nodes, more),
            "{query} by {order} after {after:?}"
        );
        check_cursor(&page, after.as_ref(), &all);
        drop(snapshot);
        write(pass, chance, 2);
        after = Some(page.cursor.to_string().parse().unwrap());
        if !page.more {
            break;
        }
    }
}

fn check_cursor(page: &Page, after: Option<&Cursor>, all: &[(Value, u64)]) {
    match page.nodes.last() {
        Some(last) => {
            let (value, node) = all.iter().find(|(_, node)| node == last).unwrap();
            assert_eq!((page.cursor.value(), page.cursor.node()), (Some(value), Some(*node)));
        }
        None => assert_eq!(page.cursor.node(), after.and_then(Cursor::node)),
    }
}

/// A store after this many writes, with the generator for more.
fn written(seed: u64, count: usize) -> (Pass, Chance) {
    let (mut pass, mut chance) = (indexed(), Chance(seed));
    write(&mut pass, &mut chance, count);
    (pass, chance)
}

#[test]
fn pages_are_those_of_the_whole_answer() {
    let (mut pass, mut chance) = written(0x5eed, 150);
    for query in QUERIES {
        for (name, kind) in KINDS {
            for order in [Order::by(name), Order::by(name).descending()] {
                page_on(&mut pass, &mut chance, query, &order, kind);
            }
        }
    }
}

#[test]
fn an_iterator_has_the_whole_answer_in_order() {
    let (mut pass, _) = written(0xc0de, 600);
    let snapshot = pass.pin().unwrap();
    let (query, order) = ("u64>=0", Order::by("text").descending());
    let all = plain(&snapshot, &Prepared::new(query).unwrap(), &order, Kind::Text);
    assert!(all.len() > 64);
    let found = snapshot.ordered(query, order.clone()).unwrap();
    let found: Vec<u64> = found.collect::<Result<_>>().unwrap();
    assert!(found.iter().eq(all.iter().map(|(_, node)| node)));
    let page = snapshot.ordered(query, order.clone()).unwrap().page(10).unwrap();
    let rest = snapshot.ordered(query, order).unwrap().after(page.cursor);
    assert!(rest.map(Result::unwrap).eq(found[10..].iter().copied()));
}

#[test]
fn the_first_and_any_are_some_of_the_answer() {
    let (mut pass, mut chance) = written(0xbed, 200);
    let snapshot = pass.pin().unwrap();
    for query in QUERIES {
        let (all, prepared) = (snapshot.query(query).unwrap(), Prepared::new(query).unwrap());
        for most in [1, 3, all.len().max(1), 5000] {
            let place = chance.below(all.len() as u64 + 1) as usize;
            let from = all.get(place).map_or(u64::MAX, |node| node - chance.below(2));
            let rest: Vec<u64> = all.iter().copied().filter(|node| *node >= from).take(most).collect();
            assert_eq!(snapshot.first(query, from, most).unwrap(), rest);
            assert_eq!(snapshot.first_prepared(&prepared, from, most).unwrap(), rest);
            let mut any = snapshot.any(query, most).unwrap();
            any.sort_unstable();
            any.dedup();
            assert_eq!(any.len(), most.min(all.len()));
            assert!(any.iter().all(|node| all.contains(node)));
            assert_eq!(snapshot.any_prepared(&prepared, most).unwrap().len(), any.len());
        }
    }
}

#[test]
fn what_has_no_page_is_refused() {
    let (mut pass, _) = written(0xbad, 30);
    let snapshot = pass.pin().unwrap();
    let query = Prepared::new("i64>=0 || i64<0").unwrap();
    let (order, other) = (Order::by("i64"), Order::by("text"));
    let cursor = snapshot.page(&query, &order, None, 1).unwrap().cursor;
    let said = |page: Result<Page>| page.unwrap_err().to_string();
    assert_eq!(
        said(snapshot.page(&query, &Order::by("none"), None, 1)),
        "there is no index \"none\"; indices: \"i32\", \"i64\", \"other\", \"text\", \"u32\", \"u64\""
    );
    assert_eq!(
        said(snapshot.page(&query, &other, Some(&cursor), 1)),
        "the cursor belongs to the order by \"i64\" ascending, but this page is in the order by \"text\" ascending: \
         keep the order, or begin without a cursor"
    );
    let reverse = snapshot.page(&query, &order.clone().descending(), Some(&cursor), 1);
    assert!(said(reverse).contains("in the order by \"i64\" descending"));
    let query_of = |text| snapshot.page(&Prepared::new(text).unwrap(), &order, Some(&cursor), 1);
    assert!(matches!(
        query_of("i64>0"),
        Err(Error::BadCursor(CursorFault::OtherQuery))
    ));
    assert!(query_of("(i64 >= 0) || \"i64\" < \"0\"").is_ok());
    assert!(matches!(snapshot.page(&query, &order, None, 0), Err(Error::NoRoom)));
    assert!(matches!(snapshot.first("i64>0", 0, 0), Err(Error::NoRoom)));
    assert!(matches!(snapshot.any("i64>0", 0), Err(Error::NoRoom)));
    assert!(matches!(snapshot.ordered("i64>", order.clone()), Err(Error::Query(_))));
    assert!(said(snapshot.page(&Prepared::new("none==1").unwrap(), &order, None, 1)).contains("\"none\" has none"));
    let long = snapshot.page(&query, &Order::by(&"n".repeat(64)), None, 1);
    assert!(long.is_err());
    // A program can move a cursor to a value that no attribute has.
    let mut moved = snapshot.page(&query, &other, None, 1).unwrap().cursor;
    for value in ["x".repeat(256).into(), "x".repeat(5000).into(), vec![7; 300].into()] {
        moved.move_to(value, 1);
        let refused = snapshot.page(&query, &other, Some(&moved), 1).unwrap_err();
        assert!(matches!(refused, Error::BadCursor(_)));
    }
    moved.move_to("x".repeat(255).into(), 1);
    assert!(snapshot.page(&query, &other, Some(&moved), 1).is_ok());
}

#[test]
fn a_cursor_of_another_kind_is_refused() {
    let (mut pass, _) = written(0x1d, 60);
    let (query, order) = (Prepared::new("i64>=0 || i64<0").unwrap(), Order::by("u32"));
    let cursor = pass.pin().unwrap().page(&query, &order, None, 1).unwrap().cursor;
    pass.remove_index("u32").unwrap();
    pass.make_index("u32", Kind::Uint64).unwrap();
    let refused = pass.pin().unwrap().page(&query, &order, Some(&cursor), 1).unwrap_err();
    let said = "the index \"u32\" has the kind u64, and had u32 when the cursor was made: begin without a cursor";
    assert_eq!(refused.to_string(), said);
    assert!(pass
        .pin()
        .unwrap()
        .page(&query, &order, None, 1)
        .unwrap()
        .nodes
        .is_empty());
}

#[test]
fn a_refresh_by_what_changed_returns_the_same() {
    let store = Store::open(Limits::default()).unwrap();
    let mut pass = store.pass().unwrap();
    pass.make_index("i64", Kind::Int64).unwrap();
    let mut chance = Chance(0x11fe);
    let (mut live, mut changed) = (Live::new("i64>=0").unwrap(), Live::new("i64>=0").unwrap());
    for round in 0..60 {
        for _ in 0..if round == 0 { 300 } else { chance.below(6) } {
            let node = pass.new_node().unwrap() - chance.below(2);
            match pass.set(node, "i64", chance.value(Kind::Int64)) {
                Ok(()) | Err(Error::NoNode) => {}
                Err(error) => panic!("{error}"),
            }
        }
        let snapshot = pass.pin().unwrap();
        assert_eq!(
            live.refresh(&snapshot).unwrap(),
            changed.refresh_changed(&snapshot).unwrap()
        );
    }
    // In a snapshot of another store, the result loses all nodes.
    let mut other = Store::open(Limits::default()).unwrap().pass().unwrap();
    other.make_index("i64", Kind::Int64).unwrap();
    let snapshot = other.pin().unwrap();
    assert_eq!(
        live.refresh(&snapshot).unwrap(),
        changed.refresh_changed(&snapshot).unwrap()
    );
}

/// The result has at least 96 nodes, so a refresh reads the journal's entries while the other thread is writing them.
#[test]
fn a_refresh_by_what_changed_returns_the_same_while_another_thread_writes() {
    let store = Store::open(Limits::default()).unwrap();
    let (mut pass, writer) = (store.pass().unwrap(), store.pass().unwrap());
    pass.make_index("i64", Kind::Int64).unwrap();
    let mut chance = Chance(7);
    for _ in 0..400 {
        let node = pass.new_node().unwrap();
        pass.set(node, "i64", chance.value(Kind::Int64)).unwrap();
    }
    let (mut live, mut changed) = (Live::new("i64>=0").unwrap(), Live::new("i64>=0").unwrap());
    let is_over = AtomicBool::new(false);
    thread::scope(|scope| {
        scope.spawn(|| {
            let (writer, mut chance) = (writer, Chance(0x11fe));
            while !is_over.load(Ordering::Relaxed) {
                let node = 1 + chance.below(400);
                writer.set(node, "i64", chance.value(Kind::Int64)).unwrap();
            }
        });
        for _ in 0..200 {
            let snapshot = pass.pin().unwrap();
            let updates = changed.refresh_changed(&snapshot).unwrap();
            assert_eq!(live.refresh(&snapshot).unwrap(), updates);
        }
        is_over.store(true, Ordering::Relaxed);
    });
}
