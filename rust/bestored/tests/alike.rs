//! Compares random ordered pages with pages built the plain way: by reading the whole answer with its values, sorting it and cutting
//! it. Another client writes between pages, and cursors are used across restarts. A test that fails prints its seed;
//! `SEED=NUMBER cargo test` repeats that run.

use crate::common::{Folder, Server};
use bestore::{attribute, Batch, Cursor, Kind, Order, Page, Value};
use bestore_client::wire::kind_name;
use bestore_client::{Client, Error, ErrorName};
use std::time::SystemTime;

/// An index that is created when some nodes already have the attribute, so it lacks these nodes.
const LATE: &str = "late";

const QUERIES: [&str; 9] = [
    "text==*",
    "text==\"[ab]*\"",
    "int32>=0",
    "int64<2 || uint32==1",
    "uint64>=0 && text!=a",
    "int64==1",
    "text==a && int32<2",
    "late>0",
    "uint32>5",
];

/// Returns the indices that exist from the beginning: one of each kind, with its name.
fn indices() -> impl Iterator<Item = (&'static str, Kind)> {
    let kinds = Kind::ALL.into_iter().filter(|kind| kind.is_indexable());
    kinds.map(|kind| (kind_name(kind), kind))
}

/// Pseudo-random numbers that depend only on the seed.
struct Random(u64);

impl Random {
    /// Starts with the seed in SEED, if it is set.
    fn begin() -> Self {
        let now = || SystemTime::UNIX_EPOCH.elapsed().unwrap().as_nanos() as u64;
        let seed = std::env::var("SEED").map_or_else(|_| now(), |seed| seed.parse().unwrap());
        println!("SEED={seed}");
        Self(seed)
    }

    fn below(&mut self, bound: u64) -> u64 {
        self.0 = self
            .0
            .wrapping_mul(6_364_136_223_846_793_005)
            .wrapping_add(1_442_695_040_888_963_407);
        (self.0 >> 33) % bound
    }

    fn one_of<'t, T>(&mut self, all: &'t [T]) -> &'t T {
        &all[self.below(all.len() as u64) as usize]
    }

    /// Returns a value of this kind. Many nodes share a value, and some values are at the limits of their kind.
    fn value(&mut self, kind: Kind) -> Value {
        let number = self.below(4) as i32;
        match (kind, self.below(8)) {
            (Kind::Text, 0) => "é".repeat(127).into(),
            (Kind::Text, _) => self.one_of(&["", "a", "ab", "b", "ö"]).to_string().into(),
            (Kind::Int32, 0) => i32::MIN.into(),
            (Kind::Int32, _) => (number - 1).into(),
            (Kind::Int64, 0) => i64::MAX.into(),
            (Kind::Int64, _) => i64::from(number - 1).into(),
            (Kind::Uint32, 0) => u32::MAX.into(),
            (Kind::Uint32, _) => (number as u32).into(),
            (_, 0) => u64::MAX.into(),
            _ => (number as u64).into(),
        }
    }
}

/// Returns a key that sorts values and nodes as the index does.
fn place(value: &Value, node: u64) -> (i128, Vec<u8>, u64) {
    match value {
        Value::Text(text) => (0, text.as_bytes().to_vec(), node),
        Value::Int32(number) => ((*number).into(), vec![], node),
        Value::Int64(number) => ((*number).into(), vec![], node),
        Value::Uint32(number) => ((*number).into(), vec![], node),
        Value::Uint64(number) => ((*number).into(), vec![], node),
        other => panic!("no index has {other:?}"),
    }
}

/// Takes a page's nodes from the whole answer. Returns them, and whether there are more. The client must have a snapshot pinned.
fn plain(
    client: &mut Client,
    text: &str,
    order: &Order,
    kind: Kind,
    after: Option<&Cursor>,
    most: usize,
) -> (Vec<u64>, bool) {
    let indexed = attribute(order.name()).any(kind).prepare().unwrap().text().unwrap();
    let indexed = client.query(&indexed).unwrap();
    let mut places = Vec::new();
    for node in client.query(text).unwrap() {
        if indexed.binary_search(&node).is_ok() {
            places.push(place(&client.get(node, order.name()).unwrap().unwrap(), node));
        }
    }
    places.sort();
    let last = after.and_then(|cursor| Some(place(cursor.value()?, cursor.node()?)));
    if order.is_descending() {
        places.reverse();
        places.retain(|place| last.as_ref().map_or(true, |last| place < last));
    } else {
        places.retain(|place| last.as_ref().map_or(true, |last| place > last));
    }
    let nodes: Vec<u64> = places.iter().map(|(_, _, node)| *node).take(most).collect();
    let more = nodes.len() < places.len();
    (nodes, more)
}

/// A server with nodes, and a client that writes to it.
struct Shop {
    folder: Folder,
    options: Vec<String>,
    server: Server,
    nodes: Vec<u64>,
}

impl Shop {
    fn open(random: &mut Random) -> Self {
        let folder = Folder::in_memory();
        let kept = folder.join("kept").to_str().unwrap().to_owned();
        let options = ["--pages", "2048", "--keep", &kept, "--every", "60000"];
        let options: Vec<String> = options.iter().map(ToString::to_string).collect();
        let server = Self::serve(&folder, &options);
        let mut shop = Self {
            folder,
            options,
            server,
            nodes: Vec::new(),
        };
        let mut client = shop.server.client();
        for (name, kind) in indices() {
            client.apply(Batch::new().make_index(name, kind)).unwrap();
        }
        (0..60).for_each(|_| shop.write(&mut client, random));
        client.apply(Batch::new().make_index(LATE, Kind::Int64)).unwrap();
        (0..60).for_each(|_| shop.write(&mut client, random));
        shop
    }

    fn serve(folder: &Folder, options: &[String]) -> Server {
        let options: Vec<&str> = options.iter().map(String::as_str).collect();
        let server = Server::start(folder, &options);
        assert!(server.answers());
        server
    }

    /// Shuts the server down, and starts it again with the same file.
    fn restart(&mut self) {
        assert!(self.server.end_by("TERM").success());
        self.server = Self::serve(&self.folder, &self.options);
    }

    /// Creates, changes or removes a node.
    fn write(&mut self, client: &mut Client, random: &mut Random) {
        let mut batch = Batch::new();
        let known = self.nodes.len() as u64;
        match random.below(10) {
            0 if known > 9 => {
                let node = self.nodes.swap_remove(random.below(known) as usize);
                client.apply(batch.remove_node(node)).unwrap();
            }
            1..=4 if known > 9 => {
                let node = *random.one_of(&self.nodes);
                set_some(&mut batch, node, random);
                // If the batch is refused, the node is unchanged.
                drop(client.apply(&batch));
            }
            _ => {
                let made = client.apply(batch.new_node()).unwrap().nodes[0];
                let mut batch = Batch::new();
                set_some(&mut batch, made, random);
                client.apply(&batch).unwrap();
                self.nodes.push(made);
            }
        }
    }
}

/// Sets some of a node's attributes, occasionally to a value whose kind differs from the index's.
fn set_some(batch: &mut Batch, node: u64, random: &mut Random) {
    batch.set(node, LATE, random.value(Kind::Int64));
    for (name, kind) in indices() {
        let kind = match (random.below(8), kind) {
            (0, _) => continue,
            (1, Kind::Text) => Kind::Int32,
            (1, _) => Kind::Text,
            _ => kind,
        };
        batch.set(node, name, random.value(kind));
    }
}

/// Reads all pages of a query in an order, and compares each with the page built the plain way. Another client writes in between.
fn compare(shop: &mut Shop, random: &mut Random) {
    let all: Vec<_> = indices().chain([(LATE, Kind::Int64)]).collect();
    let (name, kind) = *random.one_of(&all);
    let order = match random.below(2) {
        0 => Order::by(name),
        _ => Order::by(name).descending(),
    };
    let text = *random.one_of(&QUERIES);
    let most = 1 + random.below(40) as usize;
    let mut after: Option<Cursor> = None;
    for _ in 0..8 {
        let mut client = shop.server.client();
        client.pin().unwrap();
        let page = client.page(text, &order, after.as_ref(), most).unwrap();
        let expected = plain(&mut client, text, &order, kind, after.as_ref(), most);
        let Page { nodes, more, cursor } = page;
        assert_eq!((nodes, more), expected, "{text} by {order} after {after:?}");
        check_parts(&mut client, text, random);
        client.unpin().unwrap();
        (0..random.below(4)).for_each(|_| shop.write(&mut client, random));
        drop(client);
        if random.below(12) == 0 {
            shop.restart();
        }
        after = Some(cursor.to_string().parse().unwrap());
        if !more {
            break;
        }
    }
}

/// Compares a page by number, and a few arbitrary nodes, with the whole answer. The client must have a snapshot pinned.
fn check_parts(client: &mut Client, text: &str, random: &mut Random) {
    let whole = client.query(text).unwrap();
    let from = match random.below(3) {
        0 => 0,
        _ => whole
            .get(random.below(9) as usize)
            .map_or(1, |node| node + random.below(2)),
    };
    let most = 1 + random.below(9) as usize;
    let rest: Vec<u64> = whole.iter().copied().filter(|node| *node >= from).collect();
    assert_eq!(
        client.first(text, from, most).unwrap(),
        rest[..most.min(rest.len())],
        "{text} from {from}"
    );
    let mut any = client.any(text, most).unwrap();
    assert_eq!(any.len(), most.min(whole.len()), "any {most} of {text}");
    any.sort_unstable();
    any.dedup();
    assert_eq!(any.len(), most.min(whole.len()), "a node came twice");
    assert!(
        any.iter().all(|node| whole.binary_search(node).is_ok()),
        "any {most} of {text}"
    );
}

#[test]
fn pages_are_those_of_the_plain_way() {
    let mut random = Random::begin();
    let mut shop = Shop::open(&mut random);
    (0..60).for_each(|_| compare(&mut shop, &mut random));
}

/// Returns a cursor's text after cutting it, extending it or replacing characters.
fn changed(text: &str, random: &mut Random) -> String {
    const DIGITS: &[char] = &[
        'A', 'Z', 'a', 'z', '0', '9', '-', '_', '=', '+', '/', ' ', '\n', '\0', 'é', '"',
    ];
    let mut letters: Vec<char> = text.chars().collect();
    for _ in 0..=random.below(3) {
        let at = random.below(letters.len() as u64 + 1) as usize;
        match random.below(4) {
            0 => letters.truncate(at),
            1 => letters.insert(at, *random.one_of(DIGITS)),
            2 if at < letters.len() => drop(letters.remove(at)),
            _ if at < letters.len() => letters[at] = *random.one_of(DIGITS),
            _ => letters.extend(text.chars()),
        }
    }
    letters.into_iter().collect()
}

#[test]
fn a_changed_cursor_is_refused() {
    let mut random = Random::begin();
    let shop = Shop::open(&mut random);
    let mut client = shop.server.client();
    for (name, _) in indices() {
        let page = client.page("text==*", &Order::by(name), None, 3).unwrap();
        let text = page.cursor.to_string();
        for _ in 0..400 {
            let changed = changed(&text, &mut random);
            if changed == text {
                continue;
            }
            let asked = ask_after(&mut client, name, &changed);
            assert!(asked.unwrap_err().is(ErrorName::BadCursor), "{changed:?}");
        }
        assert_eq!(ask_after(&mut client, name, &text).unwrap().nodes.len(), 1);
    }
}

/// Requests the page after `after`, which may not be a valid cursor.
fn ask_after(client: &mut Client, name: &str, after: &str) -> Result<bestore_client::wire::Page, Error> {
    use bestore_client::wire::{Command, Query};
    client.call(Command::Query(Query {
        query: "text==*".into(),
        by: Some(name.into()),
        after: Some(after.into()),
        limit: Some(1),
        ..Query::default()
    }))
}
