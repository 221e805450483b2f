//! Runs the cases in tests/changes.txt, which specify what a change does in every language.

use bestore::{Change, Error, Kind, Limits, Pass, Result, Store, Value};
use std::path::Path;

type Words<'a> = Vec<&'a str>;

fn kind_named(name: &str) -> Kind {
    match name {
        "STRING" => Kind::Text,
        "INT32" => Kind::Int32,
        "INT64" => Kind::Int64,
        "MIME" => Kind::Mime,
        "RAW" => Kind::Raw,
        "UINT32" => Kind::Uint32,
        "UINT64" => Kind::Uint64,
        other => panic!("{other}"),
    }
}

/// Expands `LONG64` to a string of 64 bytes, and returns any other word unchanged.
fn text_of(word: &str) -> String {
    match word.strip_prefix("LONG") {
        Some(length) => "x".repeat(length.parse().unwrap()),
        None => word.into(),
    }
}

fn value_of(kind: &str, word: &str) -> Value {
    match kind_named(kind) {
        Kind::Text => Value::Text(text_of(word)),
        Kind::Int32 => Value::Int32(word.parse().unwrap()),
        Kind::Int64 => Value::Int64(word.parse().unwrap()),
        Kind::Mime => Value::Mime(text_of(word)),
        Kind::Raw => Value::Raw(text_of(word).into_bytes()),
        Kind::Uint32 => Value::Uint32(word.parse().unwrap()),
        Kind::Uint64 => Value::Uint64(word.parse().unwrap()),
    }
}

fn number(word: &str) -> u64 {
    word.parse().unwrap()
}

/// An error's name in `bestore.h`.
fn name_of(error: &Error) -> &'static str {
    let code = error.code().unwrap();
    let found = bestore_sys::CONSTANTS
        .iter()
        .find(|(name, known)| *known == code && !name.contains("_ITEM_"));
    found.unwrap().0.strip_prefix("BES_").unwrap()
}

/// Writes one operation through a pass.
fn write(pass: &Pass, words: &[&str]) {
    match words {
        ["new", node] => assert_eq!(pass.new_node().unwrap(), number(node)),
        ["set", node, name, kind, value] => pass.set(number(node), name, value_of(kind, value)).unwrap(),
        ["index", name, kind] => pass.make_index(name, kind_named(kind)).unwrap(),
        other => panic!("{other:?}"),
    }
}

/// Adds an operation to a change.
fn collect(change: &mut Change<'_>, words: &[&str]) -> Result<()> {
    match words {
        ["new", node] => assert_eq!(change.new_node(), number(node)),
        ["remove", node] => drop(change.remove_node(number(node))),
        ["set", node, name, kind, value] => drop(change.set(number(node), &text_of(name), value_of(kind, value))?),
        ["unset", node, name] => drop(change.unset(number(node), name)),
        ["index", name, kind] => drop(change.make_index(name, kind_named(kind))?),
        ["unindex", name] => drop(change.remove_index(name)?),
        other => panic!("{other:?}"),
    }
    Ok(())
}

/// Checks that an operation is refused and isn't added to the change.
fn refused(change: &mut Change<'_>, words: &[&str], expected: &[&str]) {
    let before = change.batch().clone();
    match (collect(change, words).unwrap_err(), expected) {
        (Error::KindMismatch { name, index, value }, ["WRONG_KIND", kind]) => {
            assert_eq!(
                (&*name, index, value),
                (words[2], kind_named(kind), kind_named(words[3]))
            );
        }
        (error, [name]) => assert_eq!(name_of(&error), *name, "{words:?}"),
        other => panic!("{other:?}"),
    }
    assert_eq!(*change.batch(), before);
}

/// Runs a line inside a change.
fn step(change: &mut Change<'_>, other: &Pass, words: &[&str]) -> Result<()> {
    let mark = words.iter().position(|word| *word == "!");
    match (words, mark) {
        (["write", written @ ..], _) => write(other, written),
        (["any_kind"], _) => drop(change.any_kind()),
        (["fill", count], _) => {
            while (change.batch().len() as u64) < number(count) {
                change.new_node();
            }
        }
        (["get", node, name, "none"], _) => assert_eq!(change.get(number(node), name)?, None, "{words:?}"),
        (["get", node, name, kind, value], _) => {
            assert_eq!(
                change.get(number(node), name)?,
                Some(value_of(kind, value)),
                "{words:?}"
            );
        }
        (words, Some(mark)) => refused(change, &words[..mark], &words[mark + 1..]),
        (words, None) => collect(change, words)?,
    }
    Ok(())
}

/// Runs the lines in one change, with a single attempt.
fn change_by(pass: &mut Pass, other: &Pass, lines: &[Words<'_>], end: &[&str]) {
    pass.hold().unwrap(); // so that the function runs only once
    let ended = pass.change(|change| {
        for words in lines {
            step(change, other, words)?;
        }
        Ok(match change.batch().is_empty() {
            true => change.snapshot().number(),
            false => change.number(),
        })
    });
    pass.release();
    match (ended, end) {
        (Ok(ended), [expected]) => assert_eq!(ended, number(expected)),
        (Err(error), ["!", name]) => assert_eq!(name_of(&error), *name),
        other => panic!("{other:?}"),
    }
}

fn run(lines: &[Words<'_>]) {
    let limits = Limits {
        pages: 256,
        ..Limits::default()
    };
    let store = Store::open(limits).unwrap();
    let (mut pass, other) = (store.pass().unwrap(), store.pass().unwrap());
    let mut at = 0;
    while at < lines.len() {
        match &lines[at][..] {
            ["begin"] => {
                let length = lines[at..].iter().position(|words| words[0] == "end").unwrap();
                change_by(&mut pass, &other, &lines[at + 1..at + length], &lines[at + length][1..]);
                at += length;
            }
            ["write", written @ ..] => write(&other, written),
            ["entries", count] => assert_eq!(pass.status().unwrap().entries, number(count)),
            ["found", query, nodes @ ..] => {
                let nodes: Vec<_> = nodes.iter().map(|node| number(node)).collect();
                assert_eq!(pass.pin().unwrap().query(query).unwrap(), nodes);
            }
            other => panic!("{other:?}"),
        }
        at += 1;
    }
}

#[test]
fn each_case_of_a_change_ends_as_it_says() {
    let path = Path::new(env!("CARGO_MANIFEST_DIR")).join("../../tests/changes.txt");
    let text = std::fs::read_to_string(path).unwrap();
    let lines: Vec<Words<'_>> = text.lines().map(|line| line.split_whitespace().collect()).collect();
    let lines: Vec<_> = lines
        .into_iter()
        .filter(|words| !words.is_empty() && words[0] != "#")
        .collect();
    let cases: Vec<_> = lines.split(|words| words[0] == "case").collect();
    assert_eq!(cases.len(), 14);
    cases.into_iter().for_each(run);
}
