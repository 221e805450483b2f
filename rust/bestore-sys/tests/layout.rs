//! Checks the declarations against the header by comparing them with the sizes, offsets and constants that a C program prints.

use bestore_sys::*;
use std::fmt::Write as _;
use std::mem::{align_of, size_of};
use std::path::PathBuf;
use std::process::Command;

macro_rules! layouts {
    ($($type:ident { $($field:ident),* })*) => {
        vec![$((
            stringify!($type),
            size_of::<$type>(),
            align_of::<$type>(),
            vec![$((stringify!($field), {
                let value = std::mem::MaybeUninit::<$type>::uninit();
                let base = value.as_ptr();
                // SAFETY: this takes a field's address and reads nothing.
                unsafe { std::ptr::addr_of!((*base).$field) as usize - base as usize }
            })),*],
        )),*]
    };
}

type Layout = (&'static str, usize, usize, Vec<(&'static str, usize)>);

fn layouts() -> Vec<Layout> {
    layouts! {
        bes_pass { live, at }
        bes_prepared { live, at }
        bes_place { live, at }
        bes_witness { live, at }
        bes_draft { live, at }
        bes_builder { live, at }
        bes_operation { kind, code, node, number, name_at, name_length, value_at, value_length }
        bes_item { kind, at, length, number }
        bes_attribute { code, length, number }
        bes_name { length, bytes }
        bes_cell { error, code, number, offset, length }
        bes_cursor { kind, length, key }
        bes_usage { pages, free, retired, entries, commits, is_held, oldest, holder }
        bes_updates { created, removed }
        bes_counts { operations, bytes }
        bes_compared {
            at, end, name_at, name_end, value_at, value_end, plain_name_at, plain_value_at, plain_end, kind, kind_in_text, form,
            is_never_int32, is_never_int64, is_never_uint32, is_never_uint64
        }
    }
}

/// The folder with `bestore.h`: `BESTORE_INCLUDE_DIR` if set, otherwise the repository's.
fn include_folder() -> PathBuf {
    std::env::var_os("BESTORE_INCLUDE_DIR").map_or_else(
        || PathBuf::from(concat!(env!("CARGO_MANIFEST_DIR"), "/../../include")),
        PathBuf::from,
    )
}

/// C expressions, and the values that they have here.
fn facts() -> Vec<(String, usize)> {
    let constants = CONSTANTS
        .iter()
        .copied()
        .chain([("BES_VERSION_NUMBER", BES_VERSION_NUMBER)]);
    let mut facts: Vec<_> = constants
        .map(|(name, value)| (name.to_string(), value as usize))
        .collect();
    for (name, size, alignment, fields) in layouts() {
        facts.push((format!("sizeof({name})"), size));
        facts.push((format!("alignof({name})"), alignment));
        facts.extend(
            fields
                .iter()
                .map(|(field, offset)| (format!("offsetof({name}, {field})"), *offset)),
        );
    }
    facts
}

/// A program that prints the expressions with their values, one per line.
fn program() -> String {
    let mut text =
        String::from("#include \"bestore.h\"\n#include <stdalign.h>\n#include <stdio.h>\nint main(void)\n{\n");
    for (expression, _) in facts() {
        writeln!(text, "printf(\"{expression} %zu\\n\", (size_t)({expression}));").unwrap();
    }
    text.push_str("return 0;\n}\n");
    text
}

/// What the program should print.
fn declared() -> String {
    let lines = facts()
        .into_iter()
        .map(|(expression, value)| format!("{expression} {value}\n"));
    lines.collect()
}

#[test]
fn agrees_with_the_header() {
    let include = include_folder();
    let compiler = std::env::var("CC").unwrap_or_else(|_| "cc".into());
    if !include.join("bestore.h").exists() {
        return println!("layout: skipped, there is no bestore.h");
    }
    if Command::new(&compiler).arg("--version").output().is_err() {
        return println!("layout: skipped, there is no {compiler}");
    }
    let folder = PathBuf::from(env!("CARGO_TARGET_TMPDIR"));
    let (source, binary) = (folder.join("layout.c"), folder.join("layout"));
    std::fs::write(&source, program()).unwrap();
    let compiled = Command::new(&compiler)
        .arg("-std=c11")
        .arg("-I")
        .arg(&include)
        .arg(&source)
        .arg("-o")
        .arg(&binary)
        .output()
        .unwrap();
    let said = String::from_utf8_lossy(&compiled.stderr);
    assert!(compiled.status.success(), "{said}");
    let printed = Command::new(&binary).output().unwrap().stdout;
    assert_eq!(String::from_utf8(printed).unwrap(), declared());
}

/// The linked library has every call, and its version matches these declarations.
#[test]
fn has_every_call() {
    // SAFETY: the call takes no arguments.
    assert_eq!(unsafe { bes_version() } / 1000, BES_VERSION_NUMBER / 1000);
}
