//! Checks that the manual page and the completion match the command line.

use crate::common::{Said, BE};
use std::path::PathBuf;
use std::process::Command;

const COMMANDS: [&str; 18] = [
    "query", "addattr", "catattr", "listattr", "rmattr", "rmnode", "import", "mkindex", "lsindex", "rmindex",
    "reindex", "status", "info", "clients", "kick", "backup", "restore", "dump",
];

fn page() -> PathBuf {
    PathBuf::from(concat!(env!("CARGO_MANIFEST_DIR"), "/../../docs/be.1"))
}

/// Returns the long options of a command, from its help.
fn options(command: &str) -> Vec<String> {
    let said: Said = Command::new(BE).args([command, "--help"]).output().unwrap().into();
    let words = said
        .out
        .split(|character: char| character != '-' && !character.is_ascii_alphabetic());
    let names = words.filter_map(|word| word.strip_prefix("--"));
    let mut names: Vec<String> = names.filter(|name| !name.is_empty()).map(String::from).collect();
    names.sort();
    names.dedup();
    assert!(names.contains(&"socket".into()), "{command}: {names:?}");
    names
}

#[test]
fn the_page_has_each_command_and_option() {
    let page = std::fs::read_to_string(page()).unwrap();
    for command in COMMANDS {
        assert!(page.contains(&format!(".Ss {command}\n")), "{command}");
        for name in options(command) {
            assert!(
                page.contains(&format!("Fl -{name}")) || page.contains(&format!(", -{name}")),
                "{command} {name}"
            );
        }
    }
}

#[test]
fn the_completion_has_each_command_and_option() {
    let completion = include_str!("../completion/be.bash");
    assert!(completion.contains(&COMMANDS.join(" ")));
    for command in COMMANDS {
        let line = completion
            .lines()
            .find(|line| line.trim_start().starts_with(&format!("{command}) ")));
        for name in options(command) {
            let option = format!("--{name}");
            let common = ["socket", "wait", "timeout", "help"].contains(&name.as_str());
            assert!(
                common || line.map_or(false, |line| line.contains(&option)),
                "{command} {option}"
            );
        }
    }
}
