//! Checks that the tools don't load libbestore, but ask the server.

use crate::common::{server_program, Server, BE};
use std::fs;
use std::path::Path;
use std::process::Command;

/// Returns whether a program contains the names of the library's calls. Every program that is linked with the library contains them, even
/// if stripped.
fn has_calls(program: &Path) -> bool {
    let bytes = fs::read(program).unwrap();
    let text = String::from_utf8_lossy(&bytes);
    ["bes_open", "bes_prepare", "bes_apply"]
        .iter()
        .any(|call| text.contains(call))
}

#[test]
fn the_tool_is_linked_with_nothing_of_the_library() {
    assert!(!has_calls(Path::new(BE)));
    if let Some(server) = server_program() {
        assert!(has_calls(&server), "the names can be found");
    }
    let needed = Command::new("ldd").arg(BE).output().unwrap();
    let needed = String::from_utf8_lossy(&needed.stdout);
    assert!(!needed.contains("bestore"), "{needed}");
}

#[test]
fn the_tool_does_all_without_a_library() {
    let server = server!(Server::with_three());
    let said = |words: &[&str]| {
        // Let the loader search only folders that don't contain the library.
        let output = server
            .command(words)
            .env("LD_LIBRARY_PATH", "/nonexistent")
            .output()
            .unwrap();
        assert!(output.status.success(), "{words:?}: {output:?}");
        String::from_utf8_lossy(&output.stdout).into_owned()
    };
    assert_eq!(said(&["query", "size>=10 && name!=\"b\""]), "1\n");
    assert_eq!(said(&["query", "--count", "size>1.5"]), "0\n");
    assert_eq!(said(&["reindex", "name"]), "0\n");
    let backup = server.socket().with_file_name("backup");
    said(&["backup", backup.to_str().unwrap()]);
    assert!(backup.exists());
}
