//! Libraries to preload into a program, which replace calls of the system. The tests of bestored use this file too.

use std::fs;
use std::path::{Path, PathBuf};
use std::process::Command;

/// Compiles a library from C in the folder. If there is no compiler, returns `None`, and prints what the test would have tested.
pub fn compile(folder: &Path, text: &str, tested: &str) -> Option<PathBuf> {
    let [source, library] = ["preloaded.c", "preloaded.so"].map(|name| folder.join(name));
    fs::write(&source, text).unwrap();
    let mut compiler = Command::new("cc");
    compiler.args(["-shared", "-fPIC", "-o"]).args([&library, &source]);
    match compiler.status() {
        Ok(status) => {
            assert!(status.success());
            Some(library)
        }
        Err(_) => {
            println!("{tested}: skipped, there is no cc");
            None
        }
    }
}
