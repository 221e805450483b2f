//! Checks that the manual page agrees with the command line.

use std::path::{Path, PathBuf};
use std::process::Command;

/// Returns the path of a program's manual page.
fn page(program: &str) -> PathBuf {
    Path::new(concat!(env!("CARGO_MANIFEST_DIR"), "/../../docs")).join(format!("{program}.1"))
}

#[test]
fn the_page_has_each_option() {
    let output = Command::new(env!("CARGO_BIN_EXE_bestored"))
        .arg("--help")
        .output()
        .unwrap();
    let help = String::from_utf8(output.stdout).unwrap();
    let page = std::fs::read_to_string(page("bestored")).unwrap();
    let lines = help.lines().filter_map(|line| line.trim_start().split_once("--"));
    let names: Vec<&str> = lines
        .filter(|(before, _)| before.is_empty() || before.starts_with('-'))
        .filter_map(|(_, option)| option.split_whitespace().next())
        .collect();
    assert!(names.len() > 8 && names.contains(&"keep"), "{names:?}");
    for name in names {
        assert!(page.contains(&format!(".It Fl -{name}")), "{name}");
    }
}

#[test]
fn the_pages_of_the_server_and_its_tools_have_no_fault() {
    for program in ["bestored", "be"] {
        let mut command = Command::new("mandoc");
        command.args(["-T", "lint", "-W", "warning"]).arg(page(program));
        match command.output() {
            Ok(output) => assert!(output.status.success(), "{}", String::from_utf8_lossy(&output.stdout)),
            Err(_) => println!("the page of {program}: skipped, there is no mandoc"),
        }
    }
}
