//! Checks that the commands in GUIDE and README do what those pages say.

use crate::common::files::Folder;
use crate::common::{server_program, Said, Server, BE};
use std::io::Write;
use std::process::{Command, Stdio};

/// How many times to paste README's commands.
const TIMES: usize = 50;

/// Returns a shell in a home folder, with the tools on its path.
fn shell(home: &Folder) -> Command {
    let tools = std::path::Path::new(BE).parent().unwrap();
    let path = format!("{}:{}", tools.display(), std::env::var("PATH").unwrap_or_default());
    let mut command = Command::new("sh");
    command.env("HOME", &home.0).env("PATH", path);
    command
}

/// Runs a shell command in a home folder.
fn run(server: &Server, home: &Folder, line: &str) -> Said {
    let mut command = shell(home);
    command.env("BESTORE_SOCKET", server.socket());
    command.args(["-c", line]).output().unwrap().into()
}

/// Pastes all commands into a shell at once.
fn paste(home: &Folder, lines: &str) -> Said {
    let mut command = shell(home);
    command
        .stdin(Stdio::piped())
        .stdout(Stdio::piped())
        .stderr(Stdio::piped());
    let mut child = command.spawn().unwrap();
    child.stdin.take().unwrap().write_all(lines.as_bytes()).unwrap();
    child.wait_with_output().unwrap().into()
}

#[test]
fn the_lines_of_the_guide_run() {
    let (server, home) = server!(Folder::with_server());
    home.folder("Music");
    home.file("Music/song.ogg", "");
    server.import(&home);
    let guide = include_str!("../../../docs/GUIDE.md");
    let lines = guide.lines().filter_map(|line| line.strip_prefix("    "));
    let lines = lines.filter(|line| line.starts_with("be ") || line.starts_with("mv "));
    let mut printed = Vec::new();
    for line in lines.filter(|line| !line.contains("--follow") && !line.contains("--watch")) {
        let said = run(&server, &home, line);
        assert_eq!((said.status, said.error.as_str()), (0, ""), "{line}");
        server.import(&home);
        printed.push(said.out);
    }
    assert_eq!(printed.len(), 8);
    assert_eq!(printed[7], format!("{}\n", home.word("Music/best.ogg")));
}

#[test]
fn the_lines_of_the_readme_may_be_pasted_at_once() {
    if server_program().map_or(true, |program| program.parent() != std::path::Path::new(BE).parent()) {
        return println!("be, the lines of the README: skipped, bestored isn't beside the tool");
    }
    let readme = include_str!("../../../README.md");
    let (_, lines) = readme.split_once("**To share a store between programs**").unwrap();
    let (lines, _) = lines.split_once("**The program `bestore`**").unwrap();
    let lines: Vec<&str> = lines.lines().filter_map(|line| line.strip_prefix("    ")).collect();
    assert_eq!(lines.len(), 5);
    for time in 0..TIMES {
        let home = Folder::new();
        let said = paste(&home, &lines.join("\n"));
        let process = said.out.split_whitespace().nth(2).unwrap_or("none");
        let killed = Command::new("kill").arg(process).status().unwrap();
        let socket = home.word("letters.socket");
        let expected = format!("bestored: process {process} listens at {socket}\n1\n1\n");
        assert_eq!(
            (said.status, said.out, said.error),
            (0, expected, String::new()),
            "{time}"
        );
        assert!(killed.success());
    }
}
