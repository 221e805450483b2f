//! Tests where a server finds the password for a log's database, and that it refuses a URL that asks for TLS.

use crate::common::{command, Folder, Server};
use crate::log::database;
use std::fs::{self, Permissions};
use std::os::unix::fs::PermissionsExt;
use std::path::{Path, PathBuf};
use std::process::Command;

const ROLE: &str = "secretary";

/// Returns what a server prints when it can't start.
#[track_caller]
fn refusal(mut command: Command) -> String {
    let output = command.output().unwrap();
    assert!(!output.status.success(), "{output:?}");
    String::from_utf8(output.stderr).unwrap()
}

/// Returns the command for a server with a log and with no password in its environment.
fn server(folder: &Folder, url: &str, passfile: Option<&Path>) -> Command {
    let mut command = command(
        &folder.join("socket"),
        &["--pages", "64", "--passes", "4", "--log", url],
    );
    for name in ["PGPASSWORD", "PGPASSFILE", "PGSSLMODE"] {
        command.env_remove(name);
    }
    command.env("HOME", folder.path());
    if let Some(path) = passfile {
        command.arg("--passfile").arg(path);
    }
    command
}

fn write(folder: &Folder, text: &str, mode: u32) -> PathBuf {
    let path = folder.join("passwords");
    fs::write(&path, text).unwrap();
    fs::set_permissions(&path, Permissions::from_mode(mode)).unwrap();
    path
}

#[test]
fn the_password_is_in_a_file() {
    let database = present!(database());
    database.sql(&format!(
        "CREATE ROLE {ROLE} LOGIN PASSWORD 'a:b'; GRANT ALL ON SCHEMA public TO {ROLE}"
    ));
    database.postgres.ask_for_password(ROLE);
    let (folder, url) = (Folder::new(), database.url_of(ROLE));
    let port = database.postgres.port;

    assert!(refusal(server(&folder, &url, None)).contains("password missing"));
    let path = write(&folder, &format!("127.0.0.1:{port}:*:{ROLE}:a\\:b\n"), 0o640);
    assert!(refusal(server(&folder, &url, Some(&path))).contains("its mode is 0640; give it the mode 0600"));
    let none = folder.join("none");
    assert!(refusal(server(&folder, &url, Some(&none))).contains("No such file"));

    fs::set_permissions(&path, Permissions::from_mode(0o600)).unwrap();
    let by_option = server(&folder, &url, Some(&path));
    let mut by_environment = server(&folder, &url, None);
    by_environment.env("PGPASSFILE", &path);
    for command in [by_option, by_environment] {
        let running = Server::run(command, &folder.join("socket"));
        assert!(running.answers());
        assert!(running.end_by("TERM").success());
    }

    let path = write(&folder, "127.0.0.1:1:*:*:a\n", 0o600);
    let refused = refusal(server(&folder, &url, Some(&path)));
    assert!(
        refused.contains(&format!("no line is for 127.0.0.1:{port}:")),
        "{refused}"
    );
    let path = write(&folder, "*:*:*:*:wrong\n", 0o600);
    let refused = refusal(server(&folder, &url, Some(&path)));
    assert!(refused.contains("password authentication failed"), "{refused}");
}

#[test]
fn a_url_that_asks_for_tls_is_refused() {
    let folder = Folder::new();
    let refused = refusal(server(
        &folder,
        "postgresql://bestore@127.0.0.1/letters?sslmode=verify-full",
        None,
    ));
    assert!(
        refused.contains("don't support TLS, which sslmode=verify-full requires"),
        "{refused}"
    );
    let mut by_environment = server(&folder, "postgresql://bestore@127.0.0.1/letters", None);
    by_environment.env("PGSSLMODE", "require");
    assert!(refusal(by_environment).contains("sslmode=require"));
}
