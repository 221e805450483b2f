//! `status`.

use crate::command_line::Status as Line;
use crate::failure::Failure;
use crate::output::Output;
use bestore_client::Client;

pub fn show(client: &mut Client, line: &Line, output: &mut Output) -> Result<(), Failure> {
    let status = client.status()?;
    if line.json {
        return output.json(&status);
    }
    let oldest = status.oldest.map_or_else(
        || "none".into(),
        |oldest| format!("{}, by pass {}", oldest.snapshot, oldest.pass),
    );
    let lines = vec![
        ("pages", status.pages.to_string()),
        ("free", status.free.to_string()),
        ("retired", status.retired.to_string()),
        ("entries", format!("{} of {}", status.entries, status.commits)),
        ("oldest snapshot", oldest),
        ("clients", status.clients.to_string()),
        ("live queries", status.watches.to_string()),
    ];
    let lines = lines.into_iter().map(|(name, value)| vec![name.into(), value]);
    let trouble = status
        .trouble
        .iter()
        .map(|trouble| vec!["trouble".into(), output.name(trouble).into_owned()]);
    let lines: Vec<_> = lines.chain(trouble).collect();
    output.aligned(&lines)
}
