//! `mkindex`, `lsindex`, `rmindex` and `reindex`.

use crate::command_line::{ListIndices, MakeIndex, Reindex, RemoveIndex};
use crate::failure::Failure;
use crate::kind::shown_name;
use crate::output::Output;
use crate::server;
use bestore_client::Client;
use bestore_types::Batch;

pub fn make(client: &mut Client, line: &MakeIndex) -> Result<(), Failure> {
    Ok(server::apply(
        client,
        Batch::new().make_index(&line.name, line.r#type.kind()),
    )?)
}

pub fn remove(client: &mut Client, line: &RemoveIndex) -> Result<(), Failure> {
    Ok(server::apply(client, Batch::new().remove_index(&line.name))?)
}

pub fn fill(client: &mut Client, line: &Reindex, output: &mut Output) -> Result<(), Failure> {
    let set = client.reindex(&line.name)?;
    output.line(set.to_string().as_bytes())
}

pub fn list(client: &mut Client, line: &ListIndices, output: &mut Output) -> Result<(), Failure> {
    let indices = server::indices(client)?;
    if line.json {
        return output.json(&indices);
    }
    let long = line.long || line.verbose;
    let headings: &[&str] = if long { &["Name", "Type"] } else { &["Name"] };
    let rows: Vec<Vec<Vec<u8>>> = indices
        .iter()
        .map(|(name, kind)| {
            let mut row = vec![output.name(name).into_owned().into_bytes()];
            if long {
                row.push(shown_name(kind).into());
            }
            row
        })
        .collect();
    output.rows(headings, &rows)
}
