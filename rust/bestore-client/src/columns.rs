//! Attributes of many nodes.

use crate::wire::{self, Columns, Command, Json};
use crate::{Client, Error, Result};
use bestore_types::Value;
use std::borrow::Cow;

/// How many nodes and how many names a request has, so that it fits on a line.
const NODES: usize = 20_000;
const NAMES: usize = 64;

impl Client {
    /// Returns the values of these attributes, one list for each node, in the order of the names. A value is `None` if the node has no such
    /// attribute, or if there is no such node. If this takes more than one request, all values come from the same snapshot only if the client
    /// has one pinned.
    ///
    /// # Errors
    /// The same as [`call`](Self::call).
    pub fn columns(&mut self, nodes: &[u64], names: &[&str]) -> Result<Vec<Vec<Option<Value>>>> {
        let mut rows: Vec<Vec<Option<Value>>> = vec![Vec::with_capacity(names.len()); nodes.len()];
        for names in names.chunks(NAMES) {
            let mut at = 0;
            while at < nodes.len() {
                let asked = &nodes[at..nodes.len().min(at + NODES)];
                let read = self.some_rows(asked, names)?;
                let of_nodes = rows[at..].iter_mut();
                at += read.len();
                for (row, values) in of_nodes.zip(read) {
                    row.extend(values.into_iter().map(|value| value.map(|Json(value)| value)));
                }
            }
        }
        Ok(rows)
    }

    /// Returns the rows of the first of these nodes, as many as fit on a line.
    fn some_rows(&mut self, nodes: &[u64], names: &[&str]) -> Result<Vec<Vec<Option<Json>>>> {
        let names: Vec<_> = names.iter().map(|name| Cow::from(*name)).collect();
        let count = names.len();
        let read: wire::Rows = self.call(Command::Columns(wire::ColumnsOf {
            nodes: nodes.into(),
            names: Columns(names),
        }))?;
        let fits = (1..=nodes.len()).contains(&read.rows.len()) && read.rows.iter().all(|row| row.len() == count);
        match fits {
            true => Ok(read.rows),
            false => Err(Error::BadLine(
                "the rows don't belong to the nodes and the names".into(),
            )),
        }
    }
}

#[cfg(test)]
mod tests {
    use super::*;
    use crate::Options;
    use std::io::Write;
    use std::os::unix::net::UnixStream;

    fn client_of(lines: &str) -> (UnixStream, Client) {
        let (stream, mut server) = UnixStream::pair().unwrap();
        server.write_all(lines.as_bytes()).unwrap();
        (server, Client::over(stream, Options::new()))
    }

    #[test]
    fn rows_that_do_not_fit_are_asked_for_again() {
        let lines = "{\"id\":1,\"ok\":{\"commit\":1,\"rows\":[[5,null]]}}\n{\"id\":2,\"ok\":{\"commit\":1,\"rows\":[[6,\"a\"],[7,null]]}}\n";
        let (_server, mut client) = client_of(lines);
        let rows = client.columns(&[1, 2, 3], &["size", "name"]).unwrap();
        assert_eq!(rows[0], [Some(Value::Int64(5)), None]);
        assert_eq!(rows[1], [Some(Value::Int64(6)), Some("a".into())]);
        assert_eq!(rows[2], [Some(Value::Int64(7)), None]);
        assert!(client.columns(&[], &["size"]).unwrap().is_empty());
    }

    #[test]
    fn rows_of_another_shape_are_refused() {
        for rows in ["[]", "[[5],[6]]", "[[5,6]]", "[[]]"] {
            let (_server, mut client) = client_of(&format!("{{\"id\":1,\"ok\":{{\"commit\":1,\"rows\":{rows}}}}}\n"));
            assert!(
                matches!(client.columns(&[1], &["size"]), Err(Error::BadLine(_))),
                "{rows}"
            );
        }
    }
}
