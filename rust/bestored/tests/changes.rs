//! Tests which values the client's `change` refuses.

use crate::common::{Folder, Server};
use bestore::{Batch, Kind, Value};
use bestore_client::{Client, Error, Result};

/// The kinds that an index can have.
const INDEXED: [Kind; 5] = [Kind::Text, Kind::Int32, Kind::Int64, Kind::Uint32, Kind::Uint64];

/// Returns a value of each kind.
fn values() -> [Value; 7] {
    [
        "5".into(),
        5_i32.into(),
        5_i64.into(),
        5_u32.into(),
        5_u64.into(),
        Value::Mime("text/plain".into()),
        vec![5].into(),
    ]
}

/// Creates a node with this attribute and another one.
fn make(client: &mut Client, name: &str, value: &Value) -> Result<()> {
    client.change(|change| {
        let node = change.new_node();
        change.batch().set(node, "other", 1_u32).set(node, name, value.clone());
        Ok(())
    })
}

fn entries(client: &mut Client) -> u64 {
    client.status().unwrap().entries
}

#[test]
fn a_change_refuses_each_kind_that_the_index_of_its_name_does_not_take() {
    {
        let folder = Folder::new();
        let server = Server::start(&folder, &["--pages=64"]);
        let mut client = server.client();
        for index in INDEXED {
            let name = index.to_string();
            client.apply(Batch::new().make_index(&name, index)).unwrap();
            for value in values() {
                let before = entries(&mut client);
                let made = make(&mut client, &name, &value);
                let written = u64::from(index == value.kind());
                assert_eq!(entries(&mut client), before + written, "{index} {value:?}");
                match made {
                    Ok(()) => assert_eq!(index, value.kind()),
                    Err(error) => {
                        let said = format!(
                            "the index {name:?} takes values of kind {index}, and this one is {}; set it as {index}, or no query \
                             finds it",
                            value.kind()
                        );
                        assert_eq!(error.to_string(), said);
                    }
                }
            }
        }
    }
}

#[test]
fn a_change_knows_its_own_indices_and_may_set_any_kind() {
    let folder = Folder::new();
    let server = Server::start(&folder, &["--pages=64"]);
    let mut client = server.client();
    client.apply(Batch::new().make_index("size", Kind::Int64)).unwrap();
    let turned = client.change(|change| {
        let node = change.new_node();
        let batch = change.batch();
        batch.remove_index("size").set(node, "size", "large");
        batch.make_index("size", Kind::Text).set(node, "size", "larger");
        Ok(())
    });
    turned.unwrap();
    let refused = client.change(|change| {
        let node = change.new_node();
        change.batch().make_index("n", Kind::Int32).set(node, "n", 5_i64);
        Ok(())
    });
    let is_named = |error: &Error| matches!(error, Error::KindMismatch { name, .. } if name == "n");
    assert!(refused.as_ref().map_or_else(is_named, |_| false), "{refused:?}");
    let any = client.change(|change| {
        let node = change.new_node();
        change.any_kind().batch().set(node, "size", 5_i64);
        Ok(())
    });
    any.unwrap();
    assert_eq!(client.count("size==*").unwrap(), 1);
}
