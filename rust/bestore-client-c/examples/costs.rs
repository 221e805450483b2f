//! Makes calls through the client for Rust, so that callgrind can count what they cost: `costs SOCKET CASE COUNT`. tests/costs.c makes
//! the same calls through the client for C.

use bestore_client::{Batch, Client};

fn main() -> Result<(), Box<dyn std::error::Error>> {
    let words: Vec<String> = std::env::args().collect();
    let (case, count): (&str, i64) = (&words[2], words[3].parse()?);
    let mut client = Client::connect(&words[1])?;
    let node = client.apply(Batch::new().new_node())?.nodes[0];
    client.apply(Batch::new().set(node, "name", "Ada Lovelace <ada@example.org>"))?;
    for number in 0..count {
        match case {
            "get" => drop(client.get(node, "name")?),
            "set" => drop(client.apply(Batch::new().set(node, "size", number))?),
            _ => return Err("there are the cases get and set".into()),
        }
    }
    Ok(())
}
