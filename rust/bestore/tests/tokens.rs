//! Tests of the tokens of kept writes, and of files without tokens.
#![cfg(feature = "saved")]

mod common;

use bestore::saved::{Saved, Token, TOKENS};
use bestore::Batch;
use common::Folder;
use rusqlite::Connection;

impl Folder {
    fn open(&self) -> Saved {
        self.open_lazily(64)
    }

    fn sql(&self, text: &str) {
        Connection::open(self.file()).unwrap().execute_batch(text).unwrap();
    }
}

/// Creates a node with a batch that has this token. Returns the write's token, with its commit number.
fn make(saved: &Saved, token: &str) -> Token {
    let mut batch = Batch::new();
    batch.new_node().new_node().set_token(token);
    let written = saved.pass().unwrap().apply(&batch).unwrap();
    Token {
        text: token.into(),
        commit: written.number,
        nodes: written.nodes,
    }
}

#[test]
fn a_token_is_kept_with_its_write() {
    let folder = Folder::new("tokens-kept");
    let mut saved = folder.open();
    assert_eq!(saved.take_tokens(), []);
    let made = ["a", "ä"].map(|token| make(&saved, token));
    saved.pass().unwrap().new_node().unwrap();
    saved.close().unwrap();
    // The first time, the entries are replayed, so the commit numbers are the same; after that, they are part of a state.
    assert_eq!(folder.open().take_tokens(), made);
    let mut saved = folder.open();
    let of_state = saved.pass().unwrap().pin().unwrap().number();
    let tokens = saved.take_tokens();
    for (token, made) in tokens.iter().zip(&made) {
        assert_eq!((&token.text, &token.nodes), (&made.text, &made.nodes));
        assert_eq!(token.commit, of_state);
    }
    assert_eq!(saved.take_tokens(), []);
}

#[test]
fn the_last_65536_tokens_are_kept_and_not_many_more() {
    let folder = Folder::new("tokens-many");
    let saved = folder.open();
    let pass = saved.pass().unwrap();
    let count = TOKENS + 2_000;
    for number in 0..count {
        let mut batch = Batch::new();
        batch
            .new_node()
            .remove_node(number as u64 + 1)
            .set_token(&number.to_string());
        pass.apply(&batch).unwrap();
    }
    saved.close().unwrap();
    let tokens = folder.open().take_tokens();
    assert!((TOKENS..TOKENS + 1_024).contains(&tokens.len()), "{}", tokens.len());
    let first = count - tokens.len();
    assert!((first..)
        .zip(&tokens)
        .all(|(number, token)| token.text == number.to_string()));
}

#[test]
fn a_file_without_the_table_gets_it() {
    let folder = Folder::new("tokens-earlier");
    make(&folder.open(), "a");
    folder.sql("DROP TABLE token");
    let mut saved = folder.open();
    assert_eq!(saved.take_tokens(), []);
    make(&saved, "b");
    saved.close().unwrap();
    assert_eq!(folder.open().take_tokens()[0].nodes, [3, 4]);
}
