//! A file's tables, and the checksums of their rows.

use super::checksum::{checksum, Column};
use super::About;
use rusqlite::{Connection, Row};

/// "best" in ASCII: the application ID in the SQLite header, which identifies the file.
pub(super) const APPLICATION: i64 = 0x6265_7374;

/// The format's version, and the ones before it. The state of an earlier format consists of operations, and the rows of the first one have
/// no checksums.
pub(super) const FORMAT: i64 = 3;
pub(super) const WITH_OPERATIONS: i64 = 2;
pub(super) const WITHOUT_CHECKSUMS: i64 = 1;

const TABLES: &str = "
    CREATE TABLE about (what TEXT PRIMARY KEY, number INTEGER NOT NULL, checksum INTEGER) WITHOUT ROWID;
    CREATE TABLE state (place INTEGER PRIMARY KEY, batch BLOB NOT NULL, checksum INTEGER);
    CREATE TABLE entry (number INTEGER PRIMARY KEY, pass INTEGER NOT NULL, batch BLOB NOT NULL, checksum INTEGER);
";

const COLUMNS: &str = "
    ALTER TABLE about ADD COLUMN checksum INTEGER;
    ALTER TABLE state ADD COLUMN checksum INTEGER;
    ALTER TABLE entry ADD COLUMN checksum INTEGER;
    ALTER TABLE token ADD COLUMN checksum INTEGER;
";

/// The row of `about` that marks a file to which nothing has been written. Only the WAL of a file in use has the row's removal at first.
const UNUSED: &str = "unused";

/// Files from earlier versions lack this table.
const TOKENS: &str =
    "CREATE TABLE IF NOT EXISTS token (number INTEGER PRIMARY KEY, token TEXT NOT NULL, nodes BLOB NOT NULL";

/// Marks an empty file as a store's, and creates its tables. A file that is going to have a WAL also gets the mark that it is unused.
pub(super) fn make(connection: &Connection, has_wal: bool) -> rusqlite::Result<()> {
    connection.execute_batch(&format!(
        "BEGIN IMMEDIATE; PRAGMA application_id = {APPLICATION}; PRAGMA user_version = {FORMAT}; {TABLES}"
    ))?;
    make_tokens(connection, true)?;
    set_id(connection)?;
    set_about(connection, About { entries: 0, next: 1 })?;
    if has_wal {
        set_number(connection, UNUSED, 1)?;
    }
    connection.execute_batch("COMMIT")
}

/// Returns whether nothing has been written to the file since it was created. Then it also hasn't been closed: closing removes the mark.
pub(super) fn is_unused(connection: &Connection) -> rusqlite::Result<bool> {
    connection.query_row("SELECT count(*) FROM about WHERE what = ?", [UNUSED], |row| row.get(0))
}

/// Removes the mark of an unused file.
pub(super) fn set_used(connection: &Connection) -> rusqlite::Result<()> {
    let mut delete = connection.prepare_cached("DELETE FROM about WHERE what = ?")?;
    delete.execute([UNUSED]).map(drop)
}

/// Creates the token table if it doesn't exist.
pub(super) fn make_tokens(connection: &Connection, has_checksums: bool) -> rusqlite::Result<()> {
    let column = if has_checksums { ", checksum INTEGER" } else { "" };
    connection.execute_batch(&format!("{TOKENS}{column})"))
}

/// Sets the format's version, within a transaction in which the state is replaced too.
pub(super) fn set_format(connection: &Connection) -> rusqlite::Result<()> {
    connection.execute_batch(&format!("PRAGMA user_version = {FORMAT}"))
}

/// Adds checksums to the rows of a file in the first format, within a transaction. The state is empty by then, and [`set_about`] sets the
/// checksums of `about`.
pub(super) fn add_checksums(connection: &Connection) -> rusqlite::Result<()> {
    connection.execute_batch(COLUMNS)?;
    set_id(connection)?;
    let mut entries = connection.prepare("SELECT number, pass, batch FROM entry")?;
    let mut set = connection.prepare("UPDATE entry SET checksum = ? WHERE number = ?")?;
    let mut rows = entries.query([])?;
    let mut sums = Vec::new();
    while let Some(row) = rows.next()? {
        let (number, pass): (i64, i64) = (row.get(0)?, row.get(1)?);
        sums.push((of_entry(number as u64, pass as u64, row.get_ref(2)?.as_blob()?), number));
    }
    drop(rows);
    sums.drain(..).try_for_each(|sum| set.execute(sum).map(drop))?;
    let mut tokens = connection.prepare("SELECT number, token, nodes FROM token")?;
    let mut set = connection.prepare("UPDATE token SET checksum = ? WHERE number = ?")?;
    let mut rows = tokens.query([])?;
    while let Some(row) = rows.next()? {
        let number: i64 = row.get(0)?;
        let token = row.get_ref(1)?.as_str()?;
        sums.push((of_token(number as u64, token, row.get_ref(2)?.as_blob()?), number));
    }
    drop(rows);
    sums.into_iter().try_for_each(|sum| set.execute(sum).map(drop))
}

/// Gives the file a random id, so that it isn't mistaken for another file.
fn set_id(connection: &Connection) -> rusqlite::Result<()> {
    let id: i64 = connection.query_row("SELECT random() & 0x7fffffffffffffff", [], |row| row.get(0))?;
    set_number(connection, "file", id as u64)
}

fn set_number(connection: &Connection, what: &str, number: u64) -> rusqlite::Result<()> {
    let sql = "INSERT OR REPLACE INTO about (what, number, checksum) VALUES (?, ?, ?)";
    let mut set = connection.prepare_cached(sql)?;
    set.execute((what, number as i64, of_about(what, number))).map(drop)
}

pub(super) fn set_about(connection: &Connection, about: About) -> rusqlite::Result<()> {
    set_number(connection, "entries", about.entries)?;
    set_number(connection, "next", about.next)
}

pub(super) fn of_about(what: &str, number: u64) -> u32 {
    checksum(&[Column::Bytes(what.as_bytes()), Column::Number(number)])
}

pub(super) fn of_state(place: u64, batch: &[u8]) -> u32 {
    checksum(&[Column::Number(place), Column::Bytes(batch)])
}

pub(super) fn of_entry(number: u64, pass: u64, batch: &[u8]) -> u32 {
    checksum(&[Column::Number(number), Column::Number(pass), Column::Bytes(batch)])
}

pub(super) fn of_token(number: u64, token: &str, nodes: &[u8]) -> u32 {
    checksum(&[
        Column::Number(number),
        Column::Bytes(token.as_bytes()),
        Column::Bytes(nodes),
    ])
}

/// Returns `true` if this column of the row contains this checksum.
pub(super) fn fits(row: &Row<'_>, column: usize, sum: u32) -> rusqlite::Result<bool> {
    Ok(row.get::<_, Option<i64>>(column)? == Some(sum.into()))
}
