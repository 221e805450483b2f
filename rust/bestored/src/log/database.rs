//! The log's tables in PostgreSQL, which docs/SERVER.md describes.

use super::error::{Error, Result};
use bestore::saved::TOKENS;
use bestore_types::saved::file::Row;
use std::fmt;
use std::future::Future;
use std::pin::Pin;
use std::sync::Arc;
use std::task::{Context, Poll};
use std::time::Duration;
use tokio::sync::Notify;
use tokio::task::JoinHandle;
use tokio_postgres::types::ToSql;
use tokio_postgres::{AsyncMessage, Client, Config, NoTls, Row as SqlRow, Socket, Statement};

/// The version of the tables' format. In version 1, which 0.4.0 writes, the state consists of ordinary batches.
const FORMAT: i32 = 2;
const OLDEST: i32 = 1;

/// The encodings of databases that can store every token. With the second, PostgreSQL stores bytes as they are.
const ENCODINGS: [&str; 2] = ["UTF8", "SQL_ASCII"];

/// How long a call may take. PostgreSQL cancels a statement slightly sooner.
pub const LIMIT: Duration = Duration::from_secs(6);

/// How long a server that is ending waits for its last report.
const SIGNING_OFF: Duration = Duration::from_secs(1);

/// How long a call may take that writes part of a state or removes old entries. PostgreSQL cancels the statement slightly sooner.
const STATE_LIMIT: Duration = Duration::from_secs(60);

/// The maximum number of entries or of the state's batches to read at a time, and how many bytes of batches may come before the last
/// one: few enough that they arrive within `LIMIT` over a slow network.
const ROWS: usize = 500;
const BYTES: usize = 256 << 10;

/// How many bytes of the state's batches to write at a time.
const WRITTEN: usize = 4 << 20;

/// How many entries from before the state to leave in the log, for followers that lag slightly.
const SPARE: u64 = 10_000;

/// The settings of a session. If the leader's machine disappears, PostgreSQL gives up on it after about 11 seconds, so that another
/// server can lead. A leader that is paused within a transaction keeps its locks for no more than 5 seconds. A confirmed write is on
/// PostgreSQL's disk, whatever the database's defaults are.
const SETTINGS: &str = "
    SET statement_timeout = '5s';
    SET idle_in_transaction_session_timeout = '5s';
    SET tcp_keepalives_idle = 5;
    SET tcp_keepalives_interval = 2;
    SET tcp_keepalives_count = 3;
    SELECT set_config('synchronous_commit', 'on', false)
        WHERE current_setting('synchronous_commit') IN ('off', 'local');
";

const TABLES: &str = "
    CREATE TABLE bestore_log (
        is_one boolean PRIMARY KEY DEFAULT true CHECK (is_one),
        format integer NOT NULL,
        log text NOT NULL DEFAULT gen_random_uuid()::text,
        last bigint NOT NULL DEFAULT 0,
        term bigint NOT NULL DEFAULT 0,
        leader text NOT NULL DEFAULT '',
        run text NOT NULL DEFAULT '',
        entries bigint NOT NULL DEFAULT 0,
        next bigint NOT NULL DEFAULT 1,
        touched timestamptz,
        touched_term bigint
    );
    CREATE TABLE bestore_state (place bigint PRIMARY KEY, batch bytea NOT NULL);
    CREATE TABLE bestore_entry (
        number bigint PRIMARY KEY, term bigint NOT NULL, pass bigint NOT NULL, batch bytea NOT NULL, token text
    );
";

/// Adds entries if the log ends with entry `$2` and this term is still the last one. It is a single statement, so no other leader
/// can add entries in between. The row in `bestore_log` stays locked until the commit.
const APPEND: &str = "
    WITH head AS (
        UPDATE bestore_log SET last = last + cardinality($3::bigint[]), touched = clock_timestamp(), touched_term = term
        WHERE term = $1 AND last = $2 RETURNING last
    ), added AS (
        INSERT INTO bestore_entry (number, term, pass, batch, token)
        SELECT $2 + row.place, $1, row.pass, row.batch, row.token
        FROM head, unnest($3::bigint[], $4::bytea[], $5::text[]) WITH ORDINALITY AS row (pass, batch, token, place)
    )
    SELECT pg_notify('bestore_log', last::text) FROM head";

/// Adds the columns that earlier versions of the tables lack.
const COLUMNS: &str = "
    ALTER TABLE bestore_entry ADD COLUMN IF NOT EXISTS token text;
    ALTER TABLE bestore_log ADD COLUMN IF NOT EXISTS touched timestamptz, ADD COLUMN IF NOT EXISTS touched_term bigint;
";

/// Reads the head, and how many seconds its leader has been silent, if that leader reports that it is alive.
const HEAD: &str = "
    SELECT *, CASE WHEN touched_term = term THEN extract(epoch FROM clock_timestamp() - touched)::float8 END AS silence
    FROM bestore_log";

/// Reports that the leader of term `$1` is alive. The report need not reach a standby's disk.
const TOUCH: &str = "
    UPDATE bestore_log SET touched = clock_timestamp(), touched_term = term
    FROM (SELECT set_config('synchronous_commit', 'local', true)) AS once
    WHERE term = $1 RETURNING bestore_log.*";

/// Ends the session that holds the lock, if it has done nothing for `$1` seconds. A follower that has just taken the lock keeps
/// it. So does a leader whose entries wait for a synchronous standby, since no other leader could add any without the standby.
const END_LEADER: &str = "
    SELECT CASE
        WHEN state_change < clock_timestamp() - $1::float8 * interval '1 second' AND wait_event IS DISTINCT FROM 'SyncRep'
        THEN pg_terminate_backend(pid) ELSE false
    END FROM pg_locks JOIN pg_stat_activity USING (pid)
    WHERE locktype = 'advisory' AND datname = current_database() AND granted
        AND classid = 1650815860 AND objid = 'bestore_log'::regclass::oid";

/// Removes the entries up to `$1`, except the last `$2` entries that have a token.
const REMOVE: &str = "
    DELETE FROM bestore_entry WHERE number <= $1 AND (token IS NULL OR number <= (
        SELECT number FROM bestore_entry WHERE token IS NOT NULL ORDER BY number DESC OFFSET $2 LIMIT 1
    ))";

/// Tries to take a log's advisory lock. Its key is "best" in ASCII and the number of the log's table in the database.
const LOCK: &str = "SELECT pg_try_advisory_lock(1650815860, 'bestore_log'::regclass::oid::integer)";

/// Keeps other servers from creating the tables at the same time.
const MAKE_LOCK: &str = "SELECT pg_advisory_xact_lock(1650815860, 0)";

/// What the log records about itself.
#[derive(Clone, Debug)]
pub struct Head {
    /// A string that is different for each log.
    pub log: String,
    /// The number of the last entry.
    pub last: u64,
    /// The number of leaders so far.
    pub term: u64,
    /// The name of the last leader.
    pub leader: String,
    /// That leader's run.
    pub run: String,
    /// The number of the last entry that the state contains.
    pub entries: u64,
    /// The number that the next new node gets after the state has been applied.
    pub next: u64,
    /// How many seconds the leader has been silent, if known.
    pub silence: Option<f64>,
}

impl Head {
    fn of(row: &SqlRow) -> Result<Self> {
        Ok(Self {
            log: row.try_get("log")?,
            last: unsigned(row, "last")?,
            term: unsigned(row, "term")?,
            leader: row.try_get("leader")?,
            run: row.try_get("run")?,
            entries: unsigned(row, "entries")?,
            next: unsigned(row, "next")?,
            silence: row.try_get("silence").unwrap_or_default(),
        })
    }
}

fn unsigned(row: &SqlRow, name: &str) -> Result<u64> {
    Ok(row.try_get::<_, i64>(name)? as u64)
}

/// An entry of the log.
#[derive(Debug)]
pub struct Entry {
    pub number: u64,
    pub batch: Vec<u8>,
    pub token: Option<String>,
}

impl Entry {
    fn of(row: &SqlRow) -> Result<Self> {
        Ok(Self {
            number: unsigned(row, "number")?,
            batch: row.try_get("batch")?,
            token: row.try_get("token")?,
        })
    }
}

/// A connection to PostgreSQL.
type Connection = tokio_postgres::Connection<Socket, tokio_postgres::tls::NoTlsStream>;

/// A future for the next message that PostgreSQL sends without having been asked.
struct NextMessage<'a>(&'a mut Connection);

impl Future for NextMessage<'_> {
    type Output = Option<std::result::Result<AsyncMessage, tokio_postgres::Error>>;

    fn poll(mut self: Pin<&mut Self>, context: &mut Context<'_>) -> Poll<Self::Output> {
        self.0.poll_message(context)
    }
}

/// Waits for the call to finish, for a limited time.
async fn limited<T>(call: impl Future<Output = std::result::Result<T, tokio_postgres::Error>>) -> Result<T> {
    limited_to(LIMIT, call).await
}

async fn limited_to<T>(
    limit: Duration,
    call: impl Future<Output = std::result::Result<T, tokio_postgres::Error>>,
) -> Result<T> {
    match tokio::time::timeout(limit, call).await {
        Ok(answer) => Ok(answer?),
        Err(_) => Err(Error::Slow(limit)),
    }
}

/// Connects to the first of these databases that accepts the connection. A database that doesn't reply only takes its share of the time.
async fn connect_to_one(configs: &[Config]) -> Result<(Client, Connection)> {
    let limit = LIMIT / configs.len().max(1) as u32;
    let mut connected = Err(Error::Slow(limit));
    for config in configs {
        connected = limited_to(limit, config.connect(NoTls)).await;
        if connected.is_ok() {
            break;
        }
    }
    connected
}

/// Returns an error if a database with this encoding can't store every token. A pooler may not report the encoding.
fn check_encoding(encoding: Option<&str>) -> Result<()> {
    match encoding {
        Some(encoding) if !ENCODINGS.contains(&encoding) => Err(Error::Encoding(encoding.into())),
        _ => Ok(()),
    }
}

/// A connection to the log's database.
pub struct Database {
    client: Client,
    news: Arc<Notify>,
    append: Option<Statement>,
    /// The task that receives messages from PostgreSQL. The connection is closed once the task has ended.
    receiving: JoinHandle<()>,
}

impl Drop for Database {
    fn drop(&mut self) {
        self.close();
    }
}

impl fmt::Debug for Database {
    fn fmt(&self, f: &mut fmt::Formatter<'_>) -> fmt::Result {
        f.debug_struct("Database").finish_non_exhaustive()
    }
}

impl Database {
    /// Connects to the first of these databases that accepts the connection. Must be called inside a tokio runtime.
    pub async fn connect(configs: &[Config]) -> Result<Self> {
        let (client, mut connection) = connect_to_one(configs).await?;
        check_encoding(connection.parameter("server_encoding"))?;
        let news = Arc::new(Notify::new());
        let of_task = news.clone();
        let receiving = tokio::spawn(async move {
            while let Some(Ok(_)) = NextMessage(&mut connection).await {
                of_task.notify_one();
            }
            // If the connection fails, the client's calls return the error.
            of_task.notify_one();
        });
        let database = Self {
            client,
            news,
            append: None,
            receiving,
        };
        limited(database.client.batch_execute(SETTINGS)).await?;
        Ok(database)
    }

    /// Closes the connection without waiting for a reply. Once the running statement has ended, PostgreSQL ends the session and
    /// releases its lock.
    pub fn close(&self) {
        self.receiving.abort();
    }

    /// Returns whether the connection is closed.
    pub fn is_closed(&self) -> bool {
        self.client.is_closed()
    }

    async fn one(&self, sql: &str, parameters: &[&(dyn ToSql + Sync)]) -> Result<SqlRow> {
        limited(self.client.query_one(sql, parameters)).await
    }

    /// Creates the tables if they don't exist.
    pub async fn make(&self) -> Result<()> {
        let make = format!("{TABLES} INSERT INTO bestore_log (format) VALUES ({FORMAT});");
        limited(self.client.batch_execute(&format!("BEGIN; {MAKE_LOCK}"))).await?;
        let is_there = self.has_tables().await?;
        let end = if is_there { "COMMIT" } else { "; COMMIT" };
        let made = format!("{}{end}", if is_there { "" } else { &make });
        limited(self.client.batch_execute(&made)).await
    }

    async fn has_tables(&self) -> Result<bool> {
        let found = self.one("SELECT to_regclass('bestore_log') IS NOT NULL", &[]).await?;
        Ok(found.try_get(0)?)
    }

    /// Returns an error if the database has no log, or if the log has a different format.
    pub async fn check_format(&self) -> Result<()> {
        if !self.has_tables().await? {
            return Err(Error::NoLog);
        }
        let found = limited(self.client.query_one("SELECT format FROM bestore_log", &[])).await;
        let format = match found {
            Ok(row) => row.try_get::<_, i32>(0).map_err(|_| Error::Foreign)?,
            Err(Error::Database(error)) if error.code().is_some() && !self.is_closed() => return Err(Error::Foreign),
            Err(error) => return Err(error),
        };
        match format {
            OLDEST..=FORMAT => Ok(()),
            format if format > FORMAT => Err(Error::Newer { format, known: FORMAT }),
            _ => Err(Error::Foreign),
        }
    }

    /// Adds the columns that a log from an earlier version lacks.
    pub async fn add_columns(&self) -> Result<()> {
        let sql = "SELECT count(*) = 2 FROM pg_attribute WHERE NOT attisdropped AND
            (attrelid, attname) IN (('bestore_entry'::regclass, 'token'), ('bestore_log'::regclass, 'touched_term'))";
        match self.one(sql, &[]).await?.try_get(0)? {
            true => Ok(()),
            false => limited(self.client.batch_execute(COLUMNS)).await,
        }
    }

    /// Asks PostgreSQL to send a message whenever there are new entries.
    pub async fn listen(&self) -> Result<()> {
        limited(self.client.batch_execute("LISTEN bestore_log")).await
    }

    /// Asks PostgreSQL to stop sending these messages.
    pub async fn unlisten(&self) -> Result<()> {
        limited(self.client.batch_execute("UNLISTEN *")).await
    }

    /// Waits until there are new entries, but no longer than `within`.
    pub async fn news(&self, within: Duration) {
        // It doesn't matter which comes first.
        let _ = tokio::time::timeout(within, self.news.notified()).await;
    }

    pub async fn head(&self) -> Result<Head> {
        Head::of(&self.one(HEAD, &[]).await?)
    }

    /// Reports that the leader of this term is alive. Returns `None` if there is a later term.
    pub async fn touch(&self, term: u64) -> Result<Option<Head>> {
        let touched = limited(self.client.query_opt(TOUCH, &[&(term as i64)])).await?;
        touched.as_ref().map(Head::of).transpose()
    }

    /// Ends the session of a leader that has done nothing for this many seconds. Returns whether it was ended, or `None` if there is no
    /// leader's session.
    pub async fn end_leader(&self, silence: f64) -> Result<Option<bool>> {
        let ended = limited(self.client.query_opt(END_LEADER, &[&silence])).await?;
        Ok(ended.map(|row| row.try_get(0)).transpose()?)
    }

    /// Takes the leader's lock if nobody holds it, and returns whether it did. The lock is released when the connection closes.
    pub async fn try_lock(&self) -> Result<bool> {
        Ok(self.one(LOCK, &[]).await?.try_get(0)?)
    }

    /// Begins the next term, so that no other server can add entries. With `again`, does so only if this run was the last leader.
    pub async fn take_term(&self, leader: &str, run: &str, again: bool) -> Result<Option<Head>> {
        let sql = "UPDATE bestore_log SET term = term + 1, leader = $1, run = $2, touched = clock_timestamp(),
            touched_term = term + 1 WHERE run = $2 OR NOT $3 RETURNING *";
        let taken = limited(self.client.query_opt(sql, &[&leader, &run, &again])).await?;
        taken.as_ref().map(Head::of).transpose()
    }

    /// Adds the entries in a single commit, if the log ends with entry `last` and `term` is the last term. Returns whether they
    /// were added.
    pub async fn append(&mut self, term: u64, last: u64, rows: &[Row]) -> Result<bool> {
        let statement = match &self.append {
            Some(statement) => statement.clone(),
            None => self.append.insert(limited(self.client.prepare(APPEND)).await?).clone(),
        };
        let passes: Vec<i64> = rows.iter().map(|row| row.pass as i64).collect();
        let batches: Vec<&[u8]> = rows.iter().map(|row| &*row.batch).collect();
        let tokens: Vec<Option<&str>> = rows
            .iter()
            .map(|row| row.token.as_ref().map(|token| &*token.text))
            .collect();
        let parameters: [&(dyn ToSql + Sync); 5] = [&(term as i64), &(last as i64), &passes, &batches, &tokens];
        Ok(limited(self.client.query_opt(&statement, &parameters)).await?.is_some())
    }

    /// Reports that the leader of this term has added all of its writes and is ending.
    pub async fn sign_off(&self, term: u64) -> Result<()> {
        let sql = "UPDATE bestore_log SET touched_term = NULL WHERE term = $1";
        limited_to(SIGNING_OFF, self.client.execute(sql, &[&(term as i64)]))
            .await
            .map(drop)
    }

    /// Returns the next entries after this one, and whether there may be more.
    pub async fn entries(&self, after: u64) -> Result<(Vec<Entry>, bool)> {
        self.entries_where("number > $1", &[&(after as i64)]).await
    }

    /// Returns the next entries that have a token, after this one and up to `last`, and whether there may be more.
    pub async fn entries_with_token(&self, after: u64, last: u64) -> Result<(Vec<Entry>, bool)> {
        let condition = "token IS NOT NULL AND number > $1 AND number <= $2";
        self.entries_where(condition, &[&(after as i64), &(last as i64)]).await
    }

    /// Returns the first entries that fulfil the condition, sorted by number, and whether there may be more.
    async fn entries_where(&self, condition: &str, parameters: &[&(dyn ToSql + Sync)]) -> Result<(Vec<Entry>, bool)> {
        let from = format!("SELECT number AS place, * FROM bestore_entry WHERE {condition}");
        let (rows, is_more) = self.rows(&from, parameters).await?;
        let entries = rows.iter().map(Entry::of).collect::<Result<_>>()?;
        Ok((entries, is_more))
    }

    /// Returns the first rows of this query, sorted by `place`, and whether there may be more.
    async fn rows(&self, from: &str, parameters: &[&(dyn ToSql + Sync)]) -> Result<(Vec<SqlRow>, bool)> {
        let sql = format!(
            "SELECT * FROM (
                SELECT *, sum(octet_length(batch)) OVER (ORDER BY place) - octet_length(batch) AS before
                FROM ({from} ORDER BY place LIMIT {ROWS}) AS next
            ) AS sized WHERE before < {BYTES} ORDER BY place"
        );
        let rows = limited(self.client.query(&*sql, parameters)).await?;
        let mut bytes = 0;
        for row in &rows {
            bytes += row.try_get::<_, &[u8]>("batch")?.len();
        }
        let is_full = rows.len() == ROWS || bytes >= BYTES;
        Ok((rows, is_full))
    }

    /// Returns the head and the state, both read in one transaction.
    pub async fn state(&mut self) -> Result<(Head, Vec<Vec<u8>>)> {
        let begin = "BEGIN ISOLATION LEVEL REPEATABLE READ READ ONLY";
        limited(self.client.batch_execute(begin)).await?;
        let head = self.head().await?;
        let (mut batches, mut last, mut is_more) = (Vec::new(), 0_i64, true);
        while is_more {
            let from = "SELECT place, batch FROM bestore_state WHERE place > $1";
            let (rows, may_be_more) = self.rows(from, &[&last]).await?;
            for row in &rows {
                last = row.try_get("place")?;
                batches.push(row.try_get("batch")?);
            }
            is_more = may_be_more;
        }
        limited(self.client.batch_execute("COMMIT")).await?;
        Ok((head, batches))
    }

    /// Replaces the log's state with this one, which contains the entries up to `number`, and removes much older entries. Returns
    /// `false` and changes nothing if the term is no longer the last one.
    pub async fn write_state(&self, term: u64, number: u64, next: u64, batches: &[Vec<u8>]) -> Result<bool> {
        self.begin_state(batches).await?;
        let spared = number.saturating_sub(SPARE) as i64;
        limited_to(STATE_LIMIT, self.client.execute(REMOVE, &[&spared, &(TOKENS as i64)])).await?;
        let parameters: [&(dyn ToSql + Sync); 4] = [&(next as i64), &(term as i64), &FORMAT, &(number as i64)];
        self.end_state("SET entries = $4", "entries <= $4 AND last >= $4", &parameters)
            .await
    }

    /// Writes a state that takes the place of the first entry. Returns `false` and changes nothing if the log has an entry, or if the
    /// term is no longer the last one.
    pub async fn write_first_state(&self, term: u64, next: u64, batches: &[Vec<u8>]) -> Result<bool> {
        self.begin_state(batches).await?;
        let parameters: [&(dyn ToSql + Sync); 3] = [&(next as i64), &(term as i64), &FORMAT];
        self.end_state("SET entries = 1, last = 1", "last = 0", &parameters)
            .await
    }

    /// Begins a transaction that replaces the batches of the state.
    async fn begin_state(&self, batches: &[Vec<u8>]) -> Result<()> {
        limited(self.client.batch_execute("BEGIN; LOCK bestore_state IN EXCLUSIVE MODE")).await?;
        let begin = "SET LOCAL statement_timeout = '55s'; DELETE FROM bestore_state";
        limited_to(STATE_LIMIT, self.client.batch_execute(begin)).await?;
        let insert = "INSERT INTO bestore_state SELECT $1 + place, batch FROM unnest($2::bytea[]) WITH ORDINALITY AS row (batch, place)";
        let insert = limited(self.client.prepare(insert)).await?;
        let (mut place, mut rest) = (0, batches);
        while !rest.is_empty() {
            let (part, others) = rest.split_at(part_of(rest));
            limited_to(STATE_LIMIT, self.client.execute(&insert, &[&(place as i64), &part])).await?;
            (place, rest) = (place + part.len(), others);
        }
        Ok(())
    }

    /// Ends the transaction, with what the log records about the state. Nothing is changed unless the condition holds and the term is the
    /// last one; returns whether that is so.
    async fn end_state(&self, set: &str, condition: &str, parameters: &[&(dyn ToSql + Sync)]) -> Result<bool> {
        // This statement comes last, because from here to the commit no entry can be added.
        let update = format!("UPDATE bestore_log {set}, next = $1, format = $3 WHERE term = $2 AND {condition}");
        let is_leading = limited(self.client.execute(&*update, parameters)).await? == 1;
        let end = if is_leading { "COMMIT" } else { "ROLLBACK" };
        limited_to(STATE_LIMIT, self.client.batch_execute(end)).await?;
        Ok(is_leading)
    }
}

/// Returns how many of these batches to write at a time.
fn part_of(batches: &[Vec<u8>]) -> usize {
    let mut bytes = 0;
    let fits = batches.iter().take_while(|batch| {
        bytes += batch.len();
        bytes <= WRITTEN
    });
    fits.count().max(1)
}
