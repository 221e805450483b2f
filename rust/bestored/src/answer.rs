//! Answers requests.

use crate::clients::Client;
use crate::copy::{self, Copy};
use crate::failure::Failure;
use crate::info;
use crate::memory;
use crate::outbox::Outbox;
use crate::page::{self, rows_of, Reading, Room};
use crate::query::Queries;
use crate::reach;
use crate::server::Shared;
use crate::text;
use crate::watcher::{self, Watch, Watches};
use crate::writes;
use bestore::{Error, Live, Pass, Snapshot, Updates};
use bestore_client::wire::{self, Command, ErrorName};
use serde::Serialize;
use std::io::{self, Write};
use std::sync::Arc;
use std::time::{Duration, Instant};

/// The maximum number of live queries per connection.
pub const WATCHES: usize = 32;

/// The maximum length of a reply to a write, in bytes, and of one that says that there is no memory.
const SHORT: usize = 1 << 12;

/// How many bytes of replies to collect before sending them.
const COLLECTED: usize = 1 << 16;

/// The state that a connection's reads see.
#[derive(Debug)]
#[allow(clippy::large_enum_variant)] // a view is on the stack, for one request
pub enum View<'v, 'p> {
    /// Each read uses the current snapshot.
    Current(&'v mut Pass),
    /// All reads use one snapshot, which has been pinned since this time.
    Kept {
        snapshot: &'v Snapshot<'p>,
        since: Instant,
        /// How far the client has read the snapshot with `state`.
        state: Option<Reading<'v>>,
    },
    /// Reads fail, because the server has ended the snapshot.
    Expired(&'v mut Pass),
}

impl<'v, 'p> View<'v, 'p> {
    pub fn kept(snapshot: &'v Snapshot<'p>) -> Self {
        View::Kept {
            snapshot,
            since: Instant::now(),
            state: None,
        }
    }

    /// Returns when the snapshot was pinned, or `None` if no snapshot is pinned.
    pub fn since(&self) -> Option<Instant> {
        match self {
            View::Kept { since, .. } => Some(*since),
            View::Current(_) | View::Expired(_) => None,
        }
    }

    /// Releases the earlier memory of a store that was carried on, unless a snapshot is pinned. Records the client's new pass. If this
    /// fails, the next call tries again, and the next read returns the error.
    pub fn follow(&mut self, client: &Client) {
        let pass = match self {
            View::Current(pass) | View::Expired(pass) => pass,
            View::Kept { .. } => return,
        };
        if let Ok(true) = pass.follow() {
            client.takes(pass);
        }
    }

    /// Returns the connection's pass.
    pub fn pass(&self) -> &Pass {
        match self {
            View::Current(pass) | View::Expired(pass) => pass,
            View::Kept { snapshot, .. } => snapshot.pass(),
        }
    }

    /// Returns an error if the client asks to wait for an entry while it has a snapshot pinned: applying entries may need the
    /// snapshot's pages.
    fn check_waits(&self, wanted: &wire::OfLog) -> Result<(), Failure> {
        match (self, wanted.entry) {
            (View::Kept { .. }, Some(_)) => Err(Failure::pinned()),
            _ => Ok(()),
        }
    }

    /// Reads the pinned snapshot, or the current one if none is pinned.
    pub fn read<T>(&mut self, read: impl FnOnce(&Snapshot<'_>) -> Result<T, Failure>) -> Result<T, Failure> {
        match self {
            View::Current(pass) => read(&pass.pin()?),
            View::Kept { snapshot, .. } => read(snapshot),
            View::Expired(_) => Err(Failure::expired()),
        }
    }
}

/// Answers one client's requests and collects the replies.
#[derive(Debug)]
pub struct Desk<'a> {
    pub shared: &'a Shared,
    client: &'a Client,
    /// The copy that `state` reads when no snapshot is pinned.
    copy: Option<Copy<'a>>,
    /// The batches of a state that the client is restoring.
    restoring: Vec<Vec<u8>>,
    outbox: Arc<Outbox>,
    out: Vec<u8>,
    /// Whether the outbox still holds unsent replies.
    is_left: bool,
    watches: Option<Arc<Watches>>,
    last_watch: u64,
    queries: Queries,
    /// Whether the client has asked for confirmed reads.
    is_confirmed: bool,
}

impl Drop for Desk<'_> {
    fn drop(&mut self) {
        if let Some(watches) = &self.watches {
            self.shared.watcher.leave(watches);
        }
    }
}

impl<'a> Desk<'a> {
    pub fn new(shared: &'a Shared, client: &'a Client, outbox: Arc<Outbox>) -> Self {
        Self {
            shared,
            client,
            copy: None,
            restoring: Vec::new(),
            outbox,
            out: Vec::new(),
            is_left: false,
            watches: None,
            last_watch: 0,
            queries: Queries::default(),
            is_confirmed: false,
        }
    }

    /// Sends the collected replies and waits for the client to read them. `since` says when the snapshot was pinned, if there is
    /// one; the wait then ends when it has to be unpinned, and the remaining replies are sent later.
    pub fn send(&mut self, since: Option<Instant>) -> io::Result<()> {
        if self.out.is_empty() && !self.is_left {
            return Ok(());
        }
        let pressure = &self.shared.pressure;
        let is_over = || since.map_or(false, |since| pressure.is_over(since));
        self.is_left = !self.outbox.send(&self.out, is_over)?;
        self.out.clear();
        self.out.shrink_to(COLLECTED);
        Ok(())
    }

    /// Adds a reply.
    pub fn reply(&mut self, id: u64, ok: &impl Serialize) {
        self.add(Some(id), "ok", ok);
    }

    /// Adds an error as the reply to a request.
    pub fn refuse(&mut self, id: Option<u64>, failure: Failure) {
        self.add(id, "error", &failure.0);
    }

    fn add(&mut self, id: Option<u64>, what: &str, body: &impl Serialize) {
        let length = self.out.len();
        if self.write(id, what, body).is_err() {
            self.out.truncate(length);
            // There is no memory for the reply. `make_room` has made room for this one.
            let _ = self.write(id, "error", &Failure::from(Error::OutOfMemory).0);
        }
    }

    fn write(&mut self, id: Option<u64>, what: &str, body: &impl Serialize) -> io::Result<()> {
        let mut to = memory::Writer(&mut self.out);
        match id {
            Some(id) => write!(to, "{{\"id\":{id},\"{what}\":")?,
            None => write!(to, "{{\"id\":null,\"{what}\":")?,
        }
        serde_json::to_writer(&mut to, body)?;
        to.write_all(b"}\n")
    }

    /// Makes room for a short reply, such as one to a write.
    fn make_room(&mut self) -> Result<(), Failure> {
        let made = self.out.try_reserve(SHORT);
        made.map_err(|_| Error::OutOfMemory.into())
    }

    /// If the client has asked for confirmed reads, waits until everything that reads can see is in the file or the log.
    pub fn confirm(&self) -> Result<(), Failure> {
        match self.is_confirmed {
            true => self.shared.kept.flush_if_each().map_err(Failure::of_read),
            false => Ok(()),
        }
    }

    /// Answers any command except `pin` and `unpin`.
    pub fn answer(&mut self, id: u64, command: Command<'_>, view: &mut View<'_, '_>) -> io::Result<()> {
        let is_of_server = matches!(
            command,
            Command::Status(_) | Command::Info(_) | Command::Clients(_) | Command::Kick(_)
        );
        let checked = self.make_room().and_then(|()| memory::check());
        match checked.and_then(|()| self.shared.kept.check()) {
            Err(failure) if !is_of_server => self.refuse(Some(id), failure),
            _ => self.carry_out(id, command, view)?,
        }
        match self.out.len() {
            0..=COLLECTED => Ok(()),
            _ => self.send(view.since()),
        }
    }

    fn carry_out(&mut self, id: u64, command: Command<'_>, view: &mut View<'_, '_>) -> io::Result<()> {
        let answered = match command {
            Command::Batch(write) => writes::write(self.shared, write, view).map(|written| self.reply(id, &written)),
            Command::Watch(watch) => match self.watch(watch, view) {
                Ok((reply, watch)) => return self.begin(id, &reply, watch, view.since()),
                Err(failure) => Err(failure),
            },
            Command::Refresh(watching) => match self.refresh(&watching, view) {
                Ok((reply, watch)) => return self.begin(id, &reply, watch, view.since()),
                Err(failure) => Err(failure),
            },
            Command::Unwatch(watching) => self.unwatch(id, &watching),
            Command::Hello(greeting) => self.hello(id, &greeting, view),
            Command::Status(_) => self.status(id, view),
            Command::Journal(journal) => {
                let page = page::journal(view, &journal);
                page.and_then(|page| self.confirm().map(|()| self.reply(id, &page)))
            }
            Command::State(from) => self.state(view, from.from).map(|page| self.reply(id, &page)),
            Command::Restore(restore) => self.restore(id, restore),
            Command::Collect(_) => self.collect(view).map(|next| self.reply(id, &next)),
            Command::Reach(reach) => {
                // Earlier replies must not wait for the commit.
                self.send(view.since())?;
                let reached = reach::reach(view, &self.shared.pressure, self.client, &reach);
                reached.and_then(|reached| self.confirm().map(|()| self.reply(id, &reached)))
            }
            Command::Info(_) => info::info(self.shared, view).map(|info| self.reply(id, &info)),
            Command::Clients(_) => {
                self.reply(id, &self.shared.clients.shown(self.client.number));
                Ok(())
            }
            Command::Text(wire::QueryText { query }) => text::comparisons(&query).map(|found| self.reply(id, &found)),
            Command::Kick(kick) => info::kick(self.shared, self.client, &kick).map(|done| self.reply(id, &done)),
            Command::Flush(_) => self.shared.kept.flush().map(|()| self.reply(id, &wire::Nothing {})),
            Command::Log(wanted) => {
                // Earlier replies must not wait for the entry.
                self.send(view.since())?;
                let (checked, client) = (view.check_waits(&wanted), self.client);
                let is_over = || {
                    view.follow(client);
                    client.is_gone_within(Duration::ZERO)
                };
                let status = checked.and_then(|()| self.shared.kept.log_status(&wanted, is_over));
                status.map(|status| self.reply(id, &status))
            }
            Command::Compact(_) => self.shared.kept.compact().map(|()| self.reply(id, &wire::Nothing {})),
            command => view.read(|snapshot| self.read(id, command, snapshot)),
        };
        if let Err(failure) = answered {
            self.refuse(Some(id), failure);
        }
        Ok(())
    }

    /// Answers a command that reads from a snapshot.
    fn read(&mut self, id: u64, command: Command<'_>, snapshot: &Snapshot<'_>) -> Result<(), Failure> {
        self.confirm()?;
        let commit = snapshot.number();
        match command {
            Command::Query(query) => {
                let answer = self.queries.answer(snapshot, &query)?;
                self.reply(id, &answer)
            }
            Command::Get(wire::Get { node, name }) => {
                let value = snapshot.get(node, &name)?.map(wire::Json);
                self.reply(id, &wire::Value { commit, value })
            }
            Command::Columns(wire::ColumnsOf { nodes, names }) => {
                let rows = rows_of(snapshot, &nodes, &names, &mut Room::new(None))?;
                self.reply(id, &wire::Rows { commit, rows })
            }
            Command::Attributes(wire::Node { node }) => {
                let attributes = snapshot.attributes(node)?.into_iter();
                let attributes = attributes.map(|(name, value)| (name, wire::Json(value))).collect();
                self.reply(id, &wire::Attributes { commit, attributes })
            }
            Command::Indices(_) => {
                let indices = snapshot.indices()?.into_iter();
                let indices = indices
                    .map(|(name, kind)| (name, wire::kind_name(kind).into()))
                    .collect();
                self.reply(id, &wire::Indices { commit, indices })
            }
            Command::Nodes(from) => self.reply(id, &page::nodes(snapshot, &from)?),
            Command::Next(_) => self.reply(id, &page::next(snapshot)?),
            Command::Explain(wire::QueryText { query }) => {
                let text = snapshot.explain(&query)?;
                self.reply(id, &wire::Explained { commit, text })
            }
            Command::Ways(wire::QueryText { query }) => {
                let text = snapshot.ways(&query)?;
                self.reply(id, &wire::Explained { commit, text })
            }
            _ => return Err(Failure::new(ErrorName::BadRequest, "the command reads nothing")),
        }
        Ok(())
    }

    fn hello(&mut self, id: u64, greeting: &wire::Greeting, view: &View<'_, '_>) -> Result<(), Failure> {
        if let Some(protocol) = greeting.protocol.filter(|protocol| *protocol != wire::PROTOCOL) {
            return Err(Failure::protocol(protocol));
        }
        self.is_confirmed |= greeting.confirmed;
        let (major, minor, patch) = bestore::library_version();
        let options = &self.shared.options;
        let hello = wire::Hello {
            protocol: wire::PROTOCOL,
            server: env!("CARGO_PKG_VERSION").into(),
            library: format!("{major}.{minor}.{patch}"),
            run: self.shared.run.clone(),
            pass: view.pass().number()?,
            kept: self.shared.kept.when().into(),
            limits: wire::Limits {
                pages: options.pages,
                passes: options.passes,
                commits: options.commits,
                operations: 64,
                line: wire::LINE as u64,
                watches: WATCHES as u64,
            },
        };
        self.reply(id, &hello);
        Ok(())
    }

    fn status(&mut self, id: u64, view: &View<'_, '_>) -> Result<(), Failure> {
        let status = wire::Status {
            clients: self.shared.clients.count() as u64,
            watches: self.shared.watcher.count() as u64,
            trouble: self.shared.kept.trouble(),
            ..info::status(&view.pass().status()?)
        };
        self.reply(id, &status);
        Ok(())
    }

    /// Copies the state that reads see, so that `state` can read it later without a pinned snapshot.
    fn collect(&mut self, view: &mut View<'_, '_>) -> Result<wire::Next, Failure> {
        self.copy = None;
        let (copy, next) = copy::collect(self.shared, view)?;
        self.confirm()?;
        self.copy = Some(copy);
        Ok(next)
    }

    /// Returns a page of the batches that list the contents of the pinned snapshot or the copy.
    fn state(&self, view: &mut View<'_, '_>, from: u64) -> Result<wire::State, Failure> {
        match (view, &self.copy) {
            (View::Kept { snapshot, state, .. }, _) => page::state(snapshot, state, from),
            (View::Current(_), Some(copy)) => copy.page(from),
            (View::Current(_), None) => Err(Failure::not_pinned()),
            (View::Expired(_), _) => Err(Failure::expired()),
        }
    }

    /// Collects the batches of a state. After the last of them, gives them to the store, which must be empty.
    fn restore(&mut self, id: u64, restore: wire::Restore) -> Result<(), Failure> {
        memory::check()?;
        let mut batches = std::mem::take(&mut self.restoring);
        batches.extend(restore.batches);
        match restore.next {
            None => {
                self.restoring = batches;
                self.reply(id, &wire::Nothing {});
            }
            Some(next) => {
                let restored = writes::restore(self.shared, &batches, next)?;
                self.reply(id, &restored);
            }
        }
        Ok(())
    }

    /// Starts a watch, and runs its query for the first time.
    fn watch(&mut self, watch: wire::Watch<'_>, view: &mut View<'_, '_>) -> Result<(wire::Watched, Watch), Failure> {
        if self.watches.as_ref().map_or(0, |watches| watches.count()) >= WATCHES {
            let message =
                format!("the connection has {WATCHES} live queries, the most it can have; end one with unwatch first");
            return Err(Failure::new(ErrorName::TooManyWatches, message));
        }
        let number = self.last_watch + 1;
        let mut live = watch.query.map(|query| Live::new(&query)).transpose()?;
        let (commit, mut found) = view.read(|snapshot| {
            self.confirm()?;
            let found = match &mut live {
                Some(live) => live.refresh_changed(snapshot)?,
                None => Updates::default(),
            };
            Ok((snapshot.number(), found))
        })?;
        self.last_watch = number;
        let nodes = watcher::take(&mut found.created, watcher::NODES);
        let reply = wire::Watched {
            watch: number,
            commit,
            nodes: live.is_some().then_some(nodes),
            more: !found.created.is_empty(),
        };
        Ok((reply, Watch::new(number, live, commit, found)))
    }

    /// Runs a live query again, in the snapshot that reads see. The watch stays off the list until the reply has been sent.
    fn refresh(&mut self, watching: &wire::Watching, view: &mut View<'_, '_>) -> Result<(wire::Push, Watch), Failure> {
        let watches = self.watches.as_ref().ok_or_else(Failure::no_watch)?;
        let mut watch = watches.take(watching.watch).ok_or_else(Failure::no_watch)?;
        match view.read(|snapshot| self.confirm().and_then(|()| watch.refresh(snapshot))) {
            Ok(push) => Ok((push, watch)),
            Err(failure) => {
                self.shared.watcher.add(watches, watch);
                Err(failure)
            }
        }
    }

    /// Sends the reply, then adds the watch to the list, so that nothing is pushed before the reply.
    fn begin(&mut self, id: u64, reply: &impl Serialize, watch: Watch, since: Option<Instant>) -> io::Result<()> {
        self.reply(id, reply);
        self.send(since)?;
        let outbox = &self.outbox;
        let watches = self
            .watches
            .get_or_insert_with(|| Arc::new(Watches::new(outbox.clone())));
        self.shared.watcher.add(watches, watch);
        Ok(())
    }

    fn unwatch(&mut self, id: u64, watching: &wire::Watching) -> Result<(), Failure> {
        match &self.watches {
            Some(watches) if self.shared.watcher.remove(watches, watching.watch) => {
                self.reply(id, &wire::Nothing {});
                Ok(())
            }
            _ => Err(Failure::no_watch()),
        }
    }
}
