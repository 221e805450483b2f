//! Replies that describe the server's activity.

replies! {
    /// The reply to `info`.
    Info {
        /// The version of the server.
        pub server: String,
        /// The server's run.
        pub run: String,
        /// The process ID.
        pub process: u32,
        /// How long the server has been running, in seconds.
        pub seconds: u64,
        /// How many clients are connected.
        pub clients: u64,
        /// How many requests the server has received since it started.
        pub requests: u64,
        /// The total number of live queries.
        pub watches: u64,
        /// How many writes the server has made since it started.
        pub writes: u64,
        /// The number of writes per second over the last 10 seconds, rounded down.
        pub writes_per_second: u64,
        /// How long the writes of those 10 seconds took, including the time to save them. Missing if there were none.
        pub latency?: Latency,
        /// How old the oldest write is that isn't in the file yet, in milliseconds. Missing if all writes are in the file.
        pub unsaved?: u64,
        /// How long the last 64 commits to the file took. Missing if there were none.
        pub commits?: Latency,
        /// How many writes are in progress, or waiting for other writes or the disk.
        pub writing: u64,
        /// The total number of pages.
        pub pages: u64,
        /// The number of pages that a write can use.
        pub free: u64,
        /// The number of pages that only older snapshots use.
        pub retired: u64,
        /// The oldest snapshot that is being read, and its reader.
        pub oldest?: OldestReader,
        /// The sizes of the files, if the server keeps its writes in one.
        pub files?: Files,
        /// The server's role in the log that machines share, if it uses one.
        pub log?: Role,
        /// Why writes can't be saved at the moment, if that is the case.
        pub trouble?: String,
    }

    /// How long writes took, in µs. The first two are the median and the 99th percentile, accurate to within a quarter.
    Latency {
        /// The median: half of the writes took at most this long.
        pub p50: u64,
        /// The 99th percentile: 99 of 100 writes took at most this long.
        pub p99: u64,
        /// The time that the slowest write took.
        pub most: u64,
    }

    /// The reader of the oldest snapshot.
    OldestReader {
        /// The snapshot's commit number.
        pub commit: u64,
        /// The number of the client, unless the reader is the server itself.
        pub client?: u64,
        /// The process ID of the client.
        pub process?: u32,
        /// How long ago the snapshot was pinned, in milliseconds.
        pub milliseconds?: u64,
        /// Whether the reader holds the memory that the store used before the server freed its journal.
        #[serde(default, skip_serializing_if = "std::ops::Not::not")]
        pub earlier: bool,
    }

    /// The sizes of the file and of the `-wal` file beside it, in bytes.
    Files {
        /// The size of the file.
        pub bytes: u64,
        /// The size of the `-wal` file.
        pub wal_bytes: u64,
    }

    /// The server's role in the log that machines share.
    Role {
        /// `leader` or `follower`.
        pub role: String,
        /// The server's term, which counts the leaders, if this server leads.
        pub term?: u64,
        /// The last log entry that the server has.
        pub entry: u64,
        /// How many entries a follower has yet to apply, or a leader has yet to add.
        pub lag: u64,
    }

    /// The reply to `clients`.
    Clients {
        /// The connected clients, sorted by number.
        pub clients: Vec<ClientInfo>,
    }

    /// A connected client.
    ClientInfo {
        /// The client's number, as accepted by `kick`.
        pub client: u64,
        /// The process ID.
        pub process: u32,
        /// How long the client has been connected, in seconds.
        pub seconds: u64,
        /// How many requests the client has sent.
        pub requests: u64,
        /// The command for which the client is waiting now.
        pub command?: String,
        /// The snapshot that the client has pinned.
        pub pinned?: PinnedBy,
        /// Whether this is the client that sent the request.
        #[serde(default, skip_serializing_if = "std::ops::Not::not")]
        pub own: bool,
    }

    /// A snapshot that a client has pinned.
    PinnedBy {
        /// Its number.
        pub commit: u64,
        /// How long ago the snapshot was pinned, in milliseconds.
        pub milliseconds: u64,
    }
}
