//! Requests: an `id` and one command.

use super::operation::asked_operations;
use super::{Operations, Token};
use serde::de::value::MapAccessDeserializer;
use serde::de::{self, Deserialize, Deserializer, IgnoredAny, MapAccess, Visitor};
use serde::ser::{Serialize, SerializeMap, Serializer};
use std::borrow::Cow;
use std::fmt;
use std::marker::PhantomData;

macro_rules! parameters {
    ($($(#[$meta:meta])* $name:ident { $($body:tt)* })*) => {$(
        $(#[$meta])*
        #[derive(Clone, Debug, Default, PartialEq, Eq, serde::Serialize, serde::Deserialize)]
        #[serde(deny_unknown_fields)]
        pub struct $name { $($body)* }
    )*};
}

macro_rules! parameters_with_texts {
    ($($(#[$meta:meta])* $name:ident { $($body:tt)* })*) => {$(
        $(#[$meta])*
        #[derive(Clone, Debug, Default, PartialEq, Eq, serde::Serialize, serde::Deserialize)]
        #[serde(deny_unknown_fields)]
        pub struct $name<'a> { $($body)* }
    )*};
}

/// Reads an optional parameter. Giving it as `null` isn't the same as omitting it.
fn given<'de, T: Deserialize<'de>, D: Deserializer<'de>>(from: D) -> Result<Option<T>, D::Error> {
    T::deserialize(from).map(Some)
}

parameters! {
    /// The empty parameters of a command that takes none.
    Nothing {}

    /// The parameters of `hello`.
    Greeting {
        /// The version of the protocol that the client speaks.
        #[serde(default, deserialize_with = "given", skip_serializing_if = "Option::is_none")]
        pub protocol: Option<u64>,
        /// Whether the client will leave after a few requests, so that the server admits it even when it is full.
        #[serde(default, skip_serializing_if = "std::ops::Not::not")]
        pub visit: bool,
        /// Whether replies to reads on this connection wait until what they show is in the file or the log.
        #[serde(default, skip_serializing_if = "std::ops::Not::not")]
        pub confirmed: bool,
    }

    /// The parameters of `batch`.
    Write {
        /// The operations.
        #[serde(with = "asked_operations")]
        pub operations: Operations,
        /// How many entries the journal must have.
        #[serde(default, deserialize_with = "given", skip_serializing_if = "Option::is_none")]
        pub expected: Option<u64>,
        /// Identifies the batch, which makes it safe to resend: it is written only once.
        #[serde(default, deserialize_with = "given", skip_serializing_if = "Option::is_none")]
        pub token: Option<Token>,
        /// The run of the server that `expected` belongs to.
        #[serde(default, deserialize_with = "given", skip_serializing_if = "Option::is_none")]
        pub run: Option<String>,
    }

    /// The parameters of `attributes`.
    Node {
        /// The node.
        pub node: u64,
    }

    /// The parameters of `nodes`.
    NodesFrom {
        /// The lowest node number to return.
        #[serde(default)]
        pub from: u64,
        /// The maximum number of nodes.
        #[serde(default, deserialize_with = "given", skip_serializing_if = "Option::is_none")]
        pub limit: Option<u64>,
    }

    /// The parameters of `unwatch` and `refresh`.
    Watching {
        /// The number of the watch.
        pub watch: u64,
    }

    /// The parameters of `journal`.
    JournalFrom {
        /// The index of the first entry.
        #[serde(default)]
        pub from: u64,
        /// The maximum number of entries.
        #[serde(default, deserialize_with = "given", skip_serializing_if = "Option::is_none")]
        pub limit: Option<u64>,
    }

    /// The parameters of `log`.
    OfLog {
        /// The log entry that the server must have applied before it replies.
        #[serde(default, deserialize_with = "given", skip_serializing_if = "Option::is_none")]
        pub entry: Option<u64>,
        /// How long to wait for it, in milliseconds, up to 60,000.
        #[serde(default, deserialize_with = "given", skip_serializing_if = "Option::is_none")]
        pub within: Option<u64>,
    }

    /// The parameters of `state`.
    From {
        /// The index of the first batch.
        #[serde(default)]
        pub from: u64,
    }

    /// The parameters of `restore`.
    Restore {
        /// The next batches of a state.
        #[serde(with = "super::value::blobs")]
        pub batches: Vec<Vec<u8>>,
        /// In the last request, the number that the next node will have.
        #[serde(default, deserialize_with = "given", skip_serializing_if = "Option::is_none")]
        pub next: Option<u64>,
    }

    /// The parameters of `kick`.
    Kick {
        /// The number of the client, as given in the reply to `clients`.
        pub client: u64,
    }

    /// The parameters of `reach`.
    Reach {
        /// How many entries the journal must have.
        pub commit: u64,
        /// How long to wait, in milliseconds, up to 60,000.
        #[serde(default, deserialize_with = "given", skip_serializing_if = "Option::is_none")]
        pub within: Option<u64>,
    }
}

parameters_with_texts! {
    /// The parameters of `query`.
    Query {
        /// The query.
        #[serde(borrow)]
        pub query: Cow<'a, str>,
        /// The attributes to include in the reply for each node.
        #[serde(borrow, default, deserialize_with = "given", skip_serializing_if = "Option::is_none")]
        pub columns: Option<Columns<'a>>,
        /// The maximum number of nodes.
        #[serde(default, deserialize_with = "given", skip_serializing_if = "Option::is_none")]
        pub limit: Option<u64>,
        /// The lowest node number to return.
        #[serde(default)]
        pub from: u64,
        /// Whether to return only the number of nodes.
        #[serde(default)]
        pub count: bool,
        /// Whether the reply may omit `count`, which can only be computed from the whole answer.
        #[serde(default, skip_serializing_if = "std::ops::Not::not")]
        pub uncounted: bool,
        /// The index by which to sort the nodes. Nodes without a value in it are left out.
        #[serde(borrow, default, deserialize_with = "given", skip_serializing_if = "Option::is_none")]
        pub by: Option<Cow<'a, str>>,
        /// Whether to sort in descending order.
        #[serde(default, skip_serializing_if = "std::ops::Not::not")]
        pub descending: bool,
        /// The cursor from the previous page.
        #[serde(borrow, default, deserialize_with = "given", skip_serializing_if = "Option::is_none")]
        pub after: Option<Cow<'a, str>>,
        /// How many nodes to return; any nodes that the query finds will do.
        #[serde(default, deserialize_with = "given", skip_serializing_if = "Option::is_none")]
        pub any: Option<u64>,
    }

    /// The parameters of `explain`, `ways` and `text`.
    QueryText {
        /// The query.
        #[serde(borrow)]
        pub query: Cow<'a, str>,
    }

    /// The parameters of `watch`.
    Watch {
        /// The query to watch; every commit is pushed if there is none.
        #[serde(borrow, default, deserialize_with = "given", skip_serializing_if = "Option::is_none")]
        pub query: Option<Cow<'a, str>>,
    }

    /// The parameters of `get`.
    Get {
        /// The node.
        pub node: u64,
        /// The name of the attribute.
        #[serde(borrow)]
        pub name: Cow<'a, str>,
    }

    /// The parameters of `columns`.
    ColumnsOf {
        /// The nodes.
        pub nodes: Vec<u64>,
        /// The names of the attributes.
        #[serde(borrow)]
        pub names: Columns<'a>,
    }
}

/// A list of up to 64 attribute names.
#[derive(Clone, Debug, Default, PartialEq, Eq)]
pub struct Columns<'a>(pub Vec<Cow<'a, str>>);

impl Serialize for Columns<'_> {
    fn serialize<S: Serializer>(&self, to: S) -> Result<S::Ok, S::Error> {
        to.collect_seq(&self.0)
    }
}

impl<'de: 'a, 'a> Deserialize<'de> for Columns<'a> {
    fn deserialize<D: Deserializer<'de>>(from: D) -> Result<Self, D::Error> {
        struct List;

        impl<'de> Visitor<'de> for List {
            type Value = Columns<'de>;

            fn expecting(&self, f: &mut fmt::Formatter<'_>) -> fmt::Result {
                f.write_str("a list of names")
            }

            fn visit_seq<A: de::SeqAccess<'de>>(self, mut list: A) -> Result<Columns<'de>, A::Error> {
                let mut names = Vec::new();
                while let Some(name) = list.next_element::<super::value::Text<'de>>()? {
                    if names.len() == 64 {
                        return Err(de::Error::custom("there are more than 64 columns"));
                    }
                    names.push(name.0);
                }
                Ok(Columns(names))
            }
        }

        from.deserialize_seq(List)
    }
}

/// A type that is read from a JSON object.
trait FromObject<'de>: Sized {
    /// What the object should be, for error texts.
    const EXPECTED: &'static str;

    fn read_from<A: MapAccess<'de>>(map: A) -> Result<Self, A::Error>;
}

struct ObjectVisitor<T>(PhantomData<T>);

impl<'de, T: FromObject<'de>> Visitor<'de> for ObjectVisitor<T> {
    type Value = T;

    fn expecting(&self, f: &mut fmt::Formatter<'_>) -> fmt::Result {
        f.write_str(T::EXPECTED)
    }

    fn visit_map<A: MapAccess<'de>>(self, map: A) -> Result<T, A::Error> {
        T::read_from(map)
    }
}

fn read_object<'de, T: FromObject<'de>, D: Deserializer<'de>>(from: D) -> Result<T, D::Error> {
    from.deserialize_map(ObjectVisitor(PhantomData))
}

/// Parameters or a reply, which must be given as an object. Without this type, a list of the values in order would be accepted too.
pub(crate) struct Object<T>(pub(crate) T);

impl<'de, T: Deserialize<'de>> FromObject<'de> for Object<T> {
    const EXPECTED: &'static str = "an object with parameters";

    fn read_from<A: MapAccess<'de>>(map: A) -> Result<Self, A::Error> {
        T::deserialize(MapAccessDeserializer::new(map)).map(Object)
    }
}

impl<'de, T: Deserialize<'de>> Deserialize<'de> for Object<T> {
    fn deserialize<D: Deserializer<'de>>(from: D) -> Result<Self, D::Error> {
        read_object(from)
    }
}

macro_rules! commands {
    ($($(#[$meta:meta])* $variant:ident($parameters:ty) = $name:literal;)*) => {
        /// A command with its parameters.
        #[derive(Clone, Debug, PartialEq, Eq)]
        pub enum Command<'a> {
            $($(#[$meta])* $variant($parameters),)*
        }

        impl<'a> Command<'a> {
            /// Reads the parameters of the command with this name.
            fn read<A: MapAccess<'a>>(name: &str, map: &mut A) -> Result<Self, A::Error> {
                match name {
                    $($name => Ok(Command::$variant(map.next_value::<Object<$parameters>>()?.0)),)*
                    _ => Err(de::Error::custom("no command has this name")),
                }
            }

            /// The name of the command.
            #[must_use]
            pub fn name(&self) -> &'static str {
                match self {
                    $(Command::$variant(_) => $name,)*
                }
            }

            fn write<M: SerializeMap>(&self, to: &mut M) -> Result<(), M::Error> {
                match self {
                    $(Command::$variant(parameters) => to.serialize_entry($name, parameters),)*
                }
            }
        }
    };
}

commands! {
    /// Returns the versions and limits.
    Hello(Greeting) = "hello";
    /// Writes a batch.
    Batch(Write) = "batch";
    /// Pins a snapshot.
    Pin(Nothing) = "pin";
    /// Unpins the snapshot.
    Unpin(Nothing) = "unpin";
    /// Runs a query.
    Query(Query<'a>) = "query";
    /// Reads an attribute.
    Get(Get<'a>) = "get";
    /// Reads the given attributes of many nodes.
    Columns(ColumnsOf<'a>) = "columns";
    /// Reads all attributes of a node.
    Attributes(Node) = "attributes";
    /// Lists the indices.
    Indices(Nothing) = "indices";
    /// Lists nodes.
    Nodes(NodesFrom) = "nodes";
    /// Returns the number of the next node.
    Next(Nothing) = "next";
    /// Returns which indices a query uses.
    Explain(QueryText<'a>) = "explain";
    /// Returns which ranges of index keys the answer to a query walks.
    Ways(QueryText<'a>) = "ways";
    /// Returns the comparisons in a query.
    Text(QueryText<'a>) = "text";
    /// Begins a live query.
    Watch(Watch<'a>) = "watch";
    /// Brings a live query up to date now, and returns the changes.
    Refresh(Watching) = "refresh";
    /// Ends a live query.
    Unwatch(Watching) = "unwatch";
    /// Returns how full the store is.
    Status(Nothing) = "status";
    /// Returns entries of the journal.
    Journal(JournalFrom) = "journal";
    /// Returns batches that list the snapshot's contents.
    State(From) = "state";
    /// Copies the snapshot, so that `state` can read it without a pin.
    Collect(Nothing) = "collect";
    /// Gives an empty store the contents of a state.
    Restore(Restore) = "restore";
    /// Waits until the journal has enough entries.
    Reach(Reach) = "reach";
    /// Waits until all writes are saved in the file.
    Flush(Nothing) = "flush";
    /// Rewrites the file with the current state.
    Compact(Nothing) = "compact";
    /// Returns the server's status in the log that machines share, after waiting for an entry if one is given.
    Log(OfLog) = "log";
    /// Returns the server's activity.
    Info(Nothing) = "info";
    /// Returns the connected clients.
    Clients(Nothing) = "clients";
    /// Disconnects a client.
    Kick(Kick) = "kick";
}

/// A request.
#[derive(Clone, Debug, PartialEq, Eq)]
pub struct Request<'a> {
    /// The number of the request, which the reply repeats.
    pub id: u64,
    /// The command.
    pub command: Command<'a>,
}

impl Serialize for Request<'_> {
    fn serialize<S: Serializer>(&self, to: S) -> Result<S::Ok, S::Error> {
        let mut map = to.serialize_map(Some(2))?;
        map.serialize_entry("id", &self.id)?;
        self.command.write(&mut map)?;
        map.end()
    }
}

impl<'de: 'a, 'a> Deserialize<'de> for Request<'a> {
    fn deserialize<D: Deserializer<'de>>(from: D) -> Result<Self, D::Error> {
        read_object::<Request<'de>, D>(from)
    }
}

impl<'de> FromObject<'de> for Request<'de> {
    const EXPECTED: &'static str = "an object with an id and a command";

    fn read_from<A: MapAccess<'de>>(mut map: A) -> Result<Self, A::Error> {
        let (mut id, mut command) = (None, None);
        while let Some(key) = map.next_key::<super::value::Text<'_>>()? {
            if key.0 == "id" {
                let number: u64 = map.next_value()?;
                if number > super::EXACT {
                    return Err(de::Error::custom("the id is too large"));
                }
                if id.replace(number).is_some() {
                    return Err(de::Error::custom("there are two ids"));
                }
            } else {
                let read = Command::read(&key.0, &mut map)?;
                if command.replace(read).is_some() {
                    return Err(de::Error::custom("there are two commands"));
                }
            }
        }
        Ok(Request {
            id: id.ok_or_else(|| de::Error::custom("the id is missing"))?,
            command: command.ok_or_else(|| de::Error::custom("a command is missing"))?,
        })
    }
}

/// The `id` of an object, ignoring everything else in it.
struct Id(Option<u64>);

impl<'de> FromObject<'de> for Id {
    const EXPECTED: &'static str = "an object with an id";

    fn read_from<A: MapAccess<'de>>(mut map: A) -> Result<Self, A::Error> {
        let mut id = None;
        while let Some(key) = map.next_key::<super::value::Text<'_>>()? {
            if key.0 == "id" {
                id = Some(map.next_value()?);
            } else {
                map.next_value::<IgnoredAny>()?;
            }
        }
        Ok(Id(id))
    }
}

/// Returns the `id` in a line that isn't a valid request, if it can be read.
#[must_use]
pub fn id_of(line: &[u8]) -> Option<u64> {
    let Id(id) = read_object(&mut serde_json::Deserializer::from_slice(line)).ok()?;
    id.filter(|id| *id <= super::EXACT)
}

#[cfg(test)]
mod tests {
    use super::*;

    #[test]
    fn requests_go_there_and_back() {
        for line in [
            r#"{"id":1,"hello":{}}"#,
            r#"{"id":0,"batch":{"operations":[["new"]],"expected":3}}"#,
            r#"{"id":2,"query":{"query":"size>=5","columns":["size"],"limit":3,"from":0,"count":false}}"#,
            r#"{"id":2,"query":{"query":"size>=5","limit":3,"from":7,"count":false,"uncounted":true}}"#,
            r#"{"id":2,"query":{"query":"a==b","limit":3,"from":0,"count":false,"by":"size","descending":true,"after":"A\n"}}"#,
            r#"{"id":2,"query":{"query":"a==b","from":0,"count":false,"any":1}}"#,
            r#"{"id":3,"watch":{}}"#,
            r#"{"id":3,"text":{"query":"size>1.5"}}"#,
            r#"{"id":3,"log":{"entry":7,"within":0}}"#,
            r#"{"id":3,"hello":{"protocol":2,"visit":true}}"#,
            r#"{"id":5,"reach":{"commit":3,"within":5}}"#,
            r#"{"id":5,"restore":{"batches":["QkVWAQ==",""],"next":7}}"#,
            r#"{"id":6,"batch":{"operations":[["new"]],"expected":3,"token":"ä","run":"1-2"}}"#,
            r#"{"id":3,"get":{"node":1,"name":"a\"b"}}"#,
            r#"{"id":3,"columns":{"nodes":[2,1],"names":["a","b"]}}"#,
        ] {
            let request: Request<'_> = serde_json::from_str(line).unwrap();
            assert_eq!(serde_json::to_string(&request).unwrap(), line);
        }
    }

    #[test]
    fn the_command_may_come_first() {
        let request: Request<'_> = serde_json::from_str(r#"{"pin":{},"id":7}"#).unwrap();
        assert_eq!(request.id, 7);
    }

    #[test]
    fn what_is_no_request_is_refused_and_its_id_found() {
        for (line, id) in [
            (r#"{"id":1}"#, Some(1)),
            (r#"{"pin":{}}"#, None),
            (r#"{"id":1,"pin":{},"unpin":{}}"#, Some(1)),
            (r#"{"id":1,"id":2,"pin":{}}"#, Some(2)),
            (r#"{"id":1,"drop":{}}"#, Some(1)),
            (r#"{"id":1,"pin":{"at":5}}"#, Some(1)),
            (r#"{"id":1,"pin":null}"#, Some(1)),
            (r#"{"id":-1,"pin":{}}"#, None),
            (r#"{"id":9007199254740992,"pin":{}}"#, None),
            (r#"{"id":"a","pin":{}}"#, None),
            (r#"{"get":{"node":1},"id":4}"#, Some(4)),
            (r#"{"id":5,"reach":{"commit":-1}}"#, Some(5)),
            (r#"{"id":5,"reach":{"commit":[3]}}"#, Some(5)),
            (r#"{"id":5,"batch":{"operations":[],"volume":0}}"#, Some(5)),
            (r#"{"id":5,"restore":{"batches":["QkVWAQ"]}}"#, Some(5)),
            (r#"{"id":5,"restore":{"batches":[7]}}"#, Some(5)),
            (r#"{"id":5,"batch":{"operations":[["new"]],"expected":null}}"#, Some(5)),
            (r#"{"id":5,"batch":{"operations":[["new",7]]}}"#, Some(5)),
            (r#"{"id":5,"journal":{"limit":null}}"#, Some(5)),
            (r#"{"id":5,"batch":{"operations":[["new"]],"token":""}}"#, Some(5)),
            (r#"{"id":5,"batch":{"operations":[["new"]],"token":7}}"#, Some(5)),
            (r#"{"id":5,"watch":{"query":null}}"#, Some(5)),
            (r#"{"id":5,"text":{}}"#, Some(5)),
            (r#"{"id":5,"query":{"query":"a==1","by":null}}"#, Some(5)),
            (r#"{"id":5,"query":{"query":"a==1","by":"a","descending":1}}"#, Some(5)),
            (r#"{"id":5,"query":{"query":"a==1","by":"a","after":7}}"#, Some(5)),
            (r#"{"id":5,"query":{"query":"a==1","any":-1}}"#, Some(5)),
            (r#"{"id":5,"status":[]}"#, Some(5)),
            (r#"{"id":5,"get":[1,"a"]}"#, Some(5)),
            (r#"[1]"#, None),
            ("", None),
        ] {
            assert!(serde_json::from_str::<Request<'_>>(line).is_err(), "{line}");
            assert_eq!(id_of(line.as_bytes()), id, "{line}");
        }
    }

    #[test]
    fn columns_are_limited() {
        let line = |count| {
            let columns = vec!["\"a\""; count].join(",");
            format!(r#"{{"id":1,"query":{{"query":"a==1","columns":[{columns}]}}}}"#)
        };
        assert!(serde_json::from_str::<Request<'_>>(&line(64)).is_ok());
        assert!(serde_json::from_str::<Request<'_>>(&line(65)).is_err());
    }
}
