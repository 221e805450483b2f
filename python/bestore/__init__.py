"""A shared, in-memory, multi-version store of nodes with attributes, indices and queries.

    with bestore.open() as store:
        store.make_index("MAIL:from", bestore.STRING)

        def file(change):
            letter = change.new()
            change[letter]["MAIL:from"] = "ann"

        store.change(file)
        with store.pin() as version:
            print(version.query("MAIL:from==ann"))

A `Pass` is a session: one thread's handle on the store. Give each thread its own pass, because calls on the same pass wait for
each other. `another` creates further passes, from any pass and in any thread. Errors are raised as subclasses of `Error`; each of
the library's error numbers has its own class, such as `Busy` or `QuerySyntax`. `help(bestore.Busy)` describes one of them, and
docs/PYTHON.md lists all. `from bestore import *` doesn't import them.

For a store that programs share through the server bestored, use `connect` instead of `open`: see `help(bestore.connected)`. A
function that takes a `Pass` or a `Version` works with either kind of store. The module `bestore.saved` keeps a store in a file.
A `Builder` makes a store that begins with given contents.

A store belongs to the process that opened it. In a forked child its passes, versions and prepared queries are dead: their calls
raise `Forked`, closing them does nothing, and the parent's handles are unaffected. The child can open its own stores.

The wheel contains the library's shared object. In the repository, the package uses the one in c/, and otherwise the system's. Set
BESTORE_LIBRARY to use a different one. The documents in docs/ are in the repository, the tarball and the Debian package bestore.
"""

# The names that are imported "as" themselves are public too, but help(bestore) doesn't describe them: most of it would be about errors.
from ._version import VERSION as __version__
from ._connected_errors import (
    # surface.toml: exceptions of a server
    BadRequest as BadRequest, Expired as Expired, NoClient as NoClient, NoLog as NoLog,
    NoWatch as NoWatch, NotAllowed as NotAllowed, NotKept as NotKept, NotLeader as NotLeader,
    PushesLost as PushesLost, TooManyCopies as TooManyCopies, TooManyWatches as TooManyWatches,
    Unexpected as Unexpected,
    # surface.toml: end
    BrokenConnection as BrokenConnection, Disconnected as Disconnected, LineTooLong as LineTooLong,
    NoServer as NoServer, OtherUser as OtherUser, ProtocolError as ProtocolError, ServerError as ServerError,
    ServerRefusal as ServerRefusal, TimedOut as TimedOut, Unavailable as Unavailable,
)
from ._saved_errors import NotSaved as NotSaved, Stopped as Stopped
from ._surface import ErrorClass, ErrorNumber
from .builder import Builder
from .change import Change, ChangedAttributes
from .connected import connect
from .errors import (
    # surface.toml: exceptions
    BadCount as BadCount, BadCursor as BadCursor, BadItems as BadItems, BadLimits as BadLimits,
    BadPart as BadPart, BadPattern as BadPattern, Busy as Busy, Closed as Closed,
    CommitsSpent as CommitsSpent, Conflict as Conflict, DataLength as DataLength, Full as Full,
    HasNul as HasNul, InUse as InUse, IndexExists as IndexExists, NameLength as NameLength,
    Nested as Nested, NoAttribute as NoAttribute, NoIndex as NoIndex, NoItem as NoItem,
    NoKind as NoKind, NoMemory as NoMemory, NoNode as NoNode, NoOperation as NoOperation,
    NoPass as NoPass, NoRoom as NoRoom, NoValue as NoValue, NotCovered as NotCovered,
    NotIndexable as NotIndexable, NotPinned as NotPinned, NotUTF8 as NotUTF8, Opened as Opened,
    Pinned as Pinned, QuerySyntax as QuerySyntax, TooDeep as TooDeep, TooLong as TooLong,
    TooMany as TooMany, TooManyAttributes as TooManyAttributes, TooManyIndices as TooManyIndices,
    WrongKind as WrongKind,
    # surface.toml: end
    BadBytes as BadBytes, Error as Error, Forked as Forked, NotReached as NotReached, OtherStore as OtherStore,
    QueryError as QueryError, QueryNotUTF8 as QueryNotUTF8, Refusal as Refusal, TooManyAttempts as TooManyAttempts,
)
from .language import Comparison, Hint, any_case, escape
from .opening import open
from .operations import (
    MOST_OPERATIONS, Batch, MakeIndex, NewNode, Operation, RemoveIndex, RemoveNode, SetAttribute, UnsetAttribute,
)
from .pages import Cursor, Order, Page
from .queries import Item, Name, Operator, Prepared, prepare, prepare_items
from .store import Entry, Held, Pass, Status, Witness
from .values import (
    # surface.toml: classes of integers
    Int32, Int64, UInt32, UInt64,
    # surface.toml: end
    Integer, Kind, Typed, Value)
from .versions import Attributes, Version
from .watches import Changes, Watch

# surface.toml: kinds
STRING = Kind.STRING
INT32 = Kind.INT32
INT64 = Kind.INT64
MIME = Kind.MIME
RAW = Kind.RAW
UINT32 = Kind.UINT32
UINT64 = Kind.UINT64
# surface.toml: end

__all__ = [
    # surface.toml: names
    "INT32", "INT64", "Int32", "Int64", "MIME", "RAW", "STRING", "UINT32", "UINT64", "UInt32",
    "UInt64",
    # surface.toml: end
    "Attributes", "Batch", "Builder", "Change", "ChangedAttributes", "Changes", "Comparison", "Cursor", "Entry", "ErrorClass",
    "ErrorNumber", "Held", "Hint", "Integer", "Item", "Kind", "MOST_OPERATIONS", "MakeIndex", "Name", "NewNode",
    "Operation", "Operator", "Order", "Page", "Pass", "Prepared", "RemoveIndex", "RemoveNode", "SetAttribute",
    "Status", "Typed", "UnsetAttribute", "Value", "Version", "Watch", "Witness", "any_case", "connect", "escape", "open",
    "prepare", "prepare_items",
]
