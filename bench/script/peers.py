"""The peers, how each is built, and the workloads."""
from dataclasses import dataclass, field

OURS = "bestore"
NODES = 10_000
SIZES = [1_000, 2_000, 5_000, NODES, 20_000]
FILES = 17_000
MANY = 26_000


@dataclass
class Peer:
    name: str
    title: str
    color: str
    sources: str = ""
    flags: list[str] = field(default_factory=list)
    library: str = ""
    archive: str = ""
    package: str = ""
    has_threads: bool = True
    has_journal: bool = False


@dataclass(frozen=True)
class Workload:
    """A program's arguments. If `case` isn't empty, it names the only case that the program prints."""

    name: str
    nodes: int
    other: int = 0
    case: str = ""
    needs_threads: bool = False

    def words(self) -> list[str]:
        return [self.name, str(self.nodes), str(self.other)]

    def fits(self, peer: Peer) -> bool:
        """Returns whether a peer supports what the workload needs."""
        return peer.has_threads or not self.needs_threads


def single_workloads(most: int) -> list[Workload]:
    """Returns the workloads that run with a single number of nodes, which is at most this many."""
    nodes = min(NODES, most)
    return [
        Workload("indices", nodes),
        Workload("patterns", nodes),
        Workload("order", nodes),
        Workload("shared", nodes),
        Workload("held", nodes, case="set-held", needs_threads=True),
        Workload("sets", min(MANY, most), 2, case="set-many"),
        Workload("sets", nodes, 8, case="set-8"),
        Workload("sets", nodes, 32, case="set-32"),
        Workload("import", min(FILES, most)),
    ]


PEERS = [
    Peer("lmdb", "LMDB", "#1f77b4", "lmdb.c", library="lmdb", package="liblmdb-dev"),
    Peer("sqlite", "SQLite, memory", "#bcbd22", "sqlite.c", library="sqlite3", package="libsqlite3-dev", has_threads=False),
    Peer("sqlite-wal", "SQLite, WAL", "#ff7f0e", "sqlite.c", ["-DWAL"], library="sqlite3", package="libsqlite3-dev"),
    Peer("model", "model in C", "#2ca02c", "model/*.c", has_journal=True),
    Peer("library", "bestore, from C", "#9467bd", "bestore.c", archive="c/libbestore.a",
         package="c/libbestore.a, which `make` in c/ builds", has_journal=True),
    Peer(OURS, "bestore", "#d62728", has_journal=True),
]
TITLES = {peer.name: peer.title for peer in PEERS}
COLORS = {peer.name: peer.color for peer in PEERS}
