"""Fills a store with 60,000 nodes, for the other programs in this folder to measure."""
from __future__ import annotations

import bestore
from bestore import Batch

NODES = 60_000
STEP = 16
"""How many nodes a batch creates."""


def fill(socket: str) -> int:
    """Creates the nodes, numbered from 1, and returns the commit number."""
    with bestore.connect(socket) as store:
        store.make_index("name", bestore.Kind.STRING)
        for first in range(1, NODES, STEP):
            batch = Batch()
            for made in range(first, first + STEP):
                batch.new_node()
                batch.set(made, "name", f"file {made}")
                batch.set(made, "count", 0)
                batch.set(made, "text", "some words " * 3)
            store.apply(batch)
        with store.pin() as version:
            return version.number
