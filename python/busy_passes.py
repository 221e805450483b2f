"""Keeps a pass in use by another thread, to test calls that wait for it."""
import threading
from contextlib import contextmanager
from typing import Iterator

import bestore


@contextmanager
def used_by_a_thread(store: bestore.Pass) -> Iterator[None]:
    """Keeps another thread in a call on this pass until the `with` block ends, for up to 20 seconds."""
    begun, ended = threading.Event(), threading.Event()

    def call(handle: object) -> int:
        begun.set()
        ended.wait(20)
        return 0
    running = threading.Thread(target=store._call, args=(call,))  # type: ignore[attr-defined]
    running.start()
    begun.wait()
    try:
        yield
    finally:
        ended.set()
        running.join()
