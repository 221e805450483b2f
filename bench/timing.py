"""Measures the time taken by threads that begin together."""
import threading
import time
from typing import List


def seconds_of(threads: List[threading.Thread], begin: threading.Barrier) -> float:
    """Starts the threads, which wait at `begin` along with this one, and returns the time from then until the last of them
    ends."""
    for thread in threads:
        thread.start()
    begin.wait()
    before = time.perf_counter()
    for thread in threads:
        thread.join()
    return time.perf_counter() - before
