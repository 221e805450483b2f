"""Waits for another thread's writes, using a live query on a store in this process.

    PYTHONPATH=python BESTORE_LIBRARY=c/libbestore.so python3 examples/python/live.py
"""

import threading

import bestore


def letter(change: bestore.Change) -> None:
    change[change.new()]["MAIL:status"] = "New"


with bestore.open() as store:
    store.make_index("MAIL:status", bestore.STRING)
    writer = store.another()
    with store.watch("MAIL:status==New") as unread:
        unread.wait(0)
        threading.Thread(target=writer.change, args=(letter,)).start()
        print(unread.wait(60))
