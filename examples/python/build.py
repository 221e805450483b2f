"""Builds a store from a list of files, which takes less time than writing them one by one."""

import bestore

FILES = [("letter.txt", 120), ("photo.jpg", 90_000)]

with bestore.Builder() as builder:
    builder.index("size", bestore.INT64)
    for node, (name, size) in enumerate(FILES, start=1):
        builder.node(node)
        builder.attribute("name", name)
        builder.attribute("size", size)
    store = builder.finish(len(FILES) + 1)
with store, store.pin() as version:
    for node in version.query("size>1000"):
        print(node, version[node]["name"])
