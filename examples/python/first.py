"""A first program in Python: files a letter, and queries letters by sender."""

import bestore


def file(change: bestore.Change) -> None:
    letter = change.new()
    change[letter]["MAIL:from"] = "ann"


with bestore.open() as store:
    store.make_index("MAIL:from", bestore.STRING)
    store.change(file)
    with store.pin() as version:
        for node in version.query("MAIL:from==ann"):
            print(node, version[node]["MAIL:from"])
