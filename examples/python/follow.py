"""Follows a query and the journal, and carries the store's contents over to a new store."""

import bestore


def print_changes(store: bestore.Pass, unread: bestore.Prepared, seen: int) -> int:
    """Prints which letters became unread and which no longer are, and what was written after the last commit number seen.
    Returns the newest number."""
    with store.pin() as version:
        came, went = version.refresh(unread)
        print("unread:", "came", came, "went", went)
    for entry in store.journal_from(seen):
        print(f"{entry.number} by {entry.pass_number}:", *entry.operations)
        seen = entry.number
    return seen


def carry_on(store: bestore.Pass) -> bestore.Pass:
    """Returns a store with the same contents and an empty journal."""
    with store.pin() as version, bestore.Builder() as builder:
        for batch in version.listing():
            builder.batch(batch)
        return builder.finish(version.next_node)


def main() -> None:
    with bestore.open(passes=1) as store, bestore.prepare("MAIL:status==New") as unread:
        store.make_index("MAIL:status", bestore.STRING)
        letters = store.new_nodes(2)
        seen = print_changes(store, unread, 0)
        store.apply(bestore.Batch(bestore.SetAttribute(letter, "MAIL:status", "New") for letter in letters))
        seen = print_changes(store, unread, seen)
        store.set(letters[0], "MAIL:status", "Read")
        with carry_on(store) as other:
            print_changes(other, unread, 0)


if __name__ == "__main__":
    main()
