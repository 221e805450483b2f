"""Prints the newest 20 letters in a mailbox, and then the next 20. A letter that arrives in between doesn't move others to
another page."""

from typing import Optional

import bestore


def file_letters(store: bestore.Pass, first: int, count: int) -> None:
    """Files letters to ann and bob in turn, one per minute."""
    def file(change: bestore.Change) -> None:
        letter = change.new()
        change[letter]["MAIL:to"] = "ann" if minute % 2 == 0 else "bob"
        change[letter]["MAIL:when"] = 1_700_000_000 + 60 * minute
        change[letter]["MAIL:subject"] = f"Letter {minute}"

    for minute in range(first, first + count):
        store.change(file)


def show_page(store: bestore.Pass, after: Optional[bestore.Cursor] = None) -> bestore.Cursor:
    """Prints a page of ann's letters, and returns the position where the next page begins."""
    with store.pin() as version:
        rows = version.rows("MAIL:to==ann", ["MAIL:subject"], most=20, by="MAIL:when", descending=True, after=after)
    subjects = [str(subject) for _, (subject,) in rows]
    print(f"{len(rows)} letters, {subjects[0]} to {subjects[-1]}{', and more' if rows.more else ''}")
    return rows.cursor


def main() -> None:
    with bestore.open() as store:
        store.make_index("MAIL:to", bestore.STRING)
        store.make_index("MAIL:when", bestore.INT64)
        file_letters(store, 0, 100)
        cursor = show_page(store)
        file_letters(store, 100, 1)
        show_page(store, cursor)
        show_page(store)


if __name__ == "__main__":
    main()
