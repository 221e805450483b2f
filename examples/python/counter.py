"""Two threads file letters and count them in an attribute. With `change`, no count is lost and no letter gets the other
thread's sender."""

import threading

import bestore

LETTERS = 100


def file_letters(store: bestore.Pass, counter: int, sender: str) -> None:
    """Files a sender's letters, each in the same write as the new count."""
    def file(change: bestore.Change) -> None:
        letter = change.new()
        change[letter]["MAIL:from"] = sender
        change[counter]["letters"] = change.int(counter, "letters") + 1

    for _ in range(LETTERS):
        store.change(file)
    store.close()


def main() -> None:
    with bestore.open() as store:
        store.make_index("MAIL:from", bestore.STRING)
        counter = store.new_node()
        store.set(counter, "letters", 0)
        threads = [threading.Thread(target=file_letters, args=(store.another(), counter, sender)) for sender in ("ann", "bob")]
        for thread in threads:
            thread.start()
        for thread in threads:
            thread.join()
        with store.pin() as version:
            print(version[counter]["letters"], version.count("MAIL:from==ann"), version.count("MAIL:from==bob"))


if __name__ == "__main__":
    main()
