"""Prints which letters in a server's store become unread, and which no longer are, as other programs write them.

    PYTHONPATH=python python3 examples/python/unread.py SOCKET
"""

import sys

import bestore


def main(path: str) -> None:
    with bestore.connect(path) as store:
        with store.watch("MAIL:status==New") as unread:
            for came, went in unread:
                print("came", came, "went", went, flush=True)


if __name__ == "__main__":
    main(sys.argv[1])
