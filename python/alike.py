"""Checks that random batches have the same outcomes in the library and in `bestore run`.

    python3 alike.py PROGRAM [LISTS [SEED]]

PROGRAM is crates/bestore/out/bestore. Each list consists of a batch of 1 to 6 operations, a query, and commands that show the
store's contents. The journals have to be identical too, and `bestore check` has to accept the library's. If anything differs,
alike.py prints the difference and the script's file, and exits with status 1.
"""

import os
import random
import subprocess
import sys
import tempfile

import bestore

KINDS = {bestore.STRING: "CSTR", bestore.INT32: "LONG", bestore.INT64: "LLNG", bestore.MIME: "MIMS", bestore.RAW: "RAWT",
         bestore.UINT32: "ULNG", bestore.UINT64: "ULLG"}
NAMES = ["a", "b", "size", "MAIL:from", "hé"]
LISTS_A_SCRIPT = 500


def value_of(chance, kind):
    """Returns a random value of this kind, and its form in a script."""
    if kind in (bestore.STRING, bestore.MIME):
        text = chance.choice(["", "ann", "Ann B", "x" * 255, "é"])
        return text, f'"{text}"'
    if kind == bestore.RAW:
        raw = bytes(chance.randrange(256) for _ in range(chance.randrange(4)))
        return raw, raw.hex() or '""'
    bits = 32 if kind in (bestore.INT32, bestore.UINT32) else 64
    low = -(2 ** (bits - 1)) if kind in (bestore.INT32, bestore.INT64) else 0
    number = chance.choice([low, low + 2**bits - 1, chance.randrange(10)])
    return number, str(number)


def written(value):
    """Formats a value as a reply shows it after the kind."""
    if isinstance(value, str):
        return f'"{value}"'
    if isinstance(value, bytes):
        return f'"{value.hex()}"'
    return str(value)


def add(chance, batch, nodes):
    """Adds a random operation to the batch, and returns its line in a script."""
    node, name, kind = chance.randrange(1, nodes + 3), chance.choice(NAMES), chance.choice(list(KINDS))
    what = chance.randrange(12)
    if what < 3:
        batch.new_node()
        return "new"
    if what == 3:
        batch.remove_node(node)
        return f"drop {node}"
    if what < 9:
        value, text = value_of(chance, kind)
        batch.set(node, name, value, kind)
        return f"set {node} {name} {KINDS[kind]} {text}"
    if what == 9:
        batch.unset(node, name)
        return f"unset {node} {name}"
    if what == 10:
        batch.make_index(name, kind)
        return f"mkindex {name} {KINDS[kind]}"
    batch.remove_index(name)
    return f"rmindex {name}"


def refused(error):
    """Returns the part of a script's error reply that the library also reports."""
    return f"refused {error.number}"


def one_list(chance, store, nodes):
    """Returns a list's lines and the library's replies."""
    batch, lines, replies = bestore.Batch(), ["begin"], ["ok"]
    for _ in range(chance.randrange(1, 7)):
        lines.append(add(chance, batch, nodes))
        replies.append("queued")
    lines.append("commit")
    try:
        number, made = store.apply(batch)
        replies.append(f"commit {number}")
        replies += [f"node {node}" if node else "ok" for node in made]
        nodes = max([nodes] + made)
    except bestore.Refusal as error:
        replies.append(refused(error))
    query = f"{chance.choice(NAMES)}{chance.choice(['==', '<', '>=', '!='])}{chance.choice(['5', 'ann', '-1'])}"
    lines.append(f"query {query}")
    with store.pin() as version:
        try:
            replies.append(" ".join(["nodes"] + [str(node) for node in version.query(query)]))
        except bestore.Refusal as error:
            replies.append(refused(error))
        lines.append("indices")
        indices = version.indices()
        replies.append(f"indices {len(indices)}")
        replies += [f'"{name}" {KINDS[kind]}' for name, kind in indices.items()]
        node = chance.randrange(1, nodes + 2)
        lines.append(f"attrs {node}")
        try:
            attributes = version.attributes(node, kinds=True)
            replies.append(f"attrs {len(attributes)}")
            replies += [f'"{name}" {KINDS[kind]} {written(value)}' for name, (value, kind) in attributes.items()]
        except bestore.Refusal as error:
            replies.append(refused(error))
    return lines, replies, nodes


def script(chance, count):
    """Runs this many lists on a new store, and returns their lines, their replies and the store's journal."""
    lines, replies, nodes = [], [], 0
    with bestore.open(1024, 1, 1000000) as store:
        for _ in range(count):
            more, answers, nodes = one_list(chance, store, nodes)
            lines += more
            replies += answers
        return lines, replies, store.journal()


def agrees(reply, said):
    """Compares replies. For errors, compares only the numbers."""
    return (said + " ").startswith(reply + " ") if reply.startswith("refused ") else reply == said


def told(program, *words):
    """Returns what the program prints, including its errors."""
    return subprocess.run([program, *words], stdout=subprocess.PIPE, stderr=subprocess.STDOUT, check=False).stdout.decode()


def file_of(text):
    """Creates a file with this text."""
    with tempfile.NamedTemporaryFile("w", encoding="utf-8", newline="", delete=False) as file:
        file.write(text)
    return file.name


def compare(program, lines, replies, journal):
    """Runs the script, and returns what is wrong, or None."""
    name, checked = file_of("\n".join(lines) + "\n"), file_of(journal)
    said, _, rest = told(program, "run", "--journal", name).rpartition("\njournal ")
    said = said.splitlines()
    for place, (reply, answer) in enumerate(zip(replies, said)):
        if not agrees(reply, answer):
            return f"{name}: reply {place + 1} is {answer!r}, and over the library {reply!r}"
    if len(replies) != len(said):
        return f"{name}: {len(said)} replies, and over the library {len(replies)}"
    if rest != f"{len(journal.splitlines())}\n{journal}replay ok\n":
        return f"{name}: its journal differs from the library's, {checked}"
    if told(program, "check", checked) != f"replay ok\nbestore: entries read: {len(journal.splitlines())}\n":
        return f"{checked}: `bestore check` finds the library's journal wrong"
    os.unlink(name)
    os.unlink(checked)
    return None


def main(program, count=10000, seed=1):
    chance, done = random.Random(seed), 0
    while done < count:
        size = min(LISTS_A_SCRIPT, count - done)
        wrong = compare(program, *script(chance, size))
        if wrong:
            print(wrong)
            return 1
        done += size
    print(f"{done} lists alike")
    return 0


if __name__ == "__main__":
    sys.exit(main(sys.argv[1], *[int(word) for word in sys.argv[2:4]]))
