#!/usr/bin/env python3
"""Prints a manual page, made from the comments in include/bestore*.h.

usage: python3 manual.py >../docs/bestore.3
       python3 manual.py client >../docs/bestore_client.3
"""

import os
import re
import sys

HERE = os.path.dirname(os.path.abspath(__file__))
COMMENT = r"^/\* ((?:[^*]|\*(?!/))*)\*/\n"
NAME = r"(?:be[sc]|BE[SC])_\w+"

HEAD = """\
.\\" Made from include/bestore.h, bestore_types.h, bestore_batch.h, bestore_helpers.h and bestore_text.h by c/manual.py.
.Dd November 27, 2026
.Dt BESTORE 3
.Os
.Sh NAME
.Nm bestore
.Nd a shared attribute store in memory, for C and C++
.Sh SYNOPSIS
.In bestore.h
.In bestore.hpp
"""

CLIENT_HEAD = """\
.\\" Made from include/bestore_client.h and bestore_client_helpers.h by c/manual.py.
.Dd December 1, 2026
.Dt BESTORE_CLIENT 3
.Os
.Sh NAME
.Nm bestore_client
.Nd the client of bestored, for C and C++
.Sh SYNOPSIS
.In bestore_client.h
.In bestore_client.hpp
"""

CPP = """\
.Sh C++
.In bestore.hpp
has the same calls for C++17.
.Vt bestore::Store , Pass , Pin , Prepared , Live
and
.Vt Witness
close themselves; they can be moved and not copied.
A call throws a
.Vt bestore::Refusal
if the call of C returns an error.
.Vt Batch
and
.Vt Predicate
are filled by calls in a chain; those of a predicate have the names that
.Vt BQuery
gave them.
.Fn Pass::change
reads and writes as one, as
.Fn bes_change
does.
"""


CLIENT_CPP = """\
.Sh C++
.In bestore_client.hpp
has the same calls for C++17.
A
.Vt bestore::Client
is used as a
.Vt Store
of
.In bestore.hpp
is, and shares its nodes, values, batches, predicates and exceptions.
"""


def read(*path):
    """Reads a file, and drops the marks around what surface.toml writes. Comments as cbindgen writes them get the others' form."""
    with open(os.path.join(HERE, "..", *path), encoding="utf-8") as file:
        text = re.sub(r"^ *(?:/\*|//) surface\.toml: .*\n", "", file.read(), flags=re.MULTILINE)
    text = re.sub(r"^( +)/\*\*\n +\* ([^/]*?)\n +\*/$", r"\1/* \2 */", text, flags=re.MULTILINE)
    return re.sub(r"^/\*\*\n \* ", "/* ", text, flags=re.MULTILINE)


HEADER = read("include", "bestore.h")
CLIENT = read("include", "bestore_client.h")
VALUES = read("include", "bestore_types.h")
HELPERS = [(title, read("include", f"bestore_{name}.h"))
           for title, name in (("BATCHES", "batch"), ("HELPERS", "helpers"), ("TEXTS", "text"))]
CLIENT_HELPERS = read("include", "bestore_client_helpers.h")
ALL = HEADER + CLIENT + VALUES + CLIENT_HELPERS + "".join(text for _, text in HELPERS)
RETURNS = r"((?:const )?\w+ \*?)"


def plain(line):
    """Escapes a line of text, so that it isn't read as a macro."""
    line = line.replace("\\", "\\e")
    return "\\&" + line if line.startswith((".", "'")) else line


def macro(name):
    """Returns the macro that marks a name."""
    if name.isupper():
        return "Dv"
    return "Fn" if f" {name}(" in ALL or f"*{name}(" in ALL else "Vt"


def marked(text):
    """Puts each sentence and each name from the headers on its own line."""
    lines = []
    for part in re.split(rf"((?:^|(?<= ))\(?{NAME}[.,:;)]*(?= |$))", text):
        name = re.fullmatch(rf"(\(?)({NAME})([.,:;)]*)", part)
        if name:
            lines.append(" ".join([f".{macro(name[2])}", *name[1], name[2], *name[3]]))
        elif part.strip():
            lines += [plain(sentence) for sentence in re.split(r"(?<=[.:]) (?=[A-Z])", part.strip())]
    return "\n".join(lines) + "\n"


def paragraphs(text):
    """Splits a comment into paragraphs. One begins at a blank line, a line's first error, a parameter, or a word with a colon."""
    return re.split(r"\n\n|\n(?=BE[SC]_\w+(?:,|:|\.| \()|\[(?:in|out|in,out)\] |(?:Cost|Threads): |Returns )", text, flags=re.MULTILINE)


def described(comment):
    """Formats a comment's paragraphs, with its parameters as a list."""
    text = re.sub(r"^ \*(?: |$)", "", comment.strip(), flags=re.MULTILINE)
    page, in_list = "", False
    for part in paragraphs(text):
        words = " ".join(part.split())
        parameter = re.fullmatch(r"\[([a-z,]+)\] ((?:\w+, )*\w+) (.*)", words)
        if bool(parameter) != in_list:
            page += ".Bl -tag -width indent -compact\n" if parameter else ".El\n"
            in_list = bool(parameter)
        elif page and not parameter:
            page += ".Pp\n"
        page += f".It {parameter[1]} Fa {parameter[2].replace(', ', ' , ')}\n{marked(parameter[3])}" if parameter else marked(words)
    return page + (".El\n" if in_list else "")


def prototype(kind, name, arguments):
    fields = "".join(f'.Fa "{" ".join(field.split())}"\n' for field in arguments.split(","))
    return f".Ft {kind.strip()}\n.Fo {name}\n{fields}.Fc\n"


def literal(text):
    lines = "\n".join(plain(line) for line in text.strip("\n").split("\n"))
    return f".Bd -literal\n{lines}\n.Ed\n.Pp\n"


def between(text, begin, end):
    """Returns the part of a header from one text to the last occurrence of another."""
    return text[text.index(begin):text.rindex(end)]


def description(header):
    """Formats a header's introduction, with its words in capitals as headings."""
    text = described(re.match(COMMENT, header)[1].replace("bestore: a", "A", 1).replace("bestore's client: calls", "Calls", 1))
    titled = re.sub(r"^\.Pp\n([A-Z]{2,})\.\n", lambda word: f".Ss {word[1].capitalize()}\n", text, flags=re.MULTILINE)
    return ".Sh DESCRIPTION\n" + titled


def calls(header):
    listed = re.findall(COMMENT + RETURNS + r"(\w+)\(", header, re.MULTILINE)
    told = "".join(f".It Fn {name}\n{described(comment)}" for comment, _, name in listed)
    return f".Sh CALLS\n.Bl -tag -width indent\n{told}.El\n"


def types(text):
    parts = re.split(COMMENT, text, flags=re.MULTILINE)[1:]
    return ".Sh TYPES\n" + "".join(described(comment) + literal(code) for comment, code in zip(parts[::2], parts[1::2]))


def helpers(title, header):
    """Formats a header's functions: its introduction, their prototypes, and each function with a comment. Names that end with _
    are left out."""
    listed = re.findall(r"^(?:static inline )?((?!typedef)\w[\w ]* \*?\w+\([^{;]*\))(?:;|\n\{)", header, re.MULTILINE)
    lines = "".join(re.sub(r"\n +", "\n    ", it) + ";\n" for it in listed if "_(" not in it)
    begin = r"(?:(?:static inline )?[\w ]*\w |typedef (?:struct|uint32_t) )\*?"
    commented = re.findall(COMMENT + begin + r"(\w+)(?:\(| \{)", header, re.MULTILINE)
    told = "".join(f".It {macro(name)} {name}\n{described(words)}" for words, name in commented if not name.endswith("_"))
    said = described(re.match(COMMENT, header)[1])
    return f".Sh {title}\n{said}{literal(lines)}.Bl -tag -width indent\n{told}.El\n"


def errors(listed, others=""):
    """Formats the errors, each a name and its meaning."""
    told = "".join(f".It Dv {name}\n{plain(re.sub(chr(10) + ' +[*] ', ' ', meaning.strip()))}\n" for name, meaning in listed)
    return f".Sh RETURN VALUES\n.Dv BES_OK ,\n{others}or an error:\n.Bl -tag -width indent -compact\n{told}.El\n"


def see_also(*pages):
    return ".Sh SEE ALSO\n" + " ,\n".join(f".Xr {page}" for page in pages) + "\n"


def page_of(head, header, *parts):
    """Puts a page together: its head, the header's prototypes, introduction and calls, and the other parts."""
    prototypes = re.findall(rf"^{RETURNS}(\w+)\(([^;]*)\);", header, re.MULTILINE)
    page = "".join([head, *(prototype(*it) for it in prototypes), description(header), calls(header), *parts])
    return re.sub(r"\.Pp\n(?=\.(?:Sh|Bl|Bd))", "", page)


def manual():
    numbered = between(VALUES, "/* What calls return", "/* The kinds of values")
    listed = re.findall(r"^    (BES_\w+) = \d+,? +/\* (.*?) \*/$", numbered, re.MULTILINE | re.DOTALL)
    examples = ".Sh EXAMPLES\n" + literal(read("examples", "c", "first.c")) + literal(read("examples", "c", "counter.c"))
    return page_of(
        HEAD, HEADER, types(between(VALUES, "/* The kinds of values", "#endif")), *(helpers(*it) for it in HELPERS), CPP, errors(listed),
        examples, see_also("bestore 1", "bestore_client 3", "bestore-script 5", "bestore-query 7"))


def client_manual():
    listed = re.findall(COMMENT + r"#define (BEC_\w+) 2\d\d$", CLIENT, re.MULTILINE)
    return page_of(
        CLIENT_HEAD, CLIENT, types(between(CLIENT[:CLIENT.index("#ifdef")], "/* Options for bec_connect", "\n")), helpers("HELPERS", CLIENT_HELPERS), CLIENT_CPP,
        errors([(name, meaning) for meaning, name in listed], "an error of\n.Xr bestore 3 ,\n"),
        see_also("bestored 1", "bestore 3", "bestore-query 7"))


if __name__ == "__main__":
    sys.stdout.write(client_manual() if sys.argv[1:] == ["client"] else manual())
