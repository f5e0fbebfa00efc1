#!/usr/bin/env python3
"""Writes constraint files about as long as a file may be to FOLDER/data, their names to FOLDER/args, and what
loading_cases prints of them to FOLDER/stdout: how many bytes are read, and what checks.py reports on an answer
that sets nothing. Every run writes the same.

usage: python3 tools/loading_cases.py FOLDER

One name is of no file, and one argument more is asked for than there are: both count as empty.
"""
import sys
from pathlib import Path

sys.dont_write_bytecode = True  # no __pycache__ in the repository
import checks

MOST = 65536  # the bytes of a file, at most
ROOM = MOST + 1  # the bytes that are read, at most
LONG = 70000

ANSWER = b"s SATISFIABLE\n"
HEAD = b"v 1.0\n"
LINE = b"\np = 1:i8 1:i8"
COMMENT = b"#" * 63 + b"\n"


def full():
    """A file as long as one may be, whose last bytes are its one line."""
    comments = MOST - len(HEAD) - len(LINE)
    return HEAD + (COMMENT * MOST)[: comments - 1] + b"#" + LINE


def files():
    """The arguments: a name and the file's bytes, or None where there is no file. What is behind the most bytes is blank."""
    longest = full()
    return [
        ("full.spear", longest),
        ("over.spear", longest + b"\n"),
        ("long.spear", longest.ljust(LONG, b"\n")),
        ("absent.spear", None),
        ("empty.spear", b""),
    ]


def printed(file):
    read = (file or b"")[:ROOM]
    return f"bytes {len(read)}\n{checks.report(read, ANSWER)}"


def main(folder):
    checks.self_test()
    every = files()
    assert [len(file) for _, file in every[:3]] == [MOST, ROOM, LONG]
    Path(folder, "data").mkdir(exist_ok=True)
    for name, file in every:
        if file is not None:
            Path(folder, "data", name).write_bytes(file)
    Path(folder, "args").write_text("".join(f"{name}\n" for name, _ in every))
    Path(folder, "stdout").write_text("".join(printed(file) for _, file in every) + printed(None))
    print(f"{len(every)} arguments, and one that is not there")


if __name__ == "__main__":
    if len(sys.argv) != 2:
        sys.exit(__doc__)
    main(sys.argv[1])
