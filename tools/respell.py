#!/usr/bin/env python3
"""Brings the names of this repository's definitions and lemmas to snake case, after /opt/rattle/port/port.py, once.

usage: python3 tools/respell.py [ROOT]

tools/respell.tsv has each old name and the new one. A lemma that would have a definition's name gets `_lem`.
Turned: crates/*/{specs,proofs,src,must-fail} and, between backquotes, README.md and docs/. Paths of modules stay.
Functions of src/, strings, inputs and outputs have no such names.
"""

import os
import re
import sys

HERE = os.path.dirname(os.path.realpath(__file__))
TOKEN = re.compile(r"[^\s(){}.,;\[\]\"«»|`]+")
USE = re.compile(r"^(\s*(?:ghost )?use [\w.+\-·']+?)(\.\{.*|\.[^.{}]+;?$|;?$)")
CAMEL = re.compile(r"(?<![A-Za-z_])[a-z][a-z0-9]*[A-Z]\w*")
# lemmas that would have the name of a definition, in the one file that has them
LEMMAS = {
    "crates/printing/proofs/DecimalLaws.antt": ["is_digit"],
    "crates/spear/proofs/RefusalFitsLaws.antt": ["numbers_fit"],
    "crates/index/proofs/OwnIndexLaws.antt": ["starts_fit"],
    "crates/writer/proofs/PrintedTokens.antt": ["value_in"],
}


def respelt(text, names):
    return TOKEN.sub(lambda m: names.get(m.group(0), m.group(0)), text)


def line_respelt(line, names):
    use = USE.match(line)
    if use:
        return use.group(1) + respelt(use.group(2), names) + line[use.end() :]
    return respelt(line, names)


def turned(path, root, names):
    with open(path, encoding="utf-8", newline="") as f:
        text = f.read()
    own = {n: n + "_lem" for n in LEMMAS.get(os.path.relpath(path, root), [])}
    if path.endswith(".md"):
        new = re.sub(r"`[^`\n]+`", lambda m: respelt(m.group(0), names), text)
    else:
        if own:
            text = "".join(line_respelt(l, own) for l in text.splitlines(keepends=True))
        new = "".join(line_respelt(l, names) for l in text.splitlines(keepends=True))
    # edits still have the words that port.py turned elsewhere
    if path.endswith(".edit"):
        new = CAMEL.sub(lambda m: re.sub(r"(?<=[a-z0-9])[A-Z]", lambda c: "_" + c.group(0).lower(), m.group(0)), new)
    # a proof has the name of its function
    if path.endswith("/Proof.antt"):
        name = os.path.basename(os.path.dirname(path))
        for old in {name.replace("_", "-"), name}:
            new = re.sub(r"(?<![^\s])" + re.escape(old) + r"-spec(?![^\s])", name + "_spec", new)
    return new


def main(root):
    with open(os.path.join(HERE, "respell.tsv"), encoding="utf-8") as f:
        names = dict(l.rstrip("\n").split("\t") for l in f)
    files = [os.path.join(root, "README.md")]
    for folder, dirs, found in os.walk(os.path.join(root, "docs")):
        files += [os.path.join(folder, f) for f in found if f.endswith(".md") and f != "PORT.md"]
    for folder, dirs, found in os.walk(os.path.join(root, "crates")):
        dirs[:] = sorted(d for d in dirs if d != "out")
        files += [os.path.join(folder, f) for f in sorted(found) if f.endswith((".antt", ".rt", ".edit"))]
    for path in files:
        new = turned(path, root, names)
        with open(path, "w", encoding="utf-8", newline="") as f:
            f.write(new)


if __name__ == "__main__":
    main(os.path.abspath(sys.argv[1] if len(sys.argv) > 1 else "."))
