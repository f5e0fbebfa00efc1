#!/usr/bin/env python3
"""The clean spelling of a constraint file, by document 02's C-11 and apart from the Rattle code.

clean(constraint, room) gives the bytes that the cleaner puts into a lent room of that length, or the
Refusal. meaning(file) is what two files must share to have one clean spelling. `--self-test` checks the
request's sentences and edges.
"""
import sys

sys.dont_write_bytecode = True  # no __pycache__ in the repository
from answers import WHOLE, Refusal, read_constraint
from constraints import Variable


def operand_text(operand):
    """A variable's name, or a constant with the value that it is reduced to."""
    if isinstance(operand, Variable):
        return operand.name
    return b"%d:i%d" % (operand.value, operand.width)


def line_text(line):
    start = [b"p"] if line.output is None else [b"c", operand_text(line.output)]
    return b" ".join([*start, line.operator.encode(), *map(operand_text, line.operands)])


def lines(file):
    """The lines of the clean text, in its order."""
    yield b"v %d.%d" % file.edition
    if file.expectation is not None:
        yield b"e %d" % file.expectation
    if file.variables:
        yield b"d" + b"".join(b" %s:i%d" % pair for pair in file.variables.items())
    yield from map(line_text, file.lines)


def clean(constraint, room):
    file = read_constraint(constraint)
    if isinstance(file, Refusal):
        return file
    text = b"\n".join(lines(file))
    return text if len(text) <= room else Refusal(21, "output", 0)


def meaning(file):
    """The edition, `e`, the variables with widths in order, and the lines with constants reduced."""
    said = [(line.output, line.operator, *line.operands) for line in file.lines]
    return file.edition, file.expectation, tuple(file.variables.items()), tuple(said)


# Files with their clean texts.

CLEANED = [
    ("v 1.0", "v 1.0"),
    ("\n# map\nv\t0001.00 \n \t\n", "v 1.0"),
    ("e 0\nv 1.0\n", "v 1.0\ne 0"),
    ("d b:i8\ne \t1\nd\ta:i1  c:i64 \n\nv 1.0\n", "v 1.0\ne 1\nd b:i8 a:i1 c:i64"),
    ("v 1.0\nd a:i8\nc  a + 300:i8\t000:i8 \n#\np = a 256:i8", "v 1.0\nd a:i8\nc a + 44:i8 0:i8\np = a 0:i8"),
    ("v 1.0\nc 7:i3 extr 22:i8 0256:i8 259:i8\n", "v 1.0\nc 7:i3 extr 22:i8 0:i8 3:i8"),
    ("v 1.0\nc 03:i1 ~ 18446744073709551615:i1\n", "v 1.0\nc 1:i1 ~ 1:i1"),
    ("v 1.0\nc 00:i64 ~ 18446744073709551615:i64\n", "v 1.0\nc 0:i64 ~ 18446744073709551615:i64"),
    ("v 1.0\nc 00000000000000000000:i8 ~ 00000000000000000009:i8\n", "v 1.0\nc 0:i8 ~ 9:i8"),
]


def self_test():
    assert clean(WHOLE, len(WHOLE)) == WHOLE.removesuffix(b"\n")
    for text, cleaned in CLEANED:
        found, length = cleaned.encode(), len(cleaned)
        assert clean(text.encode(), length) == found, (text, clean(text.encode(), length))
        assert clean(found, length + 1) == found
        assert clean(text.encode(), length - 1) == (21, "output", 0)
    assert clean(b"v 1.0\nx\n", 0) == (3, "constraint", 6)
    first, second = (read_constraint(b"v 1.0\nd " + order) for order in (b"a:i8 b:i8", b"b:i8 a:i8"))
    assert first == second and meaning(first) != meaning(second)  # a dictionary's equality has no order


if __name__ == "__main__":
    if sys.argv[1:] != ["--self-test"]:
        sys.exit(f"usage: {sys.argv[0]} --self-test")
    self_test()
    print(f"{len(CLEANED)} files are cleaned")
