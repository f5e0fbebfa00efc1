#!/usr/bin/env python3
"""The index of a constraint file and the test of any index, by documents 01 and 02 and apart from the Rattle code.

own(file) gives a file's own Index. index(constraint, starts, lists) gives the Indexed that the building of an
index answers which is lent these two tables, or its Refusal; accepted, it overwrites the tables in place.
misfit(file, starts, lists) gives the Refusal of an index that doesn't fit the file, or None.
`--self-test` checks them on cases worked out by hand.
"""
import sys
from collections import namedtuple
from itertools import accumulate, pairwise

sys.dont_write_bytecode = True  # no __pycache__ in the repository
import answers
import checks
from answers import Refusal
from constraints import Variable

Index = namedtuple("Index", "starts lists")
Indexed = namedtuple("Indexed", "lines")


# The file's own.


def named_by(line):
    """The names of the variables that a line has as its output or an operand."""
    return {token.name for token in (line.output, *line.operands) if isinstance(token, Variable)}


def own(file):
    """Walks through the lines, and puts each into the lists of the variables that it names."""
    lists = {name: [] for name in file.variables}
    for number, line in enumerate(file.lines, 1):
        for name in named_by(line):
            lists[name].append(number)
    return joined(lists.values())


def joined(lists, front=()):
    """The index of these lists, one behind the other, with other numbers in front of the first."""
    starts = list(accumulate(map(len, lists), initial=len(front)))
    return Index(starts, [*front, *(number for numbers in lists for number in numbers)])


def index(constraint, starts, lists):
    """Refused in this order: constraint file, 21 for the starts, 21 for the lists."""
    file = answers.read_constraint(constraint)
    if isinstance(file, Refusal):
        return file
    built = own(file)
    if len(starts) < len(built.starts):
        return Refusal(21, "starts", 0)
    if len(lists) < len(built.lists):
        return Refusal(21, "lists", 0)
    starts[: len(built.starts)] = built.starts
    lists[: len(built.lists)] = built.lists
    return Indexed(len(built.lists))


def outcome(found):
    """What the building of an index answers, as one line."""
    if isinstance(found, Refusal):
        return checks.outcome(found)
    return f"indexed {found.lines}\n"


# Any other.


def listed(starts, lists, variable):
    """The list of the variable."""
    return lists[starts[variable] : starts[variable + 1]]


def is_sound(numbers, count):
    """Whether a list has line numbers of so many lines only, and each is above the one before it."""
    return all(number in range(1, count + 1) for number in numbers) and all(a < b for a, b in pairwise(numbers))


def misfit(file, starts, lists):
    used = starts[: len(file.variables) + 1]
    if len(used) <= len(file.variables) or used != sorted(used) or used[-1] > len(lists):
        return Refusal(25, "starts", 0)
    parts = [listed(starts, lists, variable) for variable in range(len(file.variables))]
    if not all(is_sound(numbers, len(file.lines)) for numbers in parts):
        return Refusal(25, "lists", 0)
    return None


# Cases worked out by hand: files with the starts and the lists of their own index, then what of an index of
# FILE is at fault.

FILE = b"v 1.0\nd a:i8 b:i8 c:i8\nc a + b c\np ule a b\np = a a\n"
OWN = [
    (b"v 1.0", [0], []),
    (b"v 1.0\np = 0:i8 0:i8", [0], []),
    (b"v 1.0\nd a:i8 b:i8", [0, 0, 0], []),
    (FILE, [0, 3, 5, 6], [1, 2, 3, 1, 2, 1]),
    (b"v 1.0\nd t:i1 u:i8 w:i1\nc t ite t t w\np ~ w\nc t ite t t t\n", [0, 2, 2, 4], [1, 3, 1, 2]),
    (b"v 1.0\nd d:i1 c:i1 b:i1 a:i1\nc a ite b c d\np ~ d\nc 0:i1 & d a\n", [0, 3, 4, 5, 7], [1, 2, 3, 1, 1, 1, 3]),
]
FITTING = [
    ([0, 3, 5, 6], [1, 2, 3, 1, 2, 1]),
    ([0, 3, 5, 6, 0, 99], [1, 2, 3, 1, 2, 1, 0, 99]),
    ([0, 0, 0, 0], []),
    ([2, 2, 3, 3], [0, 99, 3]),
    ([1, 2, 4, 7], [9, 3, 2, 3, 1, 2, 3]),
]
MISFITS = [
    ("starts", [], []),
    ("starts", [0, 3, 5], [1, 2, 3, 1, 2, 1]),
    ("starts", [0, 3, 2, 6], [1, 2, 3, 1, 2, 1]),
    ("starts", [1, 0, 5, 6], [1, 2, 3, 1, 2, 1]),
    ("starts", [0, 3, 5, 4], [1, 2, 3, 1, 2, 1]),
    ("starts", [0, 3, 5, 6], [1, 2, 3, 1, 2]),
    ("starts", [7, 7, 7, 7], [1, 2, 3, 1, 2, 1]),
    ("starts", [0, 3, 2, 6], [0, 0, 0, 0, 0, 0]),
    ("lists", [0, 3, 5, 6], [0, 2, 3, 1, 2, 1]),
    ("lists", [0, 3, 5, 6], [1, 2, 3, 1, 2, 0]),
    ("lists", [0, 3, 5, 6], [1, 2, 4, 1, 2, 1]),
    ("lists", [0, 3, 5, 6], [1, 2, 3, 1, 2, 4]),
    ("lists", [0, 3, 5, 6], [1, 1, 3, 1, 2, 1]),
    ("lists", [0, 3, 5, 6], [1, 2, 3, 2, 1, 1]),
    ("lists", [1, 2, 4, 6], [9, 3, 3, 3, 1, 2]),
]


def built(constraint, starts, lists):
    """What the building into tables of these lengths answers, with both tables after it."""
    tables = [77] * starts, [88] * lists
    return index(constraint, *tables), *tables


def self_test():
    for constraint, starts, lists in OWN:
        counts = len(starts), len(lists)
        assert built(constraint, *counts) == ((len(lists),), starts, lists), (constraint, built(constraint, *counts))
        wanted = (len(lists),), [*starts, 77, 77], [*lists, 88]
        assert built(constraint, len(starts) + 2, len(lists) + 1) == wanted, constraint
        assert built(constraint, len(starts) - 1, 0) == ((21, "starts", 0), [77] * (len(starts) - 1), [])
        assert misfit(answers.read_constraint(constraint), starts, lists) is None, constraint
    assert built(FILE, 5, 5) == ((21, "lists", 0), [77] * 5, [88] * 5)
    assert built(b"", 0, 0) == ((4, "constraint", 0), [], [])
    file = answers.read_constraint(FILE)
    for tables in FITTING:
        assert misfit(file, *tables) is None, tables
    for subject, *tables in MISFITS:
        assert misfit(file, *tables) == (25, subject, 0), (tables, misfit(file, *tables))


if __name__ == "__main__":
    if sys.argv[1:] != ["--self-test"]:
        sys.exit(f"usage: {sys.argv[0]} --self-test")
    self_test()
    print(f"{len(OWN)} indexes are as worked out by hand, {len(FITTING)} others fit and {len(MISFITS)} don't")
