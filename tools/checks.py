#!/usr/bin/env python3
"""The check, the program's report and the C call, by documents 01 and 02 and apart from the Rattle code.

check(constraint, answer, values_length, verdicts_length, results_length) gives the Checked that a check answers
which is lent tables of these lengths, or its Refusal. report(constraint, answer) gives the program's text, and
code(constraint, answer) the number of the C call. `--self-test` checks the document's own cases and edges.
"""
import sys
from collections import namedtuple

sys.dont_write_bytecode = True  # no __pycache__ in the repository
import answers
from answers import SET, WHOLE, Refusal
from constraints import LINES, VARIABLES

Checked = namedtuple("Checked", "overall values verdicts results")
CODES = {"satisfied": 0, "violated": 1, "disregarded": 2}


def check(constraint, answer, values_length, verdicts_length, results_length):
    """Refused in this order: constraint file, answer, 21 for the values, for the verdicts, for the results."""
    values = answers.read(constraint, answer, values_length)
    if isinstance(values, Refusal):
        return values
    file = answers.read_constraint(constraint)
    if verdicts_length < len(file.lines):
        return Refusal(21, "verdicts", 0)
    if results_length < len(file.lines):
        return Refusal(21, "results", 0)
    verdicts = answers.all_verdicts(file, values)
    return Checked(answers.overall(verdicts), values, verdicts, answers.all_results(file, values))


def check_roomy(constraint, answer):
    """The check with tables for every file within the limits, as the program and the C call have them."""
    return check(constraint, answer, VARIABLES, LINES, LINES)


def outcome(found):
    """What a check answers, as one line."""
    if isinstance(found, Refusal):
        return "refused {} {} {}\n".format(*found)
    return found.overall + "\n"


def counts(verdicts):
    """How many lines there are, and how many of each verdict."""
    held, violated, disregarded = map(verdicts.count, (1, 0, 2))
    return f"lines {len(verdicts)} held {held} violated {violated} disregarded {disregarded}\n"


def report(constraint, answer):
    found = check_roomy(constraint, answer)
    return outcome(found) if isinstance(found, Refusal) else outcome(found) + counts(found.verdicts)


def code(constraint, answer):
    found = check_roomy(constraint, answer)
    if isinstance(found, Refusal):
        return 100 + found.number
    return CODES[found.overall.split()[0]]


# 01's case whole and its variants, then edges: the report and the number that two files get.

DIVIDED = b"v 1.0\nd a:i8 b:i8\np /= a a\n#\nc a /u a b\n\np /= b b\nc b %s a b\np = a a"
REPORTED = [
    ("violated 1\nlines 1 held 0 violated 1 disregarded 0\n", 1, WHOLE, SET % 1118061216),
    ("satisfied\nlines 1 held 1 violated 0 disregarded 0\n", 0, WHOLE, SET % 1117799076),
    ("refused 15 constraint 32\n", 115, WHOLE.replace(b"i32", b"i31"), SET % 1118061216),
    ("refused 17 answer 2\n", 117, WHOLE, b"s UNKNOWN\n"),
    ("refused 4 constraint 0\n", 104, b"", b""),
    ("refused 4 answer 0\n", 104, WHOLE, b""),
    ("satisfied\nlines 0 held 0 violated 0 disregarded 0\n", 0, b"v 1.0\ne 0\n", b"s SATISFIABLE"),
    ("disregarded 2\nlines 5 held 1 violated 2 disregarded 2\n", 2, DIVIDED, b"s SATISFIABLE\nv a=1 b=0"),
    ("violated 1\nlines 5 held 2 violated 3 disregarded 0\n", 1, DIVIDED, b"s SATISFIABLE\nv a=0 b=1"),
]


def self_test():
    for text, number, constraint, answer in REPORTED:
        assert report(constraint, answer) == text, (constraint, answer, report(constraint, answer))
        assert code(constraint, answer) == number, (constraint, answer, code(constraint, answer))
    violated = Checked("violated 1", [17056, 17060, 1118061216], [0], [1117799076])
    assert check(WHOLE, SET % 1118061216, 3, 1, 1) == violated
    assert check(WHOLE, SET % 1118061216, 2, 0, 0) == (21, "values", 0)
    assert check(WHOLE, SET % 1118061216, 3, 0, 0) == (21, "verdicts", 0)
    assert check(WHOLE, SET % 1118061216, 3, 1, 0) == (21, "results", 0)
    assert check(WHOLE, b"s UNKNOWN\n", 0, 0, 0) == (17, "answer", 2)
    divided = Checked("disregarded 2", [7, 0], [0, 2, 0, 2, 1], [0, 0, 0, 0, 1])
    assert check(DIVIDED, b"s SATISFIABLE\nv a=7 b=0", 2, 5, 5) == divided
    divided = Checked("violated 1", [7, 3], [0, 0, 0, 0, 1], [0, 2, 0, 255, 1])
    assert check(DIVIDED.replace(b"%s a", b"- 2:i8"), b"s SATISFIABLE\nv a=7 b=3", 2, 6, 9) == divided


if __name__ == "__main__":
    if sys.argv[1:] != ["--self-test"]:
        sys.exit(f"usage: {sys.argv[0]} --self-test")
    self_test()
    print(f"{len(REPORTED)} reports are as expected")
