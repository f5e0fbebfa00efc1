#!/usr/bin/env python3
"""The reader and the writer of answer files, by documents 01, 02 and 003 and apart from the Rattle code.

read(constraint, answer, table_length) gives the values that the reader puts into a lent table, and
write(constraint, values, room) the bytes that the writer puts into a lent room; or both give the Refusal.
`--self-test` checks the documents' own cases and edges.
"""
import re
import sys
from collections import namedtuple
from dataclasses import dataclass, field

sys.dont_write_bytecode = True  # no __pycache__ in the repository
import constraints
import operators
from constraints import FILE_BYTES, NAME, Refused, Token, Tokens, Variable
from constraints import check_bytes, cut_lines, require, unmarked
from operators import Word

Refusal = namedtuple("Refusal", "number subject position")

SATISFIABLE = b"SATISFIABLE"
SOLUTIONS = (SATISFIABLE, b"UNSATISFIABLE", b"UNKNOWN")
ASSIGNMENT = rb"(" + NAME + rb")=([0-9]{1,20})"


@dataclass
class Answer:
    """An answer file as far as it is read."""

    solution: bytes = None
    values: dict = field(default_factory=dict)  # each name that is set, with its value


# The reader. In one token the smaller number comes first: 8, 10, 11, 13, 18, 19 of an assignment.


def read_assignment(file, answer, token):
    parts = re.fullmatch(ASSIGNMENT, token.text)
    require(parts, 8, token.position)
    name, value = parts[1], int(parts[2])
    require(value < 2**64, 10, token.position)
    variable = constraints.read_variable(file, Token(name, token.position))  # 11, then 13
    require(value < 2**variable.width, 18, token.position)
    require(name not in answer.values, 19, token.position)
    answer.values[name] = value


def read_solution(answer, token):
    require(token.text in SOLUTIONS, 16, token.position)
    require(token.text == SATISFIABLE, 17, token.position)
    answer.solution = token.text


def read_c(file, answer, tokens):
    """A comment."""


def read_s(file, answer, tokens):
    read_solution(answer, tokens.take())
    tokens.finish()


def read_v(file, answer, tokens):
    while tokens.left:
        read_assignment(file, answer, tokens.take())


KINDS = {b"c": read_c, b"s": read_s, b"v": read_v}


def is_misplaced(answer, kind):
    """Whether an `s` line is the second, or a `v` line stands before the first `s`."""
    is_solved = answer.solution is not None
    return (kind == b"s" and is_solved) or (kind == b"v" and not is_solved)


def read_line(file, answer, start, text):
    check_bytes(start, text)
    if not text.strip(b" \t"):
        return
    kind = text[:1]
    require(kind in KINDS and text[1:2] in (b"", b" ", b"\t"), 3, start)
    require(not is_misplaced(answer, kind), 4, start)
    KINDS[kind](file, answer, Tokens(start, text))


def read_lines(file, data):
    require(len(data) <= FILE_BYTES, 1, FILE_BYTES)
    answer = Answer()
    for start, text in cut_lines(data):
        read_line(file, answer, start, text)
    require(answer.solution, 4, len(data))
    require(len(answer.values) == len(file.variables), 20, len(data))
    return [answer.values[name] for name in file.variables]


def read_answer(file, data):
    """The values that an answer sets, in declaration order, or its refusal."""
    try:
        return read_lines(file, data)
    except Refused as refused:
        number, position = refused.args
        return Refusal(number, "answer", position)


def read_constraint(data):
    """The constraint file, or its refusal."""
    found = constraints.read(data)
    if isinstance(found, constraints.Refusal):
        return Refusal(found.number, "constraint", found.position)
    return found


def read(constraint, answer, table_length):
    file = read_constraint(constraint)
    if isinstance(file, Refusal):
        return file
    values = read_answer(file, answer)
    if isinstance(values, Refusal):
        return values
    return values if len(values) <= table_length else Refusal(21, "values", 0)


# Verdicts.


def word(file, operand, values):
    """What a constant or a variable stands for, under values in declaration order."""
    if isinstance(operand, Variable):
        return Word(operand.width, values[list(file.variables).index(operand.name)])
    return operand


def result(file, line, values):
    """The result of a line's operator, or None where its divisor is zero."""
    width = 1 if line.output is None else line.output.width
    found = operators.apply(line.operator, width, *(word(file, operand, values) for operand in line.operands))
    if found == "zero divisor":
        return None
    assert isinstance(found, int), (line, values, found)
    return found


def kept_result(file, line, values):
    """What a table of results has of a line: 0 where it is disregarded."""
    found = result(file, line, values)
    return 0 if found is None else found


def verdict(file, line, values):
    """1 holds, 0 violated, 2 disregarded."""
    found = result(file, line, values)
    if found is None:
        return 2
    wanted = 1 if line.output is None else word(file, line.output, values).value
    return int(found == wanted)


def all_verdicts(file, values):
    return [verdict(file, line, values) for line in file.lines]


def all_results(file, values):
    return [kept_result(file, line, values) for line in file.lines]


def overall(verdicts):
    """The overall verdict, with the number of the first line, from 1, that is disregarded or violated."""
    for byte, name in ((2, "disregarded"), (0, "violated")):
        if byte in verdicts:
            return f"{name} {verdicts.index(byte) + 1}"
    return "satisfied"


# The writer.


def spelled(file, values):
    """The answer file that sets the values."""
    text = b"s " + SATISFIABLE + b"\n"
    if file.variables:
        text += b"v" + b"".join(b" %s=%d" % pair for pair in zip(file.variables, values)) + b"\n"
    return text


def write(constraint, values, room):
    file = read_constraint(constraint)
    if isinstance(file, Refusal):
        return file
    if len(values) < len(file.variables):
        return Refusal(21, "values", 0)
    for i, (value, width) in enumerate(zip(values, file.variables.values())):
        if value >= 2**width:
            return Refusal(24, "values", i)
    if overall(all_verdicts(file, values)) != "satisfied":
        return Refusal(22, "values", 0)
    text = spelled(file, values)
    return text if len(text) <= room else Refusal(21, "output", 0)


# Lines with their verdicts and results worked out by hand, under the values of a, b, x and t.

WORKED_HEAD = "v 1.0\nd a:i8 b:i8 x:i64 t:i1\n"
WORKED_VALUES = [200, 0, 2**64 - 1, 1]
WORKED_OUT = [
    ("c a + a 1:i8", 0, 201),
    ("c 0:i8 + a 56:i8", 1, 0),
    ("c b /u a b", 2, 0),
    ("c a %s a b", 2, 0),
    ("c b /u a 201:i8", 1, 0),
    ("c b ~ b", 0, 255),
    ("c x ~ 0:i64", 1, 2**64 - 1),
    ("c 5:i64 - 0:i64 x", 0, 1),
    ("c x >>l x 1:i8", 0, 2**63 - 1),
    ("c 0:i16 conc a a", 0, 51400),
    ("c t ult b a", 1, 1),
    ("c 0:i1 ult b a", 0, 1),
    ("p ugt b a", 0, 0),
    ("p ult b a", 1, 1),
    ("p ~ t", 0, 0),
]

# 01's case whole, 003's two answers, and edges: answers that are read against HEAD, with their values, and
# those that are refused, with the number, and ¦ at the position.

WHOLE = b"v 1.0\nd hi:i16 lo:i16 r:i32\nc r conc hi lo\n"
SET = b"s SATISFIABLE\nv hi=17056 lo=17060 r=%d\n"
HEAD = b"v 1.0\nd a:i2 b:i2 c:i64\n"

READ = [
    ([1, 2, 3], "c Speedy Gonzo Theorem Prover, v 0.0001\nc\nc\ns SATISFIABLE\nv a=1 b=2 c=3\n"),
    ([3, 0, 2**64 - 1], "\ns\tSATISFIABLE \n \nv c=18446744073709551615\nv\nv b=0\ta=00000000000000000003"),
]

REFUSED = [
    (17, "c Speedy Gonzo Theorem Prover, v 0.0001\nc\nc\nc TIMEOUT\ns ¦UNKNOWN\n"),
    (2, "c¦\r\r\ns SATISFIABLE\n"),
    (3, "s SATISFIABLE\n¦# comment\n"),
    (4, "¦"),
    (4, "c\n¦v a=4\ns SATISFIABLE\n"),
    (4, "s SATISFIABLE\n¦s\n"),
    (7, "s ¦\n"),
    (7, "s SATISFIABLE ¦a=1\n"),
    (16, "s ¦Satisfiable a=1\n"),
    (8, "s SATISFIABLE\nv a=1 ¦b=000000000000000000002\n"),
    (10, "s SATISFIABLE\nv a=1 ¦a=18446744073709551616\n"),
    (11, "s SATISFIABLE\nv ¦n23456789012345678901234567890123=1\n"),
    (13, "s SATISFIABLE\nv ¦ule=4\n"),
    (18, "s SATISFIABLE\nv a=1\nv ¦a=4\n"),
    (19, "s SATISFIABLE\nv a=1\nv ¦a=1\n"),
    (20, "s SATISFIABLE\nv a=1 c=3\n¦"),
]

# The same with CRs: one directly before an LF belongs to the line's end, and any other is refused.

READ_WITH_CRS = [
    ([1, 2, 3], "c\r\ns SATISFIABLE\r\nv a=1 b=2 c=3\r\n"),
    ([1, 2, 3], "c from an office\r\n\r\nc\ns SATISFIABLE \r\n \t\r\nv a=1\n\nv\r\nv b=2\t\r\nv c=3"),
]

REFUSED_WITH_CRS = [
    (2, "s SATISFIABLE¦\r\r\n"),
    (2, "s SATISFIABLE\r\nv a=1¦\r\r\n"),
    (2, "s SATISFIABLE\r\nv a=1 b=2 c=3¦\r"),
    (2, "¦\r"),
    (2, "\r\n¦\r"),
    (2, "s ¦\rSATISFIABLE\r\n"),
    (2, "s SATIS¦\rFIABLE\r\n"),
    (2, "s¦\r SATISFIABLE\r\n"),
    (2, "s SATISFIABLE\r\nv¦\r a=1\r\n"),
    (2, "s SATISFIABLE\r\nv a=¦\r1\r\n"),
    (2, "s SATISFIABLE\r\nv a=1 ¦\rb=2\r\n"),
    (2, "s SATISFIABLE\r\nv a=1¦\r \n"),
    (2, "¦\rs SATISFIABLE\r\n"),
    (2, "c ¦\r no\r\ns SATISFIABLE\r\n"),
    (2, "c\r\n¦\r\r\n"),
    (3, "s SATISFIABLE\r\n¦#\r\n"),
    (4, "\r\nc\r\n¦"),
    (4, "c\r\n¦v\r\ns SATISFIABLE\r\n"),
    (7, "s¦\r\n"),
    (7, "c\r\ns \t¦\r\nv a=1\r\n"),
    (7, "s SATISFIABLE ¦a=1\r\n"),
    (17, "\r\ns ¦UNKNOWN\r\n"),
    (18, "s SATISFIABLE\r\nv a=1\r\nv ¦a=4\r\n"),
    (20, "s SATISFIABLE\r\nv a=1 c=3\r\n¦"),
]


def self_test():
    whole = read_constraint(WHOLE)
    for r, said in ((1118061216, "violated 1"), (1117799076, "satisfied")):
        values = read(WHOLE, SET % r, 3)
        assert values == [17056, 17060, r], values
        assert overall(all_verdicts(whole, values)) == said
    assert read(WHOLE.replace(b"i32", b"i31"), b"", 0) == (15, "constraint", 32)
    assert read(WHOLE, SET % 1117799076, 2) == (21, "values", 0)
    assert write(WHOLE, [17056, 17060, 1118061216], 99) == (22, "values", 0)
    assert write(WHOLE, [17056, 2**16, 2**32], 0) == (24, "values", 1)
    assert write(WHOLE, [17056, 17060, 1117799076, 2**64 - 1], 47) == SET % 1117799076
    assert write(WHOLE, [17056, 17060, 1117799076], 46) == (21, "output", 0)
    assert overall([1, 0, 2, 0, 2]) == "disregarded 3"
    for text, byte, number in WORKED_OUT:
        file = read_constraint((WORKED_HEAD + text).encode())
        found = all_verdicts(file, WORKED_VALUES), all_results(file, WORKED_VALUES)
        assert found == ([byte], [number]), (text, found)
    for values, text in READ + READ_WITH_CRS:
        assert read(HEAD, text.encode(), 3) == values, (text, read(HEAD, text.encode(), 3))
    for number, text in REFUSED + REFUSED_WITH_CRS:
        data, position = unmarked(text)
        assert read(HEAD, data, 0) == (number, "answer", position), (text, read(HEAD, data, 0))


if __name__ == "__main__":
    if sys.argv[1:] != ["--self-test"]:
        sys.exit(f"usage: {sys.argv[0]} --self-test")
    self_test()
    print(f"{len(READ + READ_WITH_CRS)} answers are read, {len(REFUSED + REFUSED_WITH_CRS)} refused,", end=" ")
    print(f"{len(WORKED_OUT)} lines come to what was worked out by hand")
