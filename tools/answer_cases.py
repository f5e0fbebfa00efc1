#!/usr/bin/env python3
"""Writes calls of the answer reader and the answer writer to FOLDER/stdin, and what answers.py answers to
each to FOLDER/stdout. Every run writes the same.

usage: python3 tools/answer_cases.py FOLDER

A call starts with a line of 36 bytes: `r` or `w` and three numbers of eight hexadecimal digits. For `r` they
are the lengths of the constraint file and of the answer, and the entries of the lent table; both files
follow. For `w` they are the length of the constraint file, the entries of the lent table and the bytes of
the output room; the file follows, then each entry as 16 hexadecimal digits.
"""
import re
import string
import sys
from collections import Counter, namedtuple
from itertools import combinations, product
from pathlib import Path
from random import Random

sys.dont_write_bytecode = True  # no __pycache__ in the repository
import answers
import constraint_cases
import constraints
import crowds
import operators
from answers import Refusal
from constraint_cases import MIXED, SHORT, cr_everywhere, crs, has_lines, has_same_lines, marked_tokens, mixed
from constraint_cases import moved, no_line_end, with_crs
from constraints import RESERVED, VARIABLES, Line, is_predicate, unmarked
from operators import OPERATORS, Word

MOST_BYTES, MOST_ENTRIES, MOST_ROOM = 70000, 300, 20000  # of a file, a table and a room
MOST = 2**64 - 1
NAME_32 = "n2345678901234567890123456789012"
NAME_33 = NAME_32 + "3"
WORDS = sorted(word.decode() for word in RESERVED)
random = Random(1)

Read = namedtuple("Read", "constraint answer entries")
Write = namedtuple("Write", "constraint values room")


# A call in the corpus, and its reply.


def header(kind, *numbers):
    line = " ".join((kind, *(f"{number:08x}" for number in numbers)))
    return line.ljust(35).encode() + b"\n"


def call(case):
    assert len(case.constraint) <= MOST_BYTES
    if isinstance(case, Read):
        assert len(case.answer) <= MOST_BYTES and case.entries <= MOST_ENTRIES
        lengths = len(case.constraint), len(case.answer), case.entries
        return header("r", *lengths) + case.constraint + case.answer
    assert len(case.values) <= MOST_ENTRIES and case.room <= MOST_ROOM
    table = "".join(f"{value:016x}" for value in case.values)
    return header("w", len(case.constraint), len(case.values), case.room) + case.constraint + table.encode()


def answer(case):
    ask = answers.read if isinstance(case, Read) else answers.write
    return ask(*case)


def reply(case):
    found = answer(case)
    is_read = isinstance(case, Read)
    if isinstance(found, Refusal):
        said, found = "refused {} {} {}".format(*found), []
    else:
        said = f"{'read' if is_read else 'written'} {len(found)}"
    lent = table_after(case.entries, found) if is_read else bytes(found).ljust(case.room, b".")
    return said.encode() + b"\n" + lent + b"\n"


def table_after(entries, values):
    """A table of that many entries, of which the first are overwritten."""
    table = [*values, *(1000003 * (i + 1) for i in range(len(values), entries))]
    return "".join(f"{value} " for value in table).encode()


# Cases with the answer that they must get.


def expected(found, case):
    assert answer(case) == found, (case, found, answer(case))
    return case


def accepted_answer(values, constraint, text, spare=0):
    """An answer that is read, with that many spare entries in the table."""
    return expected(values, Read(constraint.encode(), text.encode(), len(values) + spare))


def refused_answer(number, text, constraint=None):
    """A marked answer, refused by that number at the mark. The table may be too short."""
    data, position = unmarked(text)
    case = Read((constraint or HEAD).encode(), data, random.choice((0, 3, 4, 4, 5)))
    return expected((number, "answer", position), case)


def refused_writes(number, subject, position, constraint, values, rooms):
    for room in rooms:
        yield expected((number, subject, position), Write(constraint.encode(), tuple(values), room))


# Answers that are read. HEAD declares four variables and has no line.

HEAD = "v 1.0\nd a:i8 t:i1\nd h:i63 w:i64\n"
SET = "a=1 t=0 h=2 w=3"
PRINTABLE = string.printable[:95]
READ = [
    f"s SATISFIABLE\nv {SET}\n",
    f"s SATISFIABLE\nv {SET}",
    f"s SATISFIABLE\nv {SET} \t",
    f"\n \t\ns \t SATISFIABLE\t \n\t\nv\t{SET}\n\n \n",
    "s SATISFIABLE\nv w=3 h=2 t=0 a=1\n",
    "s\tSATISFIABLE\nv\nv a=1\nv \t\nv t=0 \n\nv   h=2\t\tw=3\nv",
    f"c\ns SATISFIABLE\nc\nv {SET}\nc",
    f"c s UNKNOWN\nc \nc\t\ns SATISFIABLE\nc v a=1\nv {SET}\nc s SATISFIABLE\nc # =\n",
    f"c {PRINTABLE}\t\ns SATISFIABLE\nv {SET}\n",
    "s SATISFIABLE\nv a=01 t=00 h=02 w=03\n",
    "s SATISFIABLE\nv a=00000000000000000001 t=00000000000000000000 h=02 w=00000000000000000003",
    "c\n" * 1030 + f"s SATISFIABLE\nv {SET}\n" + "v\n" * 1030,
]
NAMES = f"v 1.0\nd {NAME_32}:i8 {NAME_32[:31]}:i8 c:i8 s:i8 v:i8 i8:i8 S:i8 SATISFIABLE:i8 ule_:i8 ul:i8\n"
NAMES_SET = f"{NAME_32}=1 {NAME_32[:31]}=2 c=3 s=4 v=5 i8=6 S=7 SATISFIABLE=8 ule_=9 ul=10"


def answers_read():
    for text in READ:
        yield accepted_answer([1, 0, 2, 3], HEAD, text, random.choice((0, 1, 5, 296)))
    for edge in ("0 0 0 0", "255 1 9223372036854775807 18446744073709551615"):
        values = edge.split()
        text = "s SATISFIABLE\nv a={} t={} h={} w={}\n".format(*values)
        yield accepted_answer([int(value) for value in values], HEAD, text)
    yield accepted_answer([*range(1, 11)], NAMES, f"s SATISFIABLE\nv {NAMES_SET}\n")
    for text in ("s SATISFIABLE", "s SATISFIABLE\nv\n", "\nc\ns SATISFIABLE\n\nv \nv"):
        for spare in (0, 2):
            yield accepted_answer([], "v 1.0\n", text, spare)
    yield accepted_answer([1], "v 1.0\nd a:i8\nc a + a a\np = a 2:i8\n", "s SATISFIABLE\nv a=1\n")  # violated
    yield accepted_answer([0], "v 1.0\nd a:i8\nc a /u a a\n", "s SATISFIABLE\nv a=0\n")  # disregarded
    yield accepted_answer([5], "v 1.0\ne 0\nd a:i8\n", "s SATISFIABLE\nv a=5\n")


# Tokens that are wrong at their place, by the number of the refusal: the smallest, where several fit.

SOLUTIONS = {
    16: "satisfiable Satisfiable SATISFIABLe SATISFIABL SATISFIABLEE SATISFIABLE=1 SATISFIABLE# SAT s # UN"
    " UNSATISFIABL UNSATISFIABLES UNSATISFIED unsatisfiable UNSatisfiable UNKNOW UNKNOWNS unknown UNKN0WN",
    17: "UNSATISFIABLE UNKNOWN",
}
ASSIGNMENTS = {
    8: "a = =1 a= a==1 a=1= a=-1 a=+1 a=1:i8 a:i8=1 a:i8 a:1 a=0x1 a=0b1 a=1_0 a=1.0 a=1, a=1,h=2 a=1a a=a a=t"
    " 1=1 1a=1 _a=1 -a=1 a-=1 a.b=1 a/=1 a@=1 a[=1 a`=1 a{=1 @a=1 [a=1 `a=1 {a=1 a=/ a=: a=1/ a=1: #a=1 a=# # ~"
    f" a=000000000000000000001 a=184467440737095516160 x= ule= ule t=2x {NAME_33} {NAME_33}= {NAME_33}=-1"
    f" x=000000000000000000001 {NAME_33}=000000000000000000001 SATISFIABLE v s 0",
    10: "a=18446744073709551616 t=18446744073709551616 h=18446744073709551616 w=18446744073709551616"
    " w=18446744073709551617 w=18446744073709551620 w=18446744073709551700 w=18446744073710000000"
    " w=20000000000000000000 a=36893488147419103233 w=99999999999999999999 x=18446744073709551616"
    f" ule=18446744073709551616 {NAME_33}=18446744073709551616 {NAME_33}=99999999999999999999",
    11: f"{NAME_33}=1 {NAME_33}=18446744073709551615 {NAME_33 * 8}=0 {'a' * 33}=1",
    13: f"x=1 A=1 T=0 aa=1 ab=1 a_=1 a1=1 tt=0 i8=8 v=1 s=1 c=1 {NAME_32}=1 {NAME_32[:31]}=1 x=99999"
    " SATISFIABLE=1 x=18446744073709551615 ule=18446744073709551615 " + " ".join(word + "=1" for word in WORDS),
    18: "a=256 a=257 a=511 a=00000000000000000256 a=18446744073709551615 t=2 t=3 t=18446744073709551615"
    " h=9223372036854775808 h=9223372036854775809 h=18446744073709551615",
    19: "t=0 t=1 t=00 t=00000000000000000001",
}
# Before the place of an assignment t is set.
PLACES = [
    (SOLUTIONS, ["s {}", "\nc\ns\t{}\t\nv a=1\n", "c s\ns  {} SATISFIABLE\n", "s {} x y\nx"]),
    (
        ASSIGNMENTS,
        [
            "s SATISFIABLE\nv t=0 {}",
            "c x\ns SATISFIABLE\nv t=1\nc\n\nv h=2\t{}\tw=3 a=1\n",
            "s SATISFIABLE\nv w=3 h=2  t=0   {} x=1 =\nv a=1\n",
            "s SATISFIABLE\nv t=0\nv {} \nx\n",
        ],
    ),
]


def wrong_tokens():
    for number, text in marked_tokens(PLACES, random):
        yield refused_answer(number, text)


def prefix_names():
    """Names that begin like another, of 31 to 33 bytes too."""
    for number, name in ((13, "ule"), (13, "SATISFIABL"), (13, "u"), (13, "ul_"), (13, "C"), (19, "c")):
        yield refused_answer(number, f"s SATISFIABLE\nv {NAMES_SET}\nv ¦{name}=1\n", NAMES)
    for number, name in ((13, NAME_32[:30]), (13, NAME_32[:31] + "3"), (11, NAME_33), (19, NAME_32)):
        yield refused_answer(number, f"s SATISFIABLE\nv {NAMES_SET} ¦{name}=1\n", NAMES)


# Lines, and what is missing from the whole file.

FAULTY = [
    (4, "¦"),
    (4, "\n¦"),
    (4, " \t¦"),
    (4, "c¦"),
    (4, "c\n\nc s SATISFIABLE\n¦"),
    (4, f"¦v {SET}\n"),
    (4, "¦v"),
    (4, "c\n\n¦v\ns SATISFIABLE\n"),
    (4, f"¦v {SET}\ns SATISFIABLE\n"),
    (4, "c\n¦v x=1 =\n"),
    (4, "¦v\ns UNKNOWN\n"),
    (4, "s SATISFIABLE\n¦s SATISFIABLE\n"),
    (4, f"s SATISFIABLE\nv {SET}\n¦s SATISFIABLE"),
    (4, f"s SATISFIABLE\nv {SET}\nc\n¦s UNSATISFIABLE\n"),
    (4, "s SATISFIABLE\nv a=1\n¦s sat x\n"),
    (4, f"s SATISFIABLE\n¦s\nv {SET}\n"),
    (4, "s SATISFIABLE\n¦s \t\n"),
    (7, "s¦"),
    (7, "s¦\n"),
    (7, "s \t¦"),
    (7, "\nc\ns\t¦\nv a=1\n"),
    (7, f"s¦\ns SATISFIABLE\nv {SET}\n"),
    (7, "s SATISFIABLE ¦SATISFIABLE\n"),
    (7, "s SATISFIABLE ¦UNKNOWN\n"),
    (7, f"s SATISFIABLE ¦{SET}\n"),
    (7, f"s SATISFIABLE\t ¦v {SET}\n"),
    (7, "s SATISFIABLE ¦# x"),
    (7, f"s SATISFIABLE ¦c\nv {SET}\n"),
    (7, "s SATISFIABLE ¦18446744073709551616"),
    (17, "s ¦UNSATISFIABLE\n"),
    (17, "c\n\ns ¦UNKNOWN\n"),
    (17, f"s ¦UNSATISFIABLE\nv {SET}\n"),
    (17, "s ¦UNKNOWN\ns SATISFIABLE\nx\n"),
    (19, "s SATISFIABLE\nv a=1 ¦a=1\n"),
    (19, f"s SATISFIABLE\nv {SET}\nv ¦{SET}\n"),
    (19, f"s SATISFIABLE\nv {SET}\nc\n\nv\nv ¦w=3"),
    (19, f"s SATISFIABLE\nv {SET} ¦h=9223372036854775807\n"),
    (20, "s SATISFIABLE¦"),
    (20, "s SATISFIABLE\n¦"),
    (20, "s SATISFIABLE\nv\n¦"),
    (20, "s SATISFIABLE\nv t=0 h=2 w=3\n¦"),
    (20, "s SATISFIABLE\nv a=1 h=2 w=3¦"),
    (20, "s SATISFIABLE\nv a=1 t=0 w=3 \t\n\n¦"),
    (20, "s SATISFIABLE\nv a=1 t=0 h=2\nc w=3\n¦"),
    (20, "s SATISFIABLE\nv a=1\nc¦"),
    (20, "s SATISFIABLE\r\n¦"),
    (2, f"s SATISFIABLE\nv {SET}¦\r\r\n"),
    (2, f"s SATISFIABLE\nv {SET}\n¦\r"),
    (2, "x ¦\x00\n"),
    (2, "# ¦\x7f\n"),
    (2, "v a=1 ¦\x80\ns SATISFIABLE\n"),
    (2, "s SATISFIABLE\ns ¦\xff\n"),
    (2, "s UNKNOWN\t¦\x1f"),
    (2, "s SATISFIABLE\nv x=1 a=256 ¦\x0b\x00"),
    (2, "s¦\xa0SATISFIABLE\n"),
    (3, "¦x\n\x00"),
    (3, "¦#\n"),
    (3, f"s SATISFIABLE\nv {SET}\n¦#"),
    (3, "¦ \t# x\n"),
    (16, "s ¦sat\n\x00"),
    (8, "s SATISFIABLE\nv ¦a =1\n"),
    (8, "s SATISFIABLE\nv ¦a= 1\n"),
    (8, "s SATISFIABLE\nv ¦a = 1 t=2\n"),
    (13, f"s SATISFIABLE\nv {SET} ¦x=1\n"),
    (18, "s SATISFIABLE\nv ¦a=256\ns SATISFIABLE\n"),
]
NO_VARIABLES = [
    (4, "¦"),
    (4, "c\n¦"),
    (4, "¦v\ns SATISFIABLE\n"),
    (13, "s SATISFIABLE\nv ¦a=1\n"),
    (8, "s SATISFIABLE\nv ¦a\n"),
    (10, "s SATISFIABLE\nv ¦a=18446744073709551616\n"),
    (17, "s ¦UNSATISFIABLE\n"),
]


def faulty_lines():
    for number, text in FAULTY:
        yield refused_answer(number, text)
    for number, text in NO_VARIABLES:
        yield refused_answer(number, text, "v 1.0\nc 0:i8 ~ 255:i8\n")


def unknown_kinds():
    before = ("", "c\n", "s SATISFIABLE\n", f"s SATISFIABLE\nv {SET}\n")
    kinds = [*"abdefpqruwxzCSV019!$=?_~#", "# c", "#\t", "#v", "cc", "c#", "c:", "s:", "sv", "va=1", "v="]
    kinds += ["SATISFIABLE", "sSATISFIABLE", " c", "\tc", " s", "\t \tv", "  v"]
    for kind in kinds:
        yield refused_answer(3, f"{random.choice(before)}¦{kind} a=1\n")


def forbidden_bytes():
    starts = ("", "c\n\n", "s SATISFIABLE\nv w=3\n")
    lines = ("c {}", "c{}", "{}", " {}\t", "x{}", "s {}", "s SATISFIABLE{}", "v {}", "v a=1{}", "v a{}=1")
    for byte in (*range(9), *range(11, 32), 127, 128, 160, 200, 254, 255):
        line = random.choice(lines).format("¦" + chr(byte))
        yield refused_answer(2, no_line_end(random.choice(starts) + line + random.choice(("", "\n"))))


# Several faults. Of two tokens and of two lines the first decides; the order is constraint file, answer, table.


def two_tokens():
    """A `v` line with two wrong tokens."""
    wrong = [(number, tokens.split()[0]) for number, tokens in ASSIGNMENTS.items()]
    for (number, first), (_, second) in product(wrong, repeat=2):
        yield refused_answer(number, f"s SATISFIABLE\nv t=0 ¦{first} h=2 {second}\n")


def two_lines():
    wrong = [(2, "c ¦\x00"), (3, "¦x"), (4, "¦s SATISFIABLE")]
    wrong += [(number, "v ¦" + tokens.split()[-1]) for number, tokens in ASSIGNMENTS.items()]
    for pair in random.sample(list(combinations(wrong, 2)), 20):
        (number, first), (_, second) = random.sample(pair, 2)
        yield refused_answer(number, f"s SATISFIABLE\nv t=0\n{first}\n{second.replace('¦', '')}\n")


CONSTRAINT_FAULTS = [
    (2, "v 1.0\n# ¦\xe9\n"),
    (2, "v 1.0¦\r\r\nd a:i8\r\n"),
    (2, "¦\x00"),
    (3, "¦s SATISFIABLE\n"),
    (3, "v 1.0\n¦ d a:i8\n"),
    (4, "¦"),
    (4, "d a:i8\n¦"),
    (4, "v 1.0\n¦v 1.0\n"),
    (4, "v 1.0\np = 1:i1 1:i1\n¦d a:i8\n"),
    (5, "v ¦1.1\n"),
    (5, "# x\nv ¦1\n"),
    (6, "v 1.0\ne ¦2\n"),
    (6, "e ¦01\nv 1.0\n"),
    (7, "v¦\n"),
    (7, "v 1.0\nd ¦"),
    (7, "v 1.0\nd a:i8\nc a ~ a ¦a\n"),
    (8, "v 1.0\nd ¦a\n"),
    (8, "v 1.0\nd a:i8 ¦b:i08\n"),
    (9, "v 1.0\nd ¦a:i0\n"),
    (9, "v 1.0\nd a:i64 ¦b:i65\n"),
    (10, "v 1.0\np = ¦18446744073709551616:i64 0:i64\n"),
    (10, "v 1.0\np = 18446744073709551615:i64 ¦18446744073709551616:i1\n"),
    (11, f"v 1.0\nd {NAME_32}:i8 ¦{NAME_33}:i8\n"),
    (11, f"v 1.0\np = 0:i8 ¦{NAME_33}\n"),
    (12, "v 1.0\nd a:i8 ¦a:i8\n"),
    (12, "v 1.0\nd ¦ite:i8\n"),
    (13, "v 1.0\nd a:i8\nc a + a ¦b\n"),
    (13, "v 1.0\nc ¦conc + a b\n"),
    (14, "v 1.0\nd a:i8\np ¦!= a a\n"),
    (14, "v 1.0\nd a:i8\nc a ¦ADD a a\n"),
    (15, "v 1.0\nd hi:i16 lo:i16 r:i31\nc r ¦conc hi lo\n"),
    (15, "v 1.0\nd a:i8\np ¦+ a a\n"),
]


def faulty_constraints(faults=CONSTRAINT_FAULTS):
    """Both calls, beside anything else that is wrong."""
    for number, text in faults:
        data, position = unmarked(text)
        found = number, "constraint", position
        other = random.choice((b"", b"s SATISFIABLE\n", b"s SATISFIABLE\nv a=1\n", b"\x00", b"s UNKNOWN"))
        yield expected(found, Read(data, other, random.choice((0, 1, 4))))
        values = random.choice(((), (1,), (MOST, MOST), (0, 0, 0)))
        yield expected(found, Write(data, values, random.choice((0, 13, 14, 60))))


def lent_tables():
    """Tables that are too short, long enough and longer."""
    sets = SET.split()
    for count in range(1, 5):
        declared = " ".join(f"{name}:i64" for name in "athw"[:count])
        constraint = f"v 1.0\nd {declared}\n"
        text = f"s SATISFIABLE\nv {' '.join(sets[:count])}\n"
        for entries in range(count):
            yield expected((21, "values", 0), Read(constraint.encode(), text.encode(), entries))
        for spare in (0, 1, 10, 300 - count):
            yield accepted_answer([1, 0, 2, 3][:count], constraint, text, spare)
    yield expected((20, "answer", 14), Read(HEAD.encode(), b"s SATISFIABLE\n", 0))
    yield expected((17, "answer", 2), Read(HEAD.encode(), b"s UNKNOWN\n", 3))


# The writer. Values that satisfy, with what is written; that do not; that do not fit, with the first such.

TABLE_CASES = """v 1.0
c 256:i16 conc 1:i8 0:i8
c 6:i3 extr 22:i8 0:i8 3:i8
c 0:i1 extr 22:i8 3:i8 4:i8
c 3:i2 trun 43:i32
c 129:i8 + 1:i8 128:i8
c 129:i8 - 1:i8 128:i8
p slt 128:i8 127:i8
p sge 0:i1 1:i1
c 252:i8 /s 249:i8 2:i8
c 1:i8 %s 249:i8 2:i8
c 128:i8 /s 128:i8 255:i8
c 0:i8 << 1:i8 8:i8
c 255:i8 >>a 128:i8 200:i8
"""  # W1 to W12
WRITTEN = [
    ("v 1.0", [], ""),
    ("v 1.0\nc 0:i8 ~ 255:i8\np ule 1:i64 2:i64\n", [], ""),
    ("v 1.0\ne 0\nd x:i8\n", [0], "v x=0\n"),
    (HEAD, [1, 0, 2, 3], f"v {SET}\n"),
    (HEAD, [255, 1, 2**63 - 1, MOST], "v a=255 t=1 h=9223372036854775807 w=18446744073709551615\n"),
    ("d b:i8\nd a:i8\nv 1.0\n", [10, 9], "v b=10 a=9\n"),
    (f"v 1.0\nd {NAME_32}:i64 c:i1\np ~ c\n", [10**19, 0], f"v {NAME_32}=10000000000000000000 c=0\n"),
    ("v 1.0\nd a:i8 b:i8\nc a + 1:i8 b\nc a - 1:i8 b\n", [129, 128], "v a=129 b=128\n"),
    ("v 1.0\nd q:i8 r:i8 a:i8 b:i8\nc q /s a b\nc r %s a b\n", [252, 1, 249, 2], "v q=252 r=1 a=249 b=2\n"),
    ("v 1.0\nd a:i8\nc 44:i8 & 300:i8 a\n", [255], "v a=255\n"),
    ("v 1.0\nd w:i64\nc 0:i64 << w 200:i8\nc 0:i64 >>l w 255:i8\n", [MOST], "v w=18446744073709551615\n"),
    (TABLE_CASES, [], ""),
]
DIVIDED = "v 1.0\nd a:i8 b:i8\n"
UNSATISFIED = [
    ("v 1.0\np = 0:i8 1:i8\n", []),
    ("v 1.0\nc 0:i8 /u 1:i8 0:i8\n", []),
    ("v 1.0\nc 7:i8 %s 7:i8 256:i8\n", []),
    ("v 1.0\nd a:i8\nc a + a 1:i8\n", [5]),
    ("v 1.0\ne 0\nd a:i8\np /= a 5:i8\n", [5]),
    ("v 1.0\nd hi:i16 lo:i16 r:i32\nc r conc hi lo\n", [17056, 17060, 1118061216]),
    ("v 1.0\nd a:i8 b:i8\nc a + 1:i8 b\nc a - 1:i8 b\n", [0, 255]),
    ("v 1.0\nd t:i1 u:i1\np & t u\n", [1, 0]),
    (DIVIDED + "c 0:i8 /u a b\n", [0, 0]),
    (DIVIDED + "c 0:i8 /s a b\n", [0, 0]),
    (DIVIDED + "c a %u a b\n", [9, 0]),
    (DIVIDED + "c a %s a b\n", [200, 0]),
    (DIVIDED + "c 255:i8 /u a b\n", [1, 0]),
    (DIVIDED + "p = a a\nc b /u a b\np = b b\n", [1, 0]),
    (DIVIDED + "c b /u a b\np /= a a\n", [1, 0]),
    (DIVIDED + "p /= a a\nc b %s a b\n", [1, 0]),
    (DIVIDED + "p = a a\np = b b\np ult a b\n", [1, 0]),
]
UNFIT = [
    (0, HEAD, [256, 0, 0, 0]),
    (0, HEAD, [MOST, 2, 2**63, 0]),
    (1, HEAD, [255, 2, 0, 0]),
    (1, HEAD, [0, MOST, 2**63, MOST]),
    (2, HEAD, [0, 0, 2**63, 0]),
    (2, HEAD, [255, 1, MOST, MOST]),
    (1, "v 1.0\nd a:i8 b:i8\np /= a a\nc a /u a 0:i8\n", [0, 256]),
    (0, "v 1.0\nd t:i1\np ~ t\n", [2]),
]


def writer_written():
    """Rooms of the exact length, longer and too short, and tables that are longer."""
    for constraint, values, line in WRITTEN:
        text = b"s SATISFIABLE\n" + line.encode()
        for more, spare in ((0, ()), (60, (MOST, 0, 2))):
            case = Write(constraint.encode(), (*values, *spare), len(text) + more)
            yield expected(text, case)
        rooms = (len(text) - 1, random.choice((0, 1, 13)))
        yield from refused_writes(21, "output", 0, constraint, values, rooms)


def writer_refused():
    for constraint, values in UNSATISFIED:
        yield from refused_writes(22, "values", 0, constraint, values, (90,))
        yield from refused_writes(22, "values", 0, constraint, values + [MOST], (random.choice((0, 13)),))
    for place, constraint, values in UNFIT:
        yield from refused_writes(24, "values", place, constraint, values, (0, 90))
    for constraint, values in [(HEAD, [1, 0, 2, 3])] + UNSATISFIED[3:6] + [unfit[1:] for unfit in UNFIT]:
        for entries in sorted({0, len(values) - 1}):
            yield from refused_writes(21, "values", 0, constraint, values[:entries], (random.choice((0, 90)),))


def decimals():
    """Both sides of every power of ten."""
    values = [0, *(10**k + step for k in range(1, 20) for step in (-1, 0, 1)), 2**63, MOST]
    constraint = "v 1.0\nd " + " ".join(f"x{i}:i64" for i in range(len(values)))
    line = "".join(f" x{i}={value}" for i, value in enumerate(values))
    text = f"s SATISFIABLE\nv{line}\n".encode()
    yield expected(text, Write(constraint.encode(), tuple(values), len(text)))
    yield accepted_answer(values, constraint, text.decode())


def widths():
    """The values 2^K - 1 and 2^K at a width K, for both calls."""
    for k in (1, 2, 7, 8, 32, 63, 64):
        constraint = f"v 1.0\nd x:i{k}\n"
        yield accepted_answer([2**k - 1], constraint, f"s SATISFIABLE\nv x={2**k - 1}\n")
        yield refused_answer(18 if k < 64 else 10, f"s SATISFIABLE\nv ¦x={2**k}\n", constraint)
        text = f"s SATISFIABLE\nv x={2**k - 1}\n".encode()
        yield expected(text, Write(constraint.encode(), (2**k - 1,), 99))
        if k < 64:
            yield from refused_writes(24, "values", 0, constraint, [2**k], (99,))


# Sizes. Only these files are longer than 5,000 bytes.

LONG_NAMES = [f"n{i:031}" for i in range(256)]


def file_sizes():
    """Both sides of 65,536 bytes, alone and beside another fault."""
    satisfiable = f"s SATISFIABLE\nv {SET}\nc".encode()
    head = HEAD.encode()
    yield expected([1, 0, 2, 3], Read((head + b"#").ljust(65536), satisfiable.ljust(65536), 4))
    yield expected((1, "constraint", 65536), Read((head + b"#").ljust(65537), satisfiable, 4))
    yield expected((1, "constraint", 65536), Read(b"\x00" * 70000, b"\x00", 0))
    yield expected((1, "answer", 65536), Read(head, satisfiable.ljust(65537), 4))
    yield expected((1, "answer", 65536), Read(head, b"\x00".ljust(70000, b"x"), 0))
    yield expected((2, "answer", 65535), Read(head, satisfiable.ljust(65535) + b"\r", 4))
    yield expected((20, "answer", 65536), Read(head, b"s SATISFIABLE\nc".ljust(65535) + b"\n", 4))
    text = b"s SATISFIABLE\nv a=1 t=0 h=2 w=3\n"
    yield expected(text, Write((head + b"#").ljust(65536), (1, 0, 2, 3), len(text)))
    yield expected((1, "constraint", 65536), Write((head + b"#").ljust(65537), (1, 0, 2, 3), len(text)))


def most_variables():
    """256 variables of 32-byte names and 64-bit values: 13,840 bytes of answer."""
    values = [MOST - i for i in range(256)]
    constraint = "v 1.0\n" + "".join(f"d {name}:i64\n" for name in LONG_NAMES)
    sets = [f"{name}={value}" for name, value in zip(LONG_NAMES, values)]
    text = f"s SATISFIABLE\nv {' '.join(sets)}\n"
    yield accepted_answer(values, constraint, text)
    yield expected((21, "values", 0), Read(constraint.encode(), text.encode(), 255))
    yield refused_answer(20, f"s SATISFIABLE\nv {' '.join(sets[:-1])}\n¦", constraint)
    yield expected(text.encode(), Write(constraint.encode(), tuple(values), 13840))
    yield expected((21, "output", 0), Write(constraint.encode(), tuple(values), 13839))
    yield expected(text.encode(), Write(constraint.encode(), (*values, *range(44)), 20000))
    short = "v 1.0\nd " + " ".join(f"x{i}:i8" for i in range(256))
    yield expected((24, "values", 255), Write(short.encode(), (*[255] * 255, 256), 20000))
    yield expected((11, "constraint", len(short) + 1), Write(f"{short} y:i8".encode(), tuple(values), 20000))


def most_lines():
    head = b"v 1.0\nd t:i1 z:i1\n"
    text = b"s SATISFIABLE\nv t=0 z=%d\n"
    lines = b"p ~ t\n" * 1023
    yield expected(text % 0, Write(head + lines + b"p ~ z", (0, 0), 60))
    yield expected((22, "values", 0), Write(head + lines + b"p ~ z", (0, 1), 60))
    yield expected((22, "values", 0), Write(head + lines + b"c t /u t z", (0, 0), 60))
    yield expected([0, 1], Read(head + lines + b"p ~ z", text % 1, 2))
    yield expected((11, "constraint", len(head + lines) + 6), Read(head + lines + b"p ~ z\np ~ z", text % 1, 2))


# Random constraint files, with values under which their lines hold.

ODD_NAMES = "c d e p s v C S V i8 it ule_ Extr SATISFIABLE UNKNOWN".split()
WIDTHS = (1, 1, 2, 7, 8, 8, 16, 31, 32, 33, 63, 64)
SPACES = (" ", " ", " ", "\t", "  ")


def any_value(width):
    half = 2 ** (width - 1)
    return random.choice((0, 1, half - 1, half, 2 * half - 1, *(random.getrandbits(width) for _ in range(5))))


def any_widths(op):
    """The widths of a result and of operands, as op's type rule has them."""
    taken, type_rule, _ = OPERATORS[op]
    w = random.choice(WIDTHS)
    low, high = sorted(random.sample(sorted(set(WIDTHS)), 2))
    return {
        operators.equal_widths: (w,) * (taken + 1),
        operators.booleans: (1, 1, 1),
        operators.comparison: (1, w, w),
        operators.choice: (w, 1, w, w),
        operators.shift: (w, w, 8),
        operators.narrowing: (low, high),
        operators.widening: (high, low),
        operators.concatenation: (high, low, high - low),
        operators.extraction: (low, high, 8, 8),
    }[type_rule]


def constant(word):
    """A spelling of the word, perhaps of a number that is reduced to it."""
    number = word.value + random.choice((0, 0, 1)) * 2**word.width
    number = number if number <= MOST else word.value
    return str(number).zfill(random.choice((1, 1, 3, 20))) + f":i{word.width}"


def any_name():
    tail = random.choices(string.ascii_letters + string.digits + "_", k=random.choice((0, 1, 4, 31)))
    return random.choice((random.choice(ODD_NAMES), random.choice(string.ascii_letters) + "".join(tail)))


class Instance:
    """Variables with the words they hold, and lines that hold."""

    def __init__(self):
        self.held = {}
        self.lines = []

    def declare(self, word):
        name = any_name()
        while name in self.held or name in WORDS:
            name = any_name()
        self.held[name] = word
        return name

    def find(self, fits):
        """The name of a variable whose word fits, or None."""
        return random.choice([name for name, word in self.held.items() if fits(word)] or [None])

    def operand(self, width):
        """A token and its word: a variable, old or new, or a constant."""
        name = self.find(lambda word: word.width == width)
        if name and random.random() < 0.4:
            return name, self.held[name]
        word = Word(width, any_value(width))
        return (self.declare(word) if random.random() < 0.6 else constant(word)), word

    def output(self, word):
        return self.find(lambda held: held == word) or random.choice((self.declare, self.declare, constant))(word)

    def add(self, op):
        """A line of op, where its divisor is not zero."""
        k, *widths = any_widths(op)
        operands = [self.operand(width) for width in widths]
        if op == "extr":
            n = random.randint(0, widths[0] - k)
            operands[1:] = [(constant(end), end) for end in (Word(8, n), Word(8, n + k))]
        tokens, words = zip(*operands)
        result = operators.apply(op, k, *words)
        if result == "zero divisor":
            return
        if result == 1 and is_predicate(Line(None, op, words)) and random.random() < 0.7:
            self.lines.append(["p", op, *tokens])
        else:
            self.lines.append(["c", self.output(Word(k, result)), op, *tokens])

    def spelling(self):
        """The constraint file, and the values in its declaration order."""
        names = random.sample(sorted(self.held), len(self.held))
        declarations = [f"{name}:i{self.held[name].width}" for name in names]
        header = [["d", *group] for group in grouped(declarations)]
        header.insert(random.randint(0, len(header)), ["v", "1.0"])
        text = laid_out(header + self.lines, ("\n", " \t\n", "#\n", "# c a + b\n"))
        return text, [self.held[name].value for name in names]


def grouped(tokens):
    """The tokens in groups of some length."""
    while tokens:
        count = random.randint(1, 6)
        yield tokens[:count]
        tokens = tokens[count:]


def laid_out(lines, skipped):
    """The bytes of the lines, with some lines between them that are skipped."""
    text = ""
    for tokens in lines:
        text += random.choice(("", "", "", random.choice(skipped)))
        text += "".join(token + random.choice(SPACES) for token in tokens[:-1]) + tokens[-1]
        text += random.choice(("", "", "", " ", "\t")) + "\n"
    return text[: len(text) - random.choice((0, 0, 1))].encode()


def any_instance():
    instance = Instance()
    for _ in range(random.choice((0, 1, 2, 3, 5, 8, 12))):
        instance.add(random.choice(list(OPERATORS)))
    return instance.spelling()


def declared(constraint):
    return answers.read_constraint(constraint).variables


def any_answer(constraint, values):
    """An answer that sets the variables to the values, in any order and layout."""
    digits = [str(value).zfill(random.choice((1, 1, 1, 2, 20))) for value in values]
    sets = [f"{name.decode()}={number}" for name, number in zip(declared(constraint), digits)]
    lines = [["s", "SATISFIABLE"], *(["v", *group] for group in grouped(random.sample(sets, len(sets))))]
    return laid_out(lines, ("\n", " \t\n", "c\n", "c\t# v a=1\n", "c s UNKNOWN\n"))


def any_fitting(constraint):
    return [any_value(width) for width in declared(constraint).values()]


# Mutations of a file.

BYTES = b" \t\n#:=_csvdepiaAZz0189+~U\x00\r\x7f\xff"


def byte_changed(data):
    at = random.randrange(len(data))
    return data[:at] + bytes([random.choice(BYTES)]) + data[at + 1 :]


def byte_deleted(data):
    at = random.randrange(len(data))
    return data[:at] + data[at + 1 :]


def byte_inserted(data):
    at = random.randint(0, len(data))
    return data[:at] + bytes([random.choice(BYTES)]) + data[at:]


def line_moved(data):
    lines = data.split(b"\n")
    line = lines.pop(random.randrange(len(lines)))
    lines.insert(random.randint(0, len(lines)), line)
    return b"\n".join(lines)


def token_repeated(data):
    """The file with a token once more, behind itself or elsewhere."""
    tokens = list(re.finditer(rb"[^ \t\n]+", data))
    token, place = random.choice(tokens), random.choice(tokens)
    end = random.choice((token, place)).end()
    return data[:end] + b" " + token[0] + data[end:]


def mutated(data):
    change = random.choice((byte_changed, byte_deleted, byte_inserted, line_moved, token_repeated))
    return change(data)


def changed(values):
    """The values with one entry other, or with entries fewer or more."""
    values = list(values)
    kind = random.choice(("bit", "bit", "any", "zero", "shorter", "longer"))
    if kind == "longer" or not values:
        return [*values, *(random.getrandbits(64) for _ in range(random.randint(1, 3)))]
    at = random.randrange(len(values))
    if kind == "shorter":
        return values[:at]
    values[at] = {"bit": values[at] ^ 1, "any": random.getrandbits(64), "zero": 0}[kind]
    return values


def random_reads():
    for _ in range(24):
        constraint, values = any_instance()
        values = random.choice((values, any_fitting(constraint)))
        text = any_answer(constraint, values)
        yield expected(values, Read(constraint, text, len(values) + random.choice((0, 0, 1, 4))))
        for _ in range(3):
            yield Read(constraint, mutated(text), max(0, len(values) + random.choice((-1, 0, 0, 0, 1))))
        yield Read(mutated(constraint), random.choice((text, mutated(text))), len(values) + 1)


def random_writes():
    for _ in range(24):
        constraint, values = any_instance()
        text = answers.write(constraint, values, MOST_ROOM)
        yield expected(text, Write(constraint, tuple(values), len(text)))
        yield expected(values, Read(constraint, text, len(values)))
        for _ in range(2):
            yield Write(constraint, tuple(changed(values)), len(text) + random.choice((-1, 0, 0, 0, 2, 50)))
        yield Write(mutated(constraint), tuple(values), len(text) + random.choice((-1, 0, 9)))


def operator_writes():
    """Lines of each operator that hold, then with a value changed."""
    for op in OPERATORS:
        instance = Instance()
        while len(instance.lines) < 3 or not instance.held:
            instance.add(op)
        constraint, values = instance.spelling()
        text = answers.write(constraint, values, MOST_ROOM)
        yield expected(text, Write(constraint, tuple(values), len(text) + 1))
        values[random.randrange(len(values))] ^= 1
        yield Write(constraint, tuple(values), len(text) + 1)


# CRs, in one file or in both.

READ_WITH_CRS = [
    f"s SATISFIABLE\nv {SET}\r\n",
    f"c\r\n\r\n\ns\tSATISFIABLE\t\r\n \t\r\nv {SET}",
    "s SATISFIABLE\r\nv\r\nv a=1\nv \r\nc \t\r\nv t=00\t\r\nv h=2 w=00000000000000000003\r\nv",
    f"c {PRINTABLE}\r\ns SATISFIABLE\r\nv {SET}\r\n",
]
FAULTY_WITH_CRS = [
    (2, "¦\r\r\ns SATISFIABLE\n"),
    (2, "¦\r \ns SATISFIABLE\n"),
    (2, "¦\r"),
    (2, "\r\n¦\r\rs SATISFIABLE\n"),
    (2, f"s SATISFIABLE¦\rv {SET}\r"),
    (2, "s¦\rSATISFIABLE\r\n"),
    (2, "s¦\r\r\n"),
    (2, "s ¦\r"),
    (2, "s SATISFIABLE¦\r \r\n"),
    (2, "s SATISFIABLE ¦\r\r\n"),
    (2, "s SATISFIABLE ¦\rx\r\n"),
    (2, f"s SATISFIABLE\r\n¦\rv {SET}\r\n"),
    (2, "s SATISFIABLE\r\nv¦\r\r\n"),
    (2, "s SATISFIABLE\r\nv¦\ra=1\r\n"),
    (2, "s SATISFIABLE\r\nv ¦\ra=1\r\n"),
    (2, "s SATISFIABLE\r\nv a¦\r=1\r\n"),
    (2, "s SATISFIABLE\r\nv a=¦\r1\r\n"),
    (2, "s SATISFIABLE\r\nv a=1¦\r2\r\n"),
    (2, "s SATISFIABLE\r\nv a=1¦\rt=0\r\n"),
    (2, "s SATISFIABLE\r\nv a=1\t¦\r\tt=0\r\n"),
    (2, f"s SATISFIABLE\r\nv {SET}\t¦\r\t\n"),
    (2, f"s SATISFIABLE\r\nv {SET}¦\r"),
    (2, f"s SATISFIABLE\r\nv {SET}\r\n¦\r"),
    (2, f"s SATISFIABLE\r\nv {SET}\r\n\t¦\r\r\n"),
    (2, "c¦\r\r\r\n"),
    (2, "c¦\rs SATISFIABLE\r\n"),
    (2, "c x¦\rs SATISFIABLE\r\n"),
    (2, "c x ¦\r"),
    (2, "x¦\r#\r\n"),
    (2, "v a=1 ¦\r=\r\ns SATISFIABLE\r\n"),
    (2, "s SATISFIABLE\r\ns UNKNOWN¦\r\r\n"),
    (2, "s SATISFIABLE\r\nv x=1 a=256 ¦\r\x00\r\n"),
    (2, "s SATISFIABLE\r\nv x=1 a=256 ¦\x00\r\r\n"),
    (3, "¦x\r\n\r"),
    (3, "\r\n¦ c\r\n"),
    (3, "s SATISFIABLE\r\n¦c#\r\n"),
    (4, "\r\n \r\n\r\n¦"),
    (4, "\r\n¦v\r\n"),
    (4, "s SATISFIABLE\r\n¦s\r\n"),
    (7, "s¦\r\n\r"),
    (7, f"\r\ns \t¦\r\nv {SET}\r\n"),
    (7, "s SATISFIABLE ¦x\r\n"),
    (8, "s SATISFIABLE\r\nv ¦a=\r\n"),
    (8, "s SATISFIABLE\r\nv ¦a\r\n=1\r\n"),
    (10, "s SATISFIABLE\r\nv ¦w=18446744073709551616\r\n"),
    (11, f"s SATISFIABLE\r\nv ¦{NAME_33}=1\r\n"),
    (13, "s SATISFIABLE\r\nv t=1\r\nv ¦x=1\r\n"),
    (16, "s ¦SATISFIABL\r\nE\r\n"),
    (17, "\r\ns ¦UNSATISFIABLE\r\n"),
    (18, "s SATISFIABLE\r\nv ¦a=256\r\n"),
    (19, "s SATISFIABLE\r\nv a=1\r\nv ¦a=1\r\n"),
    (20, "s SATISFIABLE\r\nv a=1\r\nc¦"),
    (20, "s SATISFIABLE\r\n\r\n¦"),
]
SWEPT = "c\nc x\n\ns SATISFIABLE \n \t\nv a=1\t t=0\nv h=2 w=3"
TURNS = (("constraint",), ("answer",), ("constraint", "answer"))  # the files that get CRs


def respelled(case, put, turn):
    """The case with CRs put into the files whose turn it is."""
    files = [name for name in TURNS[turn % len(TURNS)] if hasattr(case, name)] or ["constraint"]
    return case._replace(**{name: put(getattr(case, name)) for name in files})


def moved_answer(found, case, other):
    """An answer to the case, with its position as it is in the other's files."""
    if not isinstance(found, Refusal) or found.subject not in ("constraint", "answer"):
        return found
    files = getattr(case, found.subject), getattr(other, found.subject)
    return found._replace(position=moved(found.position, *files))


def are_comparable(case, other):
    """Whether the other's files are spellings of the same lines."""
    names = [name for name in ("constraint", "answer") if hasattr(case, name)]
    return all(has_same_lines(getattr(case, name), getattr(other, name)) for name in names)


def alike(ask, case, other):
    """The other, the case with CRs before LFs, which must be answered alike. A refusal moves with the bytes."""
    if are_comparable(case, other):
        wanted = moved_answer(ask(case), case, other)
        assert ask(other) == wanted, (other, wanted, ask(other))
    return other


def is_short(case):
    return all(len(part) <= SHORT for part in case if isinstance(part, bytes))


def is_mixable(case):
    return all(has_lines(part) for part in case if isinstance(part, bytes))


def repeated(ask, cases):
    """Of the short ones every third with CRs, and some with both line ends."""
    short = [case for case in cases if is_short(case)]
    for turn, case in enumerate(short[::3]):
        yield alike(ask, case, respelled(case, with_crs, turn))
    for turn, case in enumerate(crs.sample([case for case in short if is_mixable(case)], MIXED)):
        yield alike(ask, case, respelled(case, mixed, turn))


def answers_with_crs():
    for text in READ_WITH_CRS:
        yield accepted_answer([1, 0, 2, 3], HEAD, text, random.choice((0, 1)))
        yield expected((21, "values", 0), Read(HEAD.encode(), text.encode(), 3))
    yield expected((3, "answer", 20), Read(HEAD.encode(), b"s SATISFIABLE\nv w=3\nx\r\n", 3))
    for values, text in answers.READ_WITH_CRS:
        yield accepted_answer(values, answers.HEAD.decode(), text)
    for number, text in FAULTY_WITH_CRS:
        yield refused_answer(number, text)
    for number, text in answers.REFUSED_WITH_CRS:
        yield refused_answer(number, text, answers.HEAD.decode())
    for text in cr_everywhere(SWEPT):
        yield refused_answer(2, text) if "¦" in text else accepted_answer([1, 0, 2, 3], HEAD, text)


def constraints_with_crs():
    """Both calls, with a constraint file that is read and with faulty ones."""
    data, text = b"v 1.0\r\nd a:i8\r\n", b"s SATISFIABLE\nv a=1\n"
    yield expected([1], Read(data, text, 1))
    yield expected((4, "answer", 0), Read(data, b"", 0))
    yield expected(text, Write(data, (1,), len(text)))
    yield expected((21, "values", 0), Write(data, (), 0))
    yield from faulty_constraints(constraints.REFUSED_WITH_CRS + constraint_cases.FAULTY_WITH_CRS[::4])


def sizes_with_crs():
    """As many bytes as there may be, up to the last LF or to a CR, and one more."""
    constraint, text = with_crs(HEAD.encode()) + b"#", f"s SATISFIABLE\r\nv {SET}\r\nc".encode()
    full = constraint.ljust(65534) + b"\r\n"
    yield expected([1, 0, 2, 3], Read(full, text.ljust(65534) + b"\r\n", 4))
    yield expected((1, "answer", 65536), Read(constraint, text.ljust(65535) + b"\r\n", 4))
    yield expected((2, "answer", 65535), Read(constraint, text.ljust(65535) + b"\r", 4))


LINE_ENDS = [answers_with_crs, constraints_with_crs, sizes_with_crs]


# Names that meet in a bucket. They are set in another order than they are declared.


def crowded_answer(variables):
    values = [variable.value for variable in variables]
    return accepted_answer(values, crowds.header(variables), crowds.answer(crowds.shuffled(variables)))


def crowded_faults(variables):
    """One of them set twice, set without being declared, not set, and set to what doesn't fit."""
    one = crowds.random.choice(crowds.some_of(variables))
    others = crowds.without(variables, one)
    text = crowds.answer(crowds.shuffled(others))
    again, wide = f"{one.name}={one.value}", f"{one.name}={2**one.width}"
    yield refused_answer(19, text + f"v {again} ¦{again}\n", crowds.header(variables))
    yield refused_answer(13, text + f"v ¦{again}\n", crowds.header(others))
    yield refused_answer(20, text + "¦", crowds.header(variables))
    yield refused_answer(18, text + f"v ¦{wide}\n", crowds.header(variables))


def crowded_answers():
    for names in crowds.crowds():
        variables = crowds.held(names, range(1, 64))
        yield crowded_answer(variables)
        yield from crowded_faults(variables)


def most_names():
    """As many as there may be, all of one bucket or of one hash."""
    variables = crowds.held(crowds.any_crowd(VARIABLES, range(3, 6)), (8,))
    yield crowded_answer(variables)
    yield from list(crowded_faults(variables))[:2]
    yield crowded_answer(crowds.held(crowds.of_one_hash(VARIABLES), (8,)))


CROWDS = [crowded_answers, most_names]


# The corpus.

GROUPS = [answers_read, wrong_tokens, prefix_names, faulty_lines, unknown_kinds, forbidden_bytes, two_tokens]
GROUPS += [two_lines, faulty_constraints, lent_tables, writer_written, writer_refused, decimals, widths]
GROUPS += [file_sizes, most_variables, most_lines, random_reads, random_writes, operator_writes]

# Every refusal that the calls can give: by call and subject, the numbers.
REFUSALS = {
    ("r", "constraint"): {*range(1, 16)},
    ("r", "answer"): {1, 2, 3, 4, 7, 8, 10, 11, 13, 16, 17, 18, 19, 20},
    ("r", "values"): {21},
    ("w", "constraint"): {*range(1, 16)},
    ("w", "values"): {21, 22, 24},
    ("w", "output"): {21},
}


def cases():
    found = list(dict.fromkeys(case for group in GROUPS for case in group()))
    with_line_ends = [case for group in LINE_ENDS for case in group()]
    crowded = (case for group in CROWDS for case in group())
    return list(dict.fromkeys([*found, *with_line_ends, *repeated(answer, found), *crowded]))


def refusal_counts(every):
    """How often each number is given, by call and subject."""
    counts = {key: Counter() for key in REFUSALS}
    for case in every:
        found = answer(case)
        if isinstance(found, Refusal):
            counts["r" if isinstance(case, Read) else "w", found.subject][found.number] += 1
    return counts


def main(folder):
    answers.self_test()
    every = cases()
    counts = refusal_counts(every)
    assert {key: set(numbers) for key, numbers in counts.items()} == REFUSALS
    Path(folder, "stdin").write_bytes(b"".join(map(call, every)))
    Path(folder, "stdout").write_bytes(b"".join(map(reply, every)))
    refused = sum(numbers.total() for numbers in counts.values())
    print(f"{len(every)} cases, {refused} refused; by call and subject, each number with its count:")
    for (kind, subject), numbers in counts.items():
        print(f"{kind} {subject:10}", *(f"{number}:{count}" for number, count in sorted(numbers.items())))


if __name__ == "__main__":
    if len(sys.argv) != 2:
        sys.exit(__doc__)
    main(sys.argv[1])
