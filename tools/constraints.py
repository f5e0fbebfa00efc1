#!/usr/bin/env python3
"""A reader and type check of constraint files, by documents 01, 02 and 003 and apart from the Rattle code.

read(data) gives the File that the bytes spell, or the Refusal of their first fault. `--self-test` checks
the documents' own files and edges.
"""
import re
import sys
from collections import namedtuple
from dataclasses import dataclass, field

sys.dont_write_bytecode = True  # no __pycache__ in the repository
from operators import OPERATORS, Word

# The sizes of version 1.0.
EDITION = (1, 0)
FILE_BYTES = 65536
VARIABLES = 256
LINES = 1024
NAME_BYTES = 32
WIDTHS = range(1, 65)

Refusal = namedtuple("Refusal", "number position")
Variable = namedtuple("Variable", "name width")
Line = namedtuple("Line", "output operator operands")  # a `p` line has no output


@dataclass
class File:
    """A file as far as it is read. An operand is a Variable, or the Word that a constant stands for."""

    edition: tuple = None
    expectation: int = None
    variables: dict = field(default_factory=dict)  # each name with its width, as declared
    lines: list = field(default_factory=list)


class Refused(Exception):
    """Stops the reader, with a refusal's number and position."""


def require(holds, number, position):
    if not holds:
        raise Refused(number, position)


# Spellings.

NAME = rb"[A-Za-z][A-Za-z0-9_]*"
TYPE = rb":i(0|[1-9][0-9]?)"
VERSION = rb"([0-9]{1,4})\.([0-9]{1,4})"
DECLARATION = rb"(" + NAME + rb")" + TYPE
CONSTANT = rb"([0-9]{1,20})" + TYPE
FORBIDDEN = rb"[^\t\x20-\x7e]"  # in a line, without its end
SPELLINGS = {operator.encode(): operator for operator in OPERATORS}
RESERVED = {spelling for spelling in SPELLINGS if spelling.isalpha()}


# Types: what a line's operator asks of its operands and of the width of its result.

PREDICATES = ("=>", "=", "/=", "ule", "uge", "ult", "ugt", "sle", "sge", "slt", "sgt")  # 003, section 7.2
BOOLEAN_PREDICATES = ("&", "|", "^", "~", "ite")  # predicates where all operands are i1


def is_predicate(line):
    if line.operator in BOOLEAN_PREDICATES:
        return all(operand.width == 1 for operand in line.operands)
    return line.operator in PREDICATES


def well_typed(line):
    if line.output is None and not is_predicate(line):
        return False
    if line.operator == "extr" and not all(isinstance(end, Word) for end in line.operands[1:]):
        return False
    width = 1 if line.output is None else line.output.width
    _, type_rule, _ = OPERATORS[line.operator]
    return type_rule(width, *line.operands)


# Tokens, each by itself. In one token the smaller number comes first.

Token = namedtuple("Token", "text position")


def read_version(token):
    numbers = re.fullmatch(VERSION, token.text)
    require(numbers and (int(numbers[1]), int(numbers[2])) == EDITION, 5, token.position)
    return EDITION


def read_expectation(token):
    require(token.text in (b"0", b"1"), 6, token.position)
    return int(token.text)


def read_width(digits, token):
    require(int(digits) in WIDTHS, 9, token.position)
    return int(digits)


def read_declaration(file, token):
    parts = re.fullmatch(DECLARATION, token.text)
    require(parts, 8, token.position)
    name, width = parts[1], read_width(parts[2], token)
    require(len(name) <= NAME_BYTES and len(file.variables) < VARIABLES, 11, token.position)
    require(name not in RESERVED and name not in file.variables, 12, token.position)
    file.variables[name] = width


def read_variable(file, token):
    require(len(token.text) <= NAME_BYTES, 11, token.position)
    require(token.text in file.variables, 13, token.position)
    return Variable(token.text, file.variables[token.text])


def read_constant(token):
    parts = re.fullmatch(CONSTANT, token.text)
    require(parts, 8, token.position)
    number, width = int(parts[1]), read_width(parts[2], token)
    require(number < 2**64, 10, token.position)
    return Word(width, number % 2**width)


def read_operand(file, token):
    is_name = re.fullmatch(NAME, token.text)
    return read_variable(file, token) if is_name else read_constant(token)


def read_operator(token):
    require(token.text in SPELLINGS, 14, token.position)
    return SPELLINGS[token.text]


# Lines.


def cut_lines(data):
    """Each line of a file, with its start. One CR directly before an LF belongs to the line's end."""
    *ended, last = data.split(b"\n")  # no LF behind the last
    start = 0
    for text in ended:
        yield start, text.removesuffix(b"\r")
        start += len(text) + 1
    yield start, last


def check_bytes(start, text):
    forbidden = re.search(FORBIDDEN, text)
    if forbidden:
        raise Refused(2, start + forbidden.start())


class Tokens:
    """The tokens of a line behind its kind, taken from left to right."""

    def __init__(self, start, text):
        found = list(re.finditer(rb"[^ \t]+", text))[1:]
        self.left = [Token(token[0], start + token.start()) for token in found]
        self.line_end = start + len(text)

    def take(self):
        require(self.left, 7, self.line_end)
        return self.left.pop(0)

    def finish(self):
        if self.left:
            raise Refused(7, self.left[0].position)


def read_v(file, tokens):
    file.edition = read_version(tokens.take())
    tokens.finish()


def read_e(file, tokens):
    file.expectation = read_expectation(tokens.take())
    tokens.finish()


def read_d(file, tokens):
    read_declaration(file, tokens.take())
    while tokens.left:
        read_declaration(file, tokens.take())


def read_c(file, tokens):
    output = read_operand(file, tokens.take())
    read_application(file, output, tokens)


def read_p(file, tokens):
    read_application(file, None, tokens)


def read_application(file, output, tokens):
    """An operator and its operands."""
    token = tokens.take()
    operator = read_operator(token)
    taken, _, _ = OPERATORS[operator]
    operands = [read_operand(file, tokens.take()) for _ in range(taken)]
    tokens.finish()
    line = Line(output, operator, operands)
    require(well_typed(line), 15, token.position)
    file.lines.append(line)


KINDS = {b"v": read_v, b"e": read_e, b"d": read_d, b"c": read_c, b"p": read_p}


def is_misplaced(file, kind):
    """Whether a `v`, `e` or `d` line stands behind the first `c` or `p`, or repeats a `v` or `e`."""
    repeated = {b"v": file.edition is not None, b"e": file.expectation is not None, b"d": False}
    return kind in repeated and (bool(file.lines) or repeated[kind])


def is_skipped(text):
    return not text.strip(b" \t") or text.startswith(b"#")


def read_line(file, start, text):
    check_bytes(start, text)
    if is_skipped(text):
        return
    kind = text[:1]
    require(kind in KINDS and text[1:2] in (b"", b" ", b"\t"), 3, start)
    require(not is_misplaced(file, kind), 4, start)
    require(kind not in (b"c", b"p") or len(file.lines) < LINES, 11, start)
    KINDS[kind](file, Tokens(start, text))


def read_file(data):
    require(len(data) <= FILE_BYTES, 1, FILE_BYTES)
    file = File()
    for start, text in cut_lines(data):
        read_line(file, start, text)
    require(file.edition, 4, len(data))
    return file


def read(data):
    try:
        return read_file(data)
    except Refused as refused:
        return Refusal(*refused.args)


# Files for the sentences of the documents: those that are read, with their counts of variables and
# lines, and those that are refused, with the number, and ¦ at the position.

READ = [
    (3, 1, "v 1.0\nd hi:i16 lo:i16 r:i32\nc r conc hi lo\n"),
    (3, 0, "# Header example\nv 1.0\ne 0\nd a:i64 b:i64 res:i64\n"),
    (2, 2, "v 1.0\nd a:i8 b:i8\nc a + 1:i8 b\nc a - 1:i8 b\n"),
    (4, 3, "# Commutativity\nv 1.0\ne 0\nd a:i64 b:i64 c:i64 d:i64\nc c + a b\nc d + b a\np /= c d\n"),
    (3, 4, "v 1.0\nd res:i1\nd a:i64 b:i64\np /= a b\np /= a 384:i64\nc 1:i1 /= a b\nc res /= 24:i64 b\n"),
    (3, 2, "v 1.0\nd a:i32 b:i1 c:i2\nc b trun a\nc c trun 43:i32\n"),
    (0, 2, "v 1.0\nc 6:i3 extr 22:i8 0:i8 3:i8\nc 0:i1 extr 22:i8 3:i8 4:i8\n"),
    (0, 0, "v 1.0"),
    (0, 0, "v\t01.0000 \n"),
    (1, 0, "d a:i1\n \t\n#\ne \t 1\nv 1.0\n"),
    (3, 1, "v 1.0\nd c:i8 d:i8 i8:i8\nc i8 + c d\n"),
    (0, 1, "v 1.0\np ule 18446744073709551615:i64 00000000000000000000:i64"),
    (0, 1, "v 1.0\nc 3:i3 extr 22:i8 256:i8 259:i8\n"),
    (1, 1, "v 1.0\nd n2345678901234567890123456789012:i8\np = n2345678901234567890123456789012 300:i8\n"),
    (2, 5, "v 1.0\nd t:i1 u:i1\np & t u\np | t u\np ^ t u\np ~ t\np ite t u t\n"),
]

REFUSED = [
    (4, "¦"),
    (4, "# no version\ne 1\nd a:i8\nc a + a a\n¦"),
    (2, "v 1.0\n# caf¦\xe9\n"),
    (2, "v 1.0¦\r\r\n"),
    (3, "v 1.0\n¦ d a:i8\n"),
    (3, "¦v1.0\n"),
    (3, "v 1.0\n¦s SATISFIABLE\n"),
    (7, "v 1.0 ¦# version\n"),
    (4, "v 1.0\n¦v 1.0\n"),
    (4, "e 1\nv 1.0\n¦e 1\n"),
    (4, "c 1:i1 = 0:i8 0:i8\n¦v 1.0\n"),
    (4, "v 1.0\np = 0:i8 0:i8\n¦e 1\n"),
    (4, "v 1.0\np = 0:i8 0:i8\n¦d a:i8\n"),
    (5, "v ¦1.2\n"),
    (5, "v ¦00001.0\n"),
    (6, "v 1.0\ne ¦2\n"),
    (7, "v¦\n"),
    (7, "v 1.0\ne \t ¦\n"),
    (7, "v 1.0\nd¦"),
    (7, "v 1.0\ne 0 ¦1\n"),
    (7, "v 1.0\nd a:i8\nc a + a¦\n"),
    (7, "v 1.0\nd a:i8\nc a ~ a ¦?\n"),
    (8, "v 1.0\nd ¦_a:i8\n"),
    (8, "v 1.0\nd ¦a:i08\n"),
    (8, "v 1.0\nc ¦0:i08 ~ 0:i8\n"),
    (8, "v 1.0\nc 0:i8 ~ ¦000000000000000000000:i8\n"),
    (9, "v 1.0\nd ¦a:i65\n"),
    (9, "v 1.0\nd a:i64 ¦b:i0\n"),
    (9, "v 1.0\nc 0:i64 ~ ¦99999999999999999999:i65\n"),
    (10, "v 1.0\nc 0:i64 ~ ¦18446744073709551616:i64\n"),
    (11, "v 1.0\nd ¦n23456789012345678901234567890123:i8\n"),
    (11, "v 1.0\nc ¦n23456789012345678901234567890123 ~ 0:i8\n"),
    (12, "v 1.0\nd ¦ule:i8\n"),
    (12, "v 1.0\nd a:i8\nd b:i8 ¦a:i8\n"),
    (13, "v 1.0\nc ¦ule ~ 0:i8\n"),
    (13, "v 1.0\nd a:i8\nc a + a ¦b\n"),
    (14, "v 1.0\nd a:i8\np ¦!= a a\n"),
    (15, "v 1.0\nd hi:i16 lo:i16 r:i31\nc r ¦conc hi lo\n"),
    (15, "v 1.0\nd a:i8 b:i8\np ¦+ a b\n"),
    (15, "v 1.0\nd a:i1 b:i1\np ¦+ a b\n"),
    (15, "v 1.0\nd a:i8 b:i8\np ¦& a b\n"),
    (15, "v 1.0\nd n:i8\nc 6:i3 ¦extr 22:i8 n 3:i8\n"),
]

# The same with CRs: one directly before an LF belongs to the line's end, and any other is refused.

READ_WITH_CRS = [
    (0, 0, "v 1.0\r\n"),
    (3, 1, "v 1.0\r\nd hi:i16 lo:i16 r:i32\r\nc r conc hi lo\r\n"),
    (2, 2, "# mixed\r\nv 1.0\nd a:i8\r\ne 1\nd b:i8\n\r\nc a + a b\r\n \t\r\n\n#\r\n#\t\r\np = a b"),
    (1, 1, "\r\n\r\n \r\n\t\r\nd\ta:i8 \r\nv 1.0\t\r\np = a a \t\r\n\r\n"),
]

REFUSED_WITH_CRS = [
    (2, "v 1.0\r\n# two ¦\r\r\n"),
    (2, "v 1.0\n¦\r\r\n"),
    (2, "v 1.0¦\r\r\r\n"),
    (2, "v 1.0¦\r"),
    (2, "v 1.0\r\n¦\r"),
    (2, "¦\r"),
    (2, "v 1¦\r.0\r\n"),
    (2, "v ¦\r1.0\r\n"),
    (2, "v¦\r 1.0\r\n"),
    (2, "v 1.0¦\r \n"),
    (2, "¦\rv 1.0\r\n"),
    (2, "v 1.0\r\n\r\n¦\rd a:i8\r\n"),
    (2, "v 1.0\r\n# a comment¦\r, and more\r\n"),
    (2, "v 1.0\n#¦\r#\n"),
    (2, "v 1.0\r\nx ¦\ry\r\r\n"),
    (2, "v 1.0\r\n# ¦\x00\r\n"),
    (3, "¦x\r\nv 1.0\r\r\n"),
    (3, "v 1.0\r\n¦ d a:i8\r\n"),
    (4, "v 1.0\r\n\r\n¦v\r\n"),
    (4, "# no version\r\n\r\n¦"),
    (5, "\r\nv ¦1.2\r\n"),
    (7, "v¦\r\n"),
    (7, "v 1.0\r\ne \t ¦\r\n"),
    (7, "v 1.0\r\nd¦\r\n"),
    (7, "v 1.0\r\nd a:i8\r\nc a + a¦\r\n"),
    (7, "v 1.0\r\nd a:i8\r\np¦\r\n\r\n"),
    (7, "v 1.0\r\ne 0 ¦1\r\n"),
    (13, "v 1.0\r\nd a:i8\r\nc a + a ¦b\r\n"),
    (15, "v 1.0\r\nd hi:i16 lo:i16 r:i31\r\nc r ¦conc hi lo\r\n"),
]


def unmarked(text):
    """The bytes of a marked text, and the position of its mark."""
    return text.replace("¦", "").encode("latin-1"), text.index("¦")


def self_test():
    reserved = b"ule uge ult ugt sle sge slt sgt ite trun sext zext conc extr"
    assert RESERVED == set(reserved.split())
    for variables, lines, text in READ + READ_WITH_CRS:
        file = read(text.encode())
        assert isinstance(file, File), (text, file)
        assert (len(file.variables), len(file.lines)) == (variables, lines), (text, file)
    for number, text in REFUSED + REFUSED_WITH_CRS:
        data, position = unmarked(text)
        assert read(data) == (number, position), (text, read(data))
    assert isinstance(read(b"v 1.0\n#".ljust(65536)), File)
    assert read(b"v 1.0\n#".ljust(65537)) == (1, 65536)
    assert isinstance(read(b"v 1.0\r\n#".ljust(65534) + b"\r\n"), File)
    assert read(b"v 1.0\r\n#".ljust(65535) + b"\r") == (2, 65535)
    assert read(b"v 1.0\r\n#".ljust(65535) + b"\r\n") == (1, 65536)
    whole = Line(Variable(b"r", 32), "conc", [Variable(b"hi", 16), Variable(b"lo", 16)])
    for text in (READ[0][2], READ_WITH_CRS[1][2]):
        assert read(text.encode()) == File((1, 0), None, {b"hi": 16, b"lo": 16, b"r": 32}, [whole])
    assert read_constant(Token(b"300:i8", 0)) == Word(8, 44)


if __name__ == "__main__":
    if sys.argv[1:] != ["--self-test"]:
        sys.exit(f"usage: {sys.argv[0]} --self-test")
    self_test()
    print(f"{len(READ + READ_WITH_CRS)} files are read, {len(REFUSED + REFUSED_WITH_CRS)} refused")
