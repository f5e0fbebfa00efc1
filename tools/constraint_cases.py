#!/usr/bin/env python3
"""Writes the files of the program constraint_cases to FOLDER/stdin, and what constraints.py answers to
each to FOLDER/stdout. Every run writes the same.

usage: python3 tools/constraint_cases.py crates/constraint_cases

Before each file stands its length: eight hexadecimal digits and a line end.
"""
import re
import string
import sys
from collections import Counter
from itertools import combinations, product
from pathlib import Path
from random import Random

sys.dont_write_bytecode = True  # no __pycache__ in the repository
import constraints
import crowds
from cleaning import meaning
from constraints import BOOLEAN_PREDICATES, FILE_BYTES, PREDICATES, READ, READ_WITH_CRS, REFUSED, REFUSED_WITH_CRS
from constraints import VARIABLES, Refusal, unmarked
from operators import OPERATORS

HEAD = "v 1.0\nd a:i8 b:i8 ab:i8 t:i1\n"  # what the lines of the tables below may name
LONG = "n23456789012345678901234567890123"  # a name of 33 bytes
WORDS = [op for op in OPERATORS if op.isalpha()]
random = Random(1)


def answer(data):
    found = constraints.read(data)
    if isinstance(found, Refusal):
        return f"refused {found.number} constraint {found.position}"
    return f"variables {len(found.variables)} lines {len(found.lines)}"


def sound(data):
    """The bytes, which the reader must take."""
    assert not isinstance(constraints.read(data), Refusal), (data, answer(data))
    return data


def refused(number, text):
    """The bytes of a marked text, which the reader must refuse by that number at the mark."""
    data, position = unmarked(text)
    assert constraints.read(data) == (number, position), (number, text, answer(data))
    return data


# Tokens that are wrong at their place, by the number of the refusal: the smallest, where several fit.

VERSIONS = {
    5: "1 1. .0 1.1 1.10 1.256 2.0 0.0 0.1 10 10.0 11.0 257.0 00001.0 1.00000 1.0.0 1,0 1:0 1/0 +1.0 1.0x",
}
EXPECTATIONS = {6: "2 9 / : 00 01 10 11 0: 0:i1 a - -0"}
DECLARATIONS = {
    8: "x x: x:i x:8 x:8i x:i8x x:i8: x:i8:i8 x:i08 x:i00 x:i100 x:i640 x:I8 x:j8 x;i8 x::i8 xi8 :i8 8:i8"
    " 1x:i8 _x:i8 x-:i8 x/:i8 x@:i8 x[:i8 x`:i8 x{:i8 @x:i8 [x:i8 `x:i8 {x:i8 x:i/ x:i: x:i1/ x:i1: x:i-1 #"
    f" #x:i8 x:i8,y:i8 ule:i00 a:i08 {LONG}:i08 {LONG}-:i8",
    9: f"x:i0 x:i65 x:i66 x:i99 a:i65 ule:i0 {LONG}:i0 {LONG}:i65",
    11: f"{LONG}:i8 {LONG * 8}:i64",
    12: "a:i8 b:i1 ab:i64 t:i1 " + " ".join(word + ":i8" for word in WORDS),
}
OPERANDS = {
    8: "1 1: 1:i 1:8 1:8i 1:i8x 1:i8: 1:i8:i8 1:i08 1:i00 1:i100 1:i640 1:I8 1:j8 1;i8 1::i8 1i8 :i8 a:i8"
    " 1a:i8 a1:i8 -1:i8 +1:i8 1-:i8 1/:i8 0x1:i8 1_0:i8 1.0:i8 1:i/ 1:i: 1:i1/ 1:i1: _a 1a a- a/ a: a@ a["
    " a` a{ @a [a `a {a a# # + = 000000000000000000001:i8 000000000000000000001:i0"
    f" 184467440737095516160:i65 {LONG}- {LONG}:i8",
    9: "0:i0 1:i65 1:i66 1:i99 18446744073709551616:i65 99999999999999999999:i0",
    10: "18446744073709551616:i64 18446744073709551616:i1 18446744073709551619:i8 18446744073709551620:i64"
    " 18446744073709551700:i64 20000000000000000000:i64 36893488147419103231:i8 99999999999999999999:i64",
    11: f"{LONG} {LONG * 8}",
    13: "x A aa aba abc b_ T i8 v " + " ".join(WORDS),
}
SPELLINGS = {
    14: "!= == < > <= >= =< >> / // % /S %S >>s >>A and ULE Ule ul ulee lt it trunc ext concat a t 1:i8 #"
    " ? &| ~- =>>",
}
OPERAND_LINES = ("c {} + a b", "c a + {} b", "c a +\ta  {}", "c a ~ {}", "c a ite t {} b", "p = {} a", "p ~ {}")
PLACES = [
    (VERSIONS, ["v {}", "e 1\nv {}", "# first\nv {} ?"]),
    (EXPECTATIONS, [HEAD + "e {}", HEAD + "e {} 0"]),
    (DECLARATIONS, [HEAD + "d {}", HEAD + "d x1:i8 {}", HEAD + "d\t{} y:i65"]),
    (OPERANDS, [HEAD + line for line in OPERAND_LINES]),
    (SPELLINGS, [HEAD + "c a {} a b", HEAD + "p {} t t", HEAD + "c t {}"]),
]
ENDINGS = ("", "\n", " \t\n", "\nx\n")


def marked_tokens(tables, random):
    """The first token for each number at every place, and each token at some place, with its number."""
    for table, places in tables:
        for number, tokens in table.items():
            first, *others = tokens.split()
            found = [(first, place) for place in places]
            found += [(token, random.choice(places)) for token in others]
            for token, place in found:
                yield number, place.format("¦" + token)


def wrong_tokens():
    for number, text in marked_tokens(PLACES, random):
        yield refused(number, text + random.choice(ENDINGS))


# Small files. In a faulty line 2 comes first, then 3, 4 and 11 for the line, then its tokens from left
# to right, then 15. Of two lines the first decides, and what is missing from the whole file comes last.

BESIDE_RESERVED = {near for word in WORDS for near in (word[:-1], word + "_", word.upper())}
SOUND = [
    "v 1.0\n#" + string.printable[:95] + "\t#",
    "v 1.0\nd " + " ".join(near + ":i8" for near in sorted(BESIDE_RESERVED)),
    f"v 1.0\nd {LONG[:32]}:i1 {LONG[:31]}:i8 {LONG[:31]}0:i9\nc {LONG[:31]} ~ {LONG[:31]}\np ~ {LONG[:32]}",
    "v 1.0\nc 9:i64 + 18446744073709551609:i64 18446744073709551599:i64\nc 18446744073709551610:i8 ~ 09999:i8",
]
FAULTY = [
    (2, "v 1.0\nx ¦\x7f\x00\n"),
    (2, "v 1.0\nv 1.0 ¦\x80"),
    (2, "v 1.0\ne 2 ¦\x1f\n"),
    (2, "#\n\t¦\x0b\n"),
    (3, "v 1.0\n¦e1 2\n"),
    (3, "¦v: 1.0\n"),
    (3, "v 1.0\nc 1:i1 = 0:i8 0:i8\n¦dd x:i8\n"),
    (4, "v 1.0\n¦v\n"),
    (4, "v 1.0\ne 0\n¦e 2 2"),
    (4, "v 1.0\np = 0:i8 0:i8\n¦v 2.0\n"),
    (4, "v 1.0\np = 0:i8 0:i8\n¦e"),
    (4, "p = 0:i8 0:i8\n¦d 1\n"),
    (7, "v 1.0 ¦1.0\n"),
    (7, HEAD + "c \t¦\n"),
    (7, HEAD + "c 1:i8 ¦\n"),
    (7, HEAD + "p¦"),
    (7, HEAD + "p + a ¦\n"),
    (7, HEAD + "p + a b ¦b\n"),
    (7, HEAD + "c t ~ a ¦1:i0\n"),
    (8, HEAD + "c ¦+ a b\n"),
    (11, f"v 1.0\nd {LONG[:32]}:i8\np = 0:i8 ¦{LONG}\n"),
    (12, "v 1.0\nd x:i8 ¦x:i8\n"),
    (13, f"v 1.0\nd {LONG[:31]}1:i8\np = 0:i8 ¦{LONG[:32]}\n"),
    (13, HEAD + "c t + a ¦x\n"),
    (14, HEAD + "p ¦a = a b\n"),
    (3, "¦q\n\x00"),
    (13, "c ¦x + x x\n"),
    (15, HEAD + "c t ¦~ a\nv 1.0\n\x00"),
    (4, "c 1:i1 = 0:i8 0:i8\n¦"),
    (4, " \n\n\t¦"),
]


def small_files():
    """The files of the tables, each with another beginning or end too, and pairs of them."""
    found = [sound(text.encode()) for text in [*(text for _, _, text in READ), *SOUND]]
    found += [refused(*case) for case in REFUSED + FAULTY]
    for file in found:
        yield file
        yield random.choice((b"#v\n \t\n" + file, file.removesuffix(b"\n")))
    for _ in range(30):
        yield b"\n".join(random.sample(found, 2))


def no_line_end(text):
    """The text with one CR more where a CR would belong to a line's end."""
    return text.replace("\r\n", "\r\r\n")


def unknown_kinds():
    for kind in "abfgoqstuwxyzVEDCP019!\"$?@[`{~":
        yield refused(3, f"v 1.0\n¦{kind} 1.0\n")
    for kind, after in product("vedcp", "#:0iv"):
        yield refused(3, f"¦{kind}{after}")
    for space in (" ", "\t", "  \t"):
        yield refused(3, f"¦{space}v 1.0\n")
        yield refused(3, f"v 1.0\n¦{space}# comment\n")


def forbidden_bytes():
    lines = ("# {}", "{}", "\t {}", "{} 1.0", "x{}", "c {} + a b", "c a + a b{}", "d x:i8 {}:i8", "p = a a {}")
    for byte in (*range(9), *range(11, 32), *range(127, 256, 8), 128, 159, 160, 254):
        text = HEAD + random.choice(lines).format("¦" + chr(byte)) + random.choice(ENDINGS)
        yield refused(2, no_line_end(text))


def two_faults():
    """A line with two wrong tokens, the second perhaps surplus, and one that ends behind the first."""
    operands = [(number, tokens.split()[0]) for number, tokens in OPERANDS.items()]
    wrong = [operands, [(14, "!=")], operands, operands, operands]
    for i, j in combinations(range(5), 2):
        for number, token in wrong[i]:
            tokens = ["a", "+", "a", "b", ""]
            tokens[i], tokens[j] = "¦" + token, wrong[j][0][1]
            yield refused(number, HEAD + "c " + " ".join(tokens))
            yield refused(number, HEAD + "c " + " ".join(tokens[: i + 1]))


# Types. A well-typed line is its tokens: output, operator, operands.

NAMES_BY_WIDTH = {width: [f"w{width}"] for width in range(1, 65)}


def constant(width, number):
    """A constant of that number, perhaps with leading zeros."""
    return str(number).zfill(random.choice((1, 1, 3, 20))) + f":i{width}"


def any_operand(width, names):
    """A constant, or half the time one of the variables that are so wide."""
    found = constant(width, random.getrandbits(random.choice((1, width, 64))))
    return random.choice((found, random.choice(names.get(width, [found]))))


def any_widths(op):
    """The widths of a result and of operands, as op's type rule has them."""
    w = random.choice((1, 2, 7, 8, 9, 32, 63, 64))
    low, high = sorted(random.sample(range(1, 65), 2))
    if op == "=>":
        return 1, 1, 1
    if op in PREDICATES:
        return 1, w, w
    if op in ("<<", ">>a", ">>l"):
        return w, w, 8
    others = {
        "ite": (w, 1, w, w),
        "trun": (low, high),
        "sext": (high, low),
        "zext": (high, low),
        "conc": (high, low, high - low),
        "extr": (low, high, 8, 8),
    }
    return others.get(op, (w,) * (OPERATORS[op][0] + 1))


def any_line(op, names=NAMES_BY_WIDTH):
    k, *widths = any_widths(op)
    output, *operands = [any_operand(width, names) for width in (k, *widths)]
    if op == "extr":
        n = random.randint(0, widths[0] - k)
        operands[1:] = constant(8, n + 256 * random.choice((0, 0, 1, 9999))), constant(8, n + k)
    return [output, op, *operands]


def one_line(kind, *tokens):
    """A file of one line, with the variables that it names."""
    names = sorted({token for token in tokens if token.startswith("w")})
    header = "v 1.0\n" + "".join(f"d {name}:i{name[1:]}\n" for name in names)
    return f"{header}{kind} {' '.join(tokens)}\n".encode()


def widened(token, step):
    """The operand with another width."""
    return re.sub(r"\d+$", lambda width: str(int(width[0]) + step), token)


def types():
    """A line of each operator, with each width wrong by one, with a token fewer or more, and with i8 alone."""
    for op, (taken, _, _) in OPERATORS.items():
        line = any_line(op)
        yield sound(one_line("c", *line))
        for i, step in product((0, *range(2, len(line))), (-1, 1)):
            yield one_line("c", *line[:i], widened(line[i], step), *line[i + 1 :])
        yield one_line("c", *line[:-1])
        yield one_line("c", *line, random.choice((line[0], "1", LONG)))
        yield one_line("c", "w8", op, *["w8"] * taken)
        yield one_line("c", "w1", op, *["w8"] * taken)


def predicates():
    """Each operator in a `p` line, with operands i1 and i8."""
    lines = [["extr", "w8", "0:i8", "1:i8"]]
    for op, (taken, _, _) in OPERATORS.items():
        lines += [[op, *["w1"] * taken], [op, *["w8"] * taken]]
    for op in BOOLEAN_PREDICATES:
        lines += [[op, *operands] for operands in product(("w1", "1:i2"), repeat=OPERATORS[op][0])]
    for line in lines:
        yield one_line("p", *line)


def casts():
    """Both sides of the rules of trun, sext, zext, conc and extr."""
    for k, w in ((1, 1), (1, 2), (2, 1), (63, 64), (64, 63), (64, 64)):
        for op in ("trun", "sext", "zext"):
            yield one_line("c", f"w{k}", op, f"1:i{w}")
    for k, x, y in ((2, 1, 1), (64, 32, 32), (64, 1, 63), (64, 33, 32), (64, 64, 64), (1, 1, 64), (16, 8, 9)):
        yield one_line("c", f"w{k}", "conc", f"w{x}", f"0:i{y}")
    for k, n, m in ((1, 0, 1), (8, 0, 8), (1, 7, 8), (9, 0, 9), (1, 8, 9), (1, 3, 3), (1, 4, 3), (3, 6, 3)):
        yield one_line("c", f"w{k}", "extr", "w8", f"{n}:i8", f"{m}:i8")
    for k, n, m in ((64, 0, 64), (64, 1, 65), (8, 250, 2), (1, 256, 1), (1, 255, 256), (8, 512, 8)):
        yield one_line("c", f"w{k}", "extr", "w64", f"{n}:i8", f"{m}:i8")
    for n, m in (("w8", "3:i8"), ("0:i8", "w8"), ("0:i7", "3:i8"), ("0:i8", "3:i9"), ("0:i9", "3:i9")):
        yield one_line("c", "w3", "extr", "w8", n, m)


# Sizes.


def sizes():
    """Both sides of each limit, alone and beside another fault."""
    for size, text in product((65536, 65537), ("v 1.0\n#", "#", "v 1.0\nd", "\x00")):
        yield text.encode().ljust(size)
    yield b"v 1.0\n#".ljust(70000)
    yield b"v 1.0\n#".ljust(65535) + b"\x7f"
    yield b"v 1.0\nd".ljust(65535) + b"x"
    yield b"v 1.0\nd ".ljust(65536, b"x")
    names = "v 1.0\nd " + " ".join(f"x{i}:i{i % 64 + 1}" for i in range(256))
    for rest in ("", "\nd y:i8", " y:i8", " x0:i8", " ule:i8", " y:i65", " 1:i8", "\nd"):
        yield f"{names}{rest}\nc 0:i1 ~ x0\n".encode()
    lines = "v 1.0\nd t:i1\n" + "p ~ t\n" * 500 + "\n# neither counts\n" + "c t ~ 0:i1\n" * 524
    for rest in ("", "p ~ t", "c t ~ t", "c 1", "p \x00", "x", "d", "#\n\n"):
        yield (lines + rest).encode()


# Whole files, and damage to them.

LETTERS = string.ascii_letters
NAMES = "c d e p v i i8 a z A Z it iter ule_ ULE extr0 SATISFIABLE".split()
DAMAGE = b" \t\n#:_ivedcpZaz0189=+~\x00\r\x7f\xff"


def any_name():
    tail = random.choices(LETTERS + string.digits + "_", k=random.choice((1, 3, 5, 31)))
    return random.choice(LETTERS) + "".join(tail)


def any_variables(count):
    """Names with their widths."""
    names = random.sample(sorted({*NAMES, *(any_name() for _ in range(2 * count))}), count)
    return {name: random.choice((1, 8, 32, 64, random.randint(1, 64))) for name in names}


def any_header(variables):
    """The lines before the first `c` or `p`, in any order."""
    declarations = [f"{name}:i{width}" for name, width in variables.items()]
    lines = [["v", random.choice(("1.0", "01.00", "0001.0000"))], ["e", random.choice("01")]]
    while declarations:
        count = random.randint(1, 9)
        lines.append(["d", *declarations[:count]])
        del declarations[:count]
    return random.sample(lines, len(lines))


def any_body(variables, count):
    names = {}
    for name, width in variables.items():
        names.setdefault(width, []).append(name)
    for _ in range(count):
        line = any_line(random.choice(list(OPERATORS)), names)
        is_predicate = line[1] in PREDICATES and random.random() < 0.5
        yield ["p", *line[1:]] if is_predicate else ["c", *line]


def laid_out(tokens):
    """A line of the tokens, perhaps with a blank line or a comment before it."""
    before = random.choice(("", "", "", "\n", " \t\n", "#\n", "# c a + b\n"))
    spaces = [random.choice((" ", " ", "\t", "  ")) for _ in tokens[1:]]
    spaces.append(random.choice(("", "", " ", "\t")))
    return before + "".join(token + space for token, space in zip(tokens, spaces))


def any_file(variables, lines):
    declared = any_variables(variables)
    laid = map(laid_out, [*any_header(declared), *any_body(declared, lines)])
    return sound("\n".join(laid).encode() + random.choice((b"", b"\n")))


def damaged(data):
    """The bytes with some of them left out, put in, changed or repeated, or cut short."""
    at = random.randrange(len(data))
    end = at + random.choice((0, 1, 1, 2, 9))
    put = random.choice((b"", bytes([random.choice(DAMAGE)]), data[at:end] * 2))
    return data[:at] + put + (data[end:] if random.random() < 0.8 else b"")


def whole_files():
    for _ in range(40):
        file = any_file(random.randint(0, 12), random.randint(0, 12))
        yield file
        for _ in range(4):
            yield damaged(file)
    yield any_file(256, 1024)


# CRs. One directly before an LF belongs to the line's end, which is then at the CR; any other is refused.

crs = Random(2)  # draws of their own, which leave all others as they are
SHORT = 5000  # the bytes of a file that is repeated with CRs, at most
MIXED = 40  # how many files are repeated with both line ends

SOUND_WITH_CRS = [
    "#v\n \t\nv 1.0\r\n",
    "\r\n\n\r\nv 1.0",
    "v 1.0\r\n#\r\n# \t\r\n\t\r\n##",
    f"v 1.0\r\nd {LONG[:32]}:i1\r\np ~ {LONG[:32]}\r\n",
    "v 1.0\r\nd a:i64\nd b:i8\r\nc a + a 18446744073709551615:i64\r\nc b ~ b\np = b 07:i8\r\n",
]
FAULTY_WITH_CRS = [
    (2, "¦\r\r\n" + HEAD),
    (2, "¦\r\t\n" + HEAD),
    (2, "¦\r\rv 1.0\n"),
    (2, "v 1.0¦\rd a:i8\rp = a a\r"),
    (2, "v 1.¦\r0\n"),
    (2, HEAD + "e¦\r1\n"),
    (2, HEAD + "e 1¦\r\r\n"),
    (2, HEAD + "e 1 ¦\r"),
    (2, HEAD + "d¦\r\r\n"),
    (2, HEAD + "d x¦\r:i8\r\n"),
    (2, HEAD + "d x:i¦\r8\r\n"),
    (2, HEAD + "d x:i8¦\r y:i8\n"),
    (2, HEAD + "d x:i8 ¦\ry:i8\n"),
    (2, HEAD + "d x:i8\t¦\r\t\n"),
    (2, HEAD + "c¦\ra + a b\r\n"),
    (2, HEAD + "c a¦\r+ a b\r\n"),
    (2, HEAD + "c a ¦\r+ a b\r\n"),
    (2, HEAD + "c a >>¦\rl a b\r\n"),
    (2, HEAD + "c a + 1¦\r:i8 b\r\n"),
    (2, HEAD + "c a + a b¦\rc a + a b\n"),
    (2, HEAD + "c a + a b¦\r"),
    (2, HEAD + "c a + a b\r\n¦\r"),
    (2, HEAD + "p¦\r = a b\n"),
    (2, HEAD + "p = a b¦\r\r\r\r\n"),
    (2, HEAD + "p = a b ¦\r \r\n"),
    (2, HEAD + "#¦\r"),
    (2, HEAD + "#¦\r\r\n"),
    (2, HEAD + "# x¦\r\t\r\n"),
    (2, HEAD + "# x ¦\rc a + a b\n"),
    (2, HEAD + " ¦\r \n"),
    (2, HEAD + "\t¦\r\r\n"),
    (2, HEAD + "\r\n\r\n¦\r"),
    (2, HEAD + "q¦\rx\n"),
    (2, HEAD + "v¦\r 1.0\r\n"),
    (2, HEAD + "d a:i8 x:i65 ¦\rx\r\n"),
    (2, HEAD + "c x != ¦\r\x00\r\n"),
    (2, HEAD + "c x != ¦\x00\r\r\n"),
    (2, HEAD + "# x\r\n#\r\n¦\r \n#"),
    (3, "\r\n¦q\r\n\r"),
    (3, "\r\n¦v:\r\n"),
    (3, "v 1.0\r\n¦\tv\r\n"),
    (4, "p = 0:i8 0:i8\r\n¦d\r\n\r"),
    (4, "\r\n\r\n¦"),
    (4, "#\r\n \r\n\t¦"),
    (5, "v ¦1.00000\r\n"),
    (6, "v 1.0\r\ne ¦01\r\n"),
    (7, "\r\nv \t¦\r\nv 1.0\r\n"),
    (7, "v 1.0\r\ne¦\r\n"),
    (7, "v 1.0\r\nd\t¦\r\n"),
    (7, "v 1.0\r\nc¦\r\n\r\r\n"),
    (7, "v 1.0\r\nc 1:i8¦\r\n"),
    (7, "v 1.0\r\nc 1:i8 +¦\r\n"),
    (7, "v 1.0\r\nc 1:i8 + 1:i8 ¦\r\n1:i8\r\n"),
    (7, "v 1.0\r\np \t ¦\r\n"),
    (7, "v 1.0\r\np ~¦\r\n"),
    (7, "v 1.0\r\np ~ 1:i1 ¦1:i1\r\n"),
    (8, "v 1.0\r\nd ¦x:i08\r\n"),
    (8, "v 1.0\r\nd ¦x\r\n"),
    (9, "v 1.0\r\nd ¦x:i65\r\n"),
    (10, "v 1.0\r\np = 1:i64 ¦18446744073709551616:i64\r\n"),
    (11, f"v 1.0\r\nd ¦{LONG}:i8\r\n"),
    (11, f"v 1.0\nd {LONG[:32]}:i8\np = 0:i8 ¦{LONG}\n\nv 1.0\r\n"),
    (12, "v 1.0\r\nd x:i8\r\nd y:i8 ¦x:i8\r\n"),
    (13, "v 1.0\r\nd x:i8\r\np = x ¦y\r\n"),
    (14, "v 1.0\r\np ¦ul\r\n"),
    (15, "v 1.0\r\np ¦~ 1:i8\r\n"),
]
SWEPT = "#\tx\n\nv 1.0\ne 1\nd a:i8 t:i1 \nc a >>l a 1:i8\n \t\np ~ t"


def with_crs(data):
    """The file with a CR before each LF."""
    return data.replace(b"\n", b"\r\n")


def mixed(data):
    """The file with a CR before some LFs."""
    return re.sub(b"\n", lambda _: crs.choice((b"\n", b"\r\n")), data)


def has_lines(data):
    """Whether there are line ends to mix."""
    return data.count(b"\n") > 1


def has_same_lines(data, other):
    """Whether CRs before the data's LFs give the same lines: no second CR before an LF, and no file too long."""
    return b"\r\n" not in data and len(other) <= FILE_BYTES


def moved(position, data, other):
    """Where a position of the data is in the other, which has CRs before LFs. A line's end is at its CR."""
    before = data[:position].count(b"\n")
    return position + sum(line.endswith(b"\r") for line in other.split(b"\n")[:before])


def alike(data, other):
    """The other, the data with CRs before LFs, which must be read as they are. A refusal moves with the bytes."""
    wanted, found = constraints.read(data), constraints.read(other)
    if not has_same_lines(data, other):
        return other
    if isinstance(wanted, Refusal):
        assert found == (wanted.number, moved(wanted.position, data, other)), (other, wanted, found)
    else:
        assert meaning(found) == meaning(wanted), (other, wanted, found)
    return other


def cr_everywhere(text):
    """A sound text with one CR more at each place, marked at the first CR that is refused, if there is one."""
    for spelt in (text, with_crs(text.encode()).decode()):
        for place in range(len(spelt) + 1):
            yield re.sub(r"\r(?!\n)", "¦\r", spelt[:place] + "\r" + spelt[place:], count=1)


def swept_files():
    for text in cr_everywhere(SWEPT):
        yield refused(2, text) if "¦" in text else alike(SWEPT.encode(), text.encode())


def sizes_with_crs():
    """As many bytes as there may be, up to the last LF or to a CR, and one more."""
    comment = "v 1.0\r\n#"
    yield sound(comment.ljust(65534).encode() + b"\r\n")
    yield refused(2, comment.ljust(65535) + "¦\r")
    yield refused(1, comment.ljust(65535) + "\r¦\n")
    yield sound(b"\r\n" * 32764 + b"v 1.0 \r\n")
    lines = "v 1.0\r\n" + "p ~ 0:i1\r\n" * 1024
    yield sound(lines.encode())
    yield refused(11, lines + "¦p ~ 0:i1\r\n")


def repeated(files):
    """Of the short ones every third with CRs, and some with both line ends."""
    short = [file for file in files if len(file) <= SHORT]
    yield from [alike(file, with_crs(file)) for file in short][::3]
    for file in crs.sample([file for file in short if has_lines(file)], MIXED):
        yield alike(file, mixed(file))


def line_ends(files):
    yield from (sound(text.encode()) for text in [*(text for _, _, text in READ_WITH_CRS), *SOUND_WITH_CRS])
    yield from (refused(*case) for case in REFUSED_WITH_CRS + FAULTY_WITH_CRS)
    yield from swept_files()
    yield from sizes_with_crs()
    yield from repeated(files)


# Names that meet in a bucket. The widths differ, so that another's variable would not do.


def crowded_file(variables, count):
    """Declares them, and has that many lines, which name them in another order."""
    return sound((crowds.header(variables) + crowds.lines(crowds.shuffled(variables)[:count])).encode())


def crowded_files():
    for variables in map(crowds.held, crowds.crowds()):
        yield crowded_file(variables, len(variables))
        yield damaged(crowded_file(variables, len(variables)))
    yield from (refused(*case) for case in crowds.faults())


def most_names():
    """As many as there may be, all of one bucket or of one hash, and one more."""
    names = crowds.any_crowd(VARIABLES, range(3, 6))
    for others in (names, crowds.of_one_hash(VARIABLES)):
        yield crowded_file(crowds.held(others), 40)
    yield from (refused(*case) for case in crowds.one_too_many(names))


def files():
    groups = [small_files(), wrong_tokens(), unknown_kinds(), forbidden_bytes(), two_faults()]
    groups += [types(), predicates(), casts(), sizes(), whole_files()]
    found = list(dict.fromkeys(file for group in groups for file in group))
    return dict.fromkeys([*found, *line_ends(found), *crowded_files(), *most_names()])


def main(folder):
    constraints.self_test()
    answers = {file: answer(file) for file in files()}
    Path(folder, "stdin").write_bytes(b"".join(b"%08x\n" % len(file) + file for file in answers))
    Path(folder, "stdout").write_text("".join(line + "\n" for line in answers.values()))
    numbers = Counter(int(line.split()[1]) for line in answers.values() if line.startswith("refused"))
    print(f"{len(answers)} files; refused, by number: {dict(sorted(numbers.items()))}")


if __name__ == "__main__":
    if len(sys.argv) != 2:
        sys.exit(__doc__)
    main(sys.argv[1])
