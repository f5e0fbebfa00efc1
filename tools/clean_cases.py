#!/usr/bin/env python3
"""Writes calls of the cleaner to FOLDER/stdin, and what cleaning.py answers to each to FOLDER/stdout. Every
run writes the same.

usage: python3 tools/clean_cases.py FOLDER

A call starts with a line of 18 bytes, two numbers of eight hexadecimal digits: the length of the constraint
file and the bytes of the output room. The file follows. The reply is `written` with the length, or the
refusal; then the whole room, which was full of dots. What was written is then cleaned again, into a room of
its own length, with a reply of the same form.
"""
import re
import sys
from collections import Counter, namedtuple
from pathlib import Path

sys.dont_write_bytecode = True  # no __pycache__ in the repository
import answers
import cleaning
import constraint_cases
import constraints
from answer_cases import repeated
from answers import Refusal
from cleaning import CLEANED, clean, meaning
from constraint_cases import FAULTY, FAULTY_WITH_CRS, LONG, NAMES_BY_WIDTH, SOUND, SOUND_WITH_CRS, any_line
from constraint_cases import any_variables, damaged, random, with_crs
from constraints import BOOLEAN_PREDICATES, PREDICATES, READ, READ_WITH_CRS, REFUSED, REFUSED_WITH_CRS, unmarked
from operators import OPERATORS, Word

MOST_BYTES = MOST_ROOM = 70000
MOST_CORPUS = 1200000
MOST = 2**64 - 1
NAME_32 = LONG[:32]

Case = namedtuple("Case", "constraint room")


# A call in the corpus, and its reply.


def call(case):
    assert len(case.constraint) <= MOST_BYTES and case.room <= MOST_ROOM
    return b"%08x %08x\n" % (len(case.constraint), case.room) + case.constraint


def reply(found, room):
    """What a call answers and leaves in its room."""
    if isinstance(found, Refusal):
        said, found = "refused {} {} {}".format(*found), b""
    else:
        said = f"written {len(found)}"
    return said.encode() + b"\n" + found.ljust(room, b".") + b"\n"


def replies(case):
    found = clean(*case)
    if isinstance(found, Refusal):
        return reply(found, case.room)
    return reply(found, case.room) + reply(clean(found, len(found)), len(found))


# What must hold of every accepted file.


def cleaned_by_tokens(data):
    """The clean text of an accepted file, by its tokens alone: a second way to it, without the reader."""
    split = [line.split() for line in data.split(b"\n") if not line.startswith(b"#")]
    rows = {kind: [row for row in split if row[:1] == [kind]] for kind in (b"e", b"d")}
    declared = [token for row in rows[b"d"] for token in row[1:]]
    body = [[reduced(token) for token in row] for row in split if row[:1] in ([b"c"], [b"p"])]
    head = [[b"v", b"1.0"], *rows[b"e"], *([[b"d", *declared]] if declared else [])]
    return b"\n".join(b" ".join(row) for row in (*head, *body))


def reduced(token):
    parts = re.fullmatch(rb"([0-9]+):i([0-9]+)", token)
    return b"%d:i%s" % (int(parts[1]) % 2 ** int(parts[2]), parts[2]) if parts else token


def clean_text(data):
    """The clean text of an accepted file, which must be as the request says."""
    text = clean(data, len(data))  # so it is never longer than the file
    assert isinstance(text, bytes), (data, text)
    assert text == cleaned_by_tokens(data), (data, text)
    assert meaning(constraints.read(text)) == meaning(constraints.read(data)), (data, text)
    assert clean(text, len(text)) == text, (data, text)
    return text


def check_equality(texts):
    """Files have equal clean texts exactly where they have equal meanings."""
    pairs = {(meaning(constraints.read(data)), text) for data, text in texts.items()}
    assert len(pairs) == len({said for said, _ in pairs}) == len({text for _, text in pairs})


# Rooms.


def in_rooms(data):
    """A file in each kind of room: around its clean text, none, and as long as the file."""
    length = len(clean_text(data))
    for room in dict.fromkeys((length, length - 1, length + 1, 0, len(data), length + 60)):
        yield Case(data, room)


def in_some_room(data):
    """An accepted file most often in a room that is long enough, a refused one in any."""
    if isinstance(answers.read_constraint(data), Refusal):
        return Case(data, random.choice((0, 1, 5, 5, 40, len(data))))
    length = len(clean_text(data))
    return Case(data, random.choice((length, length, length, length + 1, len(data), length - 1)))


def every_room():
    """Small files in every room up to one that is too long: no cut in the text does."""
    for text in ("v 01.0\n", "e 1\nv 1.0", "v 1.0\ne 0\nd a:i10 b:i1\nc a + 01024:i10 a\n#\np ~ b \n"):
        for room in range(len(clean_text(text.encode())) + 3):
            yield Case(text.encode(), room)
    yield Case(b"v 1.0\n", MOST_ROOM)


# Files laid out anyhow. A line is its tokens.

WHITE = (" ", " ", "\t", "  ", "\t\t", " \t ", " " * 9)
SKIPPED = ("", "", " ", "\t \t", "#", "#\t", "# c a + b", "#v 1.0", "#e 1", "# 300:i8 ~ #", "#####")
VERSIONS = "1.0 01.0 1.00 0001.0000 001.0 1.000".split()
ZEROS = (1, 1, 2, 3, 20)  # how many digits to fill up to


def white():
    return random.choice(WHITE)


def laid_out(tokens):
    """The tokens in a line, perhaps with white space at its end."""
    return tokens[0] + "".join(white() + token for token in tokens[1:]) + random.choice(("", "", white()))


def skipped():
    return random.choices(SKIPPED, k=random.choice((0, 0, 0, 1, 2)))


def messy(lines):
    """A file of the lines, with blank lines and comments between them."""
    laid = [text for tokens in lines for text in (*skipped(), laid_out(tokens))]
    return "\n".join([*laid, *skipped(), *random.choice(([], [""]))]).encode()


def declarations(variables):
    """The variables in order, in some `d` lines."""
    left = [f"{name}:i{width}" for name, width in variables.items()]
    while left:
        count = random.randint(1, random.choice((1, 4, 20)))
        yield ["d", *left[:count]]
        del left[:count]


def header(expectation, variables):
    """The lines before the first `c` or `p`, with `v` and `e` anywhere."""
    lines = list(declarations(variables))
    others = [["v", random.choice(VERSIONS)]] + ([] if expectation is None else [["e", expectation]])
    for other in others:
        lines.insert(random.randint(0, len(lines)), other)
    return lines


def respelled(token):
    """A constant of the same value, perhaps not reduced and with leading zeros; any other token as it is."""
    parts = re.fullmatch(r"(\d+):i(\d+)", token)
    if not parts:
        return token
    width = int(parts[2])
    more = random.choice((0, 0, 1, random.getrandbits(64))) % 2 ** (64 - width)
    number = int(parts[1]) % 2**width + more * 2**width
    return str(number).zfill(random.choice(ZEROS)) + f":i{width}"


def any_expectation():
    return random.choice((None, "0", "1"))


Map = namedtuple("Map", "expectation variables body")


def spelling(said):
    """One of a map's spellings."""
    body = [[respelled(token) for token in line] for line in said.body]
    return messy([*header(said.expectation, said.variables), *body])


def any_map(variables, lines):
    declared = any_variables(variables)
    return Map(any_expectation(), declared, list(constraint_cases.any_body(declared, lines)))


def one_map(*body):
    """A map of these lines, with the variables that they name by their widths."""
    names = sorted({token for line in body for token in line if re.fullmatch(r"w\d+", token)})
    return Map(any_expectation(), {name: int(name[1:]) for name in names}, body)


# Small files with the clean text that they must get.

NAMES = "c d e p v i8 i i1 z Z a_ a__ A0_9 ul ule_ iter v1 e0 extr0".split()
CLEAN_TEXTS = [
    *CLEANED,
    ("v 1.0\n", "v 1.0"),
    ("v \t1.0\t ", "v 1.0"),
    ("\n\n\n#\n#x\nv 1.0\n\n\n", "v 1.0"),
    ("#" * 200 + "\nv 1.0", "v 1.0"),
    (" \t" * 60 + "\nv 1.0\n" + "\n" * 70, "v 1.0"),
    ("v 1.0\ne 0", "v 1.0\ne 0"),
    ("e\t1 \n#e 0\nv 1.0\n", "v 1.0\ne 1"),
    ("v 1.0\nd a:i1\n", "v 1.0\nd a:i1"),
    ("d a:i1\nv 1.0\n", "v 1.0\nd a:i1"),
    ("d a:i1\ne 1\nd b:i2\nv 1.0\nd c:i3\n", "v 1.0\ne 1\nd a:i1 b:i2 c:i3"),
    ("d c:i3\nd b:i2\nv 1.0\nd a:i1\ne 0", "v 1.0\ne 0\nd c:i3 b:i2 a:i1"),
    ("v 1.0\nc 1:i1 = 0:i8 0:i8", "v 1.0\nc 1:i1 = 0:i8 0:i8"),
    ("v 1.0\np = 0:i8 0:i8", "v 1.0\np = 0:i8 0:i8"),
    ("v 1.0\np\t=  0:i8\t 0:i8\t", "v 1.0\np = 0:i8 0:i8"),
    ("v 1.0\nd b:i1\nc b = b b\np ~ b\nc b = b b\np ~ b\n", "v 1.0\nd b:i1\nc b = b b\np ~ b\nc b = b b\np ~ b"),
    ("v 1.0\nc 257:i8 ~ 256:i8\n", "v 1.0\nc 1:i8 ~ 0:i8"),
    ("v 1.0\nc 255:i8 ~ 00255:i8\n", "v 1.0\nc 255:i8 ~ 255:i8"),
    ("v 1.0\nc 2:i1 ~ 3:i1\n", "v 1.0\nc 0:i1 ~ 1:i1"),
    ("v 1.0\nc 9223372036854775808:i63 ~ 18446744073709551615:i63", "v 1.0\nc 0:i63 ~ 9223372036854775807:i63"),
    ("v 1.0\nc 00:i64 ~ 09999999999999999999:i64", "v 1.0\nc 0:i64 ~ 9999999999999999999:i64"),
    ("v 1.0\nc 1000:i64 ~ 10000000000000000000:i64", "v 1.0\nc 1000:i64 ~ 10000000000000000000:i64"),
    ("v 1.0\nd c:i8\td:i8 i8:i8\nc  c + d i8\nc i8 - d\tc", "v 1.0\nd c:i8 d:i8 i8:i8\nc c + d i8\nc i8 - d c"),
    ("d v:i8\nv 1.0\nc v  ~ v\np = v 08:i8\n", "v 1.0\nd v:i8\nc v ~ v\np = v 8:i8"),
    ("v 1.0\nd p:i1 e:i1\np => p e\nc p => e p\n", "v 1.0\nd p:i1 e:i1\np => p e\nc p => e p"),
    (f"d {NAME_32}:i1 n:i1\nv 1.0\np ^\tn {NAME_32}", f"v 1.0\nd {NAME_32}:i1 n:i1\np ^ n {NAME_32}"),
]


def small_files():
    """Each of the tables' files in every kind of room, and its clean text with and without a last LF."""
    for text, wanted in CLEAN_TEXTS:
        data, found = text.encode(), wanted.encode()
        assert clean_text(data) == found, (text, clean_text(data))
        for spelt in (data, found, found + b"\n"):
            yield from in_rooms(spelt)
    for text in (*(text for _, _, text in READ), *SOUND):
        yield from in_rooms(text.encode())


# Everything that a line can say.


def every_operator():
    """Each operator in `c` lines, and in a `p` line where it may stand there."""
    for op, (taken, _, _) in OPERATORS.items():
        body = [["c", *any_line(op)] for _ in range(3)]
        if op in BOOLEAN_PREDICATES:
            body.append(["p", op, *random.choices(("w1", "1:i1", "0:i1"), k=taken)])
        elif op in PREDICATES:
            body.append(["p", *any_line(op)[1:]])
        yield in_some_room(spelling(one_map(*body)))
        yield in_some_room(spelling(one_map(*reversed(body))))


def every_width():
    """Variables and constants of each width, the constants around 2^K and as large as can be."""
    for width in range(1, 65):
        edges = {0, 1, 2**width - 1, 2**width, 2**width + 1, 3 * 2**width + 2, MOST - 2**width, MOST - 1, MOST}
        tokens = [str(n).zfill(random.choice(ZEROS)) + f":i{width}" for n in sorted(edges) if 0 <= n <= MOST]
        body = [["c", random.choice((f"w{width}", token)), "~", token] for token in tokens]
        body.append(["c", f"w{width}", "~", f"w{width}"])
        yield in_some_room(messy([*header(any_expectation(), {f"w{width}": width}), *body]))


def every_length_of_number():
    """Numbers of each count of digits, plain and filled up with zeros."""
    for digits in range(1, 21):
        numbers = {10 ** (digits - 1), min(10**digits - 1, MOST), int("1234567890123456789"[: digits - 1] + "0")}
        for zeros in (1, 20):
            body = [["c", f"{n:0{zeros}}:i64", "-", "w64", f"{n:0{zeros}}:i64"] for n in sorted(numbers)]
            yield in_some_room(messy([*header(None, {"w64": 64}), *body]))


def every_name():
    """Names that look like other tokens, of every length, and all the widths at once."""
    for names in (NAMES, [NAME_32[:length] for length in range(1, 33)], ["x" + "_" * 31, "Z9", "z_" * 16]):
        variables = {name: random.choice((8, 8, 1)) for name in names}
        body = [["c", name, "~", name] for name in names]
        yield from in_rooms(spelling(Map(any_expectation(), variables, body)))
    widths = {names[0]: width for width, names in NAMES_BY_WIDTH.items()}
    yield from in_rooms(spelling(Map("0", widths, [])))


# Maps that are the same, and maps that are nearly so.


def same_maps():
    for _ in range(40):
        said = any_map(random.randint(0, 8), random.randint(0, 8))
        spellings = [spelling(said) for _ in range(2)]
        assert clean_text(spellings[0]) == clean_text(spellings[1]), spellings
        for data in spellings:
            yield in_some_room(data)


ALMOST = [
    "v 1.0\nd a:i8 b:i8 t:i1\nc t = a b\nc a + b 1:i8\n",
    "v 1.0\nd b:i8 a:i8 t:i1\nc t = a b\nc a + b 1:i8\n",
    "v 1.0\nd a:i8 t:i1 b:i8\nc t = a b\nc a + b 1:i8\n",
    "v 1.0\nd a:i8 b:i8 t:i1 u:i1\nc t = a b\nc a + b 1:i8\n",
    "v 1.0\ne 0\nd a:i8 b:i8 t:i1\nc t = a b\nc a + b 1:i8\n",
    "v 1.0\ne 1\nd a:i8 b:i8 t:i1\nc t = a b\nc a + b 1:i8\n",
    "v 1.0\nd a:i9 b:i9 t:i1\nc t = a b\nc a + b 1:i9\n",
    "v 1.0\nd a:i8 b:i8 t:i1\nc a + b 1:i8\nc t = a b\n",
    "v 1.0\nd a:i8 b:i8 t:i1\nc t = b a\nc a + b 1:i8\n",
    "v 1.0\nd a:i8 b:i8 t:i1\nc t = a b\nc b + a 1:i8\n",
    "v 1.0\nd a:i8 b:i8 t:i1\nc t /= a b\nc a + b 1:i8\n",
    "v 1.0\nd a:i8 b:i8 t:i1\nc t = a b\nc a + b 258:i8\n",
    "v 1.0\nd a:i8 b:i8 t:i1\nc t = a b\n",
    "v 1.0\nd a:i8 b:i8 t:i1\nc t = a b\nc a + b 1:i8\nc a + b 1:i8\n",
    "v 1.0\nd a:i8 b:i8 t:i1\np = a b\nc a + b 1:i8\n",
    "v 1.0\nd a:i8 b:i8 t:i1\nc 1:i1 = a b\nc a + b 1:i8\n",
    "v 1.0\nd A:i8 b:i8 t:i1\nc t = A b\nc A + b 1:i8\n",
]


def maps_nearly_the_same():
    files = [text.encode() for text in ALMOST]
    assert len({clean_text(data) for data in files}) == len(files)
    for data in files:
        yield in_some_room(data)


# Sizes.

FULL_NAMES = [f"n{i:_>31}" for i in range(256)]
SMALLEST = b"v 1.0"


def filled(more):
    """A clean line of 22 bytes, LF among them, and of so many more, up to 57, that its numbers take up."""
    numbers = [10 ** max(0, min(19, more - taken)) for taken in (0, 19, 38)]
    return "\nc {}:i64 & {}:i64 {}:i64".format(*numbers)


def full_clean_file():
    """A clean file with as many bytes, variables and lines as there may be."""
    text = "v 1.0\ne 1\nd" + "".join(f" {name}:i{i % 64 + 1}" for i, name in enumerate(FULL_NAMES))
    text += "".join(f"\nc {name} ~ {name}" for name in FULL_NAMES)
    more, rest = divmod(65536 - len(text), 768)
    text += "".join(filled(more - 22 + (i < rest)) for i in range(768))
    assert len(text) == 65536
    return text.encode()


def full_messy_file():
    """As many variables and lines, with the start of a comment behind them."""
    variables = {name: i % 64 + 1 for i, name in enumerate(any_variables(256))}
    body = [["p", "=", f"{i}:i7", f"{i % 3}:i7"] for i in range(1024)]
    return spelling(Map("0", variables, body)) + b"\n#"


def sizes():
    full = full_clean_file()
    assert clean_text(full) == full
    yield Case(full, 65536)
    yield Case(full, 65535)
    yield Case(full + b"\n", 99)
    messy_file = full_messy_file().ljust(65536, b"x")
    yield Case(messy_file, len(clean_text(messy_file)))
    yield Case(b"\n" * 65531 + SMALLEST, 5)
    yield Case((SMALLEST + b"\n#").ljust(65536), 4)
    yield Case(SMALLEST.ljust(65537), 0)
    declared = b"\nd" + b"".join(b" x%d:i8" % i for i in range(257))
    for start in (SMALLEST + declared, SMALLEST + b"\np ~ 1:i1" * 1024 + b"\n#\n\np ~ 1:i1"):
        yield from (Case(start, room) for room in (0, len(start)))


# Refused files.


def in_any_room(faults):
    """Each of the faulty files without room, with some and with enough."""
    for _, text in faults:
        data, _ = unmarked(text)
        yield from (Case(data, room) for room in (0, 5, len(data)))


def refused_files():
    """The readers' faulty files, and wrong tokens in some room."""
    yield from in_any_room(REFUSED + FAULTY)
    for data in (*constraint_cases.wrong_tokens(), *constraint_cases.unknown_kinds()):
        yield in_some_room(data)
    yield from map(in_some_room, constraint_cases.forbidden_bytes())


def faults_at_the_end():
    """Files with a fault behind much that is sound, in rooms that would hold it."""
    for end in (b"x", b"v 1.0", b"e 1", b"d x:i8", b"p = 0:i8 0:i9", b"p", b"c 1:i1 ~ 0:i1 0:i1", b"\x00"):
        data = spelling(any_map(4, 6)) + b"\n" + end
        yield Case(data, len(data))
    data = messy([*declarations(any_variables(4)), ["e", "1"]])  # no version
    yield from (Case(data, room) for room in (0, len(data)))


# Any files.


def any_files():
    for _ in range(220):
        data = spelling(any_map(random.randint(0, 12), random.randint(0, 10)))
        yield in_some_room(data)
    for _ in range(40):
        data = clean_text(spelling(any_map(random.randint(0, 6), random.randint(0, 6))))
        yield in_some_room(data + random.choice((b"", b"\n")))
    for _ in range(120):
        yield in_some_room(damaged(spelling(any_map(random.randint(0, 6), random.randint(0, 6)))))


# CRs.


def line_ends():
    """Files with CRs have the clean texts of those without, which have LFs alone."""
    for text, wanted in CLEAN_TEXTS:
        assert clean_text(with_crs(text.encode())) == wanted.encode()
        yield in_some_room(with_crs(text.encode()))
    for text in (*(text for _, _, text in READ_WITH_CRS), *SOUND_WITH_CRS):
        yield from in_rooms(text.encode())
    yield from in_any_room(REFUSED_WITH_CRS + FAULTY_WITH_CRS[::3])


def sizes_with_crs():
    """As many bytes as there may be, up to the last LF or to a CR, and one more."""
    full = with_crs(full_messy_file()).ljust(65534, b"x") + b"\r\n"
    text = clean_text(full)
    yield Case(full, len(text))
    for data in (full[:-2] + b"x\r", full[:-2] + b"x\r\n"):
        yield Case(data, len(text))


# All of them.


def cases():
    groups = [small_files(), every_room(), every_operator(), every_width(), every_length_of_number()]
    groups += [every_name(), same_maps(), maps_nearly_the_same(), sizes(), refused_files()]
    groups += [faults_at_the_end(), any_files()]
    found = list(dict.fromkeys(case for group in groups for case in group))
    again = repeated(lambda case: clean(*case), found)
    return list(dict.fromkeys([*found, *line_ends(), *sizes_with_crs(), *again]))


def check_coverage(files):
    """That the accepted files have every operator at each of its places, every width and every `e`."""
    lines = [line for file in files for line in file.lines]
    words = [word for line in lines for word in (line.output, *line.operands) if isinstance(word, Word)]
    assert {line.operator for line in lines if line.output} == {*OPERATORS}
    assert {line.operator for line in lines if not line.output} == {*PREDICATES, *BOOLEAN_PREDICATES}
    assert {word.width for word in words} == {*range(1, 65)}
    assert {len(str(word.value)) for word in words} == {*range(1, 21)}
    assert {width for file in files for width in file.variables.values()} == {*range(1, 65)}
    assert {len(name) for file in files for name in file.variables} == {*range(1, 33)}
    assert {file.expectation for file in files} == {None, 0, 1}


def main(folder):
    cleaning.self_test()
    made = cases()
    read = {case.constraint: constraints.read(case.constraint) for case in made}
    accepted = {data: file for data, file in read.items() if isinstance(file, constraints.File)}
    check_equality({data: clean_text(data) for data in accepted})
    check_coverage(accepted.values())
    found = [clean(*case) for case in made]
    numbers = Counter(answer.number for answer in found if isinstance(answer, Refusal))
    assert {*numbers} == {*range(1, 16), 21}
    stdin, stdout = b"".join(map(call, made)), b"".join(map(replies, made))
    assert max(len(stdin), len(stdout)) <= MOST_CORPUS
    Path(folder, "stdin").write_bytes(stdin)
    Path(folder, "stdout").write_bytes(stdout)
    print(f"{len(made)} calls on {len(read)} files; refused, by number: {dict(sorted(numbers.items()))}")


if __name__ == "__main__":
    if len(sys.argv) != 2:
        sys.exit(__doc__)
    main(sys.argv[1])
