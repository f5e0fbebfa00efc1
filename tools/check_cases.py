#!/usr/bin/env python3
"""Writes calls of the check to FOLDER/stdin, and what checks.py answers to each to FOLDER/stdout, with the
program's report and the C call's number of the same files. Every run writes the same.

usage: python3 tools/check_cases.py FOLDER

A call starts with a line of 47 bytes: `k` and five numbers of eight hexadecimal digits, the lengths of the
constraint file and of the answer and the entries of the lent value, verdict and result tables. Both files follow.
The reply is six lines, or seven where the report has two: what the check answers, the three tables after it, the
report, and the number.
"""
import sys
from collections import Counter, namedtuple
from itertools import product
from pathlib import Path
from random import Random

sys.dont_write_bytecode = True  # no __pycache__ in the repository
import answer_cases
import answers
import checks
import constraint_cases
import constraints
import crowds
import operator_vectors
from answer_cases import (
    HEAD,
    LONG_NAMES,
    MOST,
    MOST_BYTES,
    MOST_ENTRIES,
    NAME_32,
    NAME_33,
    TABLE_CASES,
    Instance,
    any_answer,
    any_fitting,
    any_instance,
    constant,
    mutated,
    random,
    repeated,
    respelled,
)
from answers import Refusal
from constraint_cases import with_crs
from constraints import VARIABLES, Line, is_predicate, unmarked
from operators import DIVISIONS, OPERATORS, Word

MOST_VERDICTS = MOST_RESULTS = 1100
rooms = Random(4)  # draws of their own for the results' lengths, which leave all others as they are


class Case(namedtuple("Case", "constraint answer values verdicts results")):
    """Two files, and how many values, verdicts and results are lent; as many results as verdicts, if not said."""

    def __new__(cls, constraint, answer, values, verdicts, results=None):
        return super().__new__(cls, constraint, answer, values, verdicts, verdicts if results is None else results)


# A call in the corpus, and its reply.


def start(kind, case):
    """The first line of a call, and its files."""
    assert max(len(case.constraint), len(case.answer)) <= MOST_BYTES
    assert 0 <= case.values <= MOST_ENTRIES
    assert 0 <= case.verdicts <= MOST_VERDICTS and 0 <= case.results <= MOST_RESULTS
    lengths = len(case.constraint), len(case.answer), case.values, case.verdicts, case.results
    return answer_cases.header(kind, *lengths) + case.constraint + case.answer


def first_tables(case):
    """What stands in the tables before the call: no two words alike, and verdicts that can't be held."""
    values = [1000003 * (i + 1) for i in range(case.values)]
    results = [MOST - 1000003 * i for i in range(case.results)]
    return values, [7] * case.verdicts, results


def tables_after(case, found):
    """The three tables, of which the entries in use are overwritten where the call is not refused."""
    used = ([], [], []) if isinstance(found, Refusal) else (found.values, found.verdicts, found.results)
    return [front + table[len(front) :] for front, table in zip(used, first_tables(case))]


def table_line(table):
    return "".join(f"{entry} " for entry in table) + "\n"


def reply(case):
    found = checks.check(*case)
    tables = "".join(map(table_line, tables_after(case, found)))
    report = checks.report(case.constraint, case.answer)
    number = checks.code(case.constraint, case.answer)
    return f"{checks.outcome(found)}{tables}{report}code {number}\n".encode()


# Cases with the answer that they must get.


def expected(said, case):
    found = checks.outcome(checks.check(*case))
    assert found == said + "\n", (case, said, found)
    return case


def accepted(said, constraint, text, values, verdicts):
    """An accepted check with so many variables and lines, whose tables may be longer."""
    spare, more = random.choices((0, 0, 1, 4), k=2)
    lengths = values + spare, verdicts + more, verdicts + rooms.choice((0, 0, 1, 4))
    return expected(said, Case(constraint.encode(), text.encode(), *lengths))


def refused(number, subject, position, constraint, answer):
    """A refused file, with tables that may be too short."""
    lengths = random.choice((0, 1, 4, 5)), random.choice((0, 1, 2, 5)), rooms.choice((0, 1, 2, 5))
    return expected(f"refused {number} {subject} {position}", Case(constraint, answer, *lengths))


def sized(constraint, answer, steps=(0, 0), more=None):
    """A case with values and verdicts longer by the steps than their entries in use, or shorter, and that many
    results more, or any that are enough."""
    file = answers.read_constraint(constraint)
    used = (4, 4, 4) if isinstance(file, Refusal) else (len(file.variables), len(file.lines), len(file.lines))
    steps = *steps, rooms.choice((0, 0, 0, 1, 7)) if more is None else more
    return Case(constraint, answer, *(max(0, length + step) for length, step in zip(used, steps)))


def any_steps():
    return random.choice((-1, 0, 0, 0, 1, 7)), random.choice((-1, 0, 0, 0, 1, 7))


# 01's case whole and its variants, and W1 to W12.

WHOLE_ANSWERS = [
    ("violated 1", answers.SET % 1118061216),
    ("satisfied", answers.SET % 1117799076),
    ("violated 1", answers.SET % 1117799077),
    ("violated 1", answers.SET % 1117799075),
    ("refused 18 answer 34", answers.SET % 2**32),
    ("refused 20 answer 34", b"s SATISFIABLE\nv hi=17056 lo=17060\n"),
]


def whole_case():
    for said, text in WHOLE_ANSWERS:
        yield expected(said, Case(answers.WHOLE, text, 3, 1))
        too_narrow = answers.WHOLE.replace(b"r:i32", b"r:i31")
        yield expected("refused 15 constraint 32", Case(too_narrow, text, 3, 1))


def table_cases():
    """W1 to W12, then with the output of each `c` line in turn wrong by one."""
    yield accepted("satisfied", TABLE_CASES, "s SATISFIABLE\n", 0, 13)
    header, *lines = TABLE_CASES.splitlines()
    for i, line in enumerate(lines):
        if line.startswith("c "):
            number, rest = line.removeprefix("c ").split(":", 1)
            wrong = [*lines[:i], f"c {int(number) ^ 1}:{rest}", *lines[i + 1 :]]
            yield accepted(f"violated {i + 1}", "\n".join([header, *wrong]), "s SATISFIABLE", 0, 13)


# The overall verdict. A pattern is the verdict of each line.

DECIDED_HEAD = "v 1.0\nd a:i8 z:i8 t:i1\n"
DECIDED_SET = "s SATISFIABLE\nv a=7 z=0 t=1\n"
DECIDED = {
    "0": ("p = a z", "c a + a 1:i8", "p ~ t", "c z /u a 1:i8", "c 6:i8 & a a", "p sle a z"),
    "1": ("p = a 7:i8", "c a + a z", "p ite t t 0:i1", "c 0:i8 & a z", "c z %u a 1:i8", "p => t t"),
    "2": ("c a /u a z", "c 0:i8 %u z z", "c a %s a z", "c z /s a 0:i8", "c a %u a 256:i8"),
}


def overall(pattern):
    return answers.overall([int(verdict) for verdict in pattern])


def decided(pattern):
    """Lines with these verdicts, and some between them that are skipped."""
    lines = [random.choice(("", "", "#\n", " \n")) + random.choice(DECIDED[verdict]) for verdict in pattern]
    constraint = DECIDED_HEAD + "\n".join(lines) + random.choice(("", "\n"))
    case = accepted(overall(pattern), constraint, DECIDED_SET, 3, len(pattern))
    assert "".join(map(str, checks.check(*case).verdicts)) == pattern
    return case


def at(place, verdict, others):
    """The pattern of the others with one verdict replaced."""
    return others[:place] + verdict + others[place + 1 :]


def decided_lines():
    """Every pattern of up to three lines, then a deciding line first, in the middle and last."""
    for count in (1, 2, 3):
        yield from map(decided, map("".join, product("012", repeat=count)))
    for place, (verdict, other) in product((0, 9, 19), ("01", "21", "20")):
        yield decided(at(place, verdict, other * 20))
    for first, second in product("02", repeat=2):
        yield decided(at(15, second, at(4, first, "1" * 20)))
    yield decided("".join(random.choices("012", k=60)))


# Each operator, by the vectors of operator_vectors.py: a result width, then each operand's width and value.


def operands(vector):
    return [Word(*pair) for pair in zip(vector[1::2], vector[2::2])]


def is_number(result):
    return isinstance(result, int)


def is_sound(result):
    return is_number(result) or result == "zero divisor"


def any_vectors(op, count, fits):
    """Some vectors of op whose result fits."""
    every = dict.fromkeys([*operator_vectors.typical(op), *operator_vectors.boundaries(op)])
    fitting = [vector for vector in every if fits(operator_vectors.answer(op, vector))]
    return random.sample(fitting, min(count, len(fitting)))


def tokens(instance, op, words):
    """Variables that hold the words, or constants."""
    if op == "extr":
        return [instance.output(words[0]), *map(constant, words[1:])]
    return [instance.output(word) for word in words]


def add_constraint(instance, op, vector, step):
    """A `c` line whose output is the result and the step."""
    result = operator_vectors.answer(op, vector)
    output = Word(vector[0], ((result if is_number(result) else 0) + step) % 2 ** vector[0])
    instance.lines.append(["c", instance.output(output), op, *tokens(instance, op, operands(vector))])


def spelled(instance, said=None):
    constraint, values = instance.spelling()
    case = sized(constraint, any_answer(constraint, values))
    return expected(said, case) if said else case


def as_constraint(op, steps, fits=is_number):
    """A `c` line for each step, as far as there are vectors."""
    instance = Instance()
    for vector, step in zip(any_vectors(op, len(steps), fits), steps):
        add_constraint(instance, op, vector, step)
    return instance


def as_predicate(op, results):
    """A `p` line for each result."""
    instance = Instance()
    for result in results:
        vectors = any_vectors(op, 40, lambda found: found == result)
        vector = next(vector for vector in vectors if is_predicate(Line(None, op, operands(vector))))
        instance.lines.append(["p", op, *tokens(instance, op, operands(vector))])
    return instance


def constraint_operators():
    """Each operator in `c` lines that hold, of which one is wrong by one, and at edges, zero divisors too."""
    for op in OPERATORS:
        yield spelled(as_constraint(op, (0, 0, 0, 0)), "satisfied")
        yield spelled(as_constraint(op, (0, 0, random.choice((1, -1)), 0)), "violated 3")
        yield spelled(as_constraint(op, random.choices((0, 0, 1, -1), k=20), is_sound))


def predicate_operators():
    """Each operator that a `p` line may have, in lines that hold, and of which one has the result 0."""
    for op in (*constraints.PREDICATES, *constraints.BOOLEAN_PREDICATES):
        yield spelled(as_predicate(op, (1, 1, 1)), "satisfied")
        yield spelled(as_predicate(op, (1, 0, 1)), "violated 2")


def neighbours():
    """The comparisons of each edge value with itself and its neighbours, as `p` and as `c` lines."""
    for op in constraints.PREDICATES[1:]:
        lines = []
        for width in (1, 8, 64):
            for value, step in product(operator_vectors.edges(width), (-1, 0, 1)):
                pair = f"{value}:i{width} {(value + step) % 2**width}:i{width}"
                lines.append(random.choice((f"p {op} {pair}", f"c 1:i1 {op} {pair}", f"c t {op} {pair}")))
        constraint = "\n".join(["v 1.0", "d t:i1", *lines])
        yield sized(constraint.encode(), b"s SATISFIABLE\nv t=%d\n" % random.randint(0, 1))


def zero_divisors():
    """Each division by zero alone, whatever its output."""
    for op, divisor in product(DIVISIONS, ("z", "0:i8", "256:i8")):
        output, dividend = random.choice((("z", "z"), ("a", "a"), ("255:i8", "a")))
        constraint = f"v 1.0\nd a:i8 z:i8\nc {output} {op} {dividend} {divisor}\n"
        yield accepted("disregarded 1", constraint, "s SATISFIABLE\nv a=7 z=0\n", 2, 1)


# Refused files. HEAD declares four variables.

ANY_ANSWERS = (b"", b"\x00", b"x", b"s UNKNOWN", b"s SATISFIABLE", b"s SATISFIABLE\nv a=1", b"v x=1\ns SATISFIABLE")
LINED_HEAD = HEAD + "c a + a 0:i8\np ugt w 3:i64\nc a /u a 0:i8\n"


CONSTRAINT_FAULTS = constraints.REFUSED + answer_cases.CONSTRAINT_FAULTS + constraint_cases.FAULTY


def faulty_constraints(faults=CONSTRAINT_FAULTS):
    """A fault in the constraint file, beside any answer."""
    for number, text in faults:
        data, position = unmarked(text)
        yield refused(number, "constraint", position, data, random.choice(ANY_ANSWERS))


def first_wrong_tokens():
    """The first and the last token of each number at its first place."""
    for table, places in answer_cases.PLACES:
        for number, wrong in table.items():
            for token in sorted({wrong.split()[0], wrong.split()[-1]}):
                yield number, places[0].format("¦" + token)


def beside_lines(faults):
    """A fault in the answer, beside a line that is violated or disregarded or holds."""
    for number, text in faults:
        data, position = unmarked(text)
        yield refused(number, "answer", position, LINED_HEAD.encode(), data)


def faulty_answers():
    yield from beside_lines([*answer_cases.FAULTY, *first_wrong_tokens()])
    for number, text in answer_cases.NO_VARIABLES:
        data, position = unmarked(text)
        yield refused(number, "answer", position, b"v 1.0\nc 0:i8 ~ 255:i8\n", data)


# Lent tables.

LENT_LINES = {"0": "p = 0:i8 1:i8", "1": "p ule 0:i8 1:i8", "2": "c 0:i8 /s 1:i8 0:i8"}  # by verdict


def lent_lines(pattern):
    return "".join(f"{LENT_LINES[verdict]}\n" for verdict in pattern)


def lengths_around(used, most):
    return sorted({0, max(0, used - 1), used, used + 1, most})


LENT = ((3, "102"), (1, "0"), (0, "11"), (2, ""), (0, ""))  # how many variables, and the verdicts


def lent(declared, pattern, values, verdicts, results):
    """So many variables and lines with these verdicts, with tables of these lengths."""
    constraint = "v 1.0\n" + "".join(f"d x{i}:i8\n" for i in range(declared)) + lent_lines(pattern)
    text = "s SATISFIABLE\nv " + " ".join(f"x{i}={i}" for i in range(declared))
    lines = len(pattern)
    short = (values < declared and "values") or (verdicts < lines and "verdicts") or (results < lines and "results")
    said = f"refused 21 {short} 0" if short else overall(pattern)
    return expected(said, Case(constraint.encode(), text.encode(), values, verdicts, results))


def lent_tables():
    """Values and verdicts that are empty, one entry too short, exactly long enough, and longer."""
    for declared, pattern in LENT:
        around = lengths_around(declared, MOST_ENTRIES), lengths_around(len(pattern), MOST_VERDICTS)
        for values, verdicts in product(*around):
            yield lent(declared, pattern, values, verdicts, len(pattern) + rooms.choice((0, 0, 1, 4)))


# Files with nothing in them to check.


def bare_files():
    """No lines, no variables, neither, and `e`."""
    variables = (("", ""), ("d x:i8 y:i1\n", "v x=255 y=0\n"))
    for e, (declared, sets), pattern in product(("", "e 0\n", "e 1\n"), variables, ("", "1", "10")):
        constraint = f"v 1.0\n{e}{declared}" + lent_lines(pattern)
        text = "c\ns SATISFIABLE\n" + sets
        yield accepted(overall(pattern), constraint, text, sets.count("="), len(pattern))


# Sizes. Only these files are longer than 5,000 bytes.


def file_sizes():
    """Both sides of 65,536 bytes, with what decides at the very end."""
    constraint, text = b"v 1.0\nd t:i1\np ~ t\n#", b"s SATISFIABLE\nv t=0\nc"
    yield expected("satisfied", Case(constraint.ljust(65536), text.ljust(65536), 1, 1))
    late_line = b"v 1.0\nd t:i1\n#".ljust(65530) + b"\np ~ t"
    late_set = b"s SATISFIABLE\nc".ljust(65530) + b"\nv t=1"
    yield expected("violated 1", Case(late_line, late_set, 1, 1))
    yield expected("refused 1 constraint 65536", Case(constraint.ljust(65537), b"s UNKNOWN\n", 0, 0))
    yield expected("refused 1 constraint 65536", Case(b"\x00" * 70000, text.ljust(65537), 1, 1))
    yield expected("refused 1 answer 65536", Case(constraint, text.ljust(65537), 0, 0))
    yield expected("refused 1 answer 65536", Case(constraint, b"\x00" * 70000, 1, 1))
    yield expected("refused 2 answer 65535", Case(constraint, text.ljust(65535) + b"\r", 1, 0))


def most_variables():
    """256 variables of 32-byte names, then 257."""
    constraint = "v 1.0\n" + "".join(f"d {name}:i64\n" for name in LONG_NAMES)
    sets = "".join(f" {name}={2**64 - 1 - i}" for i, name in enumerate(LONG_NAMES))
    text = f"s SATISFIABLE\nv{sets}\n".encode()
    lined = f"{constraint}c {LONG_NAMES[0]} + {LONG_NAMES[255]} 255:i64\np = {LONG_NAMES[255]} 0:i64\n".encode()
    yield expected("violated 2", Case(lined, text, 256, 2))
    yield expected("violated 2", Case(lined, text, 300, 1100))
    yield expected("refused 21 values 0", Case(lined, text, 255, 1))
    short = "v 1.0\nd " + " ".join(f"x{i}:i1" for i in range(256))
    zeros = b"s SATISFIABLE\nv " + b" ".join(b"x%d=0" % i for i in range(256))
    yield expected("satisfied", Case(f"{short}\np ~ x255".encode(), zeros, 256, 1))
    yield expected(f"refused 11 constraint {len(short) + 1}", Case(f"{short} y:i1".encode(), zeros, 300, 0))


def most_lines():
    """1,024 lines, then 1,025."""
    head, text = b"v 1.0\nd t:i1 z:i1\n", b"s SATISFIABLE\nv t=0 z=%d\n"
    lines = head + b"p ~ t\n" * 1023
    yield expected("satisfied", Case(lines + b"p ~ z", text % 0, 2, 1024))
    yield expected("violated 1024", Case(lines + b"p ~ z", text % 1, 2, 1100))
    yield expected("disregarded 1024", Case(lines.replace(b"t\n", b"z\n", 512) + b"c t /u t t", text % 1, 2, 1024))
    yield expected("refused 21 verdicts 0", Case(lines + b"p ~ z", text % 0, 2, 1023))
    yield expected(f"refused 11 constraint {len(lines) + 6}", Case(lines + b"p ~ z\np ~ z", text % 0, 2, 1100))


def names_and_widths():
    """Names of 32 and 33 bytes, widths 0, 1, 64 and 65, and the values at their ends."""
    for name, width in product((NAME_32, "n"), (1, 64)):
        constraint = f"v 1.0\nd {name}:i{width}\np = {name} {2**width - 1}:i{width}\n"
        for value, said in ((2**width - 1, "satisfied"), (0, "violated 1")):
            yield accepted(said, constraint, f"s SATISFIABLE\nv {name}={value}\n", 1, 1)
        text = f"s SATISFIABLE\nv {name}={2**width}\n".encode()
        yield refused(18 if width == 1 else 10, "answer", 16, constraint.encode(), text)
    for width in (0, 65):
        yield refused(9, "constraint", 8, f"v 1.0\nd n:i{width}\n".encode(), b"s SATISFIABLE\nv n=0\n")
    text = f"s SATISFIABLE\nv {NAME_32}=1 {NAME_33}=1\n".encode()
    yield refused(11, "constraint", 8, f"v 1.0\nd {NAME_33}:i1\n".encode(), text)
    yield refused(11, "answer", text.index(NAME_33.encode()), f"v 1.0\nd {NAME_32}:i1\n".encode(), text)


# Random files.


def nearly(constraint, values):
    """The values with one of them other: wrong by one, in one bit, or zero."""
    i = random.randrange(len(values))
    width = list(answer_cases.declared(constraint).values())[i]
    value = values[i]
    others = (value + 1, value - 1, value ^ 1 << random.randrange(width), 0)
    return [*values[:i], random.choice(others) % 2**width, *values[i + 1 :]]


def any_inhabited():
    """A random instance with a variable."""
    constraint, values = any_instance()
    while not values:
        constraint, values = any_instance()
    return constraint, values


def random_checks():
    for _ in range(22):
        constraint, values = any_inhabited()
        text = any_answer(constraint, values)
        yield expected("satisfied", sized(constraint, text))
        for others in (nearly(constraint, values), any_fitting(constraint), [0] * len(values)):
            yield sized(constraint, any_answer(constraint, others), any_steps())
        yield sized(constraint, mutated(text), any_steps())
        yield sized(mutated(constraint), random.choice((text, mutated(text))), any_steps())


# CRs, in one file or in both.


def whole_case_with_crs():
    for (said, text), turn in product(WHOLE_ANSWERS[:2], range(3)):
        yield expected(said, respelled(Case(answers.WHOLE, text, 3, 1), with_crs, turn))
    too_narrow = answers.WHOLE.replace(b"r:i32", b"r:i31")
    yield expected("refused 15 constraint 34", Case(with_crs(too_narrow), b"", 3, 1))


def accepted_with_crs():
    yield accepted("satisfied", "v 1.0\r\n", "s SATISFIABLE\r\n", 0, 0)
    for text in answer_cases.READ_WITH_CRS:
        yield accepted("disregarded 3", LINED_HEAD, text, 4, 3)
        yield expected("disregarded 3", Case(with_crs(LINED_HEAD.encode()), text.encode(), 4, 3))


def faulty_with_crs():
    """Faults at CRs and near them, and others behind files with CRs that are read."""
    yield expected("refused 3 answer 0", Case(b"v 1.0\r\n", b"x", 0, 2))
    yield expected("refused 3 answer 0", Case(b"v 1.0\r\nd a:i8\r\n", b"x", 0, 5))
    yield expected("refused 21 values 0", Case(LINED_HEAD.encode(), answer_cases.READ_WITH_CRS[0].encode(), 1, 1))
    yield from faulty_constraints(constraints.REFUSED_WITH_CRS + constraint_cases.FAULTY_WITH_CRS)
    yield from beside_lines(answer_cases.FAULTY_WITH_CRS)


def sizes_with_crs():
    """As many bytes as there may be, up to the last LF or to a CR, and one more."""
    late_line = b"v 1.0\r\nd t:i1\r\n#".ljust(65527) + b"\r\np ~ t\r\n"
    late_set = b"s SATISFIABLE\r\nc".ljust(65527) + b"\r\nv t=1\r\n"
    yield expected("violated 1", Case(late_line, late_set, 1, 1))
    short = b"v 1.0\r\nd t:i1\r\np ~ t\r\n"
    yield expected("refused 1 answer 65536", Case(short, late_set[:-2] + b" \r\n", 1, 1))
    yield expected("refused 2 constraint 65535", Case(late_line[:-2] + b" \r", b"s SATISFIABLE\r\nv t=1\r\n", 1, 1))


LINE_ENDS = [whole_case_with_crs, accepted_with_crs, faulty_with_crs, sizes_with_crs]


# Names that meet in a bucket. The widths are the same and hardly two values are, so that another's would show.


def crowded_checks(variables, count):
    """That many lines, which hold in an answer that sets the variables in another order, and once one does not."""
    named = crowds.shuffled(variables)[:count]
    constraint = crowds.header(variables) + crowds.lines(named)
    place = crowds.random.randrange(count)
    wrong = named[place]._replace(value=named[place].value ^ 1)
    for said, one in (("satisfied", named[place]), (f"violated {place + 1}", wrong)):
        text = crowds.answer(crowds.shuffled([*crowds.without(variables, named[place]), one]))
        yield accepted(said, constraint, text, len(variables), count)


def crowded_files():
    for names in crowds.crowds():
        yield from crowded_checks(crowds.held(names, (16,)), len(names))
    yield from faulty_constraints(list(crowds.faults())[::7])


def most_names():
    """As many as there may be, all of one bucket or of one hash, and one more."""
    names = crowds.any_crowd(VARIABLES, range(3, 6))
    yield from crowded_checks(crowds.held(names, (16,)), 40)
    yield from list(crowded_checks(crowds.held(crowds.of_one_hash(VARIABLES), (16,)), 40))[:1]
    yield from faulty_constraints(list(crowds.one_too_many(names))[:1])


CROWDS = [crowded_files, most_names]


# Tables of results.


def lent_results():
    """Results as the other tables before, beside these one entry too short and exactly long enough."""
    for declared, pattern in LENT:
        lines = len(pattern)
        around = {max(0, declared - 1), declared}, {max(0, lines - 1), lines}, {*lengths_around(lines, lines + 40)}
        for lengths in product(*map(sorted, around)):
            yield lent(declared, pattern, *lengths)
    yield lent(3, "102", 3, 3, MOST_RESULTS)


def known_results():
    """Each line that answers.py has worked out by itself, then all of them in one file."""
    sets = " ".join(f"{name}={value}" for name, value in zip("abxt", answers.WORKED_VALUES))
    text = f"s SATISFIABLE\nv {sets}\n"
    lines = [([line], [verdict], [result]) for line, verdict, result in answers.WORKED_OUT]
    lines.append(tuple(map(list, zip(*answers.WORKED_OUT))))
    for spelled_lines, verdicts, results in lines:
        constraint = answers.WORKED_HEAD + "\n".join(spelled_lines)
        case = accepted(answers.overall(verdicts), constraint, text, 4, len(verdicts))
        assert checks.check(*case).results == results, (case, results)
        yield case


DIFFERENCES = b"v 1.0\nd x:i64\n" + b"".join(b"c x - %d:i64 x\n" % i for i in range(1, 1025))


def most_results():
    """1,024 lines that come to as many words, with too few results, enough and more."""
    text = b"s SATISFIABLE\nv x=%d\n"
    for value, results in ((2**63, 1024), (3, MOST_RESULTS)):
        yield expected("violated 1", Case(DIFFERENCES, text % value, 1, 1024, results))
    yield expected("refused 21 results 0", Case(DIFFERENCES, text % 3, 1, 1024, 1023))


def random_results():
    """Random instances with any lengths."""
    for _ in range(12):
        constraint, values = any_inhabited()
        for others in (values, nearly(constraint, values), any_fitting(constraint)):
            steps = random.choices((-1, 0, 0, 0, 1, 7), k=2)
            yield sized(constraint, any_answer(constraint, others), steps, random.choice((-9, -1, 0, 0, 1, 7)))


RESULTS = [lent_results, known_results, most_results, random_results]


# The corpus.

GROUPS = [whole_case, table_cases, decided_lines, constraint_operators, predicate_operators, neighbours]
GROUPS += [zero_divisors, faulty_constraints, faulty_answers, lent_tables, bare_files, file_sizes]
GROUPS += [most_variables, most_lines, names_and_widths, random_checks]

# Every answer that the check can give: the numbers by subject, and the verdicts.
REFUSALS = {subject: numbers for (kind, subject), numbers in answer_cases.REFUSALS.items() if kind == "r"}
REFUSALS["verdicts"] = REFUSALS["results"] = {21}
MOST_STDIN = 1500000


def cases():
    found = list(dict.fromkeys(case for group in GROUPS for case in group()))
    with_line_ends = [case for group in LINE_ENDS for case in group()]
    again = repeated(lambda case: checks.check(*case), found)
    others = (case for group in CROWDS + RESULTS for case in group())
    return list(dict.fromkeys([*found, *with_line_ends, *again, *others]))


def outcome_counts(every):
    """How often each overall verdict is given, and each number by subject."""
    overalls, refusals = Counter(), {subject: Counter() for subject in REFUSALS}
    for case in every:
        found = checks.check(*case)
        if isinstance(found, Refusal):
            refusals[found.subject][found.number] += 1
        else:
            overalls[found.overall.split()[0]] += 1
    return overalls, refusals


def show(name, counter):
    print(f"{name:10}", *(f"{key}:{count}" for key, count in sorted(counter.items())))


def main(folder):
    checks.self_test()
    every = cases()
    overalls, refusals = outcome_counts(every)
    assert set(overalls) == set(checks.CODES)
    assert {subject: set(numbers) for subject, numbers in refusals.items()} == REFUSALS
    stdin = b"".join(start("k", case) for case in every)
    assert len(stdin) < MOST_STDIN, len(stdin)
    Path(folder, "stdin").write_bytes(stdin)
    Path(folder, "stdout").write_bytes(b"".join(map(reply, every)))
    print(f"{len(every)} cases; the overall verdicts, then by subject the refusals, each with its count:")
    show("verdicts", overalls)
    for subject, numbers in refusals.items():
        show(subject, numbers)


if __name__ == "__main__":
    if len(sys.argv) != 2:
        sys.exit(__doc__)
    main(sys.argv[1])
