#!/usr/bin/env python3
"""Writes runs of single-value changes, each after a check, to FOLDER/stdin, and what checks.py, changes.py and
indexes.py answer to FOLDER/stdout. Every run of this program writes the same.

usage: python3 tools/change_cases.py FOLDER

A run starts with a line of 47 bytes: `r` and five numbers of eight hexadecimal digits, the lengths of the
constraint file and of the answer and the entries of the value, verdict and result tables. Both files follow, then
commands: lines of 63 bytes with a letter, two numbers of sixteen hexadecimal digits and three of eight.
  c  a change: the variable, the value, and how many values, verdicts and results are lent
  t  the same through the index that is lent
  n  lends an index from now on: the third and the fourth number are how many starts and lists
  b  builds the file's index into what is lent
  s  stores the second number at the place, from 0, that the first one says in the starts; l in the lists,
  v  in the values, w in the verdicts, u in the results
A line of `e` and spaces, as long, ends the run.
The reply is a line for the check, a line for each change and each building, with the starts and the lists that
are lent behind it, and the values, the verdicts and the results after the run; then the starts and the lists, if
any are lent.
"""
import sys
from collections import Counter
from itertools import combinations, product
from pathlib import Path

sys.dont_write_bytecode = True  # no __pycache__ in the repository
import answer_cases
import answers
import changes
import constraints
import crowds
import index_runs
import indexes
import result_runs
from answer_cases import (
    MOST,
    MOST_ENTRIES,
    any_answer,
    any_fitting,
    are_comparable,
    is_mixable,
    is_short,
    moved_answer,
    mutated,
    random,
    respelled,
)
from answers import Refusal
from change_runs import (
    FAULTS,
    UNSET,
    Run,
    accepted,
    any_filled,
    any_fit,
    blind,
    filled,
    make,
    possible_faults,
    results_for,
    sized,
    unchecked,
    wander,
    widths,
)
from changes import Changed
from check_cases import MOST_VERDICTS, lengths_around, nearly
from constraint_cases import MIXED, crs, mixed, with_crs
from constraints import unmarked
from indexes import Indexed
from operator_vectors import edges
from operators import DIVISIONS, OPERATORS


# 01's case whole.


def whole_case():
    run = Run(answers.WHOLE, answers.SET % 1118061216, 3, 1)
    run.expect(("satisfied", 1, 1, 2), 2, 1117799076)
    run.expect(("satisfied", 1, 0, 0), 0, 17056)
    run.expect((18, "call", 0), 0, 2**16)
    run.expect((23, "call", 0), 3, 0)
    run.expect(("violated 1", 1, 1, 4), 0, 0)
    yield wander(run, 60)


# Which lines name a variable: none, as the output only, twice, every line. Some names begin alike.

NAMED = b"""v 1.0
d free:i8 out:i8 every:i8 eve:i8 every1:i8 every2:i1 last:i64 i8:i8
c out + every 1:i8
c every & every every
p ule every every
c every2 = every eve
c eve ite every2 eve every
c every >>l every every1
c 0:i8 - every every1
c every %u every1 i8
p /= every 17:i8
c every1 + every1 every
c last zext every
"""
NAMING = {"free": 0, "out": 1, "every": 11, "eve": 2, "every1": 4, "every2": 2, "last": 1, "i8": 1}


def named_lines():
    for values in ([0] * 8, [5, 1, 0, 0, 0, 1, 0, 1], any_fitting(NAMED), any_fitting(NAMED)):
        run = accepted(NAMED, values)
        for _ in range(12):
            for variable, lines in enumerate(NAMING.values()):
                found = run.change(variable, any_fit(run, variable))
                assert found.named == lines, (variable, found)
        yield wander(run, 30)


# The overall verdict: line i is decided by variable i alone, since 1 / 1 is 1 and 5 / 5 is not 5.

DECIDING = {1: 1, 0: 5, 2: 0}  # by verdict


def deciding(count):
    declared = " ".join(f"x{i}:i8" for i in range(count))
    return "\n".join(["v 1.0", f"d {declared}", *(f"c x{i} /u x{i} x{i}" for i in range(count))]).encode()


def decided_lines():
    """Lines that become violated or disregarded, most of them to hold again soon."""
    for count, weights in ((3, (2, 1, 1)), (40, (12, 1, 1)), (40, (8, 1, 0)), (120, (20, 1, 1))):
        run = accepted(deciding(count), [1] * count)
        pattern = [1] * count
        for _ in range(200):
            wrong = [i for i in range(count) if pattern[i] != 1] or range(count)
            i = random.choice((random.randrange(count), random.choice(wrong)))
            (verdict,) = random.choices((1, 0, 2), weights)
            altered = int(verdict != pattern[i])
            pattern[i] = verdict
            found = run.change(i, DECIDING[verdict])
            assert found[:3] == (answers.overall(pattern), 1, altered), (found, pattern)
        yield run


# Divisors that become zero and other again, and widths, with their edge values.

EDGE_WIDTHS = (1, 8, 63, 64)


def at_edge_widths(*lines):
    """A file of the lines for each edge width, which stands in them as W."""
    declared = [f"d a{w}:i{w} b{w}:i{w} q{w}:i{w}" for w in EDGE_WIDTHS]
    return "\n".join(["v 1.0", *declared, *(line.replace("W", str(w)) for line in lines for w in EDGE_WIDTHS)]).encode()


def edge_changes(constraint, count, zeros):
    """Changes to edge values and to values by which lines hold, and that often to zero."""
    run = accepted(constraint, any_fitting(constraint))
    for _ in range(count):
        variable = random.randrange(len(run.file.variables))
        width = widths(run)[variable]
        value = random.choice((random.choice(edges(width)), *results_for(run, variable)))
        run.change(variable, 0 if random.random() < zeros else value)
    return wander(run, count // 4)


def divisors():
    for op in DIVISIONS:
        yield edge_changes(at_edge_widths(f"c qW {op} aW bW"), 100, 0.25)
        lines = (f"c aW {op} aW aW", f"c bW {op} aW bW", "p ule aW bW", f"c qW {op} qW bW")
        yield edge_changes(at_edge_widths(*lines), 60, 0.25)
    always = at_edge_widths("c qW /u aW bW") + b"\nc q8 %s a8 256:i8"
    yield edge_changes(always, 60, 0.1)


def edge_widths():
    yield edge_changes(at_edge_widths("c qW + aW bW", "p slt aW bW", "p uge bW qW"), 150, 0)
    yield edge_changes(at_edge_widths("c qW - aW bW", "p sle aW bW", "p /= bW qW", "c aW ~ bW"), 150, 0)
    yield edge_changes(at_edge_widths("c qW * aW bW", "c aW >>a bW b8", "c bW << aW a8"), 150, 0)
    yield edge_changes(at_edge_widths(), 100, 0.1)
    yield edge_changes(at_edge_widths("c qW ite a1 aW bW", "c aW ^ aW aW", "p sgt aW qW", "p ult qW 1:iW"), 150, 0)


def bit_counts():
    """A value of 64 bits that changes in each number of bits."""
    run = accepted(b"v 1.0\nd x:i64\np ult x 4294967296:i64\n", [0])
    for bits in range(65):
        said = ("satisfied", 1, 0, bits) if bits <= 32 else ("violated 1", 1, 1, bits)
        run.expect(said, 0, 2**bits - 1)
        run.expect(("satisfied", *said[1:]), 0, 0)
    yield run


# Lent tables.


def numbered(count, width):
    return "".join(f"d x{i}:i{width}\n" for i in range(count))


def lent_tables():
    """Tables that are empty, one entry too short, exactly long enough, and longer; whatever the tables' lengths."""
    for count, lines, spare in ((3, 2, 5), (1, 1, 0), (2, 0, 3), (0, 2, 3), (1, 40, 9)):
        constraint = f"v 1.0\n{numbered(count, 8)}" + "p = x0 1:i8\n" * lines
        constraint = constraint.replace("x0 1:i8", "0:i1 0:i1") if not count else constraint
        run = Run(constraint.encode(), any_answer(constraint.encode(), [1] * count), count + spare, lines + spare)
        around = lengths_around(count, count + spare), lengths_around(lines, lines + spare)
        for (values, verdicts), value in product(product(*around), (0, 1, 256)):
            short = (values < count and "values") or (verdicts < lines and "verdicts")
            fault = short or (not count and "number") or (value > 255 and "value")
            found = run.change(0, value, values, verdicts)
            assert (found == FAULTS[fault]) if fault else isinstance(found, Changed), (fault, found)
        yield run


def short_whole():
    """Tables that are too short even whole, so that the check leaves them too."""
    for values, verdicts in ((2, 2), (3, 1), (2, 1), (0, 0), (300, 1), (1, 1100)):
        constraint = f"v 1.0\n{numbered(3, 8)}p = x0 1:i8\np = x1 1:i8\n".encode()
        yield blind(Run(constraint, any_answer(constraint, [1] * 3), values, verdicts), 8)


# The order of the refusals: every combination of faults, on tables that an accepted check left, and on tables
# with their first contents, so that 24 comes last.

def every_fault(run, times, last):
    """Every combination of faults; without any, the change must answer the last."""
    possible = possible_faults(run)
    for _ in range(times):
        for count in range(len(possible) + 1):
            for faults in combinations(possible, count):
                found = make(run, faults)
                assert faults or not last or found == last, found
    return run


def orders():
    for width, entry in ((8, Refusal(24, "values", 0)), (33, Refusal(24, "verdicts", 0))):
        constraint = f"v 1.0\n{numbered(4, width)}p = x0 x1\nc x2 %s x3 x0\n".encode()
        yield every_fault(accepted(constraint, [1, 1, 0, 9]), 5, None)
        yield wander(every_fault(unchecked(constraint), 5, entry), 60)


# Tables with their first contents: 1000003, 2000006, ... and 7 everywhere.

HELD_WIDTHS = [  # the widths of the variables, and the first of them that the first contents don't fit
    ((19,), 0),
    ((20,), None),
    ((20, 20), 1),
    ((20, 21, 21), 2),
    ((64, 63, 1, 1), 2),
    ((1, 64, 64), 0),
    ((64,) * 10 + (23,), 10),
    ((64,) * 10 + (24,), None),
    ((28,) * 255 + (27,), 255),
    ((28,) * 256, None),
]


def first_contents():
    """24 for a value, or else for a verdict; without lines the changes are accepted."""
    for (held, unfit), lines in product(HELD_WIDTHS, ("", "p = x0 x0\n", "c x0 ~ x0\np ule x0 x0\n")):
        declared = " ".join(f"x{i}:i{width}" for i, width in enumerate(held))
        run = unchecked(f"v 1.0\nd {declared}\n{lines}".encode())
        last = Refusal(24, "verdicts", 0) if lines else None
        last = last if unfit is None else Refusal(24, "values", unfit)
        every_fault(run, 1, last)
        for i in sorted({0, unfit or 0, len(held) - 1}):
            found = run.change(i, any_fit(run, i))
            assert (found == last) if last else found[:3] == ("satisfied", 0, 0), found
        yield wander(run, 6)


# Files with nothing to change or to renew.


def bare_files():
    """No variables, or two that no line names, and no lines, or some that stay as they are."""
    heads = (("v 1.0\n", []), ("v 1.0\ne 0\nd a:i8 b:i64\n", [255, MOST]))
    for (head, values), lines in product(heads, ("", "p = 0:i8 0:i8\n", "p ~ 1:i1\nc 0:i8 /s 1:i8 0:i8\n")):
        yield wander(accepted((head + lines).encode(), values), 12)


# Constraint files that are refused, whatever the change is told and lent.


def refused_run(number, data, position):
    run = blind(sized(data, random.choice((*UNSET, b"s SATISFIABLE\n"))), random.randint(1, 6))
    assert set(run.found) == {Refusal(number, "constraint", position)}, run.found
    return run


def faulty_constraints():
    by_number = {}
    for number, text in constraints.REFUSED + answer_cases.CONSTRAINT_FAULTS:
        by_number.setdefault(number, []).append(unmarked(text))
    for number, texts in sorted(by_number.items()):
        for data, position in random.sample(texts, min(2, len(texts))):
            yield refused_run(number, data, position)


# Sizes. Only these files are longer than 5,000 bytes.


def most_variables_and_lines():
    constraint, values = filled(list(OPERATORS), constraints.LINES, constraints.VARIABLES)
    constraint += b"\n#"
    assert len(values) == constraints.VARIABLES and len(constraint) <= constraints.FILE_BYTES
    answer = any_answer(constraint, values)
    run = Run(constraint.ljust(constraints.FILE_BYTES), answer, MOST_ENTRIES, MOST_VERDICTS)
    assert run.checked.overall == "satisfied"
    return wander(run, 30)


def sizes():
    yield most_variables_and_lines()
    long_file = (answers.WHOLE + b"#").ljust(65537)
    yield blind(Run(long_file, answers.SET % 1117799076, 3, 1), 6)
    long_answer = (answers.SET % 1117799076 + b"c").ljust(65537)
    yield wander(Run(answers.WHOLE, long_answer, 3, 1), 12)


# Random files.


def each_operator():
    for op in OPERATORS:
        yield wander(accepted(*filled([op], random.randint(2, 6), 6)), 110)


def random_runs():
    counts = (1, 2, 3, 40, 80, 120, 200, 300)
    for i in range(72):
        constraint, values = any_filled()
        others = random.choice((values, nearly(constraint, values), any_fitting(constraint), [0] * len(values)))
        yield wander(accepted(constraint, others), counts[i % len(counts)])


def mutated_runs():
    """A byte or a token of a file is other, so that most of the checks are refused."""
    for _ in range(12):
        constraint, values = any_filled()
        yield wander(sized(constraint, mutated(any_answer(constraint, values))), 20)
        yield blind(sized(mutated(constraint), any_answer(constraint, values)), 5)


# CRs, in one file or in both.

MOST_AGAIN = 40  # changes of a run that is repeated


def faulty_with_crs():
    for number, text in constraints.REFUSED_WITH_CRS:
        yield refused_run(number, *unmarked(text))


def sizes_with_crs():
    """As many bytes as there may be, up to the last LF or to a CR, and one more."""
    answer = with_crs(answers.SET % 1117799076)
    full = (with_crs(answers.WHOLE) + b"#").ljust(65534) + b"\r\n"
    yield wander(Run(full, answer, 3, 1), 12)
    yield blind(Run(full[:-2] + b" \r\n", answer, 3, 1), 6)
    yield blind(Run(full[:-2] + b" \r", answer, 3, 1), 6)


def again(run, put, turn):
    """The run with CRs put into the files whose turn it is. Its first changes must be answered alike."""
    other = Run(*respelled(run.start, put, turn))
    for numbers in run.numbers[:MOST_AGAIN]:
        other.change(*numbers)
    if are_comparable(run, other):
        wanted = [moved_answer(found, run, other) for found in run.found[:MOST_AGAIN]]
        assert other.found == wanted, (other.start, wanted, other.found)
        assert other.checked == moved_answer(run.checked, run, other), (other.start, other.checked)
    return other


def repeated(runs):
    """Of those with short files every third with CRs, and some with both line ends."""
    short = [run for run in runs if is_short(run.start)]
    for turn, run in enumerate(short[::3]):
        yield again(run, with_crs, turn)
    for turn, run in enumerate(crs.sample([run for run in short if is_mixable(run.start)], MIXED)):
        yield again(run, mixed, turn)


# Names that meet in a bucket. The widths are the same and hardly two values are, so that another's would show.


def crowded_run(variables, count):
    """The first variables, so many, are in two lines each. Some are changed, and changed back through the index."""
    constraint = crowds.header(variables) + crowds.lines(crowds.shuffled(variables[:count] * 2))
    run = index_runs.build(accepted(constraint.encode(), [variable.value for variable in variables]))
    for one in crowds.some_of(variables):
        number = variables.index(one)
        lines = 2 if number < count else 0
        for change, value in ((run.change, one.value ^ 1), (run.through, one.value)):
            found = change(number, value)
            assert found[1:] == (lines, lines, 1), found
        assert found.overall == "satisfied", found
    return run


def crowded_runs():
    found = list(crowds.crowds())
    for names in found[:6] + found[6::3]:
        yield crowded_run(crowds.held(names, (16,)), len(names))
    yield crowded_run(crowds.held(crowds.any_crowd(constraints.VARIABLES, range(3, 6)), (16,)), 20)


# The corpus.

GROUPS = [whole_case, named_lines, decided_lines, divisors, edge_widths, bit_counts, lent_tables, short_whole]
GROUPS += [orders, first_contents, bare_files, faulty_constraints, sizes, each_operator, random_runs, mutated_runs]

# Every refusal that a change or a building can give: by subject, the numbers.
REFUSALS = {"constraint": {*range(1, 16)}, "values": {21, 24}, "verdicts": {21, 24}, "call": {18, 23}}
REFUSALS |= {"starts": {21, 25}, "lists": {21, 25}, "results": {21}}
MOST_STDIN = 2650000


def kind(found):
    """An answer without its counts and positions."""
    if isinstance(found, Refusal):
        return "refused {} {}".format(*found)
    return "indexed" if isinstance(found, Indexed) else found.overall.split()[0]


def assert_complete(runs):
    """That every answer is given, and that the counts reach their ends."""
    found = [answer for run in runs for answer in run.found]
    refusals = {(answer.subject, answer.number) for answer in found if isinstance(answer, Refusal)}
    assert refusals == {(subject, number) for subject, numbers in REFUSALS.items() for number in numbers}
    assert {answer.bits for answer in found if isinstance(answer, Changed)} == {*range(65)}
    assert sum(max(len(run.constraint), len(run.answer)) > 5000 for run in runs) <= 9


def show(title, counter):
    print(f"{title}: {counter.total()}")
    for answer, count in sorted(counter.items()):
        print(f"  {answer:22} {count}")


def main(folder):
    indexes.self_test()
    changes.self_test()
    runs = [run for group in GROUPS for run in group()]
    runs += [*faulty_with_crs(), *sizes_with_crs(), *repeated(runs)]
    runs += [run for group in index_runs.GROUPS for run in group()]
    runs += crowded_runs()
    runs += [run for group in result_runs.GROUPS for run in group()]
    runs = list({run.stdin(): run for run in runs}.values())  # a file without LFs gets no CRs
    for run in runs:
        if run.model:
            run.assert_fresh()
    assert_complete(runs)
    stdin = b"".join(run.stdin() for run in runs)
    assert len(stdin) < MOST_STDIN, len(stdin)
    Path(folder, "stdin").write_bytes(stdin)
    Path(folder, "stdout").write_bytes(b"".join(run.stdout() for run in runs))
    show("runs, by the check's answer", Counter(kind(run.checked) for run in runs))
    show("changes and buildings, by answer", Counter(kind(answer) for run in runs for answer in run.found))
    after = Counter("with the model" if run.model else "without" for run in runs for _ in run.found)
    show("the same, by whether the model went along", after)


if __name__ == "__main__":
    if len(sys.argv) != 2:
        sys.exit(__doc__)
    main(sys.argv[1])
