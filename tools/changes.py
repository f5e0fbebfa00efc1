#!/usr/bin/env python3
"""The single-value change and demand 3's plain model, by documents 01 and 02 and apart from the Rattle code.

change(constraint, values, verdicts, results, variable, value, index) gives the Changed that a change answers
which is lent these three tables and an index, or None, or its Refusal; accepted, it overwrites the tables in place.
Model(file, row) is the plain model, which holds a row of values and nothing else. `--self-test` checks both on
cases worked out by hand.
"""
import sys
from collections import namedtuple

sys.dont_write_bytecode = True  # no __pycache__ in the repository
import answers
import checks
import indexes
from answers import WHOLE, Refusal
from constraints import Variable

Changed = namedtuple("Changed", "overall named altered bits")


# The change. Each test gives its refusal, or None.


def short_table(file, values, verdicts, results):
    if len(values) < len(file.variables):
        return Refusal(21, "values", 0)
    if len(verdicts) < len(file.lines):
        return Refusal(21, "verdicts", 0)
    if len(results) < len(file.lines):
        return Refusal(21, "results", 0)
    return None


def unfit_number(file, variable, value):
    """23 or 18, which speak of the call's own numbers."""
    widths = list(file.variables.values())
    if variable >= len(widths):
        return Refusal(23, "call", 0)
    if value >= 2 ** widths[variable]:
        return Refusal(18, "call", 0)
    return None


def unfit_entry(file, values, verdicts):
    """24 for the first entry in use that can't be held. Any word can be held as a result."""
    for i, (value, width) in enumerate(zip(values, file.variables.values())):
        if value >= 2**width:
            return Refusal(24, "values", i)
    for i, (verdict, _) in enumerate(zip(verdicts, file.lines)):
        if verdict > 2:
            return Refusal(24, "verdicts", i)
    return None


def is_named(line, name):
    """Whether the line has the variable as its output or an operand."""
    return any(isinstance(token, Variable) and token.name == name for token in (line.output, *line.operands))


def unfit_index(file, index):
    """25 for an index that doesn't fit the file. There may be none."""
    return indexes.misfit(file, *index) if index else None


def concerned(file, variable, index):
    """The places of the lines that name the variable, or of those that the index lists for it."""
    if index:
        return [number - 1 for number in indexes.listed(*index, variable)]
    name = list(file.variables)[variable]
    return [i for i, line in enumerate(file.lines) if is_named(line, name)]


def renew(file, values, verdicts, results, places):
    """Renews the lines at these places, and counts the verdicts that become different."""
    altered = 0
    for i in places:
        renewed = answers.verdict(file, file.lines[i], values)
        altered += renewed != verdicts[i]
        verdicts[i] = renewed
        results[i] = answers.kept_result(file, file.lines[i], values)
    return altered


def change(constraint, values, verdicts, results, variable, value, index=None):
    """Refused in this order: constraint file, 21, 23, 18, 24, 25."""
    file = answers.read_constraint(constraint)
    if isinstance(file, Refusal):
        return file
    refusal = short_table(file, values, verdicts, results) or unfit_number(file, variable, value)
    refusal = refusal or unfit_entry(file, values, verdicts) or unfit_index(file, index)
    if refusal:
        return refusal
    flipped = values[variable] ^ value
    values[variable] = value
    named = concerned(file, variable, index)
    altered = renew(file, values, verdicts, results, named)
    return Changed(answers.overall(verdicts[: len(file.lines)]), len(named), altered, flipped.bit_count())


def outcome(found):
    """What a change answers, as one line."""
    if isinstance(found, Refusal):
        return checks.outcome(found)
    return "{} named {} altered {} bits {}\n".format(*found)


# The plain model.


class Model:
    """A row of values in declaration order, for a file that stays the same."""

    def __init__(self, file, row):
        self.file = file
        self.row = list(row)

    def verdicts(self):
        """The row's verdicts, worked out anew for every line."""
        return answers.all_verdicts(self.file, self.row)

    def results(self):
        """The row's results, worked out in the same way."""
        return answers.all_results(self.file, self.row)

    def refusal(self, variable, value, lent, index):
        """Why a change is refused that is lent tables of these lengths and an index, or None."""
        in_use = {"values": len(self.row), "verdicts": len(self.file.lines), "results": len(self.file.lines)}
        short = [table for table in in_use if lent[table] < in_use[table]]
        if short:
            return Refusal(21, short[0], 0)
        if variable not in range(len(self.row)):
            return Refusal(23, "call", 0)
        if value.bit_length() > self.declared(variable).width:
            return Refusal(18, "call", 0)
        return unfit_index(self.file, index)

    def declared(self, variable):
        return Variable(*list(self.file.variables.items())[variable])

    def change(self, variable, value, lent, index=None):
        """What the change answers that is lent tables of these lengths: by the file, the rows before and after and
        their verdicts. An index is the file's own, or refused."""
        refusal = self.refusal(variable, value, lent, index)
        if refusal:
            return refusal
        old, before = self.row[variable], self.verdicts()
        self.row = [value if i == variable else held for i, held in enumerate(self.row)]
        after = self.verdicts()
        named = [line for line in self.file.lines if self.declared(variable) in (line.output, *line.operands)]
        altered = [pair for pair in zip(before, after) if pair[0] != pair[1]]
        bits = [place for place in range(64) if old // 2**place % 2 != value // 2**place % 2]
        return Changed(answers.overall(after), len(named), len(altered), len(bits))


# Cases worked out by hand. Before each run of changes: a file, the tables lent, and the row of a model that goes
# along, or None. A change is a variable, a value, what is answered, and the three tables after it. The runs in
# THROUGH have an index too, through which every change goes.

DIVIDED = b"v 1.0\nd q:i8 a:i8 b:i8 x:i64\nc q /u a b\np ule a a\np = b 0:i8\n"
ROW = [3, 7, 2, 5]
MOST = 2**64 - 1
BY_HAND = [
    (WHOLE, [17056, 17060, 1118061216], [0], [1117799076], [17056, 17060, 1118061216], [
        (2, 1117799076, ("satisfied", 1, 1, 2), [17056, 17060, 1117799076], [1], [1117799076]),
        (2, 1117799076, ("satisfied", 1, 0, 0), [17056, 17060, 1117799076], [1], [1117799076]),
        (0, 2**16, (18, "call", 0), [17056, 17060, 1117799076], [1], [1117799076]),
        (1, 17061, ("violated 1", 1, 1, 1), [17056, 17061, 1117799076], [0], [1117799077]),
    ]),
    (DIVIDED, ROW, [1, 1, 0], [3, 1, 0], ROW, [
        (2, 0, ("disregarded 1", 2, 2, 1), [3, 7, 0, 5], [2, 1, 1], [0, 1, 1]),
        (1, 248, ("disregarded 1", 2, 0, 8), [3, 248, 0, 5], [2, 1, 1], [0, 1, 1]),
        (3, MOST, ("disregarded 1", 0, 0, 62), [3, 248, 0, MOST], [2, 1, 1], [0, 1, 1]),
        (2, 82, ("violated 3", 2, 2, 3), [3, 248, 82, MOST], [1, 1, 0], [3, 1, 0]),
        (2, 2, ("violated 1", 2, 1, 2), [3, 248, 2, MOST], [0, 1, 0], [124, 1, 0]),
    ]),
    (DIVIDED, [3, 7, 2, 5, MOST], [1, 1, 0, 7], [MOST, 9, 2**63, 8, 8], ROW, [
        (4, MOST, (23, "call", 0), [3, 7, 2, 5, MOST], [1, 1, 0, 7], [MOST, 9, 2**63, 8, 8]),
        (0, 4, ("violated 1", 1, 1, 3), [4, 7, 2, 5, MOST], [0, 1, 0, 7], [3, 9, 2**63, 8, 8]),
        (3, 4, ("violated 1", 0, 0, 1), [4, 7, 2, 4, MOST], [0, 1, 0, 7], [3, 9, 2**63, 8, 8]),
        (2, 0, ("disregarded 1", 2, 2, 1), [4, 7, 0, 4, MOST], [2, 1, 1, 7], [0, 9, 1, 8, 8]),
    ]),
    (DIVIDED, [3, 7, 2], [7], [], ROW, [(9, MOST, (21, "values", 0), [3, 7, 2], [7], [])]),
    (DIVIDED, ROW, [1, 1], [3, 1], ROW, [(9, MOST, (21, "verdicts", 0), ROW, [1, 1], [3, 1])]),
    (DIVIDED, ROW, [1, 1, 0], [3, 1], ROW, [(9, MOST, (21, "results", 0), ROW, [1, 1, 0], [3, 1])]),
    (DIVIDED, [3, 256, 257, 5], [3, 1, 0], [], None, [(1, 7, (21, "results", 0), [3, 256, 257, 5], [3, 1, 0], [])]),
    (DIVIDED, [3, 256, 257, 5], [3, 1, 0], [4, 5, 6], None, [
        (0, 256, (18, "call", 0), [3, 256, 257, 5], [3, 1, 0], [4, 5, 6]),
        (1, 7, (24, "values", 1), [3, 256, 257, 5], [3, 1, 0], [4, 5, 6]),
    ]),
    (DIVIDED, ROW, [1, 3, 9], [4, 5, 6], None, [(0, 3, (24, "verdicts", 1), ROW, [1, 3, 9], [4, 5, 6])]),
    (DIVIDED, ROW, [2, 0, 0], [4, 5, 6], None, [(0, 3, ("violated 2", 1, 1, 0), ROW, [1, 0, 0], [3, 5, 6])]),
    (b"", [], [], [], None, [(0, 0, (4, "constraint", 0), [], [], [])]),
]  # fmt: skip
OWN = [0, 1, 3, 5, 5], [1, 1, 2, 1, 3]
THROUGH = [
    (OWN, DIVIDED, ROW, [1, 1, 0], [3, 1, 0], ROW, [
        (2, 0, ("disregarded 1", 2, 2, 1), [3, 7, 0, 5], [2, 1, 1], [0, 1, 1]),
        (3, 4, ("disregarded 1", 0, 0, 1), [3, 7, 0, 4], [2, 1, 1], [0, 1, 1]),
        (0, 256, (18, "call", 0), [3, 7, 0, 4], [2, 1, 1], [0, 1, 1]),
    ]),
    (([1, 1, 3, 4, 6], [9, 2, 3, 3, 1, 3]), DIVIDED, ROW, [1, 1, 0], [MOST, 12, 13], None, [
        (0, 4, ("violated 3", 0, 0, 3), [4, 7, 2, 5], [1, 1, 0], [MOST, 12, 13]),
        (2, 0, ("satisfied", 1, 1, 1), [4, 7, 0, 5], [1, 1, 1], [MOST, 12, 1]),
        (1, 6, ("satisfied", 2, 0, 1), [4, 6, 0, 5], [1, 1, 1], [MOST, 1, 1]),
        (3, 5, ("disregarded 1", 2, 1, 0), [4, 6, 0, 5], [2, 1, 1], [0, 1, 1]),
    ]),
    ((OWN[0][:4], OWN[1]), DIVIDED, ROW, [1, 1, 0], [9] * 3, ROW, [(0, 3, (25, "starts", 0), ROW, [1, 1, 0], [9] * 3)]),
    ((OWN[0], [1, 1, 2, 1, 4]), DIVIDED, ROW, [1, 1, 0], [9] * 3, ROW, [
        (0, 3, (25, "lists", 0), ROW, [1, 1, 0], [9] * 3),
    ]),
    (([], []), DIVIDED, ROW, [1, 3, 9], [9] * 3, None, [(0, 3, (24, "verdicts", 1), ROW, [1, 3, 9], [9] * 3)]),
    (([], []), DIVIDED, ROW, [1, 3, 9], [9] * 2, None, [(0, 3, (21, "results", 0), ROW, [1, 3, 9], [9] * 2)]),
]  # fmt: skip


def self_test():
    """Where the results at first are the row's, they stay so."""
    for index, constraint, *lent, row, run in [(None, *case) for case in BY_HAND] + THROUGH:
        model = row and Model(answers.read_constraint(constraint), row)
        tables = [list(table) for table in lent]
        lengths = dict(zip(("values", "verdicts", "results"), map(len, tables)))
        is_fresh = model and tables[2] == model.results()
        for variable, value, said, *after in run:
            found = change(constraint, *tables, variable, value, index)
            assert (found, tables) == (said, after), (constraint, variable, value, found, tables)
            if model:
                found = model.change(variable, value, lengths, index)
                assert found == said, (constraint, variable, value, found)
                assert not is_fresh or tables[2] == model.results(), (constraint, variable, value, tables)


if __name__ == "__main__":
    if sys.argv[1:] != ["--self-test"]:
        sys.exit(f"usage: {sys.argv[0]} --self-test")
    self_test()
    print(f"{sum(len(run) for *_, run in BY_HAND + THROUGH)} changes are as worked out by hand")
