"""The runs of change_cases.py that are about the results: how many are lent, what stands there before a change, and
which of them it renews. A run prints its tables at the end only, so that most of these are short."""
import sys
from itertools import product

sys.dont_write_bytecode = True  # no __pycache__ in the repository
import answer_cases
import changes
from answer_cases import MOST, any_answer, any_fitting, random
from change_runs import (
    FAULTS,
    TABLES,
    Run,
    accepted,
    any_fit,
    any_length,
    filled,
    first_fault,
    make,
    possible_faults,
)
from changes import Changed
from check_cases import DIFFERENCES, MOST_RESULTS, lengths_around
from index_runs import HELD, LONG_LISTS, any_index, build, few_listed, index_states, subsets
from operator_vectors import edges
from operators import DIVISIONS, OPERATORS

KINDS = (Run.change, Run.through)


# Lent results.

SUMS = ("c x0 + x0 200:i8\n", "p = x0 1:i8\n")


def summed(count, lines):
    """So many variables, and lines that come to x0 + 200 and to whether it is 1. Without variables it is 0."""
    declared = "".join(f"d x{i}:i8\n" for i in range(count))
    text = "".join(SUMS[i % 2] for i in range(lines))
    return f"v 1.0\n{declared}{text if count else text.replace('x0', '0:i8')}".encode()


def sums(value, lines):
    return [(value + 200) % 256 if i % 2 == 0 else int(value == 1) for i in range(lines)]


def lent_results():
    """None, one too few, exactly enough and more, beside the other tables one entry too short and exactly long
    enough, with the index and without."""
    for count, lines, spare in ((3, 2, 5), (1, 1, 0), (2, 0, 3), (0, 2, 3), (1, 40, 9)):
        constraint = summed(count, lines)
        answer = any_answer(constraint, [1] * count)
        run = build(Run(constraint, answer, count + spare, lines + spare, lines + spare))
        around = {max(0, count - 1), count}, {max(0, lines - 1), lines}, {*lengths_around(lines, lines + spare)}
        for lent, (change, value) in product(product(*map(sorted, around)), zip(KINDS * 2, (0, 1, 7, 256))):
            used = zip(TABLES, lent, (count, lines, lines))
            faults = [table for table, length, needed in used if length < needed]
            faults += [fault for fault, is_made in (("number", not count), ("value", value > 255)) if is_made]
            found = change(run, 0, value, *lent)
            assert found == first_fault(faults) if faults else isinstance(found, Changed), (faults, found)
            assert faults or run.results[:lines] == sums(value, lines), run.results
        yield run


def short_whole():
    """Tables that are too short even whole, so that the check leaves them too."""
    for lengths in ((3, 2, 1), (3, 2, 0), (2, 2, 1), (3, 1, 1), (2, 1, 0), (30, 40, 1), (3, 40, 0)):
        constraint = summed(3, 2)
        run = build(Run(constraint, any_answer(constraint, [1] * 3), *lengths))
        faults = [table for table, length, used in zip(TABLES, lengths, (3, 2, 2)) if length < used]
        assert run.checked == first_fault(faults), run.checked
        for change, value in product(KINDS, (1, 9, 256)):
            change(run, random.choice((0, 1, 3)), value, *(any_length(random, length) for length in lengths))
        assert {found.number for found in run.found[1:]} == {21}, run.found
        yield run


# The order of the refusals: every combination of faults with too few results, beside entries that can't be held and
# indexes that don't fit.


def orders():
    for held in subsets(tuple(HELD)):
        run = accepted(LONG_LISTS, any_fitting(LONG_LISTS))
        for table in held:
            run.store(table, *HELD[table])
        for index, _ in index_states():
            run.lay(*index)
            for faults in subsets(possible_faults(run, TABLES)):
                if "results" in faults:
                    make(run, faults, random.choice(KINDS))
        yield run


# Any words before a change.

WORDED = b"""v 1.0
d a:i8 b:i8 t:i1 x:i64 y:i64 w:i16 free:i8
c a + a b
c x - y x
c y /s x y
p ult x y
c t = a b
p = 1:i8 2:i8
c w conc a b
c x zext w
p ~ t
c 3:i3 extr w 2:i8 5:i8
c y >>a x a
c 0:i64 %u y x
c 5:i8 * 2:i8 3:i8
c x ite t x y
"""
WORDS = (0, 0, 1, 2, 7, 255, 2**32, 2**63, MOST, MOST)


def any_word(run, place):
    """Any, or one like the result or the verdict that is there."""
    near = run.results[place], run.results[place] ^ 1, run.verdicts[place], 1 - run.verdicts[place] % 2
    return random.choice((*WORDS, *near, random.getrandbits(64)))


def put_words(run):
    """Puts words into the results in use, seldom behind them."""
    for place in range(len(run.file.lines)):
        run.store("results", place, any_word(run, place))
    for place in range(len(run.file.lines), len(run.results)):
        if random.random() < 0.2:
            run.store("results", place, random.choice(WORDS))


def asked(run, variable, change, index=None):
    """A change that is accepted, and leaves every word but those of the lines concerned."""
    before = list(run.results)
    places = changes.concerned(run.file, variable, index)
    assert isinstance(change(run, variable, any_fit(run, variable)), Changed)
    kept = [i for i in range(len(before)) if i not in places]
    assert [run.results[i] for i in kept] == [before[i] for i in kept], (before, run.results)


def worded(constraint):
    """A run after an accepted check, with other words for its results."""
    run = accepted(constraint, any_fitting(constraint))
    put_words(run)
    return run


def any_words():
    """Each variable changes in a run of its own, without an index and through the file's own."""
    for constraint in (WORDED, LONG_LISTS):
        for variable, _ in enumerate(answer_cases.declared(constraint)):
            run = worded(constraint)
            asked(run, variable, Run.change)
            yield run
            run = build(worded(constraint))
            asked(run, variable, Run.through, run.index())
            yield run


def listed_only():
    """Through an index that lists other lines than those that name the variable."""
    for _ in range(10):
        run = worded(LONG_LISTS)
        index = any_index(run)
        run.lay(*index)
        for variable in random.sample(range(4), 2):
            asked(run, variable, Run.through, index)
        yield run


# Divisors that become zero, or stay so with another dividend, or become other again.


def any_edge(width):
    return random.choice([value for value in edges(width) if value])


def divided_run(op, width, divisor, word, variable, value):
    """A word is put in the place of the result before the one change."""
    lines = f"c q {op} a b\np ule b q\nc q {op} b b\n"
    constraint = f"v 1.0\nd a:i{width} b:i{width} q:i{width}\n{lines}".encode()
    run = accepted(constraint, [any_edge(width), divisor, any_edge(width)])
    run.store("results", 0, word)
    assert isinstance(run.change(variable, value), Changed)
    assert run.values[1] or run.results[0] == 0, run.results
    return run


def divided():
    for op, width in product(DIVISIONS, (1, 8, 64)):
        yield divided_run(op, width, any_edge(width), random.choice(WORDS), 1, 0)
        yield divided_run(op, width, 0, random.choice(WORDS[2:]), 0, any_edge(width))
        yield divided_run(op, width, 0, 0, 1, any_edge(width))


# Random files.


def each_operator():
    for op in OPERATORS:
        run = accepted(*filled([op], 3, 4))
        for _ in range(random.choice((1, 1, 2))):
            make(run, [])
        yield run


def short_runs():
    """A few changes, some with faults, some of them through the file's own index."""
    for i in range(36):
        constraint, values = few_listed()
        run = build(accepted(constraint, random.choice((values, any_fitting(constraint)))))
        if i % 3 == 0:
            put_words(run)
        for _ in range(random.randint(1, 4)):
            faults = [fault for fault in possible_faults(run, TABLES) if random.random() < 0.12]
            make(run, faults, random.choice(KINDS))
        yield run


# Sizes.


def sizes():
    """As many lines as there may be, which all name x."""
    run = build(Run(DIFFERENCES, any_answer(DIFFERENCES, [3]), 1, 1024, MOST_RESULTS))
    for change, (value, lent) in product(KINDS, ((0, 1023), (2**63, 1024), (MOST - 4, 1023), (513, MOST_RESULTS))):
        found = change(run, 0, value, 1, 1024, lent)
        assert found == FAULTS["results"] if lent == 1023 else isinstance(found, Changed), found
    assert run.results[:1024] == [(i - 513) % 2**64 for i in range(1, 1025)]
    yield run


GROUPS = [lent_results, short_whole, orders, any_words, listed_only, divided, each_operator, short_runs, sizes]
