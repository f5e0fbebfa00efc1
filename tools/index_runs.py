"""The runs of change_cases.py that have an index: indexes that are built, and changes through the file's own
index, through others that fit it, and through such as don't."""
import sys
from itertools import combinations, product

sys.dont_write_bytecode = True  # no __pycache__ in the repository
import answer_cases
import answers
import changes
import constraints
import indexes
from answer_cases import MOST, any_answer, any_fitting, random
from answers import Refusal
from change_runs import (
    MOST_LISTS,
    MOST_STARTS,
    UNSET,
    Run,
    accepted,
    any_filled,
    any_fit,
    any_spare,
    make,
    possible_faults,
    sized,
    unchecked,
    widths,
)
from changes import Changed
from check_cases import rooms
from constraint_cases import mixed, with_crs
from constraints import unmarked
from indexes import Index, Indexed

SHORT_STARTS, SHORT_LISTS = Refusal(21, "starts", 0), Refusal(21, "lists", 0)
WRONG_STARTS, WRONG_LISTS = Refusal(25, "starts", 0), Refusal(25, "lists", 0)
MOST_NUMBER = 2**32 - 1


def few_listed():
    """A random file with variables whose index lists few lines, and values that satisfy it."""
    while True:
        constraint, values = any_filled()
        if values and len(indexes.own(answers.read_constraint(constraint)).lists) <= 25:
            return constraint, values


# Indexes, for a constraint file that is read.


def own(run):
    return indexes.own(run.file)


def build(run):
    """Builds the file's index into tables that are as long as it, or longer."""
    starts, lists = map(len, own(run))
    run.build(min(starts + any_spare(), MOST_STARTS), min(lists + any_spare(), MOST_LISTS))
    return run


def named_lines(run, variable):
    """The numbers of the lines that name the variable."""
    return [i + 1 for i in changes.concerned(run.file, variable, None)]


def all_lines(run):
    return range(1, len(run.file.lines) + 1)


def some_lines(run):
    return sorted(random.sample(all_lines(run), random.randint(0, len(run.file.lines))))


def any_list(run, variable):
    """Lines for a variable, often nearly those that name it."""
    named = named_lines(run, variable)
    fewer = [number for number in named if random.random() < 0.7]
    more = sorted({*named, *random.sample(all_lines(run), min(2, len(run.file.lines)))})
    return random.choice((named, fewer, more, [], some_lines(run), list(all_lines(run))))


def any_others(counts):
    """Numbers that nothing is asked of, beside an index."""
    return [random.choice((0, 1, 9, 2**31, MOST_NUMBER, random.getrandbits(32))) for _ in range(random.choice(counts))]


def any_index(run):
    """An index that fits."""
    lists = [any_list(run, variable) for variable in range(len(run.file.variables))]
    index = indexes.joined(lists, any_others((0, 0, 1, 5)))
    return Index(index.starts + any_others((0, 0, 1, 3)), index.lists + any_others((0, 0, 1, 6)))


# Changes, with and without the index.


def stroll(run, count, kinds=(Run.change, Run.through)):
    """Random changes of these kinds, some with faults."""
    for _ in range(count):
        faults = [fault for fault in possible_faults(run) if random.random() < 0.05]
        make(run, faults if run.file.variables else [*faults, "number"], random.choice(kinds))
    return run


def change_each(run):
    """Changes each variable through the index. As many lines count as named as it lists."""
    for variable in range(len(run.file.variables)):
        found = run.through(variable, any_fit(run, variable))
        assert found.named == len(indexes.listed(*run.index(), variable)), (variable, found)
    return run


# Building.

TWICE = "d t:i1 u:i1 w:i1 x:i1 y:i8\nc t ite t t t\nc t ite u w x\nc u & u u\np = y y\nc 1:i1 ite t t u\nc x ~ w\n"
SMALL = [
    "",
    "e 1\np = 0:i8 0:i8\nc 7:i8 + 3:i8 4:i8\n",
    "d a:i8\n",
    "d a:i8 b:i64 c:i1\n",
    "d a:i8\np = 1:i8 1:i8\n",
    "d a:i8\nc a ~ 0:i8\n",
    "d a:i8 b:i8\np ule 3:i8 b\n",
    "d a:i8 b:i8\nc b - 9:i8 a\n",
    TWICE,
    TWICE + "c y extr y 0:i8 8:i8\nc 3:i3 extr y 1:i8 4:i8\nc y >>l y y\nc u sle y 200:i8\np ~ x\n",
    "d a:i8 a1:i8 a11:i8 A:i8 a_:i8\nc a11 + a1 a\nc A - a_ a1\n# c a + a a\n\np ugt a_ a11\n",
]


def small_files():
    return [f"v 1.0\n{text}".encode() for text in SMALL]


def assert_own(run):
    """That the lists of the index that is lent are what naming says, variable by variable."""
    for variable in range(len(run.file.variables)):
        assert indexes.listed(*run.index(), variable) == named_lines(run, variable), run.constraint


def built_in(run, starts, lists):
    """Builds into tables of these lengths, with the answer that they must get."""
    used = list(map(len, own(run)))
    short = (starts < used[0] and SHORT_STARTS) or (lists < used[1] and SHORT_LISTS)
    found = run.build(starts, lists)
    assert found == (short or Indexed(used[1])), (found, run.constraint)
    if not short:
        assert_own(run)


def in_rooms(run):
    """Tables that are empty, one entry too short, exactly long enough and longer, then the index for changes."""
    starts, lists = map(len, own(run))
    fewer, longer = max(lists - 1, 0), min(lists + 7, MOST_LISTS)
    for room in ((0, 0), (starts - 1, fewer), (starts - 1, longer), (starts, fewer), (starts + 9, fewer)):
        built_in(run, *room)
    for room in ((starts, lists), (starts + 1, lists), (starts, longer), (starts + 9, longer)):
        built_in(run, *room)
    return run


def built_indexes():
    for constraint in small_files():
        run = in_rooms(accepted(constraint, any_fitting(constraint)))
        yield stroll(change_each(run), 6)
    for put in (with_crs, mixed):
        constraint = put(small_files()[-1])
        yield stroll(in_rooms(accepted(constraint, any_fitting(constraint))), 6)
    for _ in range(10):
        yield stroll(in_rooms(accepted(*any_filled())), 12)


def unchecked_indexes():
    """The check is refused, so that the tables have unfit entries. An index is built all the same."""
    for constraint in small_files()[3:]:
        run = in_rooms(unchecked(constraint))
        for variable in range(len(run.file.variables)):
            found = run.through(variable, 0)
            assert found.number == 24 or not run.file.lines, found
        yield stroll(run, 6)


# Constraint files that are refused, whatever is lent.


def refused_run(number, data, position):
    run = sized(data, random.choice((*UNSET, b"s SATISFIABLE\n")))
    for room in ((0, 0), (9, 9)):
        run.build(*room)
        numbers = random.choice((0, 1, MOST)), random.choice((0, 1, MOST))
        run.through(*numbers, *random.choice(((0, 0), (4, 4), (0, 4))), rooms.choice((0, 4)))
    assert set(run.found) == {Refusal(number, "constraint", position)}, run.found
    return run


def refused_files():
    by_number = {}
    for number, text in constraints.REFUSED + answer_cases.CONSTRAINT_FAULTS + constraints.REFUSED_WITH_CRS:
        by_number.setdefault(number, []).append(unmarked(text))
    for number, texts in sorted(by_number.items()):
        yield refused_run(number, *random.choice(texts))


# Indexes that fit: the file's own at another place, lists with lines fewer or more, and the ends of what fits.


def moved(run):
    """The file's own lists, behind other numbers and before others."""
    starts, lists = own(run)
    front = [MOST_NUMBER, 0, 7]
    return Index([start + len(front) for start in starts] + [0, MOST_NUMBER], [*front, *lists, 0, MOST_NUMBER])


def moved_indexes():
    """The model goes along: these list what the file's own do."""
    for constraint in small_files()[5:]:
        run = accepted(constraint, any_fitting(constraint))
        run.lay(*moved(run))
        assert stroll(change_each(run), 8).model
        yield run


def edge_indexes(run):
    """Empty lists at both ends of the room, every line for every variable, only the first, only the last, and
    lists for one variable only."""
    count, last = len(run.file.variables), len(run.file.lines)
    yield Index([0] * (count + 1), [])
    yield Index([5] * (count + 1), [0] * 5)
    yield Index([0] * (count + 1), [0, MOST_NUMBER])
    for numbers in (list(all_lines(run)), [1], [last], [1, last]):
        yield indexes.joined([numbers] * count)
        yield indexes.joined([numbers] + [[]] * (count - 1))
        yield indexes.joined([[]] * (count - 1) + [numbers], [0, 0])


def other_indexes():
    for constraint in small_files()[8:]:
        run = accepted(constraint, any_fitting(constraint))
        for index in edge_indexes(run):
            run.lay(*index)
            change_each(run)
        yield run
    for _ in range(20):
        constraint, values = few_listed()
        run = accepted(constraint, random.choice((values, any_fitting(constraint))))
        for _ in range(3):
            run.lay(*any_index(run))
            stroll(change_each(run), 6)
        yield run


# Indexes that don't fit. Each fault stands alone, at the first or the last place where it can, in an index
# whose every list has three numbers or more.

LONG_LISTS = b"""v 1.0
d a:i8 b:i8 c:i8 q:i8
p = 1:i8 1:i8
c q /u a b
c a + b c
p ule c q
c q - a c
c b ^ a q
p /= b c
"""


def long_index():
    return Index([2, 6, 10, 14, 18], [0, 9, 2, 3, 5, 6, 2, 3, 6, 7, 3, 4, 5, 7, 2, 4, 5, 6])


def replaced(table, place, *numbers):
    return [*table[:place], *numbers, *table[place + len(numbers) :]]


def wrong_starts(run, index):
    """Missing, falling or above the room: any variable's start, and the end."""
    starts, lists = index
    above = len(lists) + 1
    for place in range(len(run.file.variables) + 1):
        yield Index(starts[:place], lists)
        for number in (above, 2**16 + starts[place], MOST_NUMBER):
            yield Index(replaced(starts, place, number), lists)
        yield Index(starts[:place] + [above] * (len(starts) - place), lists)
    for place in range(1, len(starts)):
        for number in (starts[place - 1] - 1, 0):
            yield Index(replaced(starts, place, number), lists)
    yield Index(starts, lists[:-1])
    yield Index(starts, [])


def wrong_numbers(lists, first, last, count):
    """Faults of the list between these places: a place, and the number there."""
    for place in (first, last):
        for number in (0, count + 1, 2**16 + lists[place], 2**31 + lists[place], MOST_NUMBER):
            yield place, number
    for place in (first + 1, last):
        yield place, lists[place - 1]
        yield place, lists[place - 1] - 1
    yield first, lists[first + 1]


def wrong_lists(run, index):
    """In each variable's list: 0, above the count of lines, equal to or below the one before it."""
    starts, lists = index
    for variable in range(len(run.file.variables)):
        first, last = starts[variable], starts[variable + 1] - 1
        for place, number in wrong_numbers(lists, first, last, len(run.file.lines)):
            yield Index(starts, replaced(lists, place, number))


def refused_index(run, index, refusal):
    """Lends it, and tries to change one variable or another through it."""
    run.lay(*index)
    for variable in random.sample(range(len(run.file.variables)), 2):
        found = run.through(variable, any_fit(run, variable))
        assert found == refusal, (index, found)


def wrong_indexes():
    """The model goes along: these are refused. In the end the index fits again."""
    for wrong, refusal in ((wrong_starts, WRONG_STARTS), (wrong_lists, WRONG_LISTS)):
        run = accepted(LONG_LISTS, any_fitting(LONG_LISTS))
        for index in wrong(run, long_index()):
            refused_index(run, index, refusal)
        run.lay(*long_index())
        assert stroll(change_each(run), 12).model
        yield run


def both_wrong():
    """A start and a listed number: the start is found first, wherever they stand."""
    run = accepted(LONG_LISTS, any_fitting(LONG_LISTS))
    starts, lists = long_index()
    for place, number in product((0, 2, 4), (2, 9, 17)):
        refused_index(run, Index(replaced(starts, place, 99), replaced(lists, number, 0)), WRONG_STARTS)
    run.lend(0, 0)
    refused_index(run, Index([], []), WRONG_STARTS)
    yield run


def first_numbers():
    """Tables of an index that were never filled."""
    run = accepted(LONG_LISTS, any_fitting(LONG_LISTS))
    for room in ((0, 0), (5, 0), (4, 18), (5, 18), (300, 4200)):
        run.lend(*room)
        assert run.through(0, 0) == WRONG_STARTS
    built_in(run, 5, 16)
    yield change_each(run)


def any_damaged(index):
    """An index with a number or two put anywhere."""
    starts, lists = list(index.starts), list(index.lists)
    for _ in range(random.choice((1, 1, 2))):
        table = random.choice([table for table in (starts, lists) if table])
        place = random.randrange(len(table))
        near = table[place] + random.choice((1, -1))
        table[place] = random.choice((0, near % 2**32, near % 2**32, random.choice(table), MOST_NUMBER))
    return Index(starts, lists)


def damaged_indexes():
    """Some still fit. Mended, the index is the file's own again."""
    for _ in range(20):
        run = accepted(*few_listed())
        index = random.choice((own, moved, any_index))(run)
        for _ in range(6):
            run.lay(*any_damaged(index))
            stroll(run, 3, (Run.through,))
        yield stroll(build(run), 6)


# The order of the refusals: every combination of the faults that come before 25, with an index that fits, with a
# wrong start, with a wrong listed number and with both.

HELD = {"values": (3, 256), "verdicts": (5, 3)}  # an entry that can't be held, and its place


def held_refusal(held):
    return next((Refusal(24, table, place) for table, (place, _) in HELD.items() if table in held), None)


def index_states():
    """Each index, and why it is refused."""
    starts, lists = long_index()
    yield Index(starts, lists), None
    yield Index(replaced(starts, 4, 19), lists), WRONG_STARTS
    yield Index(starts, replaced(lists, 17, 8)), WRONG_LISTS
    yield Index(replaced(starts, 2, 3), replaced(lists, 2, 0)), WRONG_STARTS


def subsets(faults):
    return [some for count in range(len(faults) + 1) for some in combinations(faults, count)]


def orders():
    for held, (index, wrong) in product(subsets(tuple(HELD)), index_states()):
        run = accepted(LONG_LISTS, any_fitting(LONG_LISTS))
        for table in held:
            run.store(table, *HELD[table])
        run.lay(*index)
        for faults in subsets(possible_faults(run)):
            found = make(run, faults, Run.through)
            last = held_refusal(held) or wrong
            assert faults or (found == last if last else isinstance(found, Changed)), (found, last)
        yield run


# Tables of any content.


def any_held(run, variable):
    width = widths(run)[variable]
    return random.choice((0, 1, 2**width - 1, random.getrandbits(width), min(2**width, MOST), MOST))


def any_content(run):
    """Puts values and verdicts into the tables. Some can't be held."""
    for _ in range(random.randint(1, 4)):
        place = random.randrange(len(run.file.variables))
        run.store("values", place, any_held(run, place))
    for _ in range(random.randint(1, 4)):
        run.store("verdicts", random.randrange(len(run.file.lines)), random.choice((0, 1, 1, 2, 2, 2, 3, 255)))


def make_fit(run):
    """Replaces what can't be held."""
    for place, width in enumerate(widths(run)):
        if run.values[place] >= 2**width:
            run.store("values", place, run.values[place] % 2**width)
    for place, _ in enumerate(run.file.lines):
        if run.verdicts[place] > 2:
            run.store("verdicts", place, run.verdicts[place] % 3)


def any_tables():
    """The overall verdict is by the whole table, also where no line is renewed, or others than name the variable."""
    for constraint in (LONG_LISTS, small_files()[9], small_files()[10], LONG_LISTS):
        run = build(accepted(constraint, any_fitting(constraint)))
        for _ in range(5):
            any_content(run)
            stroll(run, 4)
            make_fit(run)
            stroll(run, 4)
            run.lay(*random.choice((any_index, own, moved))(run))
        yield run


# Sizes.


def numbered(count):
    return "v 1.0\n" + "".join(f"d {' '.join(f'x{i + j}:i1' for j in range(8))}\n" for i in range(0, count, 8))


def full_file():
    """As many variables and lines as there may be. Each line names four variables, so that 4,096 are listed."""
    places = ((i, 7 * i + 1, 31 * i + 2, 255 - i) for i in range(1024))
    lines = ["c x{} ite x{} x{} x{}".format(*four_of(place % 256 for place in four)) for four in places]
    return (numbered(256) + "\n".join(lines)).encode()


def four_of(places):
    """Four different variables, from these on."""
    found = []
    for place in places:
        while place in found:
            place = (place + 1) % 256
        found.append(place)
    return found


def more_lines(run):
    """An index of more lines than a file's own can list: the last variable's list is every seventh line."""
    starts, lists = own(run)
    numbers = list(range(1, 1025, 7))[:104]
    return Index([*starts[:-1], starts[-2] + len(numbers)], lists[: starts[-2]] + numbers)


def most_listed():
    constraint = full_file()
    run = Run(constraint, any_answer(constraint, any_fitting(constraint)), 256, 1024)
    for room in ((256, 4096), (257, 4095), (257, 4096), (258, 4100)):
        built_in(run, *room)
    assert run.found[-1] == Indexed(4096)
    stroll(run, 16)
    for variable in (0, 255):
        run.through(variable, run.values[variable] ^ 1)
    run.lay(*more_lines(run))
    assert len(run.index().lists) > 4096
    for variable in (0, 255):
        assert isinstance(run.through(variable, run.values[variable] ^ 1), Changed)
    run.store("lists", len(run.index().lists) - 1, 1025)
    assert run.through(0, 0) == WRONG_LISTS
    run.store("starts", 256, len(run.index().lists) + 1)
    assert run.through(0, 0) == WRONG_STARTS
    return run


def most_lines_of_one():
    """A variable that every line names, and one that only the last line does."""
    constraint = b"v 1.0\nd a:i1 b:i1\n" + b"p ~ a\n" * 1023 + b"p = a b"
    run = Run(constraint, any_answer(constraint, [0, 0]), 2, 1024)
    for room in ((2, 1025), (3, 1024), (3, 1025)):
        built_in(run, *room)
    return stroll(change_each(run), 6)


def most_variables():
    constraint = numbered(256).encode()
    run = Run(constraint, any_answer(constraint, any_fitting(constraint)), 256, 0)
    for room in ((256, 0), (257, 0), (300, 3)):
        built_in(run, *room)
    return stroll(run, 6)


def sizes():
    yield most_listed()
    yield most_lines_of_one()
    yield most_variables()


# Runs of changes with the file's own index or none, after an accepted check: the model goes along to the end.


def own_or_none():
    for i in range(40):
        constraint, values = any_filled()
        run = build(accepted(constraint, random.choice((values, any_fitting(constraint), [0] * len(values)))))
        assert stroll(run, (2, 10, 30, 60)[i % 4]).model
        yield run


GROUPS = [built_indexes, unchecked_indexes, refused_files, moved_indexes, other_indexes, wrong_indexes, both_wrong]
GROUPS += [first_numbers, damaged_indexes, orders, any_tables, sizes, own_or_none]
