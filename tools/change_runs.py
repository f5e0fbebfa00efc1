"""A run of single-value changes in the corpus of change_cases.py, its replies, random changes and random files."""
import sys

sys.dont_write_bytecode = True  # no __pycache__ in the repository
import answers
import changes
import check_cases
import checks
import indexes
from answer_cases import MOST, Instance, any_answer, any_value, constant, random
from answers import Refusal
from changes import Changed, Model
from check_cases import Case, rooms, table_line, tables_after
from checks import Checked
from indexes import Index, Indexed
from operators import OPERATORS, Word

END = b"e".ljust(62) + b"\n"
MOST_STARTS = 300
MOST_LISTS = 4200
TABLES = ("values", "verdicts", "results")

# The letter of the command that stores into a table, and the table's bits.
STORES = {"starts": ("s", 32), "lists": ("l", 32), "values": ("v", 64), "verdicts": ("w", 8), "results": ("u", 64)}


# A run in the corpus, and its replies.


def command(kind, first=0, second=0, third=0, fourth=0, fifth=0):
    return f"{kind} {first:016x} {second:016x} {third:08x} {fourth:08x} {fifth:08x}\n".encode()


class Run:
    """A check on the whole tables, then the commands so far. After an accepted check the model goes along, as long
    as every change uses no index, or one that lists for its variable what the file's own does."""

    def __init__(self, constraint, answer, values, verdicts, results=None):
        self.start = Case(constraint, answer, values, verdicts, results)
        self.constraint, self.answer = constraint, answer
        self.file = answers.read_constraint(constraint)
        self.starts = [10007 * (i + 1) for i in range(MOST_STARTS)]
        self.lists = [10007 * (i + 1) for i in range(MOST_LISTS)]
        self.lent = 0, 0  # how many starts and how many lists
        self.calls = [check_cases.start("r", self.start)]
        self.checked = checks.check(*self.start)
        self.numbers, self.found = [], []  # what each plain change is told, and what each call answers
        self.said = [checks.outcome(self.checked)]
        self.values, self.verdicts, self.results = tables_after(self.start, self.checked)
        self.model = Model(self.file, self.checked.values) if isinstance(self.checked, Checked) else None

    def change(self, variable, value, values_lent=None, verdicts_lent=None, results_lent=None):
        """Makes the change on the first entries lent of the tables, by default on the whole."""
        self.numbers.append((variable, value, values_lent, verdicts_lent, results_lent))
        return self.ask("c", None, variable, value, values_lent, verdicts_lent, results_lent)

    def through(self, variable, value, values_lent=None, verdicts_lent=None, results_lent=None):
        """The same through the index that is lent."""
        return self.ask("t", self.index(), variable, value, values_lent, verdicts_lent, results_lent)

    def ask(self, kind, index, variable, value, *lent):
        tables = [table[:length] for table, length in zip(self.tables(), lent)]
        lengths = list(map(len, tables))
        found = changes.change(self.constraint, *tables, variable, value, index)
        if index and isinstance(found, Changed) and not self.lists_as_own(index, variable):
            self.model = None
        modelled = self.model and self.model.change(variable, value, dict(zip(TABLES, lengths)), index)
        self.assert_answer(found, modelled, tables)
        for table, changed in zip(self.tables(), tables):
            table[: len(changed)] = changed
        self.calls.append(command(kind, variable, value, *lengths))
        self.found.append(found)
        self.said.append(changes.outcome(found))
        return found

    def tables(self):
        return self.values, self.verdicts, self.results

    def index(self):
        """The index that is lent."""
        starts, lists = self.lent
        return Index(self.starts[:starts], self.lists[:lists])

    def lists_as_own(self, index, variable):
        return indexes.listed(*index, variable) == indexes.listed(*indexes.own(self.file), variable)

    def lend(self, starts, lists):
        """Lends the first entries of the two tables of an index from now on."""
        assert starts <= MOST_STARTS and lists <= MOST_LISTS
        self.lent = starts, lists
        self.calls.append(command("n", third=starts, fourth=lists))

    def build(self, starts, lists):
        """Builds the file's index into as many entries, and lends them."""
        self.lend(starts, lists)
        tables = self.index()
        found = indexes.index(self.constraint, *tables)
        assert isinstance(found, Indexed) or tables == self.index(), found
        self.starts[:starts], self.lists[:lists] = tables
        self.calls.append(command("b"))
        self.found.append(found)
        self.said += [indexes.outcome(found), *map(table_line, tables)]
        return found

    def store(self, table, place, number):
        """Puts a number into a table. The model knows nothing of a row's that comes from elsewhere."""
        kind, bits = STORES[table]
        assert number < 2**bits
        getattr(self, table)[place] = number
        self.calls.append(command(kind, place, number))
        if table in TABLES:
            self.model = None

    def lay(self, starts, lists):
        """Puts an index into the tables, where it isn't there yet, and lends as much."""
        self.lend(len(starts), len(lists))
        for table, numbers in (("starts", starts), ("lists", lists)):
            for place, number in enumerate(numbers):
                if getattr(self, table)[place] != number:
                    self.store(table, place, number)

    def expect(self, said, *numbers):
        """Makes a change that must answer this."""
        found = self.change(*numbers)
        assert found == said, (found, said)

    def assert_answer(self, found, modelled, tables):
        """That a change answers as the model does, and leaves the tables where it is refused."""
        assert not self.model or found == modelled, (found, modelled)
        before = [table[: len(changed)] for table, changed in zip(self.tables(), tables)]
        assert isinstance(found, Changed) or tables == before, found

    def assert_fresh(self):
        """That the tables are the model's row, its verdicts and its results, as a fresh check puts them there."""
        model = self.model
        fresh = self.start._replace(answer=answers.spelled(self.file, model.row))
        found = checks.check(*fresh)
        assert found[1:] == (model.row, model.verdicts(), model.results()), found
        assert list(self.tables()) == tables_after(fresh, found), self.tables()

    def stdin(self):
        return b"".join(self.calls) + END

    def stdout(self):
        tables = [*self.tables(), *(self.index() if any(self.lent) else ())]
        return "".join([*self.said, *map(table_line, tables)]).encode()


def any_spare(draws=random):
    return draws.choice((0, 0, 1, 7, 40))


def sized(constraint, answer):
    """A run whose tables are as long as the entries in use, or longer."""
    file = answers.read_constraint(constraint)
    values, lines = (4, 4) if isinstance(file, Refusal) else (len(file.variables), len(file.lines))
    return Run(constraint, answer, values + any_spare(), lines + any_spare(), lines + any_spare(rooms))


def accepted(constraint, values):
    """A run after an accepted check that sets these values."""
    run = sized(constraint, any_answer(constraint, values))
    assert run.model, run.checked
    return run


UNSET = (b"", b"s UNKNOWN\n", b"s SATISFIABLE", b"s SATISFIABLE\nv x0=1 x0=1", b"v x0=1\ns SATISFIABLE\n")


def unchecked(constraint):
    """A run after a check that the answer refuses."""
    run = sized(constraint, random.choice(UNSET))
    assert run.checked.subject == "answer", run.checked
    return run


# A change's numbers, for a constraint file that is read.


def widths(run):
    return list(run.file.variables.values())


def naming(run, variable):
    """The lines that name the variable."""
    name = list(run.file.variables)[variable]
    return [line for line in run.file.lines if changes.is_named(line, name)]


def results_for(run, variable):
    """The results of the lines that have the variable as their output."""
    lines = [line for line in run.file.lines if line.output == run.model.declared(variable)]
    found = [answers.result(run.file, line, run.model.row) for line in lines]
    return [result for result in found if result is not None]


def mending(run, variable, values):
    """The one of the values under which most lines hold."""

    def held(value):
        row = [value if i == variable else other for i, other in enumerate(run.model.row)]
        return sum(answers.verdict(run.file, line, row) == 1 for line in naming(run, variable))

    return max(values, key=held)


def fitting(run, variable):
    """A value that fits: any, or of some values the one under which most lines hold."""
    width, old = widths(run)[variable], run.values[variable]
    values = [0, old + 1, old - 1, ~old, any_value(width), any_value(width), random.choice(run.values)]
    if run.model and random.random() < 0.5:
        values += [run.checked.values[variable], *results_for(run, variable)]
        return mending(run, variable, [value % 2**width for value in values])
    return random.choice(values) % 2**width


def any_fit(run, variable):
    """A value that fits, seldom the old one."""
    value, old, width = fitting(run, variable), run.values[variable], widths(run)[variable]
    is_kept = value != old or random.random() < 0.2
    return value if is_kept else old ^ 1 << random.randrange(width)


def any_unfit(run, variable):
    """A value that doesn't fit a variable of less than 64 bits, often with the old value in its low bits."""
    most = 2 ** widths(run)[variable]
    old = run.values[variable] % most
    high = random.randrange(most, 2**64) // most * most
    return random.choice((most, most + 1, most + old, high + old, MOST, random.randrange(most, 2**64)))


def any_missing(run):
    """No variable's number, often with such a number in its low bits."""
    count = len(run.file.variables)
    low = random.randrange(max(count, 1))
    far = (256 + low, 2**16 + low, 2**32 + low, 2**63 + low, 2**63, MOST, random.randrange(256, 2**64))
    return random.choice((count, count, count + 1, *far))


def any_lent(draws, used, whole, is_short):
    """How many entries are lent of a table."""
    if is_short:
        return draws.choice((used - 1, used - 1, draws.randrange(used), 0))
    return draws.choice((used, whole, whole, draws.randint(used, whole)))


# The faults of a change in the order in which they refuse it.
FAULTS = {
    "values": Refusal(21, "values", 0),
    "verdicts": Refusal(21, "verdicts", 0),
    "results": Refusal(21, "results", 0),
    "number": Refusal(23, "call", 0),
    "value": Refusal(18, "call", 0),
}


def narrow_variables(run):
    return [i for i, width in enumerate(widths(run)) if width < 64]


def possible_faults(run, tables=("values", "verdicts")):
    """The faults that a change in the run can have, of these tables and its numbers."""
    can = {"number": True, "value": narrow_variables(run)}
    can |= {table: count for table, count in entries_in_use(run).items() if table in tables}
    return [fault for fault in FAULTS if can.get(fault)]


def entries_in_use(run):
    lines = len(run.file.lines)
    return {"values": len(run.file.variables), "verdicts": lines, "results": lines}


def any_numbers(run, faults):
    """A variable and a value with these faults and no other."""
    if "number" in faults:
        return any_missing(run), random.choice((MOST, 2**63)) if "value" in faults else random.choice((0, 1))
    if "value" in faults:
        variable = random.choice(narrow_variables(run))
        return variable, any_unfit(run, variable)
    variable = random.randrange(len(run.file.variables))
    return variable, any_fit(run, variable)


def first_fault(faults):
    """The refusal of a change with these faults, or None."""
    return next((FAULTS[fault] for fault in FAULTS if fault in faults), None)


def make(run, faults, change=Run.change):
    """A change with these faults, of which the first refuses it."""
    tables = zip(entries_in_use(run).items(), run.tables(), (random, random, rooms))
    lent = [any_lent(draws, used, len(table), name in faults) for (name, used), table, draws in tables]
    found = change(run, *any_numbers(run, faults), *lent)
    assert not faults or found == first_fault(faults), (faults, found)
    return found


def wander(run, count):
    """Random changes, some with faults. Without variables each has the number's."""
    for _ in range(count):
        faults = [fault for fault in possible_faults(run) if random.random() < 0.08]
        make(run, faults if run.file.variables else [*faults, "number"])
    return run


def blind(run, count):
    """Random changes, whatever the constraint file and the tables are. A file that is read gets all results."""
    for _ in range(count):
        numbers = random.choice((0, 0, 1, MOST)), random.choice((0, 1, 7, MOST))
        lent = any_length(random, len(run.values)), any_length(random, len(run.verdicts))
        run.change(*numbers, *lent, any_length(rooms, len(run.results)) if isinstance(run.file, Refusal) else None)
    return run


def any_length(draws, whole):
    return draws.choice((0, whole, whole, draws.randint(0, whole)))


# Random files.


class Crowd(Instance):
    """Lines that hold, over at most so many variables."""

    def __init__(self, most):
        super().__init__()
        self.most = most

    def new(self, word):
        """A new variable that holds the word, or a constant."""
        return self.declare(word) if len(self.held) < self.most else constant(word)

    def operand(self, width):
        name = self.find(lambda word: word.width == width)
        if name and random.random() < 0.7:
            return name, self.held[name]
        word = Word(width, any_value(width))
        return self.new(word), word

    def output(self, word):
        return self.find(lambda held: held == word) or self.new(word)


def filled(ops, lines, most):
    """A file of so many lines with operators of these and at most so many variables, and values that satisfy it."""
    crowd = Crowd(most)
    while len(crowd.lines) < lines:
        crowd.add(random.choice(ops))
    return crowd.spelling()


def any_filled():
    return filled(list(OPERATORS), random.choice((1, 2, 4, 8, 15, 30)), random.choice((2, 5, 9, 30)))
