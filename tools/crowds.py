"""Names that meet in one bucket of the library's table of names, and files of such names, for the generators.

The library chooses a name's bucket by a hash of its bytes. Here the hash only decides which names are tried: the
evaluators, which give the answers, know of no buckets.
"""
import string
import sys
from collections import Counter, namedtuple
from itertools import count, product
from random import Random

sys.dont_write_bytecode = True  # no __pycache__ in the repository
from constraints import NAME_BYTES, VARIABLES

LETTERS = string.ascii_letters
BYTES = LETTERS + string.digits + "_"
random = Random(3)  # draws of their own, which leave all others as they are


# Names.


def hashed(name):
    found = 0
    for byte in name.encode():
        found = (37 * found + byte) % 2**32
    return found


def bucket(name):
    return (hashed(name) + hashed(name) // 1024) % VARIABLES


def any_longer(start, length):
    """A name of that length that begins so."""
    first = start or random.choice(LETTERS)
    return first + "".join(random.choices(BYTES, k=length - len(first)))


def any_in(wanted, length, start="", others=()):
    """The same in that bucket, and none of the others."""
    tries = (any_longer(start, length) for _ in count())
    return next(name for name in tries if bucket(name) == wanted and name not in others)


def crowd(wanted, lengths):
    """Different names of one bucket and these lengths."""
    found = []
    for length in lengths:
        found.append(any_in(wanted, length, others=found))
    return found


def any_crowd(size, lengths=range(4, 9)):
    return crowd(random.randrange(VARIABLES), random.choices(lengths, k=size))


def twins():
    """Pairs of two bytes that add the same to a hash."""
    for x, y in product(LETTERS, BYTES):
        other = chr(ord(x) + 1) + chr(ord(y) - 37)
        if other[0] in LETTERS and other[1] in BYTES:
            yield x + y, other


def of_one_hash(size):
    blocks = random.sample(list(twins()), (size - 1).bit_length())
    return random.sample(list(map("".join, product(*blocks))), size)


def beginnings(short, long, *longer):
    """Names of one bucket and these lengths, each the beginning of the next."""
    tries = (any_longer("", long) for _ in count())
    name = next(name for name in tries if bucket(name[:short]) == bucket(name))
    found = [name[:short], name]
    for length in longer:
        found.append(any_in(bucket(name), length, found[-1]))
    return found


def alike_but(place, length):
    """Names that differ only in the byte at that place: those of one bucket, or where none share one, some."""
    name = any_longer("", length)
    found = [name[:place] + byte + name[place + 1 :] for byte in (BYTES if place else LETTERS)]
    wanted, most = Counter(map(bucket, found)).most_common(1)[0]
    return [name for name in found if bucket(name) == wanted] if most > 1 else random.sample(found, 5)


LENGTHS = (1, 7, 8, 9, 15, 16, 17, 31, 32)
BEGINNINGS = [(1, 2), (1, 32), (7, 8), (8, 9), (8, 16), (15, 16), (16, 17), (24, 32), (31, 32), (1, 9, 17, 32)]
APART = [(0, 1), (0, 8), (0, 32), (6, 7), (7, 8), (8, 9), (15, 16), (16, 17), (31, 32)]  # place and length
TOGETHER = [(0, 3), (0, 11), (0, 17), (6, 9), (7, 18), (8, 11), (8, 25), (9, 12), (9, 32), (15, 32), (16, 19), (29, 32)]


def crowds():
    """Names of one bucket, in some order of declaration, and names that hardly differ."""
    yield any_crowd(10, range(3, 33))
    yield any_crowd(40)
    yield of_one_hash(16)
    yield of_one_hash(32)
    yield crowd(bucket("k"), LENGTHS)
    yield crowd(bucket("Q"), LENGTHS[::-1])
    for lengths in BEGINNINGS:
        names = beginnings(*lengths)
        yield names
        yield names[::-1]
    for place, length in APART + TOGETHER:
        yield alike_but(place, length)
    yield [name for pair in zip(any_crowd(12), any_crowd(12)) for name in pair]


# Files of them.

Held = namedtuple("Held", "name width value")  # a variable, and a value that fits it

# Each holds where its variable has the value.
LINES = ("p = {0} {2}:i{1}", "c {2}:i{1} | {0} {0}", "c {0} + {2}:i{1} 0:i{1}")


def held(names, widths=range(1, 65)):
    """The names with these widths in turn, and any values."""
    pairs = [(name, widths[i % len(widths)]) for i, name in enumerate(names)]
    return [Held(name, width, random.getrandbits(width)) for name, width in pairs]


def shuffled(some):
    return random.sample(some, len(some))


def laid_out(kind, tokens):
    """Lines of that kind with up to five of the tokens."""
    text = ""
    while tokens:
        size = random.randint(1, 5)
        text += f"{kind} {' '.join(tokens[:size])}\n"
        tokens = tokens[size:]
    return text


def header(variables):
    return "v 1.0\n" + laid_out("d", [f"{name}:i{width}" for name, width, _ in variables])


def lines(variables):
    """A line for each."""
    return "".join(random.choice(LINES).format(*variable) + "\n" for variable in variables)


def answer(variables):
    """Sets each to its value."""
    return "s SATISFIABLE\n" + laid_out("v", [f"{name}={value}" for name, _, value in variables])


# Faults: the number, and the file with ¦ at the position.

USES = ("p = ¦{} 0:i8\n", "c 0:i8 ~ ¦{}\n", "c ¦{} ~ 0:i8\n")
WORDS = ("ule", "sgt", "ite", "trun", "extr")


def some_of(variables):
    """The first, one in the middle and the last."""
    return list(dict.fromkeys((variables[0], variables[len(variables) // 2], variables[-1])))


def without(variables, one):
    return [variable for variable in variables if variable != one]


def declared_once_more(number, variables, name):
    return number, header(variables)[:-1] + random.choice((" ", "\nd ")) + f"¦{name}:i8\n"


def used(number, variables, name):
    return number, header(variables) + lines(shuffled(variables)[:3]) + random.choice(USES).format(name)


def name_faults():
    """A name declared twice, and one used without being declared."""
    for variables in map(held, crowds()):
        for one in some_of(variables):
            yield declared_once_more(12, variables, one.name)
            yield used(13, without(variables, one), one.name)


def word_faults():
    """Reserved words beside names of their bucket."""
    for word in WORDS:
        variables = held(crowd(bucket(word), (2, len(word), 8, 9)))
        yield declared_once_more(12, variables, word)
        yield used(13, variables, word)


def length_faults():
    """Names that are too long beside others of their bucket and beside their own beginning."""
    names = beginnings(8, NAME_BYTES)
    wanted, length = bucket(names[0]), NAME_BYTES + 1
    for long in (any_in(wanted, length), any_in(wanted, length, names[0]), names[1] + "0"):
        yield declared_once_more(11, held(names), long)
        yield used(11, held(names), long)


def one_too_many(names):
    """One name more than there may be, of their bucket, and one of them once more."""
    for name in (any_in(bucket(names[0]), 5, others=names), names[0], names[-1]):
        yield declared_once_more(11, held(names, (1,)), name)


def faults():
    yield from name_faults()
    yield from word_faults()
    yield from length_faults()
