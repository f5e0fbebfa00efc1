#!/usr/bin/env python3
"""Writes the vectors of the program operator_vectors to FOLDER/stdin, and what operators.py
answers to each to FOLDER/stdout. Every run writes the same.

usage: python3 tools/operator_vectors.py crates/operator_vectors

A vector is an operator and its numbers: the result width, then the width and value of each operand.
"""
import sys
from itertools import product
from pathlib import Path
from random import Random

sys.dont_write_bytecode = True  # no __pycache__ in the repository
import operators
from operators import CASES, DIVISIONS, OPERATORS, Word

WIDTHS = (1, 2, 7, 8, 9, 16, 31, 32, 33, 63, 64)
WHOLE = (1, 2, 8, 64)  # widths at which every combination of edge values is tried
SWEPT = (33, 64)  # widths at which every shift amount is tried
MOST = 2**64 - 1
random = Random(1)


def numbers(k, *words):
    return (k, *(number for word in words for number in word))


def answer(op, vector):
    k, *rest = vector
    return operators.apply(op, k, *map(Word, rest[::2], rest[1::2]))


def any_word(width):
    """A word of the width, whose value is shorter half the time."""
    return width, random.getrandbits(random.choice((width, random.randint(1, width))))


def edges(width):
    """Both ends, and both sides of the change of sign."""
    half = 2 ** (width - 1)
    return sorted({0, 1, half - 1, half, 2 * half - 1})


# Vectors with sound widths.


def operand_widths(op):
    if op == "=>":
        return [(1, 1)]
    if op == "ite":
        return [(1, w, w) for w in WIDTHS]
    if op == "conc":
        return list(product(WIDTHS, repeat=2))
    if op in ("<<", ">>a", ">>l"):
        return [(w, 8) for w in WIDTHS]
    return [(w,) * OPERATORS[op][0] for w in WIDTHS]


def typical(op):
    """Edge values and any values, at the widths that op's type rule allows."""
    type_rule = OPERATORS[op][1]
    for k, widths in product(WIDTHS, operand_widths(op)):
        if not type_rule(k, *(Word(width, 0) for width in widths)):
            continue
        corners = list(product(*map(edges, widths)))
        if max(widths) not in WHOLE:
            corners = random.sample(corners, min(4, len(corners) // 2))
        for values in corners:
            yield numbers(k, *zip(widths, values))
        for _ in range(2):
            yield numbers(k, *map(any_word, widths))


# Vectors at both sides of what a type rule or a meaning tests.


def divisions():
    """A zero divisor beside another fault."""
    for w in WIDTHS:
        yield numbers(w, (w, min(2**w, MOST)), (w, 0))
        yield numbers(w - 1, any_word(w), (w, 0))


def shifts():
    """Every amount, and those around each width."""
    amounts = [*product(SWEPT, range(256)), *((w, w + step) for w in WIDTHS for step in (-1, 0, 1))]
    for w, amount in amounts:
        yield numbers(w, any_word(w), (8, amount))


def casts():
    """A result about as wide as the operand."""
    for w, step in product(WIDTHS, (-1, 0, 1)):
        yield numbers(w + step, any_word(w))


def concatenations():
    """Every two widths that make 64, and 65."""
    for x, total in product(range(1, 64), (64, 65)):
        yield numbers(64, any_word(x), any_word(total - x))


def extractions():
    """Both sides of 0 <= n < m <= width and of the result width, and any n < m."""
    for w in WIDTHS:
        inside = [(0, 1), (0, w), (w - 1, w)]
        outside = [(0, w + 1), (w, w + 1), (0, 0), (w, w), (w, w - 1), (256, 256 + w), (MOST - 1, MOST)]
        anywhere = [sorted(random.sample(range(w + 1), 2)) for _ in range(4)]
        ends = [*product(inside, (-1, 0, 1)), *product(outside + anywhere, (0,))]
        for (n, m), step in ends:
            yield numbers(max(m - n, 1) + step, any_word(w), (8, n), (8, m))


def boundaries(op):
    if op in DIVISIONS:
        return divisions()
    if op in ("<<", ">>a", ">>l"):
        return shifts()
    if op in ("trun", "sext", "zext"):
        return casts()
    return {"conc": concatenations, "extr": extractions}.get(op, tuple)()


# Vectors with faults.


def faults(sound):
    """A sound vector with each number wrong by itself, then with several wrong at once."""
    wrong = []
    for i, number in enumerate(sound):
        is_width = i == 0 or i % 2 == 1
        others = (0, number - 1, number + 1, 65) if is_width else (0, min(2 ** sound[i - 1], MOST), MOST)
        wrong += [(i, other) for other in others]
    several = [random.sample(wrong, random.randint(2, 4)) for _ in range(5)]
    for changes in [[change] for change in wrong] + several:
        vector = list(sound)
        for i, other in changes:
            vector[i] = other
        yield tuple(vector)


def vectors():
    for op, *case, _ in CASES:
        yield op, numbers(*case)
    for op in OPERATORS:
        found = [*typical(op), *boundaries(op)]
        sound = [vector for vector in found if isinstance(answer(op, vector), int)]
        # Below 64 bits a value can be too large and a width too large by one.
        narrow = [vector for vector in sound if 64 not in (vector[0], *vector[1::2])]
        for vector in random.sample(narrow, 3):
            found += faults(vector)
        for vector in dict.fromkeys(found):
            yield op, vector


def line(op, vector):
    """The line of a vector. An operand that op does not take is garbage."""
    k, *rest = vector
    while len(rest) < 6:
        rest += random.randrange(256), random.getrandbits(64)
    operands = " ".join(f"{width:02x}:{value:016x}" for width, value in zip(rest[::2], rest[1::2]))
    return f"{list(OPERATORS).index(op):02x} {k:02x} {operands}\n"


def main(folder):
    operators.self_test()
    every = list(vectors())
    Path(folder, "stdin").write_text("".join(line(*vector) for vector in every))
    Path(folder, "stdout").write_text("".join(f"{answer(*vector)}\n" for vector in every))
    print(f"{len(every)} vectors")


if __name__ == "__main__":
    if len(sys.argv) != 2:
        sys.exit(__doc__)
    main(sys.argv[1])
