#!/usr/bin/env python3
"""The 31 operators of document 01, "Types and meanings", worked out apart from the Rattle code.

apply(op, k, a, b, c) gives what an operator used by itself answers for a result of k bits: a number,
"zero divisor", or "refused NUMBER call 0". `--self-test` checks the document's table cases W1 to W12.
"""
import sys
from collections import namedtuple

Word = namedtuple("Word", "width value")


def signed(word):
    """The signed reading, -2^(K-1) to 2^(K-1)-1."""
    return word.value if word.value < 2 ** (word.width - 1) else word.value - 2**word.width


# Type rules: what the result width k and the operands must be, once every width is 1 to 64.


def equal_widths(k, *words):
    return all(word.width == k for word in words)


def booleans(k, a, b):
    return k == a.width == b.width == 1


def comparison(k, a, b):
    return k == 1 and a.width == b.width


def choice(k, a, b, c):
    return a.width == 1 and b.width == c.width == k


def shift(k, a, amount):
    return a.width == k and amount.width == 8


def narrowing(k, a):
    return a.width > k


def widening(k, a):
    return a.width < k


def concatenation(k, a, b):
    return a.width + b.width <= 64 and k == a.width + b.width


def extraction(k, x, n, m):
    return n.width == m.width == 8 and 0 <= n.value < m.value <= x.width and k == m.value - n.value


# Meanings: whole numbers, which `apply` reduces modulo 2^k.


def flags(a, b):
    """C, V, N and Z of a + (not b) + 1."""
    top = 2 ** (a.width - 1)
    not_b = 2**a.width - 1 - b.value
    total = a.value + not_b + 1
    carry_in = (a.value % top + not_b % top + 1) // top  # at i1 this is the added 1
    carry_out = total // (2 * top)
    return bool(carry_out), carry_in != carry_out, total // top % 2 == 1, total % (2 * top) == 0


def by_flags(formula):
    return lambda k, a, b: int(formula(*flags(a, b)))


def signed_quotient(a, b):
    """Def. 21: towards zero where the signs agree or a is 0, away from zero where they differ."""
    quotient, remainder = divmod(abs(a), abs(b))
    if a * b >= 0:
        return quotient
    return -(quotient + 1 if remainder else quotient)


def sdiv(k, a, b):
    return signed_quotient(signed(a), signed(b))


def srem(k, a, b):
    return signed(a) - sdiv(k, a, b) * signed(b)


def shift_left(k, a, amount):
    return 0 if amount.value >= k else a.value * 2**amount.value


def shift_right(k, a, amount):
    return 0 if amount.value >= k else a.value // 2**amount.value


def shift_right_signed(k, a, amount):
    if amount.value >= k:
        return -1 if signed(a) < 0 else 0
    return signed(a) // 2**amount.value  # rounds down


# Spelling: operands taken, type rule, meaning; in the order of the document's list.
OPERATORS = {
    "&": (2, equal_widths, lambda k, a, b: a.value & b.value),
    "|": (2, equal_widths, lambda k, a, b: a.value | b.value),
    "^": (2, equal_widths, lambda k, a, b: a.value ^ b.value),
    "~": (1, equal_widths, lambda k, a: 2**k - 1 - a.value),
    "=>": (2, booleans, lambda k, a, b: (1 - a.value) | b.value),
    "=": (2, comparison, by_flags(lambda c, v, n, z: z)),
    "/=": (2, comparison, by_flags(lambda c, v, n, z: not z)),
    "ule": (2, comparison, by_flags(lambda c, v, n, z: not c or z)),
    "uge": (2, comparison, by_flags(lambda c, v, n, z: c)),
    "ult": (2, comparison, by_flags(lambda c, v, n, z: not c)),
    "ugt": (2, comparison, by_flags(lambda c, v, n, z: c and not z)),
    "sle": (2, comparison, by_flags(lambda c, v, n, z: z or n != v)),
    "sge": (2, comparison, by_flags(lambda c, v, n, z: n == v)),
    "slt": (2, comparison, by_flags(lambda c, v, n, z: n != v)),
    "sgt": (2, comparison, by_flags(lambda c, v, n, z: not z and n == v)),
    "ite": (3, choice, lambda k, a, b, c: b.value if a.value else c.value),
    "+": (2, equal_widths, lambda k, a, b: a.value + b.value),
    "-": (2, equal_widths, lambda k, a, b: a.value - b.value),
    "*": (2, equal_widths, lambda k, a, b: a.value * b.value),
    "/u": (2, equal_widths, lambda k, a, b: a.value // b.value),
    "/s": (2, equal_widths, sdiv),
    "%u": (2, equal_widths, lambda k, a, b: a.value - a.value // b.value * b.value),
    "%s": (2, equal_widths, srem),
    "<<": (2, shift, shift_left),
    ">>a": (2, shift, shift_right_signed),
    ">>l": (2, shift, shift_right),
    "trun": (1, narrowing, lambda k, a: a.value),
    "sext": (1, widening, lambda k, a: signed(a)),
    "zext": (1, widening, lambda k, a: a.value),
    "conc": (2, concatenation, lambda k, a, b: a.value * 2**b.width + b.value),
    "extr": (3, extraction, lambda k, x, n, m: x.value // 2**n.value),
}
DIVISIONS = ("/u", "/s", "%u", "%s")


def refused(number):
    return f"refused {number} call 0"


def apply(op, k, *operands):
    """The answer of op; operands beyond those that it takes are not looked at."""
    taken, type_rule, meaning = OPERATORS[op]
    words = operands[:taken]
    if not all(1 <= width <= 64 for width in (k, *(word.width for word in words))):
        return refused(9)
    if not type_rule(k, *words):
        return refused(15)
    if not all(word.value < 2**word.width for word in words):
        return refused(18)
    if op in DIVISIONS and words[1].value == 0:
        return "zero divisor"
    return meaning(k, *words) % 2**k


# W1 to W12: operator, result width, (width, value) of each operand, result.
CASES = [
    ("conc", 16, (8, 1), (8, 0), 256),
    ("extr", 3, (8, 22), (8, 0), (8, 3), 6),
    ("extr", 1, (8, 22), (8, 3), (8, 4), 0),
    ("trun", 2, (32, 43), 3),
    ("+", 8, (8, 1), (8, 128), 129),
    ("-", 8, (8, 1), (8, 128), 129),
    ("slt", 1, (8, 128), (8, 127), 1),
    ("sge", 1, (1, 0), (1, 1), 1),
    ("/s", 8, (8, 249), (8, 2), 252),
    ("%s", 8, (8, 249), (8, 2), 1),
    ("/s", 8, (8, 128), (8, 255), 128),
    ("<<", 8, (8, 1), (8, 8), 0),
    (">>a", 8, (8, 128), (8, 200), 255),
]


def self_test():
    assert len(OPERATORS) == 31
    for op, k, *operands, result in CASES:
        answer = apply(op, k, *(Word(*operand) for operand in operands))
        assert answer == result, (op, k, operands, answer)


if __name__ == "__main__":
    if sys.argv[1:] != ["--self-test"]:
        sys.exit(f"usage: {sys.argv[0]} --self-test")
    self_test()
    print("W1 to W12 hold")
