#!/usr/bin/env python3
"""Compare `shown` with the rule of request 2026-03: fair.py PROGRAM [--seed 1] [--count 200000]

PROGRAM is a command that speaks the stream format. A number is put to it as the
weight of one identity term, with no ops, so that it is the mean. The rule is
worked out here from document 02, with fractions, so nothing is rounded on the
way: of the integers around the exact 1000 × |mean| the nearer one, of two that
are equally near the even one, then the sign, then the clamp.

The numbers: exact halves (odd sixteenths) and the numbers next to them; the
two numbers around n / 1000 and around (n + 1/2) / 1000; the numbers around
the clamp; powers of two, subnormals and the ends of the range, each with its
neighbours; random bits, and random numbers as means are. Every number comes
with both signs. What wrong rules would have answered is counted too, so that
one sees whether the numbers tell them apart. The exit status is 1 if an
answer differs.
"""

import argparse
import collections
import random
import shlex
import struct
import subprocess
import sys
from fractions import Fraction

MOST = 999_999_999
BYTES = 1_900_000  # of a stream; the program takes 2,097,152
TOP = 0x7FEFFFFFFFFFFFFF  # the bits of the largest number
SHEET = b"qubits=1\nrun=full\nepsilon=0000000000000000\nmax_terms=0\nlimit=1\nterms=1\nterm=%016x:\nops=0\n"


def value(bits):
    return struct.unpack(">d", struct.pack(">Q", bits))[0]


def bits_of(number):
    return struct.unpack(">Q", struct.pack(">d", number))[0]


def signed_and_held(size, minus):
    return max(-MOST, min(MOST, -size if minus else size))


def shown(bits):
    """The rule: exact product, nearest, even at a half, sign, clamp."""
    product = 1000 * abs(Fraction(value(bits)))
    below = product.numerator // product.denominator
    size = min((below, below + 1), key=lambda n: (abs(product - n), n % 2))
    return signed_and_held(size, bits >> 63)


# Wrong rules: cutting, a half away from zero, a half up, a product that is
# rounded to binary64 first, and a clamp of the whole part before rounding.
def cut(bits):
    return signed_and_held(int(1000 * abs(Fraction(value(bits)))), bits >> 63)


def half_away(bits):
    return signed_and_held(int(1000 * abs(Fraction(value(bits))) + Fraction(1, 2)), bits >> 63)


def half_up(bits):
    product = 1000 * Fraction(value(bits)) + Fraction(1, 2)
    return max(-MOST, min(MOST, product.numerator // product.denominator))


def product_rounded(bits):
    product = value(bits) * 1000.0
    return max(-MOST, min(MOST, round(product))) if abs(product) < 1e300 else signed_and_held(MOST, bits >> 63)


def held_first(bits):
    product = 1000 * abs(Fraction(value(bits)))
    whole = int(product)
    size = min(whole, MOST) + (round(product) - whole)
    return -size if bits >> 63 else size


WRONG = [cut, half_away, half_up, product_rounded, held_first]


def around(number):
    """The bits of the two numbers around a positive fraction, or of it."""
    near = bits_of(float(number))
    exact = Fraction(value(near))
    if exact == number:
        return [near]
    return [near, near + 1] if exact < number else [near - 1, near]


def beside(bits, far=1):
    return [b for b in range(bits - far, bits + far + 1) if 0 <= b <= TOP]


def edges():
    """Kind and bits of the numbers that are always taken, without their sign."""
    for k in range(1, 4001, 2):
        yield from (("halves", b) for b in beside(bits_of(k / 16)))
    for k in range(15_999_999, 15_998_001, -2):
        yield from (("halves", b) for b in beside(bits_of(k / 16)))
    for twice in range(1, 8001):
        yield from (("around n / 2000", b) for b in around(Fraction(twice, 2000)))
    for twice in range(1_999_999_960, 2_000_000_041):
        for b in around(Fraction(twice, 2000)):
            yield from (("clamp", c) for c in beside(b, 2))
    for power in range(-1074, 1024):
        yield from (("powers of two", b) for b in beside(bits_of(2.0**power)))
    yield from (("ends", b) for b in [0, *beside(1, 2), *beside(1 << 52, 2), *beside(TOP, 2)])


def drawn(rng):
    """Kind and bits of one number that is drawn, without its sign."""
    kind = rng.choice(["halves", "around n / 2000", "around n / 2000", "random bits", "subnormals", "means", "means", "large means"])
    if kind == "halves":
        top = rng.choice([1_000, 100_000, 8_000_000, 1 << 40])
        return kind, bits_of((2 * rng.randrange(top) + 1) / 16) + rng.choice([-1, 0, 0, 1])
    if kind == "around n / 2000":
        return kind, rng.choice(around(Fraction(rng.randrange(1, rng.choice([2_000, 100_000, 2_000_000_100])), 2000)))
    if kind == "random bits":
        return kind, rng.randrange(TOP + 1)
    if kind == "subnormals":
        return kind, rng.randrange(1 << rng.randrange(1, 53))
    if kind == "means":
        return kind, bits_of(rng.random())
    return kind, bits_of(2.0 ** rng.uniform(-16, 24))


def answers(command, numbers):
    """What the program prints as mean and as shown, for each number."""
    data = b"".join(b"#sheet %d\n" % len(SHEET % n) + SHEET % n for n in numbers)
    out = subprocess.run(command, input=data, stdout=subprocess.PIPE, check=True).stdout.decode()
    for part in out.split("#sheet ")[1:]:
        lines = dict(line.split("=", 1) for line in part.splitlines()[1:] if "=" in line)
        yield int(lines["mean"], 16), int(lines["shown"])


def main():
    parser = argparse.ArgumentParser(description=__doc__, formatter_class=argparse.RawTextHelpFormatter)
    parser.add_argument("program")
    parser.add_argument("--seed", type=int, default=1)
    parser.add_argument("--count", type=int, default=200000, help="numbers, with both signs counted; the edges are always taken")
    given = parser.parse_args()
    rng = random.Random(given.seed)
    numbers = dict((bits, kind) for kind, bits in edges())
    while 2 * len(numbers) < given.count:
        kind, bits = drawn(rng)
        numbers.setdefault(bits, kind)
    asked = [bits | sign for bits in numbers for sign in (0, 1 << 63)]
    step = BYTES // (len(SHEET) + 30)
    kinds, tells, halves, bad = collections.Counter(), collections.Counter(), collections.Counter(), 0
    for at in range(0, len(asked), step):
        chunk = asked[at : at + step]
        found = list(answers(shlex.split(given.program), chunk))
        if len(found) != len(chunk):
            sys.exit("fair.py: %d answers to %d sheets" % (len(found), len(chunk)))
        for bits, (mean, number) in zip(chunk, found):
            wanted = shown(bits)
            if mean != (bits if bits != 1 << 63 else 0) or number != wanted:
                bad += 1
                print("%016x: wanted %d, got %d (mean %016x)" % (bits, wanted, number, mean))
            kinds[numbers[bits & ~(1 << 63)]] += 1
            tells.update(rule.__name__ for rule in WRONG if rule(bits) != wanted)
            product = 1000 * abs(Fraction(value(bits)))
            if product.denominator == 2:
                halves["%s, to the even one %s" % ("minus" if bits >> 63 else "plus", "up" if product.numerator % 4 == 3 else "down")] += 1
    for title, counter in (("kind", kinds), ("exact half", halves), ("told from", tells)):
        for name in sorted(counter):
            print("%s: %s: %d" % (title, name, counter[name]))
    print("%d numbers, %d different" % (len(asked), bad))
    sys.exit(1 if bad else 0)


if __name__ == "__main__":
    main()
