#!/usr/bin/env python3
"""Write a stream of sheets: each is a line `#sheet N` and N bytes.

  generate.py --seed 1 --count 10000 [--kinds small=4,wide=1] > stream
  generate.py --seed 1 --count 10000 --refused > stream
  generate.py --seed 1 --count 10000 --qubits > stream
  generate.py --seed 1 --count 10000 --angles > stream
  generate.py --seed 1 --count 10000 --wide [--refused] > stream

The first form writes sheets that pass questions 1 to 7 (but for a few terms
with one qubit outside or repeated); the second writes sheets with faults of
every class, 1 to 8, and a few with more than one; the third writes sheets with
several qubits outside or repeated, on one line and on different ones. With
--angles most pairs are angles and most Pauli rates sum to at most 1; some are
the last that question 11 takes, or the first that it does not. With --wide
every sheet is a `path` sheet, with ops outside the cone of its terms mostly,
and stands twice: as `run=path` and, next, as `run=wide`.
"""

import argparse
import fractions
import math
import random
import struct
import sys

ONE = "3ff0000000000000"
ZERO = "0000000000000000"
MINUS_ZERO = "8000000000000000"
T_SINE = "3fe6a09e667f3bcc"
T_COSINE = "3fe6a09e667f3bcd"
LARGEST = "7fefffffffffffff"

GATES = "id x y z h s sdg t tdg sx sxdg".split()
PAIRS = "cx cz swap".split()
CHANNELS = {"pauli": 3, "depol": 1, "damp": 1, "phase": 1, "thermal": 3, "depol2": 1}
INVERSE = {"s": "sdg", "sdg": "s", "sx": "sxdg", "sxdg": "sx", "t": "tdg", "tdg": "t"}
RUNS = ["full", "cone", "all", "path"]
EDGES = [63, 64, 65, 127, 128, 129, 191, 192, 193, 255, 256]
PLACES = [0, 1, 62, 63, 64, 65, 126, 127, 128, 129, 191, 192, 193, 254, 255]


def bits(value):
    return struct.pack(">d", value).hex()


def negative(text):
    return "%016x" % (int(text, 16) ^ (1 << 63))


def value(text):
    return struct.unpack(">d", bytes.fromhex(text))[0]


def multiples(real):
    """How many whole multiples of 2^-60 the size of a number has."""
    return math.floor(abs(fractions.Fraction(real)) * 2**60)


class Sheet:
    """A sheet as texts, so that any of them can be made faulty."""

    def __init__(self, run):
        self.qubits, self.run, self.epsilon = 1, run, ZERO
        self.max_terms, self.limit = 0, 8
        self.terms, self.ops = [], []  # (weight, [factor]), (name, [target], [real])

    def copy(self):
        other = Sheet(self.run)
        other.__dict__.update(self.__dict__)
        other.terms, other.ops = list(self.terms), list(self.ops)
        return other

    def lines(self):
        out = ["qubits=%s" % self.qubits, "run=%s" % self.run, "epsilon=%s" % self.epsilon]
        out += ["max_terms=%s" % self.max_terms, "limit=%s" % self.limit]
        out.append("terms=%d" % len(self.terms))
        for weight, factors in self.terms:
            out.append("term=%s:%s" % (weight, ",".join(factors)))
        out.append("ops=%d" % len(self.ops))
        for name, targets, reals in self.ops:
            text = "op=%s:%s" % (name, ",".join(map(str, targets)))
            out.append(text + (":" + ",".join(reals) if reals else ""))
        return out

    def text(self):
        return ("\n".join(self.lines()) + "\n").encode()


class Maker:
    def __init__(self, seed):
        self.random = random.Random(seed)
        self.choice = self.random.choice
        self.extreme = False
        self.angles = False
        self.wide = False

    def chance(self, share):
        return self.random.random() < share

    # ---- numbers ----

    def angle(self):
        theta = self.random.uniform(-math.pi, math.pi)
        if self.chance(0.2):
            theta = self.random.randrange(-8, 9) * math.pi / 8
        if self.chance(0.1):
            theta *= 2.0 ** -self.random.randrange(60)
        return bits(math.sin(theta)), bits(math.cos(theta))

    def tiny(self):
        """Subnormal, smallest normal, and other small numbers."""
        kind = self.random.randrange(4)
        if kind == 0:
            return "%016x" % self.random.randrange(1, 4)
        if kind == 1:
            return "%016x" % self.random.randrange(1, 1 << 52)
        if kind == 2:
            return self.choice(["0010000000000000", "0010000000000001", "000fffffffffffff"])
        return bits(2.0 ** -self.random.randrange(1, 1074))

    def unit(self):
        """A number from -1 to 1."""
        kind = self.random.randrange(10)
        if kind < 3:
            return self.choice([ZERO, MINUS_ZERO, ONE, negative(ONE)])
        if kind == 3:
            text = self.tiny()
        elif kind == 4:
            text = self.choice(["3fefffffffffffff", "3fe0000000000000", T_SINE, T_COSINE])
        else:
            text = bits(self.random.random())
        return negative(text) if self.chance(0.5) else text

    def bound_pair(self):
        """A pair next to a bound of question 11, on either side of it."""
        one = self.random.random() * 2.0 ** -self.random.randrange(30)
        if self.chance(0.2):
            one = self.choice([2.0**-25, 1.0, 0.5, 0.0, 2.0**-26, 0.6])
        edge = 2**120 + self.choice([1, -1]) * 2**70 - multiples(one) ** 2
        other = float(fractions.Fraction(math.isqrt(max(edge, 0)), 2**60))
        for _ in range(self.random.randrange(3)):
            other = math.nextafter(other, self.choice([0.0, 2.0]))
        found = [bits(one), bits(min(other, 1.0))]
        found = [negative(text) if self.chance(0.5) else text for text in found]
        self.random.shuffle(found)
        return tuple(found)

    def mix(self):
        """Pauli rates that sum to at most 1, and some next to that bound."""
        rates = [self.random.random() / 3 * 2.0 ** -self.random.randrange(3) for _ in range(2)]
        if self.chance(0.3):
            rates = [self.choice([0.0, 0.5, 0.25, 2.0**-61, 1.0, 2.0**-60]) for _ in range(2)]
        last = self.random.random() / 3
        if self.chance(0.3):
            left = 2**60 - multiples(rates[0]) - multiples(rates[1])
            last = float(fractions.Fraction(max(left, 0), 2**60))
            for _ in range(self.random.randrange(3)):
                last = math.nextafter(last, self.choice([0.0, 2.0]))
        rates.append(min(last, 1.0))
        self.random.shuffle(rates)
        return [bits(rate) for rate in rates]

    def pair(self):
        if self.angles and self.chance(0.9):
            return self.bound_pair() if self.chance(0.02) else self.angle()
        kind = self.random.randrange(12)
        if kind < 3:
            exact = [(ZERO, ONE), (ONE, ZERO), (negative(ONE), ZERO), (ZERO, negative(ONE))]
            return self.choice(exact)
        if kind == 3:
            zeros = [(MINUS_ZERO, ONE), (ONE, MINUS_ZERO), (ZERO, ZERO), (MINUS_ZERO, MINUS_ZERO)]
            return self.choice(zeros + [(ONE, ONE), (negative(ONE), ONE)])
        if kind == 4:
            return self.choice([(T_SINE, T_COSINE), (negative(T_SINE), T_COSINE)])
        if kind == 5:
            return self.unit(), self.unit()
        return self.angle()

    def rate(self):
        kind = self.random.randrange(10)
        if kind < 3:
            return self.choice([ZERO, MINUS_ZERO, ONE])
        if kind == 3:
            return self.choice(["3fe0000000000000", "3fe8000000000000", "3fee000000000000"])
        if kind == 4:
            return self.choice(["3fefffffffffffff", "3ca0000000000000", "3c90000000000000"])
        if kind == 5:
            return self.tiny()
        return bits(self.random.random() ** self.choice([1, 4]))

    def weight(self):
        kind = self.random.randrange(10)
        if kind < 4:
            return self.choice([ONE, ONE, negative(ONE), "3fe0000000000000"])
        if kind == 4:
            return self.choice([ZERO, MINUS_ZERO])
        text = bits(self.random.random() * 2.0 ** self.random.randrange(-3, 4))
        if self.extreme and self.chance(0.7):
            text = self.tiny()
            if self.chance(0.6):
                text = bits(self.random.uniform(1, 2) * 2.0 ** self.random.randrange(900, 1024))
            if self.chance(0.2):
                text = LARGEST
        return negative(text) if self.chance(0.5) else text

    def epsilon(self):
        kind = self.random.randrange(10)
        if kind < 3:
            return self.choice([ZERO, ZERO, MINUS_ZERO])
        if kind == 3:
            return self.choice([T_SINE, T_COSINE, "3fe0000000000000", ONE])
        if kind == 4:
            return self.choice(["0000000000000001", LARGEST, "4000000000000000"])
        return bits(self.random.random() ** self.choice([1, 3, 9]))

    # ---- parts ----

    def factors(self, active):
        picked = self.random.sample(active, self.random.randint(0, min(len(active), 4)))
        if picked == [] and self.chance(0.8):
            picked = [self.choice(active)]
        return [self.choice("XYZ") + str(qubit) for qubit in picked]

    def op(self, active, channels, branching):
        if self.chance(0.03):
            return ("barrier", [], [])
        if channels and self.chance(0.4):
            name = self.choice(list(CHANNELS))
            reals = [self.rate() for _ in range(CHANNELS[name])]
            if name == "depol2":
                if len(active) < 2:
                    return ("depol", [active[0]], reals)
                return (name, self.random.sample(active, 2), reals)
            if name in ("pauli", "thermal") and self.chance(0.7):
                reals = [bits(self.random.random() / 3) for _ in range(3)]
            if name == "pauli" and self.angles:
                reals = self.mix()
            return (name, [self.choice(active)], reals)
        two = len(active) > 1 and self.chance(0.3)
        if self.chance(branching):
            reals = list(self.pair())
            if two:
                return ("rzz", self.random.sample(active, 2), reals)
            name = self.choice(["t", "tdg", "rz", "p"])
            return (name, [self.choice(active)], reals if name in ("rz", "p") else [])
        if two:
            return (self.choice(PAIRS), self.random.sample(active, 2), [])
        return (self.choice(GATES + ["h", "h", "sx"]), [self.choice(active)], [])

    def inverse(self, op):
        name, targets, reals = op
        if name in ("rz", "p", "rzz"):
            return (name, targets, [negative(reals[0]), reals[1]])
        return (INVERSE.get(name, name), targets, reals)

    def ops(self, active, channels):
        count = self.choice([0, 1, 2, 3, 4, 6, 8, 12, 16, 24])
        branching = self.choice([0.1, 0.3, 0.5])
        out = [self.op(active, channels, branching) for _ in range(count)]
        if self.chance(0.2):
            # A list and its inverse: branches meet again and cancel.
            out += [self.inverse(op) for op in reversed(out) if op[0] not in CHANNELS]
        if self.chance(0.15) and out:
            out.insert(self.random.randint(0, len(out)), ("barrier", [], []))
        if self.chance(0.2):
            # One rotation several times in a row.
            op = self.op(active, False, 1.0)
            at = self.random.randint(0, len(out))
            out[at:at] = [op] * self.random.randint(2, 4)
        return out

    def layers(self, active, channels):
        """Rotations between gates that turn Z into X, so that terms multiply."""
        out = []
        for _ in range(self.random.randint(2, 5)):
            for qubit in active:
                if self.chance(0.7):
                    out.append((self.choice(["h", "h", "sx", "sxdg"]), [qubit], []))
                if self.chance(0.7):
                    out.append(("rz", [qubit], list(self.angle())))
                if self.chance(0.3):
                    out.append((self.choice(["t", "tdg", "s", "sdg"]), [qubit], []))
                if channels and self.chance(0.3):
                    out.append(("damp", [qubit], [self.rate()]))
            for _ in range(len(active)):
                out.append(self.op(active, channels, 0.3))
        return out

    def lengthen(self, sheet, active):
        """Many terms and many ops, up to the longest sheet."""
        if sheet.run in ("full", "path"):
            self.term_lines(sheet, active, self.choice([30, 100, 200, 256]) - len(sheet.terms))
        count = self.choice([200, 600, 1200])
        branching = self.choice([0.0, 0.02, 0.3])
        if self.chance(0.3):
            sheet.ops = [(self.choice(GATES), [active[0]], []) for _ in range(self.choice([4095, 4096]))]
        else:
            sheet.ops = [self.op(active, sheet.run == "path", branching) for _ in range(count)]
        while len(sheet.text()) > 65536:
            sheet.ops.pop()

    def active(self, sheet, wide, deep):
        if wide:
            sheet.qubits = self.choice(EDGES)
            near = [place for place in PLACES if place < sheet.qubits] + [sheet.qubits - 1]
            picked = {self.choice(near) for _ in range(self.random.randint(1, 6))}
            if self.chance(0.3):
                picked.add(self.random.randrange(sheet.qubits))
            return sorted(picked)
        if deep:
            sheet.qubits = self.choice([3, 4, 5, 8, 64, 130])
            return self.random.sample(range(sheet.qubits), self.random.randint(3, min(sheet.qubits, 5)))
        sheet.qubits = self.choice([1, 1, 2, 2, 2, 3, 3, 4, 5, 8, 12, 17])
        if self.chance(0.02):
            sheet.qubits = self.random.randint(1, 256)
        count = self.random.randint(1, min(sheet.qubits, 4))
        return self.random.sample(range(sheet.qubits), count)

    def term_lines(self, sheet, active, count):
        for _ in range(count):
            if sheet.terms and self.chance(0.4):
                old = self.choice(sheet.terms)
                factors = list(old[1])
                self.random.shuffle(factors)
                weight = negative(old[0]) if self.chance(0.4) else self.weight()
                sheet.terms.append((weight, factors))
            else:
                sheet.terms.append((self.weight(), self.factors(active)))

    # ---- sheets ----

    def sheet(self, kind):
        """A sheet that passes questions 1 to 7."""
        self.extreme = kind == "extreme"
        run = self.choice(RUNS)
        if kind in ("fold", "extreme"):
            run = self.choice(["full", "path"])
        if kind == "noise":
            run = "path"
        if self.wide:
            run = "path"
        sheet = Sheet(run)
        active = self.active(sheet, kind == "wide", kind == "deep")
        if kind == "wide" and run == "all" and self.chance(0.7):
            sheet.run = run = self.choice(["full", "cone", "path"])
        if run == "cone":
            sheet.terms.append((ONE, self.factors(active)))
        elif run != "all":
            count = self.choice([0, 1, 1, 1, 2, 2, 3, 5, 8])
            if kind == "fold":
                count = self.choice([2, 2, 3, 4, 6])
            # With --wide the terms often leave some of the active qubits out.
            self.term_lines(sheet, active[: self.random.randint(1, len(active))] if self.wide else active, count)
        around = active
        if self.chance(0.8 if self.wide else 0.3):
            # Some ops outside the active qubits.
            around = sorted(set(active) | {self.random.randrange(sheet.qubits) for _ in range(2)})
        if kind == "long":
            self.lengthen(sheet, around)
        else:
            sheet.ops = (self.layers if kind == "deep" else self.ops)(around, run == "path")
        if kind != "exact" and self.chance(0.6):
            sheet.epsilon = self.epsilon()
            sheet.max_terms = self.choice([0, 1, 1, 2, 3, 4, 8, 16, 18446744073709551615])
        if kind != "exact" and len(sheet.terms) > 1 and self.chance(0.2):
            # A start that the first turn truncates, a barrier's turn mostly.
            sheet.max_terms = self.random.randint(1, len(sheet.terms) - 1)
            sheet.epsilon = bits(abs(value(self.choice(sheet.terms)[0])))
            if self.chance(0.7) and kind != "long":
                sheet.ops.append(("barrier", [], []))
        least = max(1, len(sheet.terms))
        if kind in ("small", "wide", "noise", "extreme"):
            sheet.limit = self.choice([least, least + 1, 8, 16, 64, 256, 256])
        elif kind == "fold":
            sheet.limit = self.choice([least, least, least + 1, least + 2, 2 * least])
        elif kind == "deep":
            sheet.limit = self.choice([256, 256, 256, 255, 64, 63, 16])
            if sheet.max_terms:
                sheet.max_terms = self.choice([1, 4, 8, 15, 16, 32, 64, 128])
                sheet.epsilon = bits(self.random.random() ** self.choice([2, 4, 8]))
        else:
            sheet.limit = self.choice([256, 256, 64])
        sheet.limit = max(sheet.limit, least)
        return sheet

    def group(self, kind):
        """One sheet, or a few that differ in one number."""
        if kind == "ladder":
            sheet = self.sheet("small")
            least = max(1, len(sheet.terms))
            out = []
            field = self.choice(["limit", "limit", "max_terms"])
            for step in range(8):
                other = sheet.copy()
                setattr(other, field, (least if field == "limit" else 0) + step)
                out.append(other)
            return out
        sheet = self.sheet(kind)
        if kind == "lone":
            if not sheet.terms:
                return [sheet]
            self.spoil_term(sheet)
        return [sheet]

    def spoil_term(self, sheet):
        """One factor outside the qubits, or one that repeats a qubit."""
        at = self.random.randrange(len(sheet.terms))
        weight, factors = sheet.terms[at]
        factors = list(factors)
        if factors and self.chance(0.5):
            factor = self.choice("XYZ") + self.choice(factors)[1:]
        else:
            far = [sheet.qubits, sheet.qubits + 1, 64, 256, 18446744073709551615]
            factor = self.choice("XYZ") + str(max(sheet.qubits, self.choice(far)))
        factors.insert(self.random.randint(0, len(factors)), factor)
        sheet.terms[at] = (weight, factors)

    # ---- faults ----

    def refused(self):
        """A sheet with a fault, as bytes; now and then with two."""
        sheet = self.sheet(self.choice(["small", "small", "wide", "noise", "exact"]))
        classes = [1, 1, 1, 2, 3, 4, 5, 6, 7, 8]
        first = self.choice(classes)
        if first == 8:
            return self.overflow().text()
        if self.chance(0.15):
            second = self.choice([2, 3, 4, 5, 6, 7])
            self.spoil(sheet, second)
        if first == 1:
            return self.spoil_text(sheet)
        self.spoil(sheet, first)
        return sheet.text()

    def several(self):
        """A sheet with two to five faults of questions 5 and 6, as bytes."""
        sheet = self.sheet(self.choice(["small", "small", "wide", "noise", "exact"]))
        for _ in range(self.random.randint(2, 5)):
            self.spoil(sheet, self.choice([5, 6]))
        return sheet.text()

    def spoil(self, sheet, status):
        getattr(self, "spoil_%d" % status)(sheet)

    def spoil_2(self, sheet):
        kind = self.random.randrange(6)
        if kind == 0:
            sheet.qubits = self.choice([0, 257, 258, 1000, 18446744073709551615])
        elif kind == 1:
            sheet.limit = self.choice([0, 1048577, 2097152, 18446744073709551615])
        elif kind == 2 and sheet.terms:
            sheet.limit = len(sheet.terms) - 1
        elif kind == 3:
            sheet.terms = [(ONE, [])] * self.choice([1025, 1026])
            sheet.limit = self.choice([256, 1024, 1048576])
        elif kind == 4:
            sheet.ops = [("id", [0], [])] * self.choice([4097, 4098])
        else:
            sheet.qubits, sheet.limit = self.choice([(0, 0), (1, 0), (257, 8)])

    def spoil_3(self, sheet):
        kind = self.random.randrange(5)
        if kind == 0:
            sheet.run = "cone"
            sheet.terms = [(ONE, ["Z0"])] * self.choice([0, 2, 3])
            sheet.limit = max(sheet.limit, 3) if isinstance(sheet.limit, int) else sheet.limit
        elif kind == 1:
            sheet.run = "cone"
            wrong = [negative(ONE), ZERO, "3ff0000000000001", "3fefffffffffffff"]
            wrong += ["7ff8000000000000", "7ff0000000000000", "fff0000000000000"]
            sheet.terms = [(self.choice(wrong), ["X0"])]
        elif kind == 2:
            sheet.run = "all"
            sheet.terms = [(ONE, ["X0"])] * self.choice([1, 2])
            sheet.limit = max(sheet.limit, 2)
        else:
            sheet.run = self.choice(["full", "cone", "all"])
            if sheet.run == "all":
                sheet.terms = []
            if sheet.run == "cone":
                sheet.terms = [(ONE, ["Z0"])]
            name = self.choice(list(CHANNELS))
            targets = [0, 1] if name == "depol2" else [0]
            reals = [self.rate() for _ in range(CHANNELS[name])]
            place = self.random.randint(0, len(sheet.ops))
            sheet.ops.insert(place, (name, targets, reals))

    def spoil_4(self, sheet):
        infinite = ["7ff0000000000000", "fff0000000000000", "7ff8000000000000"]
        infinite += ["7ff0000000000001", "ffffffffffffffff"]
        above = ["3ff0000000000001", "4000000000000000", LARGEST] + infinite
        below = ["bff0000000000001", "c000000000000000", "ffefffffffffffff"]
        under = ["8000000000000001", "bff0000000000000", "8010000000000000"]
        kind = self.random.randrange(4)
        if kind == 0:
            sheet.epsilon = self.choice(infinite + under)
        elif kind == 1 and sheet.terms:
            at = self.random.randrange(len(sheet.terms))
            sheet.terms[at] = (self.choice(infinite), sheet.terms[at][1])
        elif kind == 2 and sheet.run == "path":
            name = self.choice(list(CHANNELS))
            reals = [self.rate() for _ in range(CHANNELS[name])]
            reals[self.random.randrange(len(reals))] = self.choice(above + under)
            targets = [0, 1] if name == "depol2" else [0]
            sheet.ops.insert(self.random.randint(0, len(sheet.ops)), (name, targets, reals))
        else:
            name = self.choice(["rz", "p", "rzz"])
            reals = [self.unit(), self.unit()]
            reals[self.random.randrange(2)] = self.choice(above + below)
            targets = [0, 1] if name == "rzz" else [0]
            sheet.ops.insert(self.random.randint(0, len(sheet.ops)), (name, targets, reals))

    def spoil_5(self, sheet):
        far = [sheet.qubits, sheet.qubits + 1, 256, 18446744073709551615]
        far = max(sheet.qubits, self.choice(far))
        if sheet.terms and self.chance(0.5):
            at = self.random.randrange(len(sheet.terms))
            weight, factors = sheet.terms[at]
            factors = factors + [self.choice("XYZ") + str(far)]
            self.random.shuffle(factors)
            sheet.terms[at] = (weight, factors)
            return
        op = (self.choice(GATES), [far], [])
        if self.chance(0.5):
            targets = [far, 0]
            self.random.shuffle(targets)
            op = (self.choice(PAIRS), targets, [])
        if self.chance(0.2):
            op = ("rz", [far], list(self.pair()))
        sheet.ops.insert(self.random.randint(0, len(sheet.ops)), op)

    def spoil_6(self, sheet):
        if sheet.terms and self.chance(0.5):
            at = self.random.randrange(len(sheet.terms))
            weight, factors = sheet.terms[at]
            factors = factors + [self.choice("XYZ") + (factors[0][1:] if factors else "0")]
            if len(factors) == 1:
                factors = factors * 2
            self.random.shuffle(factors)
            sheet.terms[at] = (weight, factors)
            return
        op = (self.choice(PAIRS), [0, 0], [])
        if self.chance(0.3):
            op = ("rzz", [0, 0], list(self.pair()))
        if self.chance(0.3) and sheet.run == "path":
            op = ("depol2", [0, 0], [self.rate()])
        sheet.ops.insert(self.random.randint(0, len(sheet.ops)), op)

    def spoil_7(self, sheet):
        sheet.limit = self.choice([257, 258, 512, 1024, 1048575, 1048576])

    def overflow(self):
        """Numbers so large that a sum, a coefficient or a total is infinite."""
        sheet = self.sheet("extreme")
        large = [LARGEST, negative(LARGEST), "7fe8000000000000", "7fe0000000000000"]
        factors = [self.choice("XYZ") + "0"]
        kind = self.random.randrange(5)
        if kind == 0:
            # Merging.
            sheet.terms = [(LARGEST, factors)] * 2 + sheet.terms[:3]
            self.random.shuffle(sheet.terms)
        elif kind == 1:
            # A rotation by a pair that is no angle.
            sheet.terms = [(self.choice(large), [letter + "0"]) for letter in "XY"]
            pair = [self.choice([ONE, negative(ONE)]), self.choice([ONE, negative(ONE)])]
            sheet.ops += [("rz", [0], pair)] * self.choice([1, 2])
        elif kind == 2:
            # The mean of rows that are each finite.
            sheet.terms = [(LARGEST, ["Z0"]), (LARGEST, [])]
            sheet.ops = sheet.ops if self.chance(0.5) else []
        elif kind == 3:
            # The discarded weight.
            sheet.terms = [(LARGEST, [letter + "0"]) for letter in "XYZ"]
            sheet.epsilon = LARGEST
            if self.chance(0.7):
                sheet.terms = [("7fe8000000000000", term[1]) for term in sheet.terms]
            sheet.max_terms = self.choice([0, 1, 2])
            sheet.ops = sheet.ops if self.chance(0.5) else [("id", [0], [])]
        else:
            # The totals of a fold, and its lines.
            sheet.terms = [(self.choice(large), [letter + "0"]) for letter in "ZZYX"]
            sheet.ops += [("t", [0], []), ("h", [0], []), ("t", [0], [])]
            sheet.limit = len(sheet.terms)
        sheet.limit = max(sheet.limit, len(sheet.terms))
        return sheet

    def spoil_text(self, sheet):
        """Layout faults."""
        lines = [line.encode() for line in sheet.lines()]
        pick = self.random.randrange
        kind = pick(16)
        if kind < 4:
            # One line replaced by a wrong one of its own kind.
            at = pick(len(lines))
            lines[at] = self.wrong(lines[at])
        elif kind == 4:
            del lines[pick(len(lines))]
        elif kind == 5:
            at = pick(len(lines))
            lines.insert(at, lines[at])
        elif kind == 6:
            at = pick(len(lines) - 1)
            lines[at], lines[at + 1] = lines[at + 1], lines[at]
        elif kind == 7:
            return b"\n".join(lines)
        elif kind == 8:
            text = b"\n".join(lines) + b"\n"
            return text[: pick(len(text))]
        elif kind == 9:
            extra = [b"\n", b"x", b" ", b"\n\n", b"op=h:0\n", b"\0", b"\xff", b"end=0\n"]
            return b"\n".join(lines) + b"\n" + self.choice(extra)
        elif kind == 10:
            counts = [5, len(sheet.terms) + 6]
            at = self.choice(counts)
            key, _, count = lines[at].partition(b"=")
            wrong = [int(count) + 1, max(0, int(count) - 1), 1025, 4097, 18446744073709551615]
            lines[at] = key + b"=" + str(self.choice(wrong)).encode()
        elif kind == 11:
            text = bytearray(b"\n".join(lines) + b"\n")
            for _ in range(pick(3) + 1):
                text[pick(len(text))] = self.choice([pick(256), 10, 13, 32, 44, 58, 61, 48])
            return bytes(text)
        elif kind == 12:
            text = bytearray(b"\n".join(lines) + b"\n")
            at = pick(len(text))
            if self.chance(0.5):
                del text[at]
            else:
                text.insert(at, self.choice([10, 13, 32, 44, 48, 58, 61, 128, 255, 0]))
            return bytes(text)
        elif kind == 13:
            return self.choice([b"", b"\n", b"qubits", b"qubits=1", b"qubits=1\n", b"\xff\n"])
        elif kind == 14:
            return b"\r\n".join(lines) + b"\r\n"
        elif self.chance(0.3):
            # At and about the longest sheet.
            text = b"\n".join(lines) + b"\n"
            return text + b"#" * max(0, 65536 + pick(3) - 1 - len(text))
        return b"\n".join(lines) + b"\n"

    def wrong(self, line):
        key, _, text = line.partition(b"=")
        if key == b"op":
            return b"op=" + self.wrong_op(text)
        if key == b"term":
            return b"term=" + self.wrong_term(text)
        if key == b"run":
            return b"run=" + self.choice([b"", b"Full", b"full ", b"budget", b"fulll", b"ful", b"conepath"])
        if key == b"epsilon":
            return b"epsilon=" + self.wrong_real(text)
        if self.chance(0.2):
            return self.choice([key, key + b":" + text, b" " + line, key.upper() + b"=" + text, b""])
        return key + b"=" + self.wrong_count(text)

    def wrong_count(self, text):
        wrong = [b"", b"0" + text, b"00", b"01", b"+1", b"-1", b" " + text, text + b" ", b"1.0"]
        wrong += [b"18446744073709551616", b"99999999999999999999", b"1" + b"0" * 60, b"1e3"]
        return self.choice(wrong + [b"0x1", text + b"\r", b"\xb2", b"1_000", b"1,000", b"a"])

    def wrong_real(self, text):
        wrong = [b"", text[:15], text + b"0", b"3FF0000000000000", b"0x3ff00000000000", b"1.0"]
        return self.choice(wrong + [b" " + text[:15], text[:15] + b"g", text[:15] + b" ", b"+" + text[:15]])

    def wrong_term(self, text):
        weight, _, factors = text.partition(b":")
        kind = self.random.randrange(6)
        if kind == 0:
            return self.choice([weight, weight + b",", weight + b";" + factors, b"", b":"])
        if kind == 1:
            return self.wrong_real(weight) + b":" + factors
        wrong = [b"X", b"x0", b"I0", b"X0,", b",X0", b"X0,,Z1", b"X00", b"X01", b"X+1", b"0X"]
        wrong += [b"X0 ", b" X0", b"X 0", b"X0;Z1", b"X0:", b"X0:Z1", b"XX0", b"X0Z1", b"X-0"]
        wrong += [b"X18446744073709551616", b"X99999999999999999999", b"X0\r", b"X\xb2", b","]
        return weight + b":" + self.choice(wrong)

    def wrong_op(self, text):
        real = ONE.encode()
        pair = real + b"," + real
        wrong = [b"", b":", b"h", b"h:", b"h:0,1", b"h:0:", b"h:0:" + real, b"cx:0", b"cx:0,1,2"]
        wrong += [b"cx:0,1:", b"rz:0", b"rz:0:", b"rz:0:" + real, b"rz:0:" + pair + b"," + real]
        wrong += [b"t:0:" + pair, b"barrier", b"barrier:0", b"barrier::", b"H:0", b"foo:0", b"rx:0"]
        wrong += [b"rz:0:" + pair + b":", b"h:0:0:0", b"rzz:0:" + pair, b"rzz:0,1", b"h:00", b"h:01"]
        wrong += [b"h:+0", b"h:-0", b"h: 0", b"h :0", b"h:0 ", b"h:0,", b"h:,0", b"cx:0,,1", b"h;0"]
        wrong += [b"pauli:0:" + pair, b"depol:0", b"depol:0:", b"depol:0,1:" + real, b"damp:0:1"]
        wrong += [b"depol2:0:" + real, b"thermal:0:" + pair, b"phase::" + real, b"rz::" + pair]
        wrong += [b"h:18446744073709551616", b"h:0\r", b"h:\xff", b"rz:0:" + real + b"," + real[:15]]
        wrong += [b"rz:0:" + real.upper() + b"," + real, b"rz:0," + pair, b"barrier:" + real, b"hh:0"]
        return self.choice(wrong)


DEFAULT = "small=8,wide=3,noise=4,fold=5,extreme=2,exact=2,deep=3,ladder=1,lone=1,long=0.1"


def main():
    parser = argparse.ArgumentParser(description=__doc__, formatter_class=argparse.RawTextHelpFormatter)
    parser.add_argument("--seed", type=int, default=1)
    parser.add_argument("--count", type=int, default=1000)
    parser.add_argument("--kinds", default=DEFAULT, help="kind=share,.. of " + DEFAULT)
    parser.add_argument("--refused", action="store_true")
    parser.add_argument("--qubits", action="store_true")
    parser.add_argument("--angles", action="store_true")
    parser.add_argument("--wide", action="store_true")
    given = parser.parse_args()
    maker = Maker(given.seed)
    maker.angles = given.angles
    maker.wide = given.wide
    shares = dict(part.split("=") for part in given.kinds.split(","))
    kinds, weights = list(shares), [float(share) for share in shares.values()]
    out = sys.stdout.buffer
    written = 0
    while written < given.count:
        if given.refused:
            texts = [maker.refused()]
        elif given.qubits:
            texts = [maker.several()]
        else:
            kind = maker.random.choices(kinds, weights)[0]
            texts = [sheet.text() for sheet in maker.group(kind)]
        if given.wide:
            texts = [text.replace(b"\nrun=path\n", b"\nrun=%s\n" % run, 1) for text in texts for run in (b"path", b"wide")]
        for text in texts[: given.count - written]:
            out.write(b"#sheet %d\n" % len(text) + text)
            written += 1


main()
