#!/usr/bin/env python3
"""Answer a stream of sheets by a second reading of documents 01 and 02: reading.py < STREAM > ANSWERS

It speaks the stream format of README.md and takes another way than the code and the oracle: a term is a string of the letters X, Y, Z with a real
coefficient, the rules of the gates come from their matrices, `shown` and question 11 from fractions. So it shares with them no formula but those of the
channels, whose order of operations document 01 takes from prism-q. Requests in force: 2026-01, 2026-02, 2026-03, 2026-06, 2026-10.
"""

import fractions
import math
import re
import struct
import sys

LONGEST, ROWS = 65536, 512
HEX = re.compile(rb"[0-9a-f]{16}")
COUNT = re.compile(rb"0|[1-9][0-9]*")
FACTOR = re.compile(rb"[XYZ](.*)", re.S)
T_PAIR = (0x3FE6A09E667F3BCC, 0x3FE6A09E667F3BCD)
ROTATIONS = {"t", "tdg", "rz", "p", "rzz"}
CHANNELS = {"pauli": 3, "depol": 1, "damp": 1, "phase": 1, "thermal": 3, "depol2": 1}
TARGETS = {name: 1 for name in "id x y z h s sdg t tdg sx sxdg rz p pauli depol damp phase thermal".split()}
TARGETS.update({name: 2 for name in "cx cz swap rzz depol2".split()})
REALS = dict(CHANNELS, rz=2, p=2, rzz=2)


class Refused(Exception):
    """A refusal: its number and its line."""

    def __init__(self, number, line=0):
        super().__init__(number, line)
        self.number, self.line = number, line


def real(number):
    return struct.unpack(">d", struct.pack(">Q", number))[0]


def digits(value):
    """The 16 digits of a number, zero as +0."""
    return struct.pack(">d", value + 0.0 if value else 0.0).hex()


# ---- the sheet, question 1 ----


class Bad(Exception):
    """A line that is not laid out."""


def count(text):
    if not COUNT.fullmatch(text) or int(text) >= 2**64:
        raise Bad
    return int(text)


def hexadecimal(text):
    if not HEX.fullmatch(text):
        raise Bad
    return real(int(text, 16))


def term(text):
    weight, colon, factors = text.partition(b":")
    if not colon:
        raise Bad
    letters = []
    for factor in factors.split(b",") if factors else []:
        found = FACTOR.fullmatch(factor)
        if not found:
            raise Bad
        letters.append((chr(factor[0]), count(found.group(1))))
    return hexadecimal(weight), letters


def op(text):
    if text == b"barrier:":
        return "barrier", [], []
    name, *parts = text.split(b":")
    name = name.decode("latin-1")
    if name not in TARGETS or len(parts) != (2 if name in REALS else 1):
        raise Bad
    targets = [count(part) for part in parts[0].split(b",")]
    reals = [hexadecimal(part) for part in parts[1].split(b",")] if name in REALS else []
    if len(targets) != TARGETS[name] or len(reals) != REALS.get(name, 0):
        raise Bad
    return name, targets, reals


def run_name(text):
    if text not in (b"full", b"cone", b"all", b"path", b"wide"):
        raise Bad
    return text.decode()


class Sheet:
    def __init__(self, text):
        self.left = text.split(b"\n")
        self.line = 0
        self.qubits = self.take("qubits", count)
        self.run = self.take("run", run_name)
        self.epsilon = self.take("epsilon", hexadecimal)
        self.max_terms = self.take("max_terms", count)
        self.limit = self.take("limit", count)
        self.terms = self.several("terms", "term", term)
        self.ops = self.several("ops", "op", op)
        if self.left != [b""]:
            raise Refused(1, self.line + 1)

    def take(self, key, reader):
        self.line += 1
        head = key.encode() + b"="
        # The last piece is not ended by byte 10.
        if len(self.left) < 2 or not self.left[0].startswith(head):
            raise Refused(1, self.line)
        try:
            return reader(self.left.pop(0)[len(head) :])
        except Bad:
            raise Refused(1, self.line) from None

    def several(self, key, each, reader):
        number, found = self.take(key, count), []
        while len(found) < number:
            found.append(self.take(each, reader))
        return found

    def op_line(self, at):
        return 8 + len(self.terms) + at


# ---- questions 2 to 7, and 11 ----


def multiples(value):
    """ "cut toward zero to a whole multiple of 2^-60" """
    return math.trunc(fractions.Fraction(value) * 2**60)


def is_rotation_or_mix(name, reals):
    if name in ("rz", "p", "rzz"):
        squares = sum(fractions.Fraction(multiples(x), 2**60) ** 2 for x in reals)
        return abs(squares - 1) <= fractions.Fraction(1, 2**50)
    if name == "pauli":
        return sum(multiples(x) for x in reals) <= 2**60
    return True


def question_2(s):
    if not 1 <= s.qubits <= 256:
        raise Refused(2, 1)
    if not 1 <= s.limit <= 1048576:
        raise Refused(2, 5)
    if len(s.terms) > 1024 or len(s.terms) > s.limit:
        raise Refused(2, 6)
    if len(s.ops) > 4096:
        raise Refused(2, s.op_line(-1))


def counts_as_path(s):
    return s.run in ("path", "wide")


def question_3(s):
    if s.run == "cone" and len(s.terms) != 1 or s.run == "all" and s.terms:
        raise Refused(3, 6)
    if s.run == "cone" and s.terms[0][0] != 1.0:
        raise Refused(3, 7)
    for at, (name, _, _) in enumerate(s.ops):
        if name in CHANNELS and not counts_as_path(s):
            raise Refused(3, s.op_line(at))


def question_4(s):
    if not (math.isfinite(s.epsilon) and s.epsilon >= 0.0):
        raise Refused(4, 3)
    for at, (weight, _) in enumerate(s.terms):
        if not math.isfinite(weight):
            raise Refused(4, 7 + at)
    for at, (name, _, reals) in enumerate(s.ops):
        low = 0.0 if name in CHANNELS else -1.0
        if not all(low <= x <= 1.0 for x in reals):
            raise Refused(4, s.op_line(at))


def question_11(s):
    for at, (name, _, reals) in enumerate(s.ops):
        if not is_rotation_or_mix(name, reals):
            raise Refused(11, s.op_line(at))


def questions_5_and_6(s):
    """ "line by line, 5 before 6 on one line" """
    named = [(7 + at, [q for _, q in letters]) for at, (_, letters) in enumerate(s.terms)]
    named += [(s.op_line(at), targets) for at, (_, targets, _) in enumerate(s.ops)]
    for line, qubits in named:
        if any(q >= s.qubits for q in qubits):
            raise Refused(5, line)
        if len(set(qubits)) < len(qubits):
            raise Refused(6, line)


def question_7(s):
    if ROWS < 2 * s.limit:
        raise Refused(7)


# ---- gates, from their matrices: U† P U of the letters at the targets ----

PAULIS = {"I": [[1, 0], [0, 1]], "X": [[0, 1], [1, 0]], "Y": [[0, -1j], [1j, 0]], "Z": [[1, 0], [0, -1]]}


def product(a, b):
    return [[sum(a[i][k] * b[k][j] for k in range(len(b))) for j in range(len(b[0]))] for i in range(len(a))]


def dagger(a):
    return [[complex(a[j][i]).conjugate() for j in range(len(a))] for i in range(len(a[0]))]


def kron(a, b):
    return [[x * y for x in row for y in other] for row in a for other in b]


def matrix_of(letters):
    whole = [[1]]
    for letter in letters:
        whole = kron(whole, PAULIS[letter])
    return whole


def rules(matrix, scale, targets):
    """For the letters at the targets: the letters after, and the sign. The matrix is the gate's, times the square root of scale."""
    strings = [""]
    for _ in range(targets):
        strings = [s + letter for s in strings for letter in "IXYZ"]
    found = {}
    for before in strings:
        after = product(product(dagger(matrix), matrix_of(before)), matrix)
        for string in strings:
            for sign in (1, -1):
                wanted = [[sign * scale * x for x in row] for row in matrix_of(string)]
                if after == wanted:
                    found[before] = (string, sign)
    assert len(found) == len(strings)
    return found


GATES = {
    "id": rules(PAULIS["I"], 1, 1),
    "x": rules(PAULIS["X"], 1, 1),
    "y": rules(PAULIS["Y"], 1, 1),
    "z": rules(PAULIS["Z"], 1, 1),
    "h": rules([[1, 1], [1, -1]], 2, 1),
    "s": rules([[1, 0], [0, 1j]], 1, 1),
    "sdg": rules([[1, 0], [0, -1j]], 1, 1),
    "sx": rules([[1 + 1j, 1 - 1j], [1 - 1j, 1 + 1j]], 4, 1),
    "sxdg": rules([[1 - 1j, 1 + 1j], [1 + 1j, 1 - 1j]], 4, 1),
    "cx": rules([[1, 0, 0, 0], [0, 1, 0, 0], [0, 0, 0, 1], [0, 0, 1, 0]], 1, 2),
    "cz": rules([[1, 0, 0, 0], [0, 1, 0, 0], [0, 0, 1, 0], [0, 0, 0, -1]], 1, 2),
    "swap": rules([[1, 0, 0, 0], [0, 0, 1, 0], [0, 1, 0, 0], [0, 0, 0, 1]], 1, 2),
}


# ---- a sum: rows of a word, which is a dict from qubits to letters frozen as a set, and a real coefficient ----


def letter_at(word, qubit):
    for letter in "XYZ":
        if (qubit, letter) in word:
            return letter
    return "I"


def with_letters(word, qubits, letters):
    kept = {pair for pair in word if pair[0] not in qubits}
    return frozenset(kept | {(q, letter) for q, letter in zip(qubits, letters) if letter != "I"})


class Sum:
    def __init__(self, rows):
        self.rows = rows

    def words(self):
        return {word: at for at, (word, _) in enumerate(self.rows)}

    def touched(self, targets):
        """How many terms have a letter on at least one of the targets."""
        return sum(any(q in targets for q, _ in word) for word, _ in self.rows)

    def gate(self, name, targets):
        table = GATES[name]
        for at, (word, c) in enumerate(self.rows):
            before = "".join(letter_at(word, q) for q in targets)
            after, sign = table[before]
            if after != before or sign < 0:
                self.rows[at] = (with_letters(word, targets, after), c if sign > 0 else -c)

    def rotate(self, targets, sine, cosine):
        """X turns into cos X - sin Y, Y into cos Y + sin X; between two qubits Z of the other comes or goes with it."""
        old, where = list(self.rows), self.words()
        for at, (word, c) in enumerate(old):
            letters = [letter_at(word, q) for q in targets]
            turning = [letter for letter in letters if letter in "XY"]
            if len(turning) != 1:
                continue
            if sine == 0.0:
                self.rows[at] = (word, c * cosine)
                continue
            other = [{"X": "Y", "Y": "X", "I": "Z", "Z": "I"}[letter] for letter in letters]
            partner = with_letters(word, targets, other)
            flipped = c * sine if turning[0] == "Y" else -(c * sine)
            if partner in where:
                d = old[where[partner]][1]
                self.rows[at] = (word, c * cosine + (d * sine if turning[0] == "X" else -(d * sine)))
            elif cosine == 0.0:
                self.rows[at] = (partner, flipped)
            else:
                self.rows[at] = (word, c * cosine)
                self.rows.append((partner, flipped))

    def channel(self, name, targets, reals):
        if name == "depol2":
            factor = 1.0 - 16.0 * reals[0] / 15.0
            for at, (word, c) in enumerate(self.rows):
                if any(letter_at(word, q) != "I" for q in targets):
                    self.rows[at] = (word, c * factor)
            return
        factors, to_identity = local_action(name, reals)
        target, old = targets[0], len(self.rows)
        if to_identity != 0.0:
            where = self.words()
            for word, c in self.rows[:old]:
                if letter_at(word, target) == "Z":
                    rest = with_letters(word, [target], "I")
                    if rest in where:
                        at = where[rest]
                        self.rows[at] = (rest, self.rows[at][1] + c * to_identity)
                    else:
                        where[rest] = len(self.rows)
                        self.rows.append((rest, c * to_identity))
        for at, (word, c) in enumerate(self.rows[:old]):
            letter = letter_at(word, target)
            if letter != "I":
                self.rows[at] = (word, c * factors[letter])

    def drop(self, epsilon):
        """Drops what is below epsilon; gives the sum of the sizes dropped."""
        dropped = 0.0
        for _, c in self.rows:
            if abs(c) < epsilon:
                dropped += abs(c)
        self.rows = [(word, c) for word, c in self.rows if not abs(c) < epsilon]
        return dropped

    def mean(self):
        total = 0.0
        for word, c in self.rows:
            if all(letter == "Z" for _, letter in word):
                total += c
        return total

    def is_finite(self):
        return all(math.isfinite(c) for _, c in self.rows)


def local_action(name, reals):
    """The factors of X, Y and Z, and what Z adds to the identity."""
    if name == "pauli":
        px, py, pz = reals
        pi = 1.0 - px - py - pz
        return {"X": pi + px - py - pz, "Y": pi + py - px - pz, "Z": pi + pz - px - py}, 0.0
    if name == "depol":
        factor = 1.0 - 4.0 * reals[0] / 3.0
        return {"X": factor, "Y": factor, "Z": factor}, 0.0
    keep = max(1.0 - reals[0], 0.0)
    root = math.sqrt(keep)
    if name == "phase":
        return {"X": root, "Y": root, "Z": 1.0}, 0.0
    if name == "damp":
        return {"X": root, "Y": root, "Z": keep}, reals[0]
    dephase = math.sqrt(max(1.0 - reals[1], 0.0))
    return {"X": root * dephase, "Y": root * dephase, "Z": keep}, reals[0] * (1.0 - 2.0 * reals[2])


# ---- runs ----


class Tally:
    def __init__(self):
        self.peak, self.discarded, self.touched = 0, 0.0, 0

    def ask(self, total):
        """Question 8, of coefficients and sums."""
        if not (total.is_finite() and math.isfinite(self.discarded)):
            raise Refused(8)


def pair_of(name, reals):
    if name in ("t", "tdg"):
        sine, cosine = (real(number) for number in T_PAIR)
        return (-sine if name == "tdg" else sine), cosine
    return reals


def one_run(s, total, marked, tally):
    """The ops last to first, the end and its mean."""
    for at in reversed(range(len(s.ops))):
        name, targets, reals = s.ops[at]
        if not marked[at]:
            continue
        tally.touched += total.touched(targets)
        if name in ROTATIONS:
            total.rotate(targets, *pair_of(name, reals))
        elif name in CHANNELS:
            total.channel(name, targets, reals)
        elif name != "barrier":
            total.gate(name, targets)
        tally.ask(total)
        if 0 < s.max_terms < len(total.rows):
            tally.discarded += total.drop(s.epsilon)
        tally.ask(total)
        if len(total.rows) > s.limit:
            raise Refused(9)
        tally.peak = max(tally.peak, len(total.rows))
    if s.epsilon > 0.0:
        tally.discarded += total.drop(s.epsilon)
    tally.ask(total)
    mean = total.mean()
    if not math.isfinite(mean):
        raise Refused(8)
    return mean


def word_of(letters):
    return frozenset((q, letter) for letter, q in letters)


def merged(terms):
    rows, where = [], {}
    for weight, letters in terms:
        word = word_of(letters)
        if word not in where:
            where[word] = len(rows)
            rows.append((word, 0.0))
        at = where[word]
        rows[at] = (word, rows[at][1] + weight)
    return rows


def start(s, rows):
    tally = Tally()
    tally.peak = len(rows)
    return Sum(rows), tally


def marks(s):
    if s.run == "path":
        return [name != "barrier" for name, _, _ in s.ops]
    if s.run not in ("cone", "wide"):
        return [True] * len(s.ops)
    # From every `term` line, whatever its weight: `cone` has one.
    cone, found = {q for _, letters in s.terms for _, q in letters}, [False] * len(s.ops)
    for at in reversed(range(len(s.ops))):
        if cone & set(s.ops[at][1]):
            found[at] = True
            cone |= set(s.ops[at][1])
    return found


def sum_run(s):
    """The mean, the tally and the rows of full, cone, path and wide."""
    marked = marks(s)
    rows = merged(s.terms)
    total, tally = start(s, rows)
    try:
        return one_run(s, total, marked, tally), tally, total.rows
    except Refused as refusal:
        if refusal.number != 9 or len(s.terms) < 2:
            raise
    mean, whole = 0.0, Tally()
    for weight, letters in s.terms:
        total, tally = start(s, [(word_of(letters), 1.0)])
        mean += weight * one_run(s, total, marked, tally)
        whole.discarded += abs(weight) * tally.discarded
        whole.peak = max(whole.peak, tally.peak)
        whole.touched += tally.touched
    if not (math.isfinite(mean) and math.isfinite(whole.discarded)):
        raise Refused(8)
    return mean, whole, []


def all_run(s):
    tally, means = Tally(), []
    for qubit in range(s.qubits):
        total = Sum([(frozenset([(qubit, "Z")]), 1.0)])
        means.append(one_run(s, total, [True] * len(s.ops), tally))
    return means, tally


# ---- what is printed ----


def shown(mean):
    """Nearest to the exact product, an exact half to the even number; then held."""
    number = round(fractions.Fraction(mean) * 1000)
    return max(-999999999, min(999999999, number))


def lines(status, line, mean=0.0, t_count=0, tally=None):
    tally = tally or Tally()
    return [
        "status=%d" % status,
        "line=%d" % line,
        "mean=" + digits(mean),
        "shown=%d" % shown(mean),
        "t_count=%d" % t_count,
        "peak_terms=%d" % tally.peak,
        "touched=%d" % tally.touched,
        "discarded=" + digits(tally.discarded),
    ]


def row_line(qubits, word, c):
    """The word as X^x Z^z: Y is i X Z, so each Y is a quarter turn of the coefficient."""
    words = (qubits + 63) // 64
    x = sum(1 << q for q, letter in word if letter in "XY")
    z = sum(1 << q for q, letter in word if letter in "ZY")
    turns = sum(letter == "Y" for _, letter in word) % 4
    re_part, im_part = [(c, 0.0), (0.0, c), (-c, 0.0), (0.0, -c)][turns]
    texts = [",".join("%016x" % (bits >> 64 * i & 2**64 - 1) for i in range(words)) for bits in (x, z)]
    return "row=%s:%s:%s,%s" % (texts[0], texts[1], digits(re_part), digits(im_part))


def answer(text):
    if len(text) > LONGEST:
        return lines(1, 0)
    try:
        s = Sheet(text)
        for question in (question_2, question_3, question_4, question_11, questions_5_and_6, question_7):
            question(s)
        t_count = 0 if counts_as_path(s) else sum(name in ROTATIONS for name, _, _ in s.ops)
        if s.run == "all":
            means, tally = all_run(s)
            return lines(0, 0, 0.0, t_count, tally) + ["z=" + digits(mean) for mean in means]
        mean, tally, rows = sum_run(s)
    except Refused as refusal:
        return lines(refusal.number, refusal.line)
    while rows and not rows[-1][0] and rows[-1][1] == 0.0:
        rows = rows[:-1]
    return lines(0, 0, mean, t_count, tally) + [row_line(s.qubits, word, c) for word, c in rows]


def main():
    data, at, index = sys.stdin.buffer.read(), 0, 0
    out = []
    while at < len(data):
        end = data.index(b"\n", at)
        size = int(data[at:end].split()[1])
        out.append("#sheet %d" % index)
        out += answer(data[end + 1 : end + 1 + size])
        at, index = end + 1 + size, index + 1
    sys.stdout.write("\n".join(out) + "\n")


main()
