#!/usr/bin/env python3
"""Time ours against prism-q's Rust on the same sheets.

  build.py SRC OUT --speed LIB      makes OUT/speed
  speed.py OUT                      prints a table
  speed.py OUT --kinds small,all-12
  speed.py OUT --rust-only          without ours
  speed.py OUT --bare               the Rust without question 8
  speed.py OUT --once KIND ours|rust N
  speed.py OUT --counts             instructions for each sheet, by callgrind
  speed.py OUT --wide               instructions of ours, `path` beside `wide`

The sheets are made from fixed seeds and kept in OUT/sheets, a file for each
kind (speed.rs says what such a file is). Times are microseconds of processor
time for one sheet, the best of several alternating passes over all sheets of
a kind.
"""

import argparse
import math
import os
import random
import re
import struct
import subprocess
import sys

HERE = os.path.dirname(os.path.abspath(__file__))
ONE = "3ff0000000000000"


def bits(value):
    return struct.pack(">d", value).hex()


class Circuit:
    """A list of ops on some qubits, from a seed."""

    def __init__(self, seed, active):
        self.random = random.Random(seed)
        self.active, self.ops = active, []

    def add(self, name, targets, reals=()):
        text = "op=%s:%s" % (name, ",".join(map(str, targets)))
        self.ops.append(text + (":" + ",".join(map(bits, reals)) if reals else ""))

    def angle(self):
        theta = self.random.uniform(0.1, math.pi / 2 - 0.1)
        return math.sin(theta), math.cos(theta)

    def one(self):
        return [self.random.choice(self.active)]

    def two(self):
        return self.random.sample(self.active, 2)

    def clifford(self):
        if self.random.random() < 0.4:
            self.add(self.random.choice(["cx", "cx", "cz", "swap"]), self.two())
        else:
            self.add(self.random.choice(["h", "h", "s", "sdg", "sx", "sxdg", "x"]), self.one())

    def rotation(self):
        name = self.random.choice(["t", "tdg", "rz", "rzz"])
        reals = self.angle() if name in ("rz", "rzz") else ()
        self.add(name, self.two() if name == "rzz" else self.one(), reals)

    def noise(self):
        """Weak, so that no coefficient becomes subnormal."""
        name = self.random.choice(["pauli", "depol", "damp", "phase", "thermal", "depol2"])
        rates = 3 if name in ("pauli", "thermal") else 1
        targets = self.two() if name == "depol2" else self.one()
        self.add(name, targets, [self.random.uniform(1e-4, 1e-3) for _ in range(rates)])

    def mixed(self, count, rotations, noise=0.0):
        """Rotations and channels at these shares, the rest other gates."""
        for _ in range(count):
            draw = self.random.random()
            if draw < rotations:
                self.rotation()
            elif draw < rotations + noise:
                self.noise()
            else:
                self.clifford()
        return self

    def layers(self, count):
        """Rotations on every qubit and between neighbours."""
        for layer in range(count):
            for qubit in self.active:
                self.add(self.random.choice(["h", "sx"]), [qubit])
                self.add("rz", [qubit], self.angle())
            for first, second in list(zip(self.active, self.active[1:]))[layer % 2 :: 2]:
                self.add(self.random.choice(["cx", "cz"]), [first, second])
                self.add("rzz", [first, second], self.angle())
        return self

    def noisy_layers(self, count):
        """A gate and a channel on every qubit and between neighbours."""
        for layer in range(count):
            for qubit in self.active:
                self.add(self.random.choice(["h", "sx", "t"]), [qubit])
                self.add(self.random.choice(["depol", "damp", "phase"]), [qubit], [self.random.uniform(1e-4, 1e-3)])
            for first, second in list(zip(self.active, self.active[1:]))[layer % 2 :: 2]:
                self.add(self.random.choice(["cx", "cz"]), [first, second])
                self.add("depol2", [first, second], [self.random.uniform(1e-4, 1e-3)])
        return self

    def sheet(self, qubits, run, limit, terms=(), max_terms=0, epsilon=0.0):
        lines = ["qubits=%d" % qubits, "run=" + run, "epsilon=" + bits(epsilon)]
        lines += ["max_terms=%d" % max_terms, "limit=%d" % limit, "terms=%d" % len(terms)]
        lines += ["term=%s:%s" % (ONE, term) for term in terms]
        lines += ["ops=%d" % len(self.ops)] + self.ops
        return ("\n".join(lines) + "\n").encode()


# ---- the kinds: rows lent, most qubits, sheets ----


def generated(options, count):
    command = [sys.executable, os.path.join(HERE, "generate.py"), "--count", str(count)] + options
    stream = subprocess.run(command, stdout=subprocess.PIPE, check=True).stdout
    sheets = []
    while stream:
        line, _, rest = stream.partition(b"\n")
        size = int(line.split()[1])
        sheets.append(rest[:size])
        stream = rest[size:]
    return sheets


def answered(out):
    """The first 2,000 sheets of seed 1 that are answered 0."""
    sheets = generated(["--seed", "1"], 3000)
    file = os.path.join(out, "sheets", "all-statuses")
    write(file, 512, 256, sheets)
    command = [os.path.join(out, "speed"), "--texts", file]
    texts = subprocess.run(command, stdout=subprocess.PIPE, check=True).stdout
    statuses = re.findall(rb"^status=(\d+)$", texts, re.M)
    os.remove(file)
    return [sheet for sheet, status in zip(sheets, statuses) if status == b"0"][:2000]


def empty(limit):
    return [Circuit(1, [0]).sheet(40, "full", limit, ["Z0"])]


def full(seed, active, qubits):
    circuit = Circuit(seed, active).mixed(4096, 0.4)
    return [circuit.sheet(qubits, "full", 256, ["Z%d" % active[0]])]


def grown(seed, qubits, count):
    """Ops are taken from the last on. Terms grow over `count` ops at most; the
    rotation that made the most of them is taken 8 more times, in which all
    terms that it meets have partners; then come 32 other gates."""
    circuit = Circuit(seed, list(range(qubits))).mixed(count, 0.3)
    grown = circuit.ops
    while not re.match("op=(t|rz)", grown[-1]):
        grown.pop()
    circuit.ops = grown + grown[-1:] * 8
    circuit.mixed(32, 0.0).ops.reverse()
    return [circuit.sheet(qubits, "full", MOST, ["Z0"])]


def noisy(seed, active, qubits):
    circuit = Circuit(seed, active).mixed(1024, 0.3, 0.3)
    return [circuit.sheet(qubits, "path", 256, ["Z%d" % active[0], "X%d,Y%d" % tuple(active[1:3])])]


def spread(seed, qubits, run, terms):
    """Terms on few of the qubits of a noisy circuit."""
    return [Circuit(seed, list(range(qubits))).noisy_layers(2).sheet(qubits, run, 256, terms)]


def every(seed, qubits, layers, limit):
    return [Circuit(seed, list(range(qubits))).layers(layers).sheet(qubits, "all", limit)]


MOST = 1048576
KINDS = {
    "small": (512, 256, answered),
    "given": (512, 256, lambda out: generated(["--seed", "1"], 2000)),
    "refused": (512, 256, lambda out: generated(["--seed", "1", "--refused"], 2000)),
    "empty": (512, 40, lambda out: empty(256) * 100),
    "empty-most": (2 * MOST, 40, lambda out: empty(MOST)),
    "rows-4": (512, 4, lambda out: full(1, [0, 1, 2, 3], 4)),
    "rows-256": (512, 256, lambda out: full(1, [0, 85, 170, 255], 256)),
    "path-4": (512, 4, lambda out: noisy(1, [0, 1, 2, 3], 4)),
    "path-256": (512, 256, lambda out: noisy(1, [0, 85, 170, 255], 256)),
    "all-12": (512, 12, lambda out: every(1, 12, 3, 256)),
    "all-200": (1024, 200, lambda out: every(1, 200, 3, 512)),
    "all-most": (2 * MOST, 12, lambda out: every(1, 12, 3, MOST)),
    "peak-1e4": (2 * MOST, 40, lambda out: grown(1, 40, 620)),
    "peak-1e5": (2 * MOST, 40, lambda out: grown(1, 40, 684)),
    "peak-7e5": (2 * MOST, 40, lambda out: grown(1, 40, 706)),
}
SMALL = ["small", "given", "refused"]
COMPARED = list(KINDS)
# The same sheet as `path` and as `wide`, which prism-q does not have.
TERMS = {
    "1": ["Z100"],
    "3": ["Z0", "X100,Z101", "Y200"],
    "64": ["%s100,%s101,%s102" % (a, b, c) for a in "XYZ" for b in "XYZ" for c in "XYZ"] + ["Z%d,Z%d" % (i, i + 1) for i in range(99, 136)],
}
for count in TERMS:
    for run in ("path", "wide"):
        KINDS["%s-terms-%s" % (run, count)] = (512, 256, lambda out, run=run, count=count: spread(1, 256, run, TERMS[count]))


def write(file, rows, qubits, sheets):
    os.makedirs(os.path.dirname(file), exist_ok=True)
    with open(file, "wb") as stream:
        stream.write(b"#lent %d %d\n" % (rows, qubits))
        for sheet in sheets:
            stream.write(b"#sheet %d\n" % len(sheet) + sheet)


def made(out, kind):
    rows, qubits, sheets = KINDS[kind]
    file = os.path.join(out, "sheets", kind)
    sheets = sheets(out)
    write(file, rows, qubits, sheets)
    return file, len(sheets)


# Callgrind counts an instruction that moves a block as one for each byte. This
# makes glibc move blocks by loops.
LOOPS = ":".join("glibc.cpu.x86_rep_%s_threshold=1000000000" % name for name in ("movsb", "stosb"))


def instructions(program, side, passes, file):
    command = ["valgrind", "--tool=callgrind", "--callgrind-out-file=/dev/null"]
    command += [program, "--once", side, str(passes), file]
    where = dict(os.environ, GLIBC_TUNABLES=LOOPS)
    text = subprocess.run(command, stderr=subprocess.PIPE, env=where, check=True).stderr
    return int(re.search(rb"Collected : (\d+)", text).group(1))


def counts(out, program, kinds):
    print("kind         sheets   ours instructions   Rust instructions   ratio")
    for kind in kinds:
        file, count = made(out, kind)
        # The second pass alone: what the program does once is left out.
        ours, rust = (
            (instructions(program, side, 2, file) - instructions(program, side, 1, file)) / count
            for side in ("ours", "rust")
        )
        print("%-12s %6d %19.0f %19.0f %7.2f" % (kind, count, ours, rust, ours / rust), flush=True)


def beside(out, program):
    print("terms   path instructions   wide instructions   ratio")
    for count in TERMS:
        path, wide = (
            instructions(program, "ours", 2, file) - instructions(program, "ours", 1, file)
            for file, _ in (made(out, "%s-terms-%s" % (run, count)) for run in ("path", "wide"))
        )
        print("%5s %19d %19d %7.2f" % (count, path, wide, path / wide), flush=True)


def main():
    parser = argparse.ArgumentParser(description=__doc__, formatter_class=argparse.RawTextHelpFormatter)
    parser.add_argument("out")
    parser.add_argument("--kinds", help="of " + ",".join(KINDS))
    parser.add_argument("--rust-only", action="store_true")
    parser.add_argument("--bare", action="store_true")
    parser.add_argument("--once", nargs=3, metavar=("KIND", "SIDE", "N"))
    parser.add_argument("--counts", action="store_true")
    parser.add_argument("--wide", action="store_true")
    given = parser.parse_args()
    program = os.path.join(given.out, "speed")
    kinds = given.kinds.split(",") if given.kinds else SMALL if given.counts else COMPARED
    if given.wide:
        return beside(given.out, program)
    if given.counts:
        return counts(given.out, program, kinds)
    if given.once:
        kind, side, passes = given.once
        command = [program, "--once", side, passes, made(given.out, kind)[0]]
    else:
        command = [program] + ["--rust-only"] * given.rust_only + ["--bare"] * given.bare
        command += [made(given.out, kind)[0] for kind in kinds]
    sys.exit(subprocess.run(command).returncode)


main()
