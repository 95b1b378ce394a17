#!/usr/bin/env python3
"""Check fixed sheets: cases.py PROGRAM [--raw ORACLE]

PROGRAM is a command that speaks the stream format. The sheets are document
01's cases A to J, the examples of the readings, the sheets at which prism-q
differs from document 01, and the examples of document 02's change requests.
An answer without a `touched=` line, as prism-q's, is compared without it.
With --raw, those where prism-q differs are also put to prism-q alone
(`ORACLE --raw`), to check what it says there.
"""

import argparse
import shlex
import subprocess
import sys

ONE, ZERO, MINUS = "3ff0000000000000", "0000000000000000", "bff0000000000000"
LARGEST, NAN, INFINITE = "7fefffffffffffff", "7ff8000000000000", "7ff0000000000000"
T_SINE, T_COSINE = "3fe6a09e667f3bcc", "3fe6a09e667f3bcd"
HT = ["h:0", "t:0"]


def sheet(terms=("X0",), ops=(), qubits=1, run="full", epsilon=ZERO, max_terms=0, limit=8):
    """A sheet from case A. A term without a weight has weight 1."""
    lines = ["qubits=%s" % qubits, "run=%s" % run, "epsilon=%s" % epsilon]
    lines += ["max_terms=%s" % max_terms, "limit=%s" % limit, "terms=%d" % len(terms)]
    lines += ["term=" + (term if ":" in term else ONE + ":" + term) for term in terms]
    lines += ["ops=%d" % len(ops)] + ["op=" + op for op in ops]
    return "".join(line + "\n" for line in lines).encode()


def ok(mean=ZERO, shown=0, t_count=0, peak_terms=1, touched=None, discarded=ZERO, z=()):
    """Without `touched` nothing is said of that line."""
    lines = ["status=0", "line=0", "mean=" + mean, "shown=%d" % shown, "t_count=%d" % t_count]
    lines += ["peak_terms=%d" % peak_terms] + (["touched=%d" % touched] if touched is not None else [])
    return lines + ["discarded=" + discarded] + ["z=" + mean for mean in z]


def no(status, line=0):
    lines = ["status=%d" % status, "line=%d" % line, "mean=" + ZERO, "shown=0", "t_count=0"]
    return lines + ["peak_terms=0", "touched=0", "discarded=" + ZERO]


CASE_A = ok(T_COSINE, 707, 1, 2, 3)

CASES = [
    ("A", sheet(ops=HT), CASE_A),
    ("B, limit 1", sheet(ops=HT, limit=1), no(9)),
    ("B, limit 2", sheet(ops=HT, limit=2), CASE_A),
    (
        "C",
        sheet(ops=HT, max_terms=1, epsilon="3fe999999999999a"),
        ok(t_count=1, touched=1, discarded="3ff6a09e667f3bcc"),
    ),
    ("D", sheet(ops=["h:0", "rz:0:%s,%s" % (ONE, ZERO)]), ok(t_count=1, touched=2)),
    ("E, X0,Y0", sheet(["X0,Y0"], HT), no(6, 7)),
    ("E, X1", sheet(["X1"], HT), no(5, 7)),
    ("F", sheet([""], HT), ok(ONE, 1000, 1, touched=0)),
    ("G", sheet(["Z0", MINUS + ":Z0"]), ok(touched=0)),
    ("H", sheet(["Z0"], ["damp:0:" + ONE], run="path"), ok(ONE, 1000, 0, 2, 1)),
    ("I", sheet(["X0", "X1"], ["t:0"], 2, limit=2), ok(t_count=1, peak_terms=2, touched=1)),
    ("J", sheet(["Z0"], ["h:1"], 2, "cone"), ok(ONE, 1000, touched=0)),
]

# Layout, from the readings: what stands for one line of a good sheet, or for
# the whole, and the line that is answered.
GOOD = sheet(["X0", "Z0"], ["h:0", "rz:0:%s,%s" % (ZERO, ONE), "barrier:"])
LINES = [
    ("run", 2, b"run=budget\nrun=\nrun=Full\nrun=full \n"),
    ("op", 10, b"op=foo:0\nop=cx:0\nop=h:0,1\nop=h:0:\nop=h:\nop=h\nop=rz:0\nop=barrier\nop=barrier:0\n"),
    ("op", 10, b"op=t:0:%s,%s\n" % ((ONE.encode(),) * 2) + b"op=h:00\nop=h:01\nop=h:+0\nop=h: 0\nop=H:0\n"),
    ("op", 11, b"op=rz:0:%s,%s:\n" % ((ONE.encode(),) * 2) + b"op=h:0\r\nop=h:\xb2\nop=\nop\n"),
    ("op", 12, b"op=h:18446744073709551616\nOP=h:0\nop=barrier::\n"),
    ("term", 7, b"term=3ff0000000000000\nterm=3ff0000000000000:X0,\nterm=3ff0000000000000:x0\n"),
    ("term", 8, b"term=3FF0000000000000:X0\nterm=3ff000000000000:X0\nterm=:X0\nterm=3ff0000000000000:X\n"),
    ("count", 5, b"limit=18446744073709551616\nlimit=\nlimit=00\nlimit=01\nlimit=+1\nlimit= 1\nlimit=1 \n"),
    ("count", 4, b"max_terms=1\r\nmax_terms=-0\nmax_terms\nmax_terms:0\n\n"),
]
for kind, line, texts in LINES:
    for text in texts.split(b"\n")[:-1]:
        parts = GOOD.split(b"\n")
        parts[line - 1] = text
        CASES.append(("layout, %r at %d" % (text, line), b"\n".join(parts), no(1, line)))
CASES += [
    ("layout, good", GOOD, ok(ONE, 1000, 1, 2)),
    ("layout, empty", b"", no(1, 1)),
    ("layout, one line without its end", b"qubits=1", no(1, 1)),
    ("layout, no last end", GOOD[:-1], no(1, 12)),
    ("layout, one byte after", GOOD + b"\n", no(1, 13)),
    ("layout, one op after", GOOD + b"op=h:0\n", no(1, 13)),
    ("layout, a term too few", sheet(["X0"]).replace(b"terms=1", b"terms=2"), no(1, 8)),
    ("layout, a huge count", sheet().replace(b"terms=1", b"terms=18446744073709551615"), no(1, 8)),
    ("layout, 65,536 bytes", GOOD + b"x" * (65536 - len(GOOD)), no(1, 13)),
    ("layout, 65,537 bytes", GOOD + b"x" * (65537 - len(GOOD)), no(1, 0)),
    ("2, qubits 0", sheet(qubits=0), no(2, 1)),
    ("2, qubits 257", sheet(qubits=257), no(2, 1)),
    ("2, qubits 2^64 - 1", sheet(qubits=18446744073709551615), no(2, 1)),
    ("2, limit 0", sheet(limit=0), no(2, 5)),
    ("2, limit 1,048,577", sheet(limit=1048577), no(2, 5)),
    ("2, 1,025 terms", sheet(["X0"] * 1025, limit=1048576), no(2, 6)),
    ("2, more terms than limit", sheet(["X0", "Z0"], limit=1), no(2, 6)),
    ("2, 4,097 ops", sheet(ops=["h:0"] * 4097), no(2, 8)),
    ("3, cone without terms", sheet([], run="cone"), no(3, 6)),
    ("3, cone with two", sheet(["X0", "X0"], run="cone"), no(3, 6)),
    ("3, cone of weight NaN", sheet([NAN + ":X0"], run="cone"), no(3, 7)),
    ("3, all with a term", sheet(run="all"), no(3, 6)),
    ("3, a channel in full", sheet(ops=["h:0", "damp:0:" + NAN]), no(3, 10)),
    ("4, epsilon", sheet(epsilon="8000000000000001"), no(4, 3)),
    ("4, epsilon infinite", sheet(epsilon=INFINITE), no(4, 3)),
    ("4, weight", sheet(["X0", INFINITE + ":X0"]), no(4, 8)),
    ("4, sine", sheet(ops=["rz:0:3ff0000000000001," + ZERO]), no(4, 9)),
    ("4, rate", sheet(ops=["damp:0:8000000000000001"], run="path"), no(4, 9)),
    ("4, -0 lies from 0 to 1", sheet(["Z0"], ["damp:0:8000000000000000"], run="path"), ok(ONE, 1000)),
    ("5, X0,X0,X1 is 5", sheet(["X0,X0,X1"]), no(5, 7)),
    ("6, X0,X0 repeats", sheet(["X0,X0"]), no(6, 7)),
    ("6, cx:0,0", sheet(ops=["h:0", "cx:0,0"]), no(6, 10)),
    ("7, limit 257", sheet(limit=257), no(7)),
    ("7, limit 256", sheet(limit=256), ok()),
    ("no terms", sheet([]), ok(peak_terms=0)),
    ("all without ops", sheet([], run="all", qubits=2), ok(peak_terms=0, z=[ONE, ONE])),
    ("sine and cosine 0", sheet(["X0"], ["rz:0:%s,%s" % (ZERO, ZERO)]), no(11, 9)),
]

# Where prism-q differs (but for 2 and 3, where it does not look at a later line
# either): document 01's answer, then what prism-q alone says.
ANSWERS, PANICS = "#prism-q answers", "#prism-q panics"
QUBIT, PARAMETER = "#prism-q: InvalidQubit", "#prism-q: InvalidParameter"
CEILING = "#prism-q: BackendUnsupported"
BIG = LARGEST + ":"
DIFFERENCES = [
    ("1, 5 before 6 in one term", sheet(["X0,X0,X1"]), no(5, 7), PARAMETER),
    ("2, a term's 6 before a later term's 5", sheet(["X0,X0", "X1"]), no(6, 7), PARAMETER),
    ("3, a term's 6 before an op's 5", sheet(["X0,X0"], ["h:1"]), no(6, 7), PARAMETER),
    ("4, an op's qubit outside", sheet(ops=["h:1"]), no(5, 9), ANSWERS),
    ("5, an op's qubit past the words", sheet(ops=["h:64"]), no(5, 9), PANICS),
    ("6, cx on one qubit twice", sheet(ops=["cx:0,0"]), no(6, 9), ANSWERS),
    ("6, cz", sheet(ops=["cz:0,0"]), no(6, 9), ANSWERS),
    ("6, swap", sheet(ops=["swap:0,0"]), no(6, 9), ANSWERS),
    ("6, rzz", sheet(ops=["rzz:0,0:%s,%s" % (ONE, ZERO)]), no(6, 9), ANSWERS),
    ("6, depol2", sheet(ops=["depol2:0,0:" + ZERO], run="path"), no(6, 9), ANSWERS),
    ("7, an infinite mean", sheet([BIG + "Z0", BIG + "Z0"]), no(8), ANSWERS + ", mean infinite"),
    ("8, an infinite row, mean 0", sheet([BIG + "X0", BIG + "X0"]), no(8), ANSWERS + ", finite"),
    (
        "9, an infinite discarded weight",
        sheet(["7fe8000000000000:X0", "7fe8000000000000:Y0"], epsilon=LARGEST),
        no(8),
        ANSWERS + ", discarded infinite",
    ),
    (
        "10, an infinite row, then a fold",
        sheet([BIG + "X0", BIG + "X0", "X1"], ["t:0", "t:1"], 2, limit=3),
        no(8),
        ANSWERS + ", finite",
    ),
    (
        "11, an infinite row, then 9",
        sheet([BIG + "X0", BIG + "X0"], ["t:0", "h:0", "t:0"], limit=2),
        no(8),
        CEILING,
    ),
    ("12, qubits 0", sheet([], qubits=0), no(2, 1), ANSWERS),
    ("12, qubits 257", sheet(qubits=257), no(2, 1), ANSWERS),
    ("13, limit 0 without ops", sheet(limit=0), no(2, 5), ANSWERS),
    ("13, more terms than limit", sheet(["X0", "Z0"], limit=1), no(2, 6), ANSWERS),
    ("14, epsilon NaN", sheet(epsilon=NAN), no(4, 3), ANSWERS + ", finite"),
    ("14, epsilon below 0", sheet(epsilon=MINUS), no(4, 3), ANSWERS + ", finite"),
    ("14, epsilon infinite", sheet(epsilon=INFINITE), no(4, 3), ANSWERS + ", finite"),
    ("14, weight infinite", sheet([INFINITE + ":Z0"]), no(4, 7), ANSWERS + ", mean infinite"),
    ("14, sine 2", sheet(ops=["rz:0:4000000000000000," + ZERO]), no(4, 9), ANSWERS),
    ("14, rate 2", sheet(ops=["damp:0:4000000000000000"], run="path"), no(4, 9), ANSWERS),
    ("15, limit 257", sheet(limit=257), no(7), ANSWERS),
]
# The same of sheets that a request of document 02 refuses: what prism-q alone says.
BESIDE = [
    ("16, no angle", sheet(ops=["rz:0:%s,%s" % (ONE, ONE)]), ANSWERS),
    ("16, rates above 1", sheet(ops=["pauli:0:%s,%s,%s" % (ONE, ONE, ZERO)], run="path"), ANSWERS),
]


def thirty(eighth, last):
    """A sheet of 30 lines on two qubits, with what stands on its lines 8 and 30."""
    return sheet(["Z0", eighth], ["h:1"] * 20 + [last], 2)


# The requests of document 02: a name that begins with the request's number, a
# sheet and the answer that it asks for.
CHANGED = [
    ("2026-01, a repeat on line 8, outside on line 30", thirty("X0,Y0", "h:2"), no(6, 8)),
    ("2026-01, outside on line 8, a repeat on line 30", thirty("X2", "cx:1,1"), no(5, 8)),
    ("2026-01, a repeat before an outside qubit on line 8", thirty("X0,Y0,Z2", "h:1"), no(5, 8)),
    ("2026-01, outside before a repeat on line 8", thirty("Z2,X0,Y0", "h:1"), no(5, 8)),
    ("2026-01, one target outside, twice", thirty("X0", "cx:2,2"), no(5, 30)),
    ("2026-01, the same qubit outside twice on line 8", thirty("X2,Z2", "h:1"), no(5, 8)),
    ("2026-01, qubit 256 twice on line 8", thirty("X256,Z256", "h:1"), no(5, 8)),
    ("2026-01, a repeat on each line", thirty("X1,X1", "cz:0,0"), no(6, 8)),
    ("2026-01, a repeat on line 30", thirty("X1", "cz:0,0"), no(6, 30)),
    ("2026-01, an op's repeat before an op outside", sheet(["Z0"], ["swap:1,1", "h:2"], 2), no(6, 9)),
    ("2026-01, an op outside before an op's repeat", sheet(["Z0"], ["h:2", "swap:1,1"], 2), no(5, 9)),
    ("2026-01, 4 of a later line before both", sheet(["X0,X0", NAN + ":X2"], [], 2), no(4, 8)),
    ("2026-01, 6 before 7", sheet(["X0,X0", "X2"], [], 2, limit=257), no(6, 7)),
]

# 2026-03: one identity term and no ops, so that the weight is the mean. Exact
# halves; numbers whose product with 1000 is a half only once it is rounded;
# numbers on either side of the clamp.
for weight, number in [
    ("3fb0000000000000", 62),  # 0.0625
    ("3fc8000000000000", 188),  # 0.1875
    ("3fd4000000000000", 312),  # 0.3125
    ("3fdc000000000000", 438),  # 0.4375
    ("3f40624dd2f1a9fc", 1),  # above 0.0005
    ("3f647ae147ae147b", 3),  # above 0.0025
    ("3f76872b020c49ba", 5),  # below 0.0055
    ("412e847fff3b645a", 999999998),  # below 999,999.9985
    ("412e847fff3b645b", 999999999),  # above it
    ("412e847fffbe76c8", 999999999),  # below 999,999.9995
    ("412e847fffbe76c9", 999999999),  # above it
    ("412e848000000000", 999999999),  # 1,000,000
    ("0000000000000001", 0),
    (LARGEST, 999999999),
]:
    minus = "%016x" % (int(weight, 16) | 1 << 63)
    CHANGED.append(("2026-03, mean " + weight, sheet([weight + ":"]), ok(weight, number)))
    CHANGED.append(("2026-03, mean " + minus, sheet([minus + ":"]), ok(minus, -number)))

# 2026-06: a pair or a triple of Pauli rates, in one op, with the answer it has.
SIX, EIGHT = "3fe3333333333333", "3fe999999999999a"
for name, op, lines in [
    ("sine 1, cosine 1", "rz:0:%s,%s" % (ONE, ONE), no(11, 9)),
    ("sine 0, cosine 0", "p:0:%s,%s" % (ZERO, ZERO), no(11, 9)),
    ("a quarter turn", "rz:0:%s,%s" % (ONE, ZERO), ok(t_count=1)),
    ("half a turn", "p:0:%s,%s" % (ZERO, MINUS), ok(t_count=1)),
    ("0.6 and 0.8", "rz:0:%s,%s" % (SIX, EIGHT), ok(t_count=1, peak_terms=2)),
    ("the pair of t", "rz:0:%s,%s" % (T_SINE, T_COSINE), ok(t_count=1, peak_terms=2)),
    ("2^-25 and 1, at the bound", "rz:0:3e60000000000000," + ONE, ok(t_count=1, peak_terms=2)),
    ("the last sine cut to 2^-25", "rz:0:3e6000000001ffff," + ONE, ok(t_count=1, peak_terms=2)),
    ("the sine after it", "rz:0:3e60000000020000," + ONE, no(11, 9)),
    ("the last cosine below 1", "rz:0:%s,3feffffffffffffc" % ZERO, ok(t_count=1)),
    ("the cosine below it", "rz:0:%s,3feffffffffffffb" % ZERO, no(11, 9)),
    ("0.6, the first cosine", "p:0:%s,3fe9999999999995" % SIX, ok(t_count=1, peak_terms=2)),
    ("0.6, the cosine below it", "p:0:%s,3fe9999999999994" % SIX, no(11, 9)),
    ("0.6, the last cosine", "p:0:%s,3fe999999999999e" % SIX, ok(t_count=1, peak_terms=2)),
    ("0.6, the cosine above it", "p:0:%s,3fe999999999999f" % SIX, no(11, 9)),
    ("a sine of 2, which is 4", "rz:0:4000000000000000," + ZERO, no(4, 9)),
    ("a sine NaN, which is 4", "rz:0:%s,%s" % (NAN, ZERO), no(4, 9)),
]:
    CHANGED.append(("2026-06, " + name, sheet(ops=[op]), lines))
HALF, QUARTER = "3fe0000000000000", "3fd0000000000000"
for name, op, lines in [
    ("rates that sum to 1", "pauli:0:%s,%s,%s" % (HALF, QUARTER, QUARTER), ok()),
    ("one rate more", "pauli:0:%s,%s,3fd0000000000001" % (HALF, QUARTER), no(11, 9)),
    ("1 and rates below 2^-60", "pauli:0:%s,3c2fffffffffffff,0000000000000001" % ONE, ok()),
    ("1 and 2^-60", "pauli:0:%s,3c30000000000000,%s" % (ONE, ZERO), no(11, 9)),
    ("thermal is not asked", "thermal:0:%s,%s,%s" % (ONE, ONE, ONE), ok(peak_terms=1)),
]:
    CHANGED.append(("2026-06, " + name, sheet(ops=[op], run="path"), lines))
CHANGED += [
    ("2026-06, rzz", sheet(["X0"], ["rzz:0,1:%s,%s" % (ONE, ONE)], 2), no(11, 9)),
    ("2026-06, 4 before 11", sheet([NAN + ":X0"], ["rz:0:%s,%s" % (ONE, ONE)]), no(4, 7)),
    ("2026-06, 4 at a later op before 11", sheet(["X0"], ["rz:0:%s,%s" % (ONE, ONE), "rz:0:4000000000000000," + ZERO]), no(4, 10)),
    ("2026-06, 11 before 5 on an earlier line", sheet(["X1"], ["rz:0:%s,%s" % (ONE, ONE)]), no(11, 9)),
    ("2026-06, 11 before 6 on its line", sheet(["X0"], ["rzz:0,0:%s,%s" % (ONE, ONE)]), no(11, 9)),
    ("2026-06, 11 before 7", sheet(["X0"], ["rz:0:%s,%s" % (ONE, ONE)], limit=257), no(11, 9)),
    ("2026-06, in all", sheet([], ["p:0:%s,%s" % (ONE, ONE)], run="all"), no(11, 8)),
    ("2026-06, in cone, unmarked", sheet(["Z0"], ["p:1:%s,%s" % (ONE, ONE)], 2, "cone"), no(11, 9)),
    ("2026-06, the second of two", sheet(["X0"], ["rz:0:%s,%s" % (SIX, EIGHT), "p:0:%s,%s" % (ONE, ONE)]), no(11, 10)),
]

# 2026-02: how many terms each op met, summed.
DAMP_HALF = "damp:0:" + HALF
CHANGED += [
    ("2026-02, no ops", sheet(), ok(touched=0)),
    ("2026-02, id counts", sheet(ops=["id:0"]), ok(touched=1)),
    ("2026-02, a barrier does not", sheet(ops=["barrier:"]), ok(touched=0)),
    ("2026-02, identity at the target", sheet(["Z0"], ["h:1", "x:1", "t:1"], 2), ok(ONE, 1000, 1, touched=0)),
    ("2026-02, a letter on the second target alone", sheet(["Z1"], ["cz:0,1"], 2), ok(ONE, 1000, touched=1)),
    ("2026-02, letters on both targets count once", sheet(["Z0,Z1"], ["cz:0,1"], 2), ok(ONE, 1000, touched=1)),
    ("2026-02, rz on Z turns nothing and counts", sheet(["Z0"], ["t:0"]), ok(ONE, 1000, 1, touched=1)),
    ("2026-02, rzz on two X", sheet(["X0,X1"], ["rzz:0,1:%s,%s" % (SIX, EIGHT)], 2), ok(t_count=1, touched=1)),
    ("2026-02, before a rotation appends", sheet(ops=["t:0"]), ok(t_count=1, peak_terms=2, touched=1)),
    ("2026-02, before damp appends", sheet(["Z0"], [DAMP_HALF] * 2, run="path"), ok(ONE, 1000, 0, 2, 2)),
    ("2026-02, depol2 at one letter", sheet(["X1"], ["depol2:0,1:" + ZERO], 2, "path"), ok(touched=1)),
    ("2026-02, a term that cancels is met", sheet(["Z0", MINUS + ":Z0"], ["z:0"]), ok(touched=1)),
    ("2026-02, full and cone", sheet(["Z0"], ["h:1", "h:0"], 2), ok(touched=1)),
    ("2026-02, cone skips", sheet(["Z0"], ["h:1", "h:0"], 2, "cone"), ok(touched=1)),
    ("2026-02, all", sheet([], ["cx:0,1", "h:0"], 2, "all"), ok(peak_terms=1, touched=3, z=(ZERO, ONE))),
    ("2026-02, a fold sums its lines", sheet(["X0", "X1"], ["id:1", "t:0"], 2, limit=2), ok(t_count=1, peak_terms=2, touched=2)),
    ("2026-02, 9 gives 0", sheet(ops=HT, limit=1), no(9)),
]

# 2026-10: `wide`. Each sheet as `path` and as `wide`, with what both answer or, outside the proviso, what each answers.
DAMP = "damp:%d:" + HALF
SPREAD = ["Z0", "Z1", MINUS + ":Z0"]
CROWDED = {"terms": [HALF + ":X0", "Y0"], "ops": ["h:0", "t:0", "h:1"], "qubits": 2, "epsilon": SIX, "max_terms": 1}
for name, given, lines in [
    ("channels outside the cone", {"terms": ["Z0"], "ops": [DAMP % 0, DAMP % 1, "depol2:1,2:" + HALF], "qubits": 3}, ok(ONE, 1000, 0, 2, touched=1)),
    ("a line that cancels", {"terms": SPREAD, "ops": [DAMP % 0, "barrier:", DAMP % 2], "qubits": 3}, ok(ONE, 1000, 0, 3, touched=1)),
    ("targets that join", {"terms": ["Z1"], "ops": [DAMP % 0, "cx:0,1"], "qubits": 2}, ok(ONE, 1000, 0, 2, touched=2)),
    ("a fold", {"terms": ["X0", "X1"], "ops": ["t:0", DAMP % 2, "h:1"], "qubits": 3, "limit": 2}, ok(ONE, 1000, 0, 2, touched=2)),
    ("a start that is not finite", {"terms": [LARGEST + ":X0"] * 2, "ops": ["h:1"], "qubits": 2}, no(8)),
    ("no terms", {"terms": [], "ops": ["t:0", DAMP % 0]}, ok(peak_terms=0, touched=0)),
    ("a barrier in a crowd", {"terms": [HALF + ":Z0", "Z1"], "ops": ["barrier:"], "qubits": 2, "epsilon": SIX, "max_terms": 1}, ok(ONE, 1000, 0, 2, 0, HALF)),
    ("a pair that is no angle, outside the cone", {"terms": ["Z0"], "ops": ["rz:1:%s,%s" % (ONE, ONE)], "qubits": 2}, no(11, 9)),
    ("a qubit outside", {"terms": ["Z0"], "ops": ["h:2"], "qubits": 2}, no(5, 9)),
    ("too many terms", {"terms": ["X0"], "ops": ["t:0"], "limit": 1}, no(9)),
    ("too few rows", {"terms": ["X0"], "limit": 257}, no(7)),
]:
    for run in ("path", "wide"):
        CHANGED.append(("2026-10, %s, as %s" % (name, run), sheet(run=run, **given), lines))
CHANGED += [
    ("2026-10, outside the proviso, as path", sheet(run="path", **CROWDED), ok("3fe6a09e667f3bcc", 707, 0, 2, 3, HALF)),
    ("2026-10, outside the proviso, as wide", sheet(run="wide", **CROWDED), ok("3ff0f876ccdf6cd9", 1061, 0, 2, 3, "3fd6a09e667f3bce")),
    ("2026-10, max_terms as many as the terms", sheet(run="wide", **dict(CROWDED, max_terms=2)), ok("3ff0f876ccdf6cd9", 1061, 0, 2, 4, "3fd6a09e667f3bce")),
]


def answers(command, texts):
    data = b"".join(b"#sheet %d\n" % len(text) + text for text in texts)
    out = subprocess.run(command, input=data, stdout=subprocess.PIPE, check=True).stdout.decode()
    return [part.split("\n")[1:-1] for part in out.split("#sheet ")[1:]]


def infinite(lines, key):
    bits = [line for line in lines if line.startswith(key)][0].partition("=")[2]
    return int(bits, 16) >> 52 & 0x7FF == 0x7FF


def said(lines):
    """One line on what prism-q alone said, to compare with the list above."""
    if lines[0] != ANSWERS:
        return lines[0].split(" {")[0]
    for key in ("mean", "discarded"):
        if infinite(lines, key + "="):
            return ANSWERS + ", %s infinite" % key
    return ANSWERS + ", finite"


def main():
    parser = argparse.ArgumentParser(description=__doc__, formatter_class=argparse.RawTextHelpFormatter)
    parser.add_argument("program")
    parser.add_argument("--raw", help="the oracle, to ask prism-q alone")
    given = parser.parse_args()
    wanted = CASES + [(name, text, lines) for name, text, lines, _ in DIFFERENCES] + CHANGED
    got = answers(shlex.split(given.program), [text for _, text, _ in wanted])
    bad = 0
    for (name, text, lines), found in zip(wanted, got):
        found = [line for line in found if not line.startswith(("#", "row="))]
        if not all(any(line.startswith("touched=") for line in told) for told in (found, lines)):
            found, lines = ([line for line in told if not line.startswith("touched=")] for told in (found, lines))
        if found != lines:
            bad += 1
            print("%s: wanted %s, got %s" % (name, lines, found))
    print("%d sheets, %d wrong" % (len(wanted), bad))
    if given.raw:
        raw = [(name, text, says) for name, text, _, says in DIFFERENCES] + BESIDE
        got = answers(shlex.split(given.raw) + ["--raw"], [text for _, text, _ in raw])
        wrong = 0
        for (name, _, wanted_of_it), found in zip(raw, got):
            if not said(found).startswith(wanted_of_it):
                wrong += 1
                print("%s: wanted %s, got %s" % (name, wanted_of_it, found))
        print("%d differences, %d not as listed" % (len(raw), wrong))
        bad += wrong
    sys.exit(1 if bad else 0)


if __name__ == "__main__":
    main()
