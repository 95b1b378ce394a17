#!/usr/bin/env python3
"""Choose the sheets of the program `replay` and write what the oracle says of them: replay.py ORACLE FOLDER

Writes FOLDER/stdin, a stream of sheets, and FOLDER/stdout, the answers to them with their rows: first the fixed sheets of cases.py, then sheets of
every kind that pass the questions, whose answers are prism-q's, then refused sheets, whose answers are document 01's as the oracle's own checker
reads it. prism-q does not count the terms that an op met: the lines `touched=` are those of reading.py, which must agree in all other lines. These are at most 2,000,000 bytes. After them come the sheets of the requests of document 02 (`CHANGED` of cases.py), so that a new request
alters none of the sheets before its own, and last the samples of sheets/; the program takes 2,097,152 bytes in all.
"""

import io
import os
import subprocess
import sys

import cases
import compare

HERE = os.path.dirname(os.path.abspath(__file__))
MOST, ALL = 2_000_000, 2_097_152
TOUCHED = "touched="


def generated(*words):
    run = subprocess.run([sys.executable, os.path.join(HERE, "generate.py"), *words], stdout=subprocess.PIPE, check=True)
    return list(compare.sheets(io.BytesIO(run.stdout)))


def chosen():
    """The fixed sheets, some of thousands of ops, sheets of every kind, and refused sheets that are short."""
    yield from (text for _, text, _ in cases.CASES)
    yield from (text for _, text, _, _ in cases.DIFFERENCES)
    yield from generated("--seed", "3", "--count", "5", "--kinds", "long=1")
    yield from generated("--seed", "1", "--count", "2800")
    yield from (s for s in generated("--seed", "2", "--count", "2000", "--refused") if len(s) <= 1200)


def samples():
    """The sheets of the folder sheets/, by name."""
    folder = os.path.join(os.path.dirname(HERE), "sheets")
    names = sorted(name for name in os.listdir(folder) if name.endswith(".sheet"))
    return [open(os.path.join(folder, name), "rb").read() for name in names]


def answers(command, data):
    out = subprocess.run(command, input=data, stdout=subprocess.PIPE, check=True).stdout.decode("ascii")
    return [line for line in out.splitlines() if line.startswith("#sheet ") or not line.startswith("#")]


def main():
    oracle, folder = sys.argv[1:]
    data, count = b"", 0
    for sheet in chosen():
        piece = b"#sheet %d\n" % len(sheet) + sheet
        if len(data) + len(piece) <= MOST:
            data += piece
            count += 1
    for sheet in [sheet for _, sheet, _ in cases.CHANGED] + samples():
        data += b"#sheet %d\n" % len(sheet) + sheet
        count += 1
    if len(data) > ALL:
        sys.exit("replay.py: %d bytes, more than the program takes" % len(data))
    lines = answers([oracle], data)
    read = answers([sys.executable, os.path.join(HERE, "reading.py")], data)
    if [compare.plain(line) for line in lines] != [compare.plain(line) for line in read if not line.startswith(TOUCHED)]:
        sys.exit("replay.py: reading.py and the oracle differ")
    for at, line in enumerate(read):
        if line.startswith(TOUCHED):
            lines.insert(at, line)
    with open(os.path.join(folder, "stdin"), "wb") as file:
        file.write(data)
    with open(os.path.join(folder, "stdout"), "w", encoding="ascii") as file:
        file.write("\n".join(lines) + "\n")
    status = [line for line in lines if line.startswith("status=")]
    print(count, "sheets,", len(data), "bytes;", ", ".join("%s: %d" % (s, status.count(s)) for s in sorted(set(status))))


main()
