#!/usr/bin/env python3
"""Hold a program's `wide` answers to its `path` answers: generate.py --wide .. | wide.py [--chunk N] PROGRAM

Sheets come in twos, as `run=path` and as `run=wide`. All printed lines must be the same where document 02's proviso holds (max_terms is 0 or at least
the number of merged starting terms) and where the sheet is refused before the run. Outside it they may differ, and how many do is said. Rows are not
compared. The exit status is 1 if a pair differs that may not.
"""

import argparse
import collections
import shlex
import sys

import compare

BEFORE = {"status=%d" % number for number in (1, 2, 3, 4, 5, 6, 7, 11)}


def is_provided(sheet):
    """The proviso, of a sheet that is laid out."""
    lines = sheet.decode("ascii").split("\n")
    words = {frozenset(line.partition(":")[2].split(",")) for line in lines if line.startswith("term=")}
    max_terms = int(lines[3].partition("=")[2])
    return max_terms == 0 or len(words) <= max_terms


def pairs(stream, size):
    chunk = []
    for sheet in compare.sheets(stream):
        chunk.append(sheet)
        if len(chunk) == size:
            yield chunk
            chunk = []
    if chunk:
        yield chunk


def main():
    parser = argparse.ArgumentParser(description=__doc__, formatter_class=argparse.RawTextHelpFormatter)
    parser.add_argument("program")
    parser.add_argument("--chunk", type=int, default=300, help="sheets handed over at a time, an even number")
    given = parser.parse_args()
    counts = collections.Counter()
    for chunk in pairs(sys.stdin.buffer, given.chunk):
        found = compare.answers(shlex.split(given.program), chunk)
        for at in range(0, len(chunk) - 1, 2):
            path, wide = ([line for line in found[at + i][0] if not line.startswith("row=")] for i in (0, 1))
            if path[0] in BEFORE:
                kind = "refused before the run"
            else:
                kind = "provided" if is_provided(chunk[at]) else "outside the proviso"
            alike = "alike" if path == wide else "different"
            counts["%s, %s" % (kind, alike)] += 1
            if alike == "different" and kind != "outside the proviso":
                print(chunk[at].decode("latin-1"), path, wide)
                counts["not explained"] += 1
    for name in sorted(counts):
        print("%s: %d" % (name, counts[name]))
    sys.exit(1 if counts["not explained"] else 0)


main()
