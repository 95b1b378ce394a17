#!/usr/bin/env python3
"""Compare two programs over one stream of sheets: compare.py LEFT RIGHT < stream

LEFT and RIGHT are commands. Each reads a stream of sheets (a line `#sheet N`
and N bytes for each) and writes, for each, a line `#sheet I` and the answer's
lines. Other lines that start with `#` are remarks and are not compared; the
oracle's remark `#by prism-q` marks an answer whose numbers are prism-q's.
Numbers are compared bit for bit, either zero alike. The exit status is 1 if
an answer differs.
"""

import argparse
import collections
import re
import shlex
import subprocess
import sys
import time

MINUS_ZERO = re.compile(r"(?<![0-9a-f])8000000000000000(?![0-9a-f])")
REALS = ("mean=", "discarded=", "z=")


def sheets(stream):
    while True:
        head = stream.readline()
        if not head:
            return
        if not head.startswith(b"#sheet "):
            sys.exit("compare.py: not a stream of sheets")
        yield stream.read(int(head[7:]))


def plain(line):
    """The line with every negative zero among its reals as zero."""
    if line.startswith(REALS):
        return MINUS_ZERO.sub("0" * 16, line)
    if line.startswith("row="):
        words, _, reals = line.rpartition(":")
        return words + ":" + MINUS_ZERO.sub("0" * 16, reals)
    return line


def answers(command, chunk):
    """Lines and remarks of each sheet's answer."""
    data = b"".join(b"#sheet %d\n" % len(sheet) + sheet for sheet in chunk)
    run = subprocess.run(command, input=data, stdout=subprocess.PIPE)
    out = []
    for line in run.stdout.decode("ascii", "replace").splitlines():
        if line.startswith("#sheet "):
            out.append(([], []))
        elif not out:
            sys.exit("compare.py: %s does not start with a #sheet line" % command[0])
        elif line.startswith("#"):
            out[-1][1].append(line)
        else:
            out[-1][0].append(plain(line))
    if run.returncode != 0:
        sys.exit("compare.py: %s ended with %d" % (command[0], run.returncode))
    if len(out) != len(chunk):
        sys.exit("compare.py: %s gave %d answers to %d sheets" % (command[0], len(out), len(chunk)))
    return out


def main():
    parser = argparse.ArgumentParser(description=__doc__, formatter_class=argparse.RawTextHelpFormatter)
    parser.add_argument("left")
    parser.add_argument("right")
    parser.add_argument("--chunk", type=int, default=2000, help="sheets handed over at a time")
    parser.add_argument("--show", type=int, default=1, help="differences printed")
    parser.add_argument("--prismq", action="store_true", help="compare only answers marked #by prism-q")
    parser.add_argument("--without", metavar="KEY", help="a key whose lines are not compared")
    given = parser.parse_args()
    left, right = shlex.split(given.left), shlex.split(given.right)
    counts = collections.Counter()
    statuses = collections.Counter()
    by = collections.Counter()
    start = time.time()

    def take(chunk, first):
        for at, (one, two) in enumerate(zip(answers(left, chunk), answers(right, chunk))):
            marked = "#by prism-q" in one[1] + two[1]
            if given.without:
                one, two = (([line for line in lines if not line.startswith(given.without + "=")], rest) for lines, rest in (one, two))
            status = one[0][0] if one[0] else "no status"
            counts["sheets"] += 1
            if given.prismq and not marked:
                counts["left out"] += 1
                continue
            statuses[status] += 1
            by[status, marked] += 1
            counts["rows"] += sum(line.startswith("row=") for line in one[0])
            for remark in one[1] + two[1]:
                if not remark.startswith("#by "):
                    counts[remark] += 1
            if one[0] == two[0]:
                counts["equal"] += 1
                continue
            counts["different"] += 1
            if counts["different"] <= given.show:
                print("sheet %d differs:" % (first + at))
                print(chunk[at].decode("latin-1"))
                for name, lines in (("left", one[0]), ("right", two[0])):
                    print("--- " + name)
                    print("\n".join(lines))

    chunk, first = [], 0
    for sheet in sheets(sys.stdin.buffer):
        chunk.append(sheet)
        if len(chunk) == given.chunk:
            take(chunk, first)
            first += len(chunk)
            chunk = []
    if chunk:
        take(chunk, first)
    for name in sorted(counts):
        print("%s: %d" % (name, counts[name]))
    for status in sorted(statuses):
        print("%s: %d, by prism-q %d" % (status, statuses[status], by[status, True]))
    print("seconds: %.1f" % (time.time() - start))
    sys.exit(1 if counts["different"] else 0)


if __name__ == "__main__":
    main()
