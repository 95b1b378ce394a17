#!/usr/bin/env python3
"""List the functions of a program that make room for a large frame, and whether they do so at their beginning.

  python3 oracle/frames.py crates/bench/out/bench           the program, or a static library, is disassembled with objdump

The compiler touches each page of a large frame in a loop that uses the register r11. At the beginning of a function that register is free. Further
on it may hold a value, which the loop destroys: such a function is reported as LATE, and the exit status is 1.
"""
import re
import subprocess
import sys


def functions(lines):
    name, body = None, []
    for line in lines:
        head = re.match(r"^[0-9a-f]+ <(.*)>:$", line.strip())
        if head:
            if name is not None:
                yield name, body
            name, body = head.group(1), []
            continue
        step = re.match(r"^\s+[0-9a-f]+:\s+(.*)$", line.rstrip())
        if step:
            body.append(step.group(1))
    if name is not None:
        yield name, body


def disassembled(file):
    run = subprocess.run(["objdump", "-d", "--no-show-raw-insn", file], stdout=subprocess.PIPE, check=True, text=True)
    return run.stdout.splitlines()


def main():
    if len(sys.argv) != 2:
        sys.exit(__doc__)
    late, seen = 0, 0
    for name, body in functions(disassembled(sys.argv[1])):
        seen += 1
        for at, step in enumerate(body):
            if re.match(r"mov\s+%rsp,%r11", step):
                before = [s for s in body[:at] if not s.startswith(("push", "endbr64"))]
                late += bool(before)
                print("LATE " if before else "first", name, body[at + 1].split()[-1].split(",")[0])
    if not seen:
        sys.exit("frames.py: no function in " + sys.argv[1])
    return 1 if late else 0


sys.exit(main())
