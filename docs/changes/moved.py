#!/usr/bin/env python3
"""Count what a change moved: moved.py OLD [NEW]

OLD and NEW are revisions (NEW: the work tree). For each crate that differs, and in all: the definitions of specs/, the promises (what a function
requires and ensures) and the proofs (each statement of proofs/ with its proof) that stand word for word as before, that were altered, added and
removed; then lines of code, definitions and proofs, without blank lines and comments. Comments and blank lines do not count as a change, imports
and the order of declarations do not either. `--names` lists what was altered, added and removed.
"""

import io
import os
import re
import subprocess
import sys
import tarfile

HERE = os.path.dirname(os.path.abspath(__file__))
TOP = subprocess.run(["git", "rev-parse", "--show-toplevel"], cwd=HERE, stdout=subprocess.PIPE, check=True, text=True).stdout.strip()


def git(*words):
    return subprocess.run(["git", *words], cwd=TOP, stdout=subprocess.PIPE, check=True).stdout.decode("utf-8")


def files(revision):
    """The .rt and .antt files of the crates, each with its text."""
    if revision is None:
        names = git("ls-files", "-co", "--exclude-standard", "crates").splitlines()
        names = [name for name in names if os.path.exists(os.path.join(TOP, name))]
        return {n: open(os.path.join(TOP, n), encoding="utf-8").read() for n in names if n.endswith((".rt", ".antt"))}
    whole = subprocess.run(["git", "archive", revision, "crates"], cwd=TOP, stdout=subprocess.PIPE, check=True).stdout
    with tarfile.open(fileobj=io.BytesIO(whole)) as kept:
        return {m.name: kept.extractfile(m).read().decode("utf-8") for m in kept if m.name.endswith((".rt", ".antt"))}


def bare(text, mark):
    """The lines that are neither blank nor a comment."""
    return [line for line in text.split("\n") if line.strip() and not line.lstrip().startswith(mark)]


DECLARED = re.compile(r"(?:(?:abbrev|unfoldable|pub)\s+)*(?:(?:record|data)\s+)?([^\s(){}:]+)[^=]*?\s:\s")
HEADED = re.compile(r"(?:(?:abbrev|unfoldable|pub)\s+)*(?:record|data)\s+(\S+)")


def statements(text):
    """Each declaration of a file by its name, with its text; what stands under a `where` belongs to its declaration."""
    found, name, under, depth = {}, None, None, 0
    for line in bare(text, "--"):
        indent = len(line) - len(line.lstrip())
        word = line.strip()
        if word.startswith(("use ", "pub use ", "unfoldable pub use ", "pub mod ", "mod ", "infix")):
            continue
        if under is not None and indent <= under:
            under = None
        inside = under is not None or (name is not None and indent > depth)
        match = None if inside else (HEADED.match(word) or DECLARED.match(word))
        if match and not word.startswith("module "):
            name, depth = match.group(1), indent
            while name in found:
                name += "'"
            found[name] = ""
        elif word.startswith("module ") and not inside:
            name, depth = None, indent
            continue
        if name is not None:
            found[name] += word + "\n"
        if word == "where":
            under = indent
    return found


def promises(text):
    """Each function by its name, with its signature and contract."""
    found = {}
    for match in re.finditer(r"^[ \t]*(?:pub(?:\(crate\))? )?(?:extern \"C\" )?fn (\w+).*?\{[ \t]*$", text, re.M | re.S):
        head = "\n".join(line.strip() for line in bare(match.group(0), "//"))
        found[match.group(1)] = head
    return found


def parts(sources):
    """For each crate and kind: the pieces by name, and the number of lines."""
    pieces, lines = {}, {}
    for path, text in sources.items():
        _, crate, kind = path.split("/")[:3]
        if path.endswith(".rt"):
            for name, whole in promises(text).items():
                pieces[crate, "promises", path + " " + name] = whole
            key, mark = "code", "//"
        else:
            kind = {"specs": "definitions", "proofs": "proofs"}[kind]
            for name, whole in statements(text).items():
                pieces[crate, kind, path + " " + name] = whole
            key, mark = kind, "--"
        lines[crate, key] = lines.get((crate, key), 0) + len(bare(text, mark))
    return pieces, lines


def main():
    words = [word for word in sys.argv[1:] if word != "--names"]
    old, old_lines = parts(files(words[0]))
    new, new_lines = parts(files(words[1] if len(words) > 1 else None))
    crates = sorted({crate for crate, _, _ in set(old) | set(new)})
    total = {}
    for crate in crates:
        for kind in ("definitions", "promises", "proofs"):
            a = {n: t for (c, k, n), t in old.items() if (c, k) == (crate, kind)}
            b = {n: t for (c, k, n), t in new.items() if (c, k) == (crate, kind)}
            same = [n for n in a if n in b and a[n] == b[n]]
            altered = [n for n in a if n in b and a[n] != b[n]]
            added, removed = [n for n in b if n not in a], [n for n in a if n not in b]
            counts = [len(same), len(altered), len(added), len(removed)]
            total[kind] = [x + y for x, y in zip(total.get(kind, [0] * 4), counts)]
            if any(counts[1:]):
                print("%s, %s: %d stayed, %d altered, %d added, %d removed" % (crate, kind, *counts))
                if "--names" in sys.argv:
                    for title, names in (("altered", altered), ("added", added), ("removed", removed)):
                        for name in names:
                            print("    %s: %s" % (title, name))
    for kind, counts in total.items():
        print("all, %s: %d stayed, %d altered, %d added, %d removed" % (kind, *counts))
    for key in ("code", "definitions", "proofs"):
        before = sum(n for (_, k), n in old_lines.items() if k == key)
        after = sum(n for (_, k), n in new_lines.items() if k == key)
        print("lines of %s: %d, now %d" % (key, before, after))


main()
