#!/usr/bin/env python3
"""Spells the definitions and lemmas of this repository in snake case: isRotation, length-part -> is_rotation, length_part.

usage: tools/respell.py [--check] [FOLDER]

Run it once, after /opt/rattle/port/port.py, at the top of the repository. A name is turned where an .antt file below crates/ declares it, where it begins
with a small letter and where it has a capital or a dash. What Rattle makes of a function (the parts of a Proof.antt) is left to tools/answers.py.
Two names that would fall together: the lemma (the one with a dash) gets `_lem`. It turns .antt and .rt files, and what stands in `backticks` in .md files.
--check only says what it would do, and what it left."""
import collections
import os
import re
import sys

WORD = r"[^\s(){}.;,@\"«»\[\]`]+"
DECLARED = re.compile(r"\s*(?:(?:abbrev|pub|unfoldable|opaque|data|record|ruleset)\s+)*(" + WORD + r"(?: [a-z]" + WORD + r")*)\s(?:\{[^{}]*\}\s*)*:(?:\s|$)")
MADE = re.compile(r"(returns|loop|invariant|decreases|μ|mul|add|sub|div|rem|shl|shr|cast|overflow|nonzero|bounds|slice|offset|same-length|prove|join)(-|$)|.*-(requires|spec|holds|again|preserved|less|smaller|below|at|init|ensures)(-\d+)?$|\+")
TOKEN = re.compile(r"--[^\n]*|\"(?:[^\"\\\n]|\\.)*\"|" + WORD)
TOKEN_RT = re.compile(r"//[^\n]*|b?\"(?:[^\"\\]|\\.)*\"|[A-Za-z_][\w']*")


# What port.py left by hand: there a lemma had the new spelling of a definition.
LEFT = {"crates/numbers/proofs/CloseLaws.antt": {"is-zero": "is_zero_lem", "isZero": "is_zero"}}


def turned(name):
    if name.startswith("◌"):
        return "◌%s◌" % turned(name.strip("◌"))
    name = re.sub(r"(?<=[a-z0-9])([A-Z]+)", lambda m: "_" + m[1].lower(), name)
    return name.replace("-", "_")


def files(top, endings):
    for folder, dirs, names in os.walk(top):
        dirs[:] = sorted(d for d in dirs if d not in ("out", ".git", "target"))
        for name in sorted(names):
            if name.endswith(endings):
                yield os.path.join(folder, name)


def read(path):
    with open(path, encoding="utf-8") as f:
        return f.read()


def declared(top):
    """The names that the files declare, each with the files."""
    found = collections.defaultdict(set)
    for path in files(os.path.join(top, "crates"), ".antt"):
        walk = path.endswith("/Proof.antt")
        for line in read(path).splitlines():
            if line.lstrip().startswith("--"):
                continue
            m = DECLARED.match(line)
            for name in m[1].split() if m else ():
                if not (walk and MADE.match(name)) and not (" " in m[1] and name in ("let", "module", "where")):
                    found[name].add(path)
    return found


def is_old(name):
    name = name.strip("◌")
    return bool(name) and not name[0].isupper() and name[0] != "+" and bool(re.search("[A-Z]", name[1:]) or re.search(r"(?<=.)-(?=.)", name))


def places(top):
    """Each .antt file with its words that stand behind no dot."""
    return {path: set(re.findall(r"(?<!\.)" + WORD, re.sub(r"--[^\n]*", "", read(path)))) for path in files(os.path.join(top, "crates"), ".antt")}


def table(found, words):
    """The new spelling of each name. Two names may have one spelling where no file has both; else the lemma of the two gets `_lem`."""
    new, by = {}, collections.defaultdict(list)
    brought = {path: library(read(path)) for path in words}
    for n in found:
        by[turned(n) if is_old(n) else n].append(n)
    for to, names in sorted(by.items()):
        names.sort(key=lambda n: (is_old(n) and "-" in n, not is_old(n), n))
        kept = []
        for n in names:
            met = any(any(n in w and k in w for w in words.values()) for k in kept)
            if met or (n != to and any(n in w and to in brought[path] for path, w in words.items())):
                print("look: %s is %s_lem: %s is beside it" % (n, to, ", ".join(kept) or "a library's"))
                new[n] = to + "_lem"
            else:
                kept.append(n)
                if n != to:
                    new[n] = to
    # an operator that is a word is written bare between its arguments
    new.update({n.strip("◌"): to.strip("◌") for n, to in new.items() if n.startswith("◌")})
    return new


def library(text):
    """The names that a file brings in from libraries."""
    brought = set()
    for m in re.finditer(r"use ([^\s{]+)\.\{([^{}]*)\}", text):
        if not re.match(r"Rattle\.(?!std\b|core\b)", m[1]):
            brought |= {n.split(" as ")[-1].strip() for n in m[2].split(",")}
    return brought


kept = collections.Counter()


def respelled(path, text, new):
    brought = library(text)
    antt = path.endswith(".antt")

    def word(m):
        w = m[0]
        if w.startswith("--" if antt else "//"):
            w = re.sub(r"`[^`\n]*`", lambda b: re.sub(WORD, lambda t: new.get(t[0], t[0]), b[0]), w)
            return re.sub(r"(?<![\w'-])[a-z]+[A-Z]\w*(?![\w'-])", lambda t: new.get(t[0], t[0]), w)
        if w[0] == '"' or w.startswith('b"') or w not in new:
            return w
        if w in brought:
            kept[path, w] += 1
            return w
        if not is_old(w) and (not antt or m.string[m.start() - 1] == "."):
            return w
        return new[w]

    return re.sub(TOKEN if antt else TOKEN_RT, word, text)


def mend_left(top):
    for path, names in LEFT.items():
        path = os.path.join(top, path)
        text = read(path)
        to = re.sub(TOKEN, lambda t: names.get(t[0], t[0]), text)
        if to != text:
            with open(path, "w", encoding="utf-8") as f:
                f.write(to)


def main():
    args = [a for a in sys.argv[1:] if a != "--check"]
    check = "--check" in sys.argv
    top = args[0] if args else "."
    if not check:
        mend_left(top)
    found = declared(top)
    new = table(found, places(top))
    met = set(new.values())
    changed = 0
    for path in files(os.path.join(top, "crates"), (".antt", ".rt")):
        text = read(path)
        tokens = set(re.findall(WORD, text)) if path.endswith(".antt") else set(re.findall(r"[A-Za-z_][\w']*", text))
        for n in sorted(tokens & met):
            if path.endswith(".rt") and re.search(r"\b%s\s*:(?!:)" % re.escape(n), text):
                print("look: %s has a parameter or a field %s" % (path, n))
        to = respelled(path, text, new)
        if to != text:
            changed += 1
            if not check:
                with open(path, "w", encoding="utf-8") as f:
                    f.write(to)
    for path in files(top, ".md"):
        text = read(path)
        to = re.sub(r"`[^`\n]*`", lambda b: re.sub(TOKEN, lambda t: new.get(t[0], t[0]), b[0]), text)
        if to != text:
            changed += 1
            if not check:
                with open(path, "w", encoding="utf-8") as f:
                    f.write(to)
    for (path, w), k in sorted(kept.items()):
        print("look: %s: %s is a library's there, and stays" % (path, w))
    print("%d names, %d files" % (len(new), changed))


main()
