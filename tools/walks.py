#!/usr/bin/env python3
"""Spells the names that Rattle makes, in each Proof.antt of a crate, as today's Rattle makes them.

usage: tools/walks.py NAMES CRATE [FUNCTION..]

NAMES is the folder that `rt check --generated NAMES --old-names` wrote in the crate's folder CRATE. Goals, steps and places are turned by its list of old and
new names, the way up to a step (`.before` ..) is counted anew, and the proof of a function f is f_spec. It rewrites proofs/ in place, and is run
once for a crate. A line that begins 'look:' names what it did not find."""
import json
import os
import re
import sys

WORD = r"[^\s(){}.;,@\"«»\[\]]+"
TOKEN = re.compile(r"--[^\n]*|\.?" + WORD)
FIELDS = {"good": "well_formed", "well-formed": "well_formed", "type-inv": "type_inv"}
AT_START = {"args", "requires", "well_formed", "ranges", "utf8", "lifetimes"}
OTHERWISE = {"type_size": "size_of"}
# Below these a field is a name of the source.
OF_SOURCE = {"args", "ranges", "new", "auto", "initial", "fn", "captures", "utf8", "result", "now", "old"}


def plain(name):
    return re.sub("[-_]", "-", name)


class Names:
    """The goals, steps and places of one function, old and new."""

    def __init__(self, of):
        self.needs = {plain(new): new for _, new in of["needs"]}
        self.needs.update({plain(old): new for old, new in of["needs"]})
        self.order = [new for _, new in of["needs"]]
        self.at = {new: at[1] for (_, new), at in zip(of["needs"], of["asked_at"])}
        self.loops = [names for names, _ in of["loops"]]
        self.places = {plain(p[0]): new for p, new in zip(of["places"], of["places_by_name"])}
        self.parent, self.step, self.steps, self.params = {}, {}, {}, {}
        for place, name in zip(of["places"], of["places_by_name"]):
            self.parent[name] = self.places[plain(place[1])] if place[1] else None
            self.step[name] = place[2][1]
            self.params[name] = of["params"].get(place[3], [])
            if place[2][0]:
                self.steps.setdefault(plain(place[2][0]), []).append(place[2][1])
        # an arm of a match: its step, how many of the older places it is, and its fields with what they were
        self.arms = {}
        for name, arm in zip(of["places_by_name"], of["arms"]):
            if arm:
                self.arms[name] = (arm[0], arm[1], [(plain(old), tuple(path), new) for new, old, path in arm[2]])
        # parameters that the older list numbers
        self.fields = dict(FIELDS)
        for old, new in of["args"]:
            self.fields[re.split(r"[ .]+", old)[-1]] = re.split(r"[ .]+", new)[-1]
        self.words = {}
        for old, new in self.loops:
            for word in ("invariant", "decreases"):
                self.words[plain("%s-%s" % (word, old))] = "%s-%s" % (word, new)

    def made(self, name):
        key = plain(name)
        if key.startswith("Need-"):
            for goal in (key[5:], re.sub("^(overflow|nonzero)-", "", key[5:])):
                if goal in self.needs:
                    return "Need-" + self.needs[goal]
        return self.words.get(key) or self.places.get(key) or name

    def way(self, place):
        """The places from this one up to the start."""
        way = []
        while place:
            way.append(place)
            for _ in range(self.arms[place][1] if place in self.arms else 1):
                place = self.parent[place]
        return way

    def up(self, way, field, rest, near):
        """How far up the way the field is, its new name, and how many of the fields behind it that name takes in."""
        if field in AT_START:
            return len(way) - 1, field, 0
        names, found = set(self.steps.get(plain(field), [])) | {field}, []
        for i, place in enumerate(way):
            if place not in self.arms:
                if self.step[place] in names:
                    found.append((abs(i - near), i, self.step[place], 0))
                continue
            step, _, fields = self.arms[place]
            fits = [(len(path), new) for old, path, new in fields if old == plain(field) and tuple(rest[: len(path)]) == path]
            if fits:
                count, new = max(fits)
                found.append((abs(i - near), i, step + "." + new, count))
            elif field == step:
                found.append((abs(i - near), i, step, 0))
        return min(found)[1:] if found else (None, field, 0)


def definitions(text):
    """The spans of the definitions that stand at the margin."""
    starts = [m.start() for m in re.finditer(r"(?m)^(?=[^\s\-])", text)] + [len(text)]
    spans, k = [], 0
    heads = [s for s in starts]
    for a, b in zip(heads, heads[1:]):
        spans.append((a, b))
    return spans


def arguments(text, start):
    """The spans of the arguments that follow, each a word or what is in brackets, with fields behind it."""
    at, found = start, []
    while at < len(text):
        m = re.compile(r"(?:\s|--[^\n]*)*").match(text, at)
        at = m.end()
        if at >= len(text) or text[at] in ")]};,":
            break
        begin = at
        while at < len(text) and not text[at].isspace() and text[at] not in ")]};,":
            if text[at] in "([{":
                depth = 0
                while True:
                    depth += (text[at] in "([{") - (text[at] in ")]}")
                    at += 1
                    if not depth:
                        break
            else:
                at += 1
        found.append((begin, at))
    return found


def aligned(args, goals):
    """Which of the older arguments answer the goals, in order: what is left out is a bare search, refl or tt, and κs goes with what a call requires."""
    trivial = [bool(re.fullmatch(r"\(λ c( κs)?\. (search rules|refl|tt)\)", a)) for a in args]
    calls = [bool(re.match(r"\(λ \w+ κs\.", a)) if a.startswith("(") else None for a in args]

    def fits(k, goal):
        return calls[k] is None or calls[k] == bool(re.search(r"-requires(-|$)", goal))

    n, m = len(args), len(goals)
    best = {(n, m): 0}
    for k in reversed(range(n + 1)):
        for g in reversed(range(m + 1)):
            if (k, g) == (n, m):
                continue
            way = []
            if k < n and trivial[k] and (k + 1, g) in best:
                way.append((best[k + 1, g], 0))
            if k < n and g < m and (k + 1, g + 1) in best and (n == m or fits(k, goals[g])):
                way.append((best[k + 1, g + 1] + 1, 1))
            if way:
                best[k, g] = max(way)[0]
    if (0, 0) not in best:
        return None
    chosen, k, g = [], 0, 0
    while k < n:
        if g < m and (k + 1, g + 1) in best and (n == m or fits(k, goals[g])) and best[k + 1, g + 1] + 1 == best[k, g]:
            chosen.append(k)
            k, g = k + 1, g + 1
        else:
            k += 1
    return chosen


def walked(body, root, place, names, said):
    """The text, in which root stands at the place, with each way up counted anew."""
    way = names.way(place)
    alias = {root: (0, 0)}
    for m in re.finditer(r"let (%s) = (%s)((?:\.before)*) in(?=\s)" % (WORD, WORD), body):
        if m[2] in alias and m[1] != m[2]:
            old = alias[m[2]][0] + m[3].count(".before")
            alias[m[1]] = (old, None)
    used = re.compile(r"(?<![\w.'₀-₉-])(%s)((?:\.before)*)((?:\.%s)*)(?![\w'-])" % ("|".join(sorted(map(re.escape, alias), key=len, reverse=True)), WORD))
    fields_of = lambda m: [FIELDS.get(f, f) for f in m[3].split(".")[1:]]
    # where each alias stands: where a field is read off it with no step up, else as it stood
    for name in alias:
        old, new = alias[name]
        if new is None:
            for m in used.finditer(body):
                if m[1] == name and m[3] and not m[2]:
                    i = names.up(way, fields_of(m)[0], fields_of(m)[1:], old)[0]
                    if i is not None:
                        new = i
                        break
            alias[name] = (old, min(old, len(way) - 1) if new is None else new)

    def use(m):
        if re.search(r"let $", body[: m.start()]) and re.match(r" =", body[m.end() :]) and not m[2] and not m[3]:
            return m[0]
        old, new = alias[m[1]]
        count = m[2].count(".before")
        if not m[3]:
            # the whole of a place: what an alias is bound to
            b = re.search(r"let (%s) = $" % WORD, body[: m.start()])
            if b and b[1] in alias and re.match(r" in\s", body[m.end() :]):
                count = alias[b[1]][1] - new
                return m[1] + ".before" * count if count >= 0 else root + ".before" * alias[b[1]][1]
            # a lemma of this file that takes a place
            f = re.search("(%s) $" % WORD, body[: m.start()])
            if f and names.takes.get(f[1]) in way:
                return root + ".before" * way.index(names.takes[f[1]])
            return m[0]
        field, *rest = fields_of(m)
        if not names.steps.get(plain(field)):
            # what the scripts before took for another name
            field = next((f for f in (OTHERWISE.get(field, field), field.lower(), re.sub("_lem$", "", field)) if names.steps.get(plain(f))), field)
        i, field, taken = names.up(way, field, rest, old + count)
        rest = rest[taken:]
        if i is not None and rest[:1] == ["auto"] and len(rest) > 1:
            # what stays of an argument: by the parameter's place before, by its name now
            at, named = rest[1:].count("1"), names.params[way[i]]
            rest = ["auto", named[at]] if at < len(named) and set(rest[1:]) <= {"0", "1"} else rest
        tail = "".join("." + f for f in rest)
        if i is None:
            said.append("%s.%s at %s" % (m[1], field, place))
            return m[1] + m[2] + "." + field + tail
        if i < new:
            return root + ".before" * i + "." + field + tail
        return m[1] + ".before" * (i - new) + "." + field + tail

    return used.sub(use, body)


def respelled(text, names, spec):
    """The words that Rattle makes, and this file's own names for a goal, an invariant or the proof."""
    own = {}
    for m in re.finditer(r"(?m)^(?:abbrev )?(?:pub )?(" + WORD + r") :", text):
        key = plain(m[1])
        if re.search("[-_]spec$", m[1]):
            own[m[1]] = spec
        elif key in names.words:
            own[m[1]] = names.words[key]
        elif key in names.needs and re.search(r"tie\.Need", text[m.end() : m.end() + 60]):
            own[m[1]] = names.needs[key]

    def word(m):
        w = m[0]
        if w.startswith("--"):
            return w
        before = m.string[: m.start()]
        if w[0] == ".":
            if re.search(r"(?<![\w.])tie$", before):
                return "." + names.made(w[1:])
            return "." + names.fields.get(w[1:], w[1:])
        return own.get(w, w)

    lines = text.split("\n")
    return "\n".join(line if line.startswith("use ") else TOKEN.sub(word, line) for line in lines)


def turned(text, names, spec, said):
    text = respelled(text, names, spec)
    names.takes = dict(re.findall("(?m)^(" + WORD + r") : \(\w+ : tie\.(" + WORD + r")\)", text))
    out = []
    for a, b in definitions(text):
        part = text[a:b]
        need = re.match(r"(?:pub )?(" + WORD + r") : (?:\{[^{}]*\} → )*tie\.Need-(" + WORD + ")", part)
        if need and need[2] in names.at:
            out.append(part)
            continue
        equation = re.match("(?:pub )?(" + WORD + ") ([^=]*)=", part)
        goal = equation and next((m[2] for o in out for m in [re.match(r"(?:pub )?(" + WORD + r") : (?:\{[^{}]*\} → )*tie\.Need-(" + WORD + ")", o)] if m and m[1] == equation[1] and m[2] in names.at), None)
        if goal:
            root = next((w for w in equation[2].split() if w != "κs" and not w.startswith("{")), None)
            # with a measure the record comes last
            words = [w for w in equation[2].split() if re.fullmatch(WORD, w)]
            root = "c" if "c" in words else root
            if root:
                part = walked(part, root, names.at[goal], names, said)
            if goal.startswith("shape_of-") and ".auto." in part:
                part = part[: part.index("=") + 1] + " search rules\n\n"
            out.append(part)
            continue
        for m in re.finditer(r"\((\w+) : tie\.(" + WORD + r")[^()]*\)", part):
            if m[2] in names.parent:
                part = walked(part, m[1], m[2], names, said)
                break
        m = re.search(r"(?:tie|[\w-]+-lts)\.spec(?=\s)", part)
        if m:
            spans = arguments(part, m.end())
            skip = 2 * len(names.loops) + (3 if "-lts." in m[0] else 0)
            chosen = aligned([part[x:y] for x, y in spans[skip:]], names.order)
            if chosen is None:
                said.append("%d arguments for %d goals" % (len(spans) - skip, len(names.order)))
            else:
                given = dict(zip(chosen, names.order))
                for k in reversed(range(len(spans) - skip)):
                    x, y = spans[skip + k]
                    if k not in given:
                        part = part[:x].rstrip(" ") + part[y:] if part[y : y + 1] in " \n)" else part
                        continue
                    arg, goal = part[x:y], given[k]
                    bound = re.match(r"\(λ ([^.]*)\.", arg)
                    if bound:
                        words = bound[1].split()
                        root = "c" if "c" in words else words[0]
                        new = walked(arg, root, names.at[goal], names, said)
                        if goal.startswith("shape_of-") and ".auto." in new:
                            new = "(λ c. search rules)"
                        part = part[:x] + new + part[y:]
        out.append(part)
    # the test of a `!x` says of x itself that it is true or false
    return re.sub(r"not[-_](?:true|false) (?:[^\s()]+|\([^()]*\)) ((?:" + WORD + r"\.)*" + r"if-not-" + WORD + r"\.(?:true|false))", r"\1", "".join(out))


def main():
    folder, crate, only = sys.argv[1], sys.argv[2], sys.argv[3:]
    listed = json.load(open(os.path.join(folder, "names.json"), encoding="utf-8"))
    crate_name = os.path.basename(os.path.abspath(crate))
    for key, of in sorted(listed.items()):
        m = re.fullmatch(r"Rattle-%s-proofs\.(.*)\.Lts(?:-\w+)?" % crate_name, key)
        if not m or "needs" not in of:
            continue
        path = os.path.join(crate, "proofs", *m[1].split("."), "Proof.antt")
        if not os.path.exists(path) or only and not any(o in path for o in only):
            continue
        text, said = open(path, encoding="utf-8").read(), []
        to = turned(text, Names(of), m[1].split(".")[-1] + "_spec", said)
        if to != text:
            open(path, "w", encoding="utf-8").write(to)
        for it in said:
            print("look: %s: %s" % (path, it))


main()
