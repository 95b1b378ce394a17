#!/usr/bin/env python3
"""Build the oracle: build.py SRC OUT [--speed LIB]

SRC is a folder of prism-q's sources at commit bb77d8f888: a checkout (with
src/sim/unified_pauli.rs and so on) or a flat folder in which the same files
are named src--src--sim--unified_pauli.rs.txt and so on. OUT is a folder that
is made; the program is OUT/oracle. With --speed it is OUT/speed instead, which
times the same code against LIB, the file libqubit_bench.a.

Four files are taken whole and altered at the places listed below, one is cut
to two functions. Each place is a short text that must occur exactly once
where it is looked for; otherwise the build stops.
"""

import hashlib
import os
import shutil
import subprocess
import sys

HERE = os.path.dirname(os.path.abspath(__file__))

# First 16 digits of the SHA-256 of each file at the commit above.
FILES = {
    "src/sim/unified_pauli.rs": "b0f02f557e56d7fc",
    "src/sim/compiled/propagation.rs": "46a20a9621473c76",
    "src/circuit/clifford_t.rs": "217f9fa7991ec6ee",
    "src/gates/mod.rs": "1da94d2bd5710955",
    "src/circuit/mod.rs": "36ffd197e99a855d",
}


def fail(text):
    sys.exit("build.py: " + text)


def read(src, path):
    for name in (path, "src--" + path.replace("/", "--") + ".txt"):
        full = os.path.join(src, name)
        if os.path.isfile(full):
            with open(full, "rb") as file:
                data = file.read()
            if not hashlib.sha256(data).hexdigest().startswith(FILES[path]):
                print("note: %s is not the file of commit bb77d8f888" % path, file=sys.stderr)
            return data.decode("utf-8")
    fail("%s is not in %s" % (path, src))


def once(text, old, where):
    if text.count(old) != 1:
        fail("%r occurs %d times in %s, not once" % (old, text.count(old), where))
    return text.index(old)


def alter(text, where, old, new, inside=None):
    """Put `new` for the one `old` in `text`, or in the one item of it whose
    header is `inside` (up to the first line that closes it)."""
    if inside is None:
        at = once(text, old, where)
    else:
        start = once(text, inside, where)
        indent = len(inside) - len(inside.lstrip(" "))
        stop = text.index("\n" + " " * indent + "}\n", start)
        at = start + once(text[start:stop], old, where + ", " + inside.strip())
    return text[:at] + new + text[at + len(old) :]


def cut(text, where, header):
    """The one function at the outer level that starts with `header`."""
    start = once(text, header, where)
    return text[start : text.index("\n}\n", start) + 3]


def unified_pauli(text):
    where = "unified_pauli.rs"

    # Stand-in: the ceiling is limit.
    text = alter(
        text,
        where,
        "const SPD_MAX_TERMS_CEILING: usize = 1 << 20;",
        "use crate::hook::SPD_MAX_TERMS_CEILING;",
    )

    # Stand-in: `sin_cos` gives the sheet's numbers.
    for inside, theta in (
        ("    fn apply_backward(", "*theta"),
        ("    fn branch_z_rotation_angle(", "theta"),
    ):
        text = alter(text, where, "theta.sin_cos()", "crate::hook::sin_cos(%s)" % theta, inside)
    for old in (" z_rotation_angle(gate).map(f64::sin_cos)", ".map(f64::sin_cos)\n"):
        new = old.replace("f64::", "crate::hook::")
        text = alter(text, where, old, new, "fn run_spd_lowered<")

    # The copy is opened: question 8 is looked at after each op, after its
    # truncation and after the last drop, and the terms at the end of a run
    # are handed out. `enforce` and `final_sweep` stay as they are under
    # another name, and are called from between the looks.
    look = "crate::hook::ask(sum.terms.iter().map(|term| term.1), %s);"
    for name, before in (("enforce", look), ("final_sweep", "%.0s")):
        head = "<K: SpdKey>(&self, sum: &mut WeightedPauliSum<K>, total_discarded: &mut f64) {"
        lines = ["fn " + name + head, before % "*total_discarded"]
        lines += ["self.%s_itself(sum, total_discarded);" % name, look % "*total_discarded", "}"]
        lines += ["fn " + name + "_itself" + head]
        text = alter(text, where, "fn " + name + head, "\n".join(lines))
    ask = look % "total_discarded"
    for old in (
        "\n        if max_terms > 0 && sum.terms.len() > max_terms {",
        "\n        check_spd_term_ceiling(",
    ):
        text = alter(text, where, old, "\n        " + ask + old, "fn propagate_light_cone<")
    header = "    fn diagonal_expectation("
    text = alter(
        text,
        where,
        "-> f64 {\n",
        "-> f64 {\n        crate::hook::end(self.terms.iter()"
        ".map(|(key, coeff)| (key.x(), key.z(), *coeff)));\n",
        header,
    )
    return alter(text, where, "        sum.re", "        crate::hook::mean(sum.re)", header)


def circuit(text):
    # Of the modules of this folder only clifford_t.rs is taken.
    where = "circuit/mod.rs"
    start = once(text, "pub mod builder;\n", where)
    last = "pub use trotter::TrotterOrder;\n"
    stop = once(text, last, where) + len(last)
    return text[:start] + "pub(crate) mod clifford_t;\n" + text[stop:]


def gates(text):
    return alter(text, "gates/mod.rs", "pub(crate) mod spectral;\n", "")


def propagation(text):
    where = "propagation.rs"
    head = "use super::{PauliVec, flip_bit, get_bit, set_bit};\nuse crate::gates::Gate;\n\n"
    return (
        head
        + cut(text, where, "pub fn propagate_backward(")
        + "\n"
        + cut(text, where, "pub(crate) fn propagate_backward_words(")
    )


def main():
    speed = len(sys.argv) == 5 and sys.argv[3] == "--speed"
    if len(sys.argv) != 3 and not speed:
        fail("usage: build.py SRC OUT [--speed LIB]")
    src, out = sys.argv[1:3]
    made = {
        "sim/unified_pauli.rs": unified_pauli(read(src, "src/sim/unified_pauli.rs")),
        "sim/compiled/propagation.rs": propagation(read(src, "src/sim/compiled/propagation.rs")),
        "circuit/clifford_t.rs": read(src, "src/circuit/clifford_t.rs"),
        "circuit/mod.rs": circuit(read(src, "src/circuit/mod.rs")),
        "gates/mod.rs": gates(read(src, "src/gates/mod.rs")),
    }
    code = os.path.join(out, "code")
    for name, text in made.items():
        full = os.path.join(code, name)
        os.makedirs(os.path.dirname(full), exist_ok=True)
        with open(full, "w", encoding="utf-8") as file:
            file.write(text)
    for name in ("main.rs", "standins.rs", "hook.rs", "sheet.rs", "speed.rs"):
        shutil.copyfile(os.path.join(HERE, name), os.path.join(code, name))
    # prism-q's files use `let` chains, so the edition is 2024.
    command = ["rustc", "--edition", "2024", "-O", "--cap-lints", "allow"]
    name = "speed" if speed else "oracle"
    command += ["--crate-name", name, os.path.join(code, "main.rs")]
    command += ["-o", os.path.join(out, name)]
    if speed:
        command += ["--cfg", "speed", "-C", "link-arg=" + os.path.abspath(sys.argv[4])]
    sys.exit(subprocess.run(command).returncode)


main()
