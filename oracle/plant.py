#!/usr/bin/env python3
"""Plant errors in copies of the oracle and see which a comparison catches.

  plant.py OUT [--right COMMAND] [--seed 1] [--count 20000]

OUT is the folder that build.py made. Each error is put into a copy of
OUT/code at one place, found by a short text; the copy is compiled and
compared over one stream with COMMAND (the oracle itself if none is given).
The stream is that of generate.py, and after it the sheets of the requests of
document 02 (`CHANGED` of cases.py), since few drawn sheets have a mean at
which the requests' rules show.
"""

import argparse
import os
import re
import shutil
import subprocess
import sys

import cases

HERE = os.path.dirname(os.path.abspath(__file__))
PAULI, WORDS = "sim/unified_pauli.rs", "sim/compiled/propagation.rs"
OURS, HOOK, SHEET = "main.rs", "hook.rs", "sheet.rs"
MINUS, PLUS = "Complex64::new(-1.0, 0.0)", "Complex64::new(1.0, 0.0)"
TURN, BACK = "Complex64::new(0.0, 1.0)", "Complex64::new(0.0, -1.0)"
ENFORCE = "truncation.enforce(&mut sum, &mut total_discarded);"
CEILING = "if sum.terms.len() > SPD_MAX_TERMS_CEILING { return None; }"

# Name, file, a text that occurs once, the text after it that is altered (its
# first occurrence), what stands there instead.
PLANTS = [
    ("h without its sign", PAULI, "        Gate::H => {", MINUS, PLUS),
    ("s conjugated forward", PAULI, "        Gate::S => {", BACK, TURN),
    ("sdg conjugated forward", PAULI, "        Gate::Sdg => {", TURN, BACK),
    ("x signs X", PAULI, "        Gate::X => {", "pv_get_bit(z, q)", "pv_get_bit(x, q)"),
    ("y signs Y", PAULI, "        Gate::Y => {", "xq ^ zq", "xq && zq"),
    ("z signs Z", PAULI, "        Gate::Z => {", "pv_get_bit(x, q)", "pv_get_bit(z, q)"),
    ("sx conjugated forward", PAULI, "        Gate::SX => {", TURN, BACK),
    ("sxdg without phase", PAULI, "        Gate::SXdg => {", BACK, PLUS),
    ("cz signs at one X", PAULI, "        Gate::Cz => {", "&& pv_get", "|| pv_get"),
    ("cx with its targets swapped", WORDS, "Gate::Cx => {", "let tgt = targets[1];", "let (ctrl, tgt) = (targets[1], ctrl);"),
    ("cx leaves z", WORDS, "Gate::Cx => {", "flip_bit(z, ctrl)", "{}"),
    ("swap leaves z", WORDS, "Gate::Swap => {", "set_bit(z, q0, z1)", "{}"),
    ("cz flips one side", WORDS, "Gate::Cz => {", "flip_bit(z, q1)", "{}"),
    ("sx flips z", WORDS, "Gate::SX => {", "flip_bit(x, q)", "flip_bit(z, q)"),
    ("flip without its minus", PAULI, "let flipped_coeff", "-c.re * sin", "c.re * sin"),
    (
        "multiply and add fused",
        PAULI,
        "let flipped_coeff",
        "ci * cos + flipped_coeff(cj)",
        "{ let f = flipped_coeff(cj); "
        "Complex64::new(ci.re.mul_add(cos, f.re), ci.im.mul_add(cos, f.im)) }",
    ),
    (
        "partner updated from the new value",
        PAULI,
        "let flipped_coeff",
        "cj * cos + flipped_coeff(ci)",
        "cj * cos + flipped_coeff(self.terms[i].1)",
    ),
    ("sine -0 branches", PAULI, "    fn branch(", "if sin == 0.0", "if sin.to_bits() == 0"),
    ("cosine 0 branches", PAULI, "let flipped_coeff", "else if cos == 0.0", "else if false"),
    ("two met terms never pair", PAULI, "    fn branch(", ".len() > 1", ".len() > 2"),
    ("rzz met at both targets", PAULI, "    fn branch_zz_rotation(", "a) != get", "a) | get"),
    ("rzz flips one target", PAULI, "    fn branch_zz_rotation(", "flip_bit(z, b);", ""),
    (
        "merging drops zero rows",
        PAULI,
        "    fn coalesce(",
        "self.terms.extend(merged)",
        "self.terms.extend(merged.into_iter().filter(|term| term.1.norm() != 0.0))",
    ),
    (
        "merging lists rows from the last",
        PAULI,
        "    fn coalesce(",
        "self.terms.extend(merged)",
        "self.terms.extend(merged.into_iter().rev())",
    ),
    (
        "Z scaled before its identity branch",
        PAULI,
        "    fn apply_backward_channel(",
        "branches(q, z_to_identity)",
        "branches(q, z_to_identity * lambda[2])",
    ),
    ("identity branch of Y", PAULI, "    fn add_identity_branches(", "Some(2)", "Some(1)"),
    (
        "identity branch never merged",
        PAULI,
        "    fn add_identity_branches(",
        "self.partner[k] = i",
        "let _ = (k, i)",
    ),
    ("depol2 needs both letters", PAULI, "ChannelAction::Depolarizing2q { lambda } => {", "||", "&&"),
    ("depol divides first", PAULI, "fn channel_action(", "4.0 * p / 3.0", "4.0 / 3.0 * p"),
    ("depol2 divides first", PAULI, "fn channel_action(", "16.0 * p / 15.0", "16.0 / 15.0 * p"),
    ("pauli in another order", PAULI, "fn channel_action(", "pi + py - px - pz", "pi - px + py - pz"),
    ("phase keeps Y", PAULI, "fn channel_action(", "[keep, keep, 1.0]", "[keep, 1.0, 1.0]"),
    ("thermal from gpd", PAULI, "fn channel_action(", "gad * (1.0", "gpd * (1.0"),
    (
        "thermal in another order",
        PAULI,
        "fn channel_action(",
        "gad * (1.0 - 2.0 * *excited_population)",
        "(gad - 2.0 * gad * *excited_population)",
    ),
    ("drop at epsilon too", PAULI, "    fn truncate(", "< epsilon", "<= epsilon"),
    (
        "dropped sizes added one by one",
        PAULI,
        "fn enforce_itself<",
        "*total_discarded += sum.truncate(epsilon)",
        "{ for term in &sum.terms { if term.1.norm() < epsilon { *total_discarded += term.1.norm(); } } "
        "sum.truncate(epsilon); }",
    ),
    ("truncate at max_terms", PAULI, "fn enforce_itself<", "len() > max", "len() >= max"),
    (
        "no last drop without max_terms",
        PAULI,
        "fn final_sweep_itself<",
        "Threshold { epsilon, .. } = *self",
        "Threshold { epsilon, max_terms: 1.. } = *self",
    ),
    (
        "peak before truncation",
        PAULI,
        "fn propagate_spd<",
        ENFORCE,
        "peak_terms = peak_terms.max(sum.terms.len()); " + ENFORCE,
    ),
    ("9 before truncation", PAULI, "fn propagate_pauli_path<", ENFORCE, CEILING + ENFORCE),
    ("9 at limit", PAULI, "fn propagate_pauli_path<", "> SPD_MAX", ">= SPD_MAX"),
    (
        "cone: 9 at limit",
        PAULI,
        "fn check_spd_term_ceiling(",
        "len > SPD_MAX",
        "len >= SPD_MAX",
    ),
    (
        "barrier truncates in path",
        PAULI,
        "fn pauli_path_ops(",
        "Instruction::Barrier { .. } => {}",
        "Instruction::Barrier { .. } => { ops.push(PathOp::Gate(Gate::Id, SmallVec::from_slice(&[0]))); }",
    ),
    (
        "barrier does nothing in full",
        PAULI,
        "fn propagate_spd<",
        ENFORCE,
        "else { continue; } " + ENFORCE,
    ),
    (
        "fold at the line's weight",
        PAULI,
        "pub(crate) fn run_spd_weighted_observable_with(",
        "merged(&[(1.0, observable)])",
        "merged(&[(weight, observable)])",
    ),
    (
        "fold's discarded without absolute value",
        PAULI,
        "pub(crate) fn run_pauli_path_weighted_observable(",
        "weight.abs() * result",
        "weight * result",
    ),
    (
        "fold's peak added up",
        PAULI,
        "pub(crate) fn run_spd_weighted_observable_with(",
        "folded.peak_terms.max(result.peak_terms)",
        "folded.peak_terms + result.peak_terms",
    ),
    (
        "two lines are not folded",
        PAULI,
        "pub(crate) fn run_pauli_path_weighted_observable(",
        "terms.len() < 2",
        "terms.len() < 3",
    ),
    ("cone does not grow", PAULI, "pub fn inverse_light_cone(", "cone.insert(q);", ""),
    ("cone marks by its first target", PAULI, "pub fn inverse_light_cone(", "targets.iter()", "targets[..1].iter()"),
    ("all: peak starts at 1", PAULI, "fn run_spd_lowered<", "peak_terms = 0usize", "peak_terms = 1usize"),
    (
        "all: discarded starts anew",
        PAULI,
        "fn run_spd_lowered<",
        "let mut z_q = ",
        "total_discarded = 0.0; let mut z_q = ",
    ),
    ("t_count without rzz", PAULI, "fn count_branching_gates(", "|| zz_rotation_angle(gate).is_some()", ""),
    (
        "mean of the first word's x",
        PAULI,
        "    fn diagonal_expectation(",
        "pauli.x().iter().all(|&w| w == 0)",
        "pauli.x()[0] == 0",
    ),
    (
        "mean summed from the last row",
        PAULI,
        "    fn diagonal_expectation(",
        "in &self.terms {",
        "in self.terms.iter().rev() {",
    ),
    ("Y without its i", PAULI, "fn pauli_vec_from_terms(", "coeff *= " + TURN, "let _ = 0"),
    ("repeated factors accepted", PAULI, "fn pauli_vec_from_terms(", "if seen[term.qubit]", "if false"),
    ("t with two equal numbers", HOOK, "pub const T_SINE: u64 =", "0x3fe6a09e667f3bcc", "0x3fe6a09e667f3bcd"),
    ("tdg as t", HOOK, "if theta == -std", "(-sine, cosine)", "(sine, cosine)"),
    ("shown cut toward zero", OURS, "fn shown(", "Greater => whole + 1", "Greater => whole"),
    ("shown with a half away from zero", OURS, "fn shown(", "whole + whole % 2", "whole + 1"),
    ("shown from a rounded product", OURS, "fn shown(", "thousands % one)", "thousands % one >> 10 << 10)"),
    ("shown held at 10^9", OURS, "fn shown(", "999_999_999", "1_000_000_000"),
    ("shown without its sign", OURS, "fn shown(", "{ -size }", "{ size }"),
    ("5 before 6 over the whole sheet", SHEET, "pub fn refusal(", "(fault.line, fault.status)", "(fault.status, fault.line as u32)"),
    ("6 before 5 on one line", SHEET, "pub fn refusal(", "(fault.line, fault.status)", "(fault.line, 6 - fault.status)"),
    ("11 cut to nearest", SHEET, "fn multiples(", "digits.checked_shr(1014 - power as u32).unwrap_or(0)", "(digits.checked_shr(1013 - power as u32).unwrap_or(0) + 1) / 2"),
    ("11 with 2^-51", SHEET, "fn holds(", "1 << 70", "1 << 69"),
    ("11 with a strict bound", SHEET, "fn holds(", "<= 1 << 70", "< 1 << 70"),
    ("11 with rates below 1", SHEET, "fn holds(", "<= 1 << 60", "< 1 << 60"),
    ("11 of numbers that are not cut", SHEET, "fn holds(", "(cut[0] * cut[0] + cut[1] * cut[1]).abs_diff(1 << 120) <= 1 << 70", "(op.reals[0] * op.reals[0] + op.reals[1] * op.reals[1] - 1.0).abs() <= 2f64.powi(-50)"),
    ("11 of thermal", SHEET, "fn holds(", '"pauli" =>', '"pauli" | "thermal" =>'),
    ("11 not of p", SHEET, "fn holds(", '"rz" | "p" | "rzz"', '"rz" | "rzz"'),
    ("11 after 5 and 6", SHEET, "pub fn refusal(", "if let Some(line) = question_11(sheet)", "if let (Some(line), true) = (question_11(sheet), faults(sheet).is_empty())"),
    ("11 before 4", SHEET, "pub fn refusal(", "[question_2, question_3, question_4]", "[question_2, question_3, |s: &Sheet| question_11(s).map_or_else(|| question_4(s), |_| None)]"),
]


def planted(text, where, after, old, new):
    if text.count(after) != 1:
        sys.exit("plant.py: %r occurs %d times in %s" % (after, text.count(after), where))
    start = text.index(after)
    at = text.find(old, start)
    if at < 0:
        sys.exit("plant.py: %r is not after %r in %s" % (old, after, where))
    return text[:at] + new + text[at + len(old) :]


def main():
    parser = argparse.ArgumentParser(description=__doc__, formatter_class=argparse.RawTextHelpFormatter)
    parser.add_argument("out")
    parser.add_argument("--right")
    parser.add_argument("--seed", type=int, default=1)
    parser.add_argument("--count", type=int, default=20000)
    parser.add_argument("--first", type=int, default=0, help="errors left out at the start of the list")
    given = parser.parse_args()
    right = given.right or os.path.join(given.out, "oracle")
    code, copy = os.path.join(given.out, "code"), os.path.join(given.out, "planted")
    generate = [sys.executable, os.path.join(HERE, "generate.py")]
    generate += ["--seed", str(given.seed), "--count", str(given.count)]
    stream = subprocess.run(generate, stdout=subprocess.PIPE, check=True).stdout
    stream += b"".join(b"#sheet %d\n" % len(text) + text for _, text, _ in cases.CHANGED)
    caught = 0
    for name, file, after, old, new in PLANTS[given.first :]:
        shutil.rmtree(copy, ignore_errors=True)
        shutil.copytree(code, copy)
        full = os.path.join(copy, file)
        with open(full, encoding="utf-8") as source:
            text = source.read()
        text = planted(text, file, after, old, new)
        with open(full, "w", encoding="utf-8") as source:
            source.write(text)
        program = os.path.join(copy, "oracle")
        command = ["rustc", "--edition", "2024", "-C", "opt-level=1", "--cap-lints", "allow"]
        command += ["--crate-name", "oracle", os.path.join(copy, "main.rs"), "-o", program]
        if subprocess.run(command, stderr=subprocess.DEVNULL).returncode != 0:
            sys.exit("plant.py: %s does not compile" % name)
        command = [sys.executable, os.path.join(HERE, "compare.py"), program, right]
        run = subprocess.run(command, input=stream, stdout=subprocess.PIPE)
        found = re.search(rb"^different: ([0-9]+)$", run.stdout, re.M)
        differ = int(found.group(1)) if found else 0
        if run.returncode != 0 and not found:
            differ = -1  # the copy broke down
        caught += differ != 0
        print("%-45s %s" % (name, "broke down" if differ < 0 else differ or "NOT CAUGHT"), flush=True)
    shutil.rmtree(copy)
    print("%d planted, %d caught" % (len(PLANTS[given.first :]), caught))


main()
