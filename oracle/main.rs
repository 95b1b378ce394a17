//! The oracle: answers sheets with prism-q's own code.
//!
//! From prism-q: whether a run succeeds or meets 9, the mean and the `z=`
//! means, t_count, peak_terms, the discarded weight, the remaining rows, and
//! the number of a term's 5 or 6 where that is the sheet's only kind of fault.
//! From the rules of document 01 (sheet.rs and here): reading the sheet, the
//! refusals 1 to 7 and their lines, question 8 (asked of prism-q's numbers, at
//! the places where document 01 asks it), `shown` (as request 2026-03 of
//! document 02 has it), t_count 0 in `path`, and the printing.
//!
//! Everything in this file is ours.

extern crate self as num_complex;
extern crate self as rand;
extern crate self as rand_chacha;
extern crate self as smallvec;

mod circuit;
mod gates;
mod hook;
mod sheet;
#[cfg(speed)]
mod speed;
#[macro_use]
mod standins;

mod sim {
    pub mod compiled {
        mod propagation;
        pub use crate::standins::bits::{PauliVec, flip_bit, get_bit, set_bit};
        pub(crate) use propagation::{propagate_backward, propagate_backward_words};
    }
    pub use crate::standins::noise;
    pub mod unified_pauli;

    /// Seeds of the sampling engine, which is never run.
    pub fn mix_seed(seed: u64, _qubit: usize) -> u64 {
        seed
    }
}

pub use standins::{
    ChaCha8Rng, Complex64, Rng, RngExt, SeedableRng, SmallVec, backend, env_knobs, error, hash,
};

use circuit::{Circuit, Instruction};
use error::PrismError;
use gates::Gate;
use sheet::{Op, Sheet};
use sim::noise::{NoiseChannel, NoiseEvent, NoiseModel};
use sim::unified_pauli::{
    PauliAxis, PauliTerm, SpdTruncation, run_pauli_path_weighted_observable,
    run_spd_observable_light_cone, run_spd_weighted_observable_with, run_spd_with,
};
use std::cmp::Ordering;
use std::fmt::Write as _;
use std::io::{Read, Write};

/// The room for a sheet: document 01, "Printed result", unless the options
/// `--rows` and `--long` say otherwise.
struct Room {
    longest: usize,
    rows: u64,
    means: u64,
}

/// What prism-q answers to a sheet.
struct Answer {
    mean: f64,
    means: Vec<f64>,
    t_count: usize,
    peak_terms: usize,
    discarded: f64,
}

// ---- from the sheet to prism-q's circuit ----

fn gate(op: &Op, pairs: &mut Vec<(f64, f64)>) -> Gate {
    let mut angle = || {
        pairs.push((op.reals[0], op.reals[1]));
        hook::angle(pairs.len() - 1)
    };
    match op.name {
        "id" => Gate::Id,
        "x" => Gate::X,
        "y" => Gate::Y,
        "z" => Gate::Z,
        "h" => Gate::H,
        "s" => Gate::S,
        "sdg" => Gate::Sdg,
        "t" => Gate::T,
        "tdg" => Gate::Tdg,
        "sx" => Gate::SX,
        "sxdg" => Gate::SXdg,
        "cx" => Gate::Cx,
        "cz" => Gate::Cz,
        "swap" => Gate::Swap,
        "rz" => Gate::Rz(angle()),
        "p" => Gate::P(angle()),
        "rzz" => Gate::Rzz(angle()),
        name => unreachable!("{name} is no gate"),
    }
}

fn channel(op: &Op) -> NoiseChannel {
    let reals = &op.reals;
    match op.name {
        "pauli" => NoiseChannel::Pauli {
            px: reals[0],
            py: reals[1],
            pz: reals[2],
        },
        "depol" => NoiseChannel::Depolarizing { p: reals[0] },
        "damp" => NoiseChannel::AmplitudeDamping { gamma: reals[0] },
        "phase" => NoiseChannel::PhaseDamping { gamma: reals[0] },
        "thermal" => NoiseChannel::ThermalRelaxation {
            t1: reals[0],
            t2: reals[1],
            gate_time: 0.0,
            excited_population: reals[2],
        },
        "depol2" => NoiseChannel::TwoQubitDepolarizing { p: reals[0] },
        name => unreachable!("{name} is no channel"),
    }
}

/// The ops that the run applies. prism-q has no `wide`: it is its path run of the
/// ops in the cone grown from the qubits of all terms, an op's targets joining it.
fn applied(sheet: &Sheet) -> Vec<&Op> {
    if sheet.run != "wide" {
        return sheet.ops.iter().collect();
    }
    let factors = sheet.terms.iter().flat_map(|term| &term.factors);
    let mut cone: Vec<u64> = factors.map(|&(_, qubit)| qubit).collect();
    let mut found = Vec::new();
    for op in sheet.ops.iter().rev() {
        if op.targets.iter().any(|qubit| cone.contains(qubit)) {
            cone.extend(&op.targets);
            found.push(op);
        }
    }
    found.reverse();
    found
}

/// The circuit, its noise, and the pairs of its rotations. Instructions are
/// pushed as they stand: `Circuit::add_gate` would look at the targets.
fn load(sheet: &Sheet) -> (Circuit, NoiseModel, Vec<(f64, f64)>) {
    let barrier = || Instruction::Barrier {
        qubits: SmallVec::new(),
    };
    let mut circuit = Circuit::new(sheet.qubits as usize, 0);
    let mut after_gate: Vec<Vec<NoiseEvent>> = Vec::new();
    let mut pairs = Vec::new();
    for op in applied(sheet) {
        let targets = op.targets.iter().map(|&qubit| qubit as usize);
        if sheet::is_channel(op.name) {
            if circuit.instructions.is_empty() {
                circuit.instructions.push(barrier());
                after_gate.push(Vec::new());
            }
            after_gate.last_mut().unwrap().push(NoiseEvent {
                channel: channel(op),
                qubits: targets.collect(),
            });
            continue;
        }
        circuit.instructions.push(match op.name {
            "barrier" => barrier(),
            _ => Instruction::Gate {
                gate: gate(op, &mut pairs),
                targets: targets.collect(),
            },
        });
        after_gate.push(Vec::new());
    }
    let noise = NoiseModel {
        after_gate,
        readout: Vec::new(),
    };
    (circuit, noise, pairs)
}

fn observables(sheet: &Sheet) -> Vec<(f64, Vec<PauliTerm>)> {
    let factor = |&(letter, qubit): &(u8, u64)| PauliTerm {
        qubit: qubit as usize,
        axis: PauliAxis::from_letter(letter as char).unwrap(),
    };
    let term = |term: &sheet::Term| (term.weight, term.factors.iter().map(factor).collect());
    sheet.terms.iter().map(term).collect()
}

// ---- the runs, by prism-q's functions ----

fn run(sheet: &Sheet) -> (Result<Answer, PrismError>, hook::Seen) {
    let (circuit, noise, pairs) = load(sheet);
    let terms = observables(sheet);
    let weighted: Vec<(f64, &[PauliTerm])> = terms
        .iter()
        .map(|(weight, term)| (*weight, &term[..]))
        .collect();
    let (epsilon, max_terms) = (sheet.epsilon, sheet.max_terms as usize);
    let truncation = SpdTruncation::Threshold { epsilon, max_terms };

    hook::start(sheet.limit as usize, pairs);
    let answer = match sheet.run {
        "full" => {
            run_spd_weighted_observable_with(&circuit, &weighted, &truncation).map(|found| Answer {
                mean: found.mean,
                means: Vec::new(),
                t_count: found.t_count,
                peak_terms: found.peak_terms,
                discarded: found.total_discarded,
            })
        }
        "cone" => run_spd_observable_light_cone(&circuit, weighted[0].1, epsilon, max_terms).map(
            |found| Answer {
                mean: found.mean,
                means: Vec::new(),
                t_count: found.t_count,
                peak_terms: found.peak_terms,
                discarded: found.total_discarded,
            },
        ),
        // Ends in `run_spd_lowered` without a work budget.
        "all" => run_spd_with(&circuit, &truncation).map(|found| Answer {
            mean: 0.0,
            means: found.expectations,
            t_count: found.t_count,
            peak_terms: found.max_terms,
            discarded: found.total_discarded,
        }),
        _ => run_pauli_path_weighted_observable(&circuit, &noise, &weighted, epsilon, max_terms)
            .map(|found| Answer {
                mean: found.mean,
                means: Vec::new(),
                t_count: 0,
                peak_terms: found.peak_terms,
                discarded: found.total_discarded,
            }),
    };
    (answer, hook::finish())
}

/// Document 01's number for an error of prism-q.
fn number(error: &PrismError) -> u32 {
    match error {
        PrismError::InvalidQubit { .. } => 5,
        PrismError::InvalidParameter { .. } => 6,
        PrismError::BackendUnsupported { operation, .. } if operation.contains("exceeded") => 9,
        other => unreachable!("no sheet leads to {other:?}"),
    }
}

// ---- printing ----

/// The bits of a number, zero as +0.
fn bits(real: f64) -> u64 {
    if real == 0.0 { 0 } else { real.to_bits() }
}

/// The integer nearest to the exact 1000 × |mean|, an exact half to the even
/// one, then the sign put back, then held within ±999,999,999: request 2026-03
/// of document 02. Whole numbers only, so nothing is rounded before.
fn shown(mean: f64) -> i64 {
    const MOST: u128 = 999_999_999;
    let field = (mean.to_bits() >> 52) & 0x7ff;
    let fraction = mean.to_bits() & ((1 << 52) - 1);
    // mean is significand × 2^power.
    let (significand, power) = match field {
        0 => (fraction, -1074),
        _ => (fraction | (1 << 52), field as i64 - 1075),
    };
    let thousands = 1000 * significand as u128;
    let nearest = match power {
        64.. => MOST * (significand != 0) as u128,
        0..64 => thousands << power,
        -127..0 => {
            let one = 1u128 << -power;
            let (whole, rest) = (thousands / one, thousands % one);
            match (2 * rest).cmp(&one) {
                Ordering::Less => whole,
                Ordering::Equal => whole + whole % 2,
                Ordering::Greater => whole + 1,
            }
        }
        // below 2^63 × 2^-127, far below a half
        _ => 0,
    };
    let size = nearest.min(MOST) as i64;
    if mean < 0.0 { -size } else { size }
}

fn heading(out: &mut String, status: u32, line: usize, answer: Option<&Answer>) {
    let nothing = Answer {
        mean: 0.0,
        means: Vec::new(),
        t_count: 0,
        peak_terms: 0,
        discarded: 0.0,
    };
    let answer = answer.unwrap_or(&nothing);
    let _ = write!(
        out,
        "status={status}\nline={line}\nmean={:016x}\nshown={}\nt_count={}\npeak_terms={}\n\
         discarded={:016x}\n",
        bits(answer.mean),
        shown(answer.mean),
        answer.t_count,
        answer.peak_terms,
        bits(answer.discarded)
    );
    for &mean in &answer.means {
        let _ = writeln!(out, "z={:016x}", bits(mean));
    }
}

/// The rows up to the last that is not all zero.
fn remaining(out: &mut String, rows: &[hook::Row]) {
    let words = |words: &[u64]| {
        let texts: Vec<String> = words.iter().map(|word| format!("{word:016x}")).collect();
        texts.join(",")
    };
    let is_zero = |row: &hook::Row| {
        row.x.iter().chain(&row.z).all(|&word| word == 0)
            && row.coeff.re == 0.0
            && row.coeff.im == 0.0
    };
    let count = rows
        .iter()
        .rposition(|row| !is_zero(row))
        .map_or(0, |at| at + 1);
    for row in &rows[..count] {
        let (re, im) = (bits(row.coeff.re), bits(row.coeff.im));
        let _ = writeln!(
            out,
            "row={}:{}:{re:016x},{im:016x}",
            words(&row.x),
            words(&row.z)
        );
    }
}

/// The answer to one sheet. The first line says whose its number is.
fn answer(bytes: &[u8], room: &Room, out: &mut String) {
    if bytes.len() > room.longest {
        out.push_str("#by rules\n");
        return heading(out, 1, 0, None);
    }
    let sheet = match sheet::read(bytes) {
        Ok(sheet) => sheet,
        Err(line) => {
            out.push_str("#by rules\n");
            return heading(out, 1, line, None);
        }
    };
    let refused = sheet::refusal(&sheet, room.rows, room.means);
    if let Some((status, line)) = refused {
        // A term's 5 or 6 that is the sheet's only kind of fault: the number
        // is prism-q's, the line is ours.
        let faults = sheet::faults(&sheet);
        let alone = faults
            .iter()
            .all(|fault| fault.in_term && fault.status == status);
        if matches!(status, 5 | 6) && alone && 2 * sheet.limit <= room.rows {
            let status = run(&sheet).0.err().map_or(0, |error| number(&error));
            out.push_str("#by prism-q\n");
            return heading(out, status, line, None);
        }
        out.push_str("#by rules\n");
        return heading(out, status, line, None);
    }
    let (found, seen) = run(&sheet);
    if seen.two_parts {
        out.push_str("#a coefficient had two parts that were not zero\n");
    }
    // Question 8, of prism-q's numbers. A refusal 9 that came first ended
    // prism-q's run before anything infinite was seen.
    let totals = |found: &Answer| found.mean.is_finite() && found.discarded.is_finite();
    if seen.infinite || found.as_ref().is_ok_and(|found| !totals(found)) {
        out.push_str("#by rules\n");
        return heading(out, 8, 0, None);
    }
    out.push_str("#by prism-q\n");
    match found {
        Ok(found) => {
            heading(out, 0, 0, Some(&found));
            // After `all` or a fold every row is zero.
            if sheet.run == "all" {
                return;
            }
            if seen.ends == 1 {
                remaining(out, &seen.rows);
            } else {
                out.push_str("#folded\n");
            }
        }
        Err(error) => heading(out, number(&error), 0, None),
    }
}

/// What prism-q alone says to a sheet that is laid out as document 01 has it,
/// with nothing asked before the run and nothing of question 8. A sheet that
/// fails question 3 has no call that it could stand for.
fn answer_raw(bytes: &[u8], _room: &Room, out: &mut String) {
    let Ok(sheet) = sheet::read(bytes) else {
        out.push_str("#not laid out\n");
        return;
    };
    if sheet::question_3(&sheet).is_some() {
        out.push_str("#no such call\n");
        return;
    }
    if sheet.qubits > 1 << 20 {
        out.push_str("#not asked: prism-q takes memory for every qubit\n");
        return;
    }
    match std::panic::catch_unwind(|| run(&sheet)) {
        Err(_) => out.push_str("#prism-q panics\n"),
        Ok((Err(error), _)) => {
            let _ = writeln!(out, "#prism-q: {error:?}");
            heading(out, number(&error), 0, None);
        }
        Ok((Ok(found), seen)) => {
            out.push_str("#prism-q answers\n");
            heading(out, 0, 0, Some(&found));
            if sheet.run != "all" && seen.ends == 1 {
                remaining(out, &seen.rows);
            }
        }
    }
}

/// The program `speed` is this one with another `main`.
#[cfg(speed)]
fn main() {
    speed::main();
}

#[cfg(not(speed))]
fn main() {
    let mut room = Room {
        longest: 65_536,
        rows: 512,
        means: 256,
    };
    let mut one = false;
    let mut raw = false;
    let mut options = std::env::args().skip(1);
    while let Some(option) = options.next() {
        match option.as_str() {
            "--one" => one = true,
            "--raw" => raw = true,
            "--long" => room.longest = usize::MAX,
            "--rows" => {
                let rows = options.next().and_then(|rows| rows.parse().ok());
                room.rows = rows.expect("a number of rows");
            }
            _ => {
                eprintln!("usage: oracle [--one] [--raw] [--long] [--rows N] < sheets");
                std::process::exit(2);
            }
        }
    }
    if !hook::t_is_the_machines() {
        eprintln!("note: this machine's sin_cos(pi/4) is not document 01's");
    }
    if raw {
        std::panic::set_hook(Box::new(|_| {}));
    }
    let answer = if raw { answer_raw } else { answer };
    let mut input = Vec::new();
    std::io::stdin()
        .read_to_end(&mut input)
        .expect("standard input");
    let mut output = std::io::BufWriter::new(std::io::stdout());
    let mut print = |text: &str| output.write_all(text.as_bytes()).expect("standard output");
    let mut out = String::new();
    if one {
        answer(&input, &room, &mut out);
        print(&out);
        return;
    }
    let mut rest = &input[..];
    let mut index = 0;
    while !rest.is_empty() {
        let end = rest
            .iter()
            .position(|&byte| byte == b'\n')
            .expect("a #sheet line");
        let count = std::str::from_utf8(&rest[..end])
            .ok()
            .and_then(|line| line.strip_prefix("#sheet "))
            .and_then(|count| count.parse::<usize>().ok())
            .expect("a #sheet line");
        let (bytes, after) = rest[end + 1..].split_at(count);
        rest = after;
        out.clear();
        let _ = writeln!(out, "#sheet {index}");
        answer(bytes, &room, &mut out);
        print(&out);
        index += 1;
    }
}
