//! The sheet and questions 1 to 7, from document 01 and its readings. prism-q
//! has no such thing.
//!
//! Everything in this file is ours.

pub struct Term {
    pub weight: f64,
    /// Letter and qubit of each factor.
    pub factors: Vec<(u8, u64)>,
}

pub struct Op {
    pub name: &'static str,
    pub targets: Vec<u64>,
    pub reals: Vec<f64>,
}

pub struct Sheet {
    pub qubits: u64,
    pub run: &'static str,
    pub epsilon: f64,
    pub max_terms: u64,
    pub limit: u64,
    pub terms: Vec<Term>,
    pub ops: Vec<Op>,
}

/// Name, number of targets, number of reals.
const NAMES: [(&str, usize, usize); 24] = [
    ("id", 1, 0),
    ("x", 1, 0),
    ("y", 1, 0),
    ("z", 1, 0),
    ("h", 1, 0),
    ("s", 1, 0),
    ("sdg", 1, 0),
    ("t", 1, 0),
    ("tdg", 1, 0),
    ("sx", 1, 0),
    ("sxdg", 1, 0),
    ("cx", 2, 0),
    ("cz", 2, 0),
    ("swap", 2, 0),
    ("rz", 1, 2),
    ("p", 1, 2),
    ("rzz", 2, 2),
    ("barrier", 0, 0),
    ("pauli", 1, 3),
    ("depol", 1, 1),
    ("damp", 1, 1),
    ("phase", 1, 1),
    ("thermal", 1, 3),
    ("depol2", 2, 1),
];

const RUNS: [&str; 5] = ["full", "cone", "all", "path", "wide"];

pub fn is_channel(name: &str) -> bool {
    matches!(
        name,
        "pauli" | "depol" | "damp" | "phase" | "thermal" | "depol2"
    )
}

// ---- question 1 ----

fn decimal(text: &[u8]) -> Option<u64> {
    if text.is_empty() || (text[0] == b'0' && text.len() > 1) {
        return None;
    }
    let mut value = 0u64;
    for &byte in text {
        if !byte.is_ascii_digit() {
            return None;
        }
        value = value.checked_mul(10)?.checked_add(u64::from(byte - b'0'))?;
    }
    Some(value)
}

fn real(text: &[u8]) -> Option<f64> {
    if text.len() != 16 {
        return None;
    }
    let mut bits = 0u64;
    for &byte in text {
        let digit = match byte {
            b'0'..=b'9' => byte - b'0',
            b'a'..=b'f' => byte - b'a' + 10,
            _ => return None,
        };
        bits = bits * 16 + u64::from(digit);
    }
    Some(f64::from_bits(bits))
}

/// The parts of `text` between commas, each read by `part`; an empty text has
/// no parts.
fn parts<T>(text: &[u8], part: impl Fn(&[u8]) -> Option<T>) -> Option<Vec<T>> {
    if text.is_empty() {
        return Some(Vec::new());
    }
    text.split(|&byte| byte == b',').map(part).collect()
}

fn term(value: &[u8]) -> Option<Term> {
    let colon = value.iter().position(|&byte| byte == b':')?;
    let factors = parts(&value[colon + 1..], |factor| match factor {
        [letter @ (b'X' | b'Y' | b'Z'), qubit @ ..] => Some((*letter, decimal(qubit)?)),
        _ => None,
    })?;
    Some(Term {
        weight: real(&value[..colon])?,
        factors,
    })
}

fn op(value: &[u8]) -> Option<Op> {
    let fields: Vec<&[u8]> = value.split(|&byte| byte == b':').collect();
    let &(name, targets, reals) = NAMES
        .iter()
        .find(|(name, _, _)| name.as_bytes() == fields[0])?;
    if fields.len() != if reals == 0 { 2 } else { 3 } {
        return None;
    }
    let op = Op {
        name,
        targets: parts(fields[1], decimal)?,
        reals: match fields.get(2) {
            Some(field) => parts(field, real)?,
            None => Vec::new(),
        },
    };
    (op.targets.len() == targets && op.reals.len() == reals).then_some(op)
}

/// The lines of a sheet, taken one by one.
struct Lines<'a> {
    rest: &'a [u8],
    line: usize,
}

impl<'a> Lines<'a> {
    /// Read the next line as `key=` and a value. The error is its number.
    fn take<T>(&mut self, key: &str, value: impl Fn(&'a [u8]) -> Option<T>) -> Result<T, usize> {
        self.line += 1;
        let end = self.rest.iter().position(|&byte| byte == b'\n');
        let end = end.ok_or(self.line)?;
        let text = &self.rest[..end];
        self.rest = &self.rest[end + 1..];
        text.strip_prefix(key.as_bytes())
            .and_then(|text| text.strip_prefix(b"="))
            .and_then(value)
            .ok_or(self.line)
    }

    fn take_many<T>(
        &mut self,
        count: u64,
        key: &str,
        value: impl Fn(&'a [u8]) -> Option<T>,
    ) -> Result<Vec<T>, usize> {
        let mut taken = Vec::new();
        while (taken.len() as u64) < count {
            taken.push(self.take(key, &value)?);
        }
        Ok(taken)
    }
}

/// Question 1: the sheet, or the line at which it is not laid out.
pub fn read(bytes: &[u8]) -> Result<Sheet, usize> {
    let mut lines = Lines {
        rest: bytes,
        line: 0,
    };
    let qubits = lines.take("qubits", decimal)?;
    let run = lines.take("run", |text| {
        RUNS.into_iter().find(|run| run.as_bytes() == text)
    })?;
    let epsilon = lines.take("epsilon", real)?;
    let max_terms = lines.take("max_terms", decimal)?;
    let limit = lines.take("limit", decimal)?;
    let count = lines.take("terms", decimal)?;
    let terms = lines.take_many(count, "term", term)?;
    let count = lines.take("ops", decimal)?;
    let ops = lines.take_many(count, "op", op)?;
    if !lines.rest.is_empty() {
        return Err(lines.line + 1);
    }
    Ok(Sheet {
        qubits,
        run,
        epsilon,
        max_terms,
        limit,
        terms,
        ops,
    })
}

// ---- questions 2 to 7 ----

/// A fault of question 5 or 6.
pub struct Fault {
    pub status: u32,
    pub line: usize,
    pub in_term: bool,
}

fn faults_of(qubits: u64, named: &[u64], line: usize, in_term: bool, out: &mut Vec<Fault>) {
    for (at, qubit) in named.iter().enumerate() {
        let mut fault = |status| {
            out.push(Fault {
                status,
                line,
                in_term,
            })
        };
        if *qubit >= qubits {
            fault(5);
        }
        if named[..at].contains(qubit) {
            fault(6);
        }
    }
}

/// Every fault of questions 5 and 6, in line order.
pub fn faults(sheet: &Sheet) -> Vec<Fault> {
    let mut out = Vec::new();
    for (at, term) in sheet.terms.iter().enumerate() {
        let named: Vec<u64> = term.factors.iter().map(|factor| factor.1).collect();
        faults_of(sheet.qubits, &named, 7 + at, true, &mut out);
    }
    for (at, op) in sheet.ops.iter().enumerate() {
        let line = 8 + sheet.terms.len() + at;
        faults_of(sheet.qubits, &op.targets, line, false, &mut out);
    }
    out
}

fn question_2(sheet: &Sheet) -> Option<usize> {
    let (terms, ops) = (sheet.terms.len() as u64, sheet.ops.len());
    if !(1..=256).contains(&sheet.qubits) {
        return Some(1);
    }
    if !(1..=1_048_576).contains(&sheet.limit) {
        return Some(5);
    }
    if terms > 1024 || terms > sheet.limit {
        return Some(6);
    }
    (ops > 4096).then_some(7 + sheet.terms.len())
}

pub fn question_3(sheet: &Sheet) -> Option<usize> {
    let terms = sheet.terms.len();
    match sheet.run {
        "cone" if terms != 1 => return Some(6),
        "cone" if sheet.terms[0].weight != 1.0 => return Some(7),
        "all" if terms != 0 => return Some(6),
        "path" | "wide" => return None,
        _ => {}
    }
    let op = sheet.ops.iter().position(|op| is_channel(op.name))?;
    Some(8 + terms + op)
}

fn question_4(sheet: &Sheet) -> Option<usize> {
    if !(sheet.epsilon.is_finite() && sheet.epsilon >= 0.0) {
        return Some(3);
    }
    if let Some(at) = sheet.terms.iter().position(|term| !term.weight.is_finite()) {
        return Some(7 + at);
    }
    let at = sheet.ops.iter().position(|op| {
        let least = if is_channel(op.name) { 0.0 } else { -1.0 };
        !op.reals.iter().all(|real| (least..=1.0).contains(real))
    })?;
    Some(8 + sheet.terms.len() + at)
}

/// A number of question 4's ranges, cut toward zero to whole multiples of 2^-60: how many its size has. 2^-1074 times the digits, shifted by the
/// exponent, is the number; 1074 - 60 is 1014.
fn multiples(real: f64) -> u128 {
    let (exponent, low) = (real.to_bits() >> 52 & 0x7ff, real.to_bits() & 0xf_ffff_ffff_ffff);
    let (digits, power) = if exponent == 0 { (low, 0) } else { (low | 1 << 52, exponent - 1) };
    let digits = u128::from(digits);
    if power >= 1014 { digits << (power - 1014) } else { digits.checked_shr(1014 - power as u32).unwrap_or(0) }
}

/// Question 11 of one op: rz, p and rzz have an angle, the rates of pauli sum to at most 1.
fn holds(op: &Op) -> bool {
    let cut: Vec<u128> = op.reals.iter().map(|real| multiples(*real)).collect();
    match op.name {
        "rz" | "p" | "rzz" => (cut[0] * cut[0] + cut[1] * cut[1]).abs_diff(1 << 120) <= 1 << 70,
        "pauli" => cut.iter().sum::<u128>() <= 1 << 60,
        _ => true,
    }
}

fn question_11(sheet: &Sheet) -> Option<usize> {
    let at = sheet.ops.iter().position(|op| !holds(op))?;
    Some(8 + sheet.terms.len() + at)
}

/// The first of questions 2 to 7 that fails, 11 after 4, and its line.
pub fn refusal(sheet: &Sheet, rows: u64, means: u64) -> Option<(u32, usize)> {
    let asked = [question_2, question_3, question_4];
    for (status, question) in (2u32..).zip(asked) {
        if let Some(line) = question(sheet) {
            return Some((status, line));
        }
    }
    // After 4 (2026-06).
    if let Some(line) = question_11(sheet) {
        return Some((11, line));
    }
    // 5 and 6 line by line, 5 before 6 on one line (2026-01).
    let faults = faults(sheet);
    if let Some(first) = faults.iter().min_by_key(|fault| (fault.line, fault.status)) {
        return Some((first.status, first.line));
    }
    let short = rows < 2 * sheet.limit || (sheet.run == "all" && means < sheet.qubits);
    short.then_some((7, 0))
}
