//! The program `speed`: times ours against prism-q's Rust, in one process, on
//! the same sheets.
//!
//!     speed [--rust-only] [--bare] FILE..    a table, a line for each file
//!     speed --once ours|rust N FILE          one side alone, N passes
//!     speed --texts FILE                     the Rust's answers
//!
//! A file has a line `#lent ROWS QUBITS` and then sheets as in a stream. ROWS
//! is how many rows are lent for sheets of up to QUBITS qubits.
//!
//! Ours is `qubit_bench_answer` on the bytes of a sheet; its buffers are made
//! once for a file and used for all of its sheets. The Rust is `answer` of
//! main.rs: sheet.rs reads the sheet, prism-q runs, and the same text is
//! printed. It allocates as it does: the sheet, the circuit, the vector of
//! terms and the hash map are made for each sheet, grow during the run and are
//! freed after it. Only the string that it prints to is used again.
//!
//! Everything in this file is ours.

use crate::{Room, answer, hook};
use std::hint::black_box;
use std::sync::atomic::Ordering::Relaxed;

unsafe extern "C" {
    fn qubit_bench_answer(
        sheet: *const u8,
        sheet_len: usize,
        words: *mut u64,
        words_len: usize,
        coeffs: *mut f64,
        coeffs_len: usize,
        index: *mut u32,
        index_len: usize,
        means: *mut f64,
        means_len: usize,
        out: *mut u8,
        out_len: usize,
    ) -> usize;

    /// Of the C library.
    fn clock_gettime(clock: i32, time: *mut [i64; 2]) -> i32;
}

/// Processor time of this thread, in microseconds: other programs on the
/// machine do not count.
fn now() -> f64 {
    const CLOCK_THREAD_CPUTIME_ID: i32 = 3;
    let mut time = [0; 2];
    // `timespec` is two 64-bit numbers on x86-64.
    let failed = unsafe { clock_gettime(CLOCK_THREAD_CPUTIME_ID, &mut time) };
    assert_eq!(failed, 0, "the processor time");
    time[0] as f64 * 1e6 + time[1] as f64 / 1e3
}

// ---- a file of sheets ----

struct Kind {
    name: String,
    rows: usize,
    width: usize,
    sheets: Vec<Vec<u8>>,
}

/// The line at the start of `rest` without its `mark`, as numbers.
fn numbers(rest: &mut &[u8], mark: &str) -> Vec<usize> {
    let end = rest.iter().position(|&byte| byte == b'\n');
    let (line, after) = rest.split_at(end.expect("a line"));
    *rest = &after[1..];
    let line = std::str::from_utf8(line).ok();
    let line = line.and_then(|line| line.strip_prefix(mark)).expect(mark);
    line.split_whitespace()
        .map(|number| number.parse().expect("a number"))
        .collect()
}

fn load(path: &str) -> Kind {
    let bytes = std::fs::read(path).expect(path);
    let mut rest = &bytes[..];
    let lent = numbers(&mut rest, "#lent ");
    let mut sheets = Vec::new();
    while !rest.is_empty() {
        let count = numbers(&mut rest, "#sheet ")[0];
        let (sheet, after) = rest.split_at(count);
        sheets.push(sheet.to_vec());
        rest = after;
    }
    let name = std::path::Path::new(path).file_stem().unwrap();
    Kind {
        name: name.to_string_lossy().into_owned(),
        rows: lent[0],
        width: lent[1].div_ceil(64),
        sheets,
    }
}

// ---- the two sides ----

struct Ours {
    words: Vec<u64>,
    coeffs: Vec<f64>,
    index: Vec<u32>,
    means: Vec<f64>,
    out: Vec<u8>,
}

impl Ours {
    fn new(kind: &Kind) -> Self {
        Self {
            words: vec![0; 2 * kind.width * kind.rows],
            coeffs: vec![0.0; kind.rows],
            index: vec![0; 3 * kind.rows + 2],
            means: vec![0.0; 256],
            out: vec![0; 8192],
        }
    }

    fn answer(&mut self, sheet: &[u8]) -> &[u8] {
        let count = unsafe {
            qubit_bench_answer(
                sheet.as_ptr(),
                sheet.len(),
                self.words.as_mut_ptr(),
                self.words.len(),
                self.coeffs.as_mut_ptr(),
                self.coeffs.len(),
                self.index.as_mut_ptr(),
                self.index.len(),
                self.means.as_mut_ptr(),
                self.means.len(),
                self.out.as_mut_ptr(),
                self.out.len(),
            )
        };
        &self.out[..count]
    }
}

struct Rust {
    room: Room,
    out: String,
}

impl Rust {
    fn new(kind: &Kind) -> Self {
        Self {
            room: Room {
                longest: usize::MAX,
                rows: kind.rows as u64,
                means: 256,
            },
            out: String::new(),
        }
    }

    fn answer(&mut self, sheet: &[u8]) -> &str {
        self.out.clear();
        answer(sheet, &self.room, &mut self.out);
        &self.out
    }

    /// The text without its remarks.
    fn text(&mut self, sheet: &[u8]) -> String {
        let lines = self.answer(sheet).split_inclusive('\n');
        lines.filter(|line| !line.starts_with('#')).collect()
    }
}

/// Microseconds of one pass over the sheets.
fn pass(kind: &Kind, mut each: impl FnMut(&[u8])) -> f64 {
    let start = now();
    for sheet in &kind.sheets {
        each(black_box(sheet));
    }
    now() - start
}

fn pass_ours(kind: &Kind, ours: &mut Ours) -> f64 {
    pass(kind, |sheet| {
        black_box(ours.answer(sheet));
    })
}

fn pass_rust(kind: &Kind, rust: &mut Rust) -> f64 {
    pass(kind, |sheet| {
        black_box(rust.answer(sheet));
    })
}

// ---- the comparison ----

/// The value of a line of the text.
fn field(text: &str, key: &str) -> usize {
    let line = text.lines().find_map(|line| line.strip_prefix(key));
    line.and_then(|value| value.parse().ok()).expect(key)
}

/// Stops at a sheet that is not answered alike. Gives the most terms of any.
fn compare(kind: &Kind, mut ours: Option<&mut Ours>, rust: &mut Rust, bare: bool) -> usize {
    let mut peak = 0;
    for (at, sheet) in kind.sheets.iter().enumerate() {
        let theirs = rust.text(sheet);
        peak = peak.max(field(&theirs, "peak_terms="));
        let Some(ours) = &mut ours else { continue };
        // prism-q does not count the terms that an op met.
        let answer = String::from_utf8_lossy(ours.answer(sheet));
        let told = answer.split_inclusive('\n').filter(|line| !line.starts_with("touched="));
        let text: String = told.collect();
        // Without the looks the Rust does not answer 8.
        if text != theirs && !(bare && text.starts_with("status=8\n")) {
            eprintln!("{}, sheet {at}: ours\n{text}the Rust\n{theirs}", kind.name);
            std::process::exit(1);
        }
    }
    peak
}

/// The best of alternating passes: at least 5, and 0.3 s for each side; 3 where
/// the two take more than a second, 2 where they take more than 20.
fn measure(kind: &Kind, rust_only: bool, bare: bool) {
    let mut ours = (!rust_only).then(|| Ours::new(kind));
    let mut rust = Rust::new(kind);
    let peak = compare(kind, ours.as_mut(), &mut rust, bare);
    let mut best = [f64::INFINITY; 2];
    let mut total = [0.0; 2];
    let mut passes = 0;
    loop {
        let mut took = [0.0; 2];
        if let Some(ours) = &mut ours {
            took[0] = pass_ours(kind, ours);
        }
        took[1] = pass_rust(kind, &mut rust);
        for side in 0..2 {
            best[side] = took[side].min(best[side]);
            total[side] += took[side];
        }
        passes += 1;
        let least = match took[0] + took[1] {
            2e7.. => 2,
            1e6.. => 3,
            _ => 5,
        };
        let short = total[1] < 3e5 || (ours.is_some() && total[0] < 3e5);
        if passes >= least && (least < 5 || !short) {
            break;
        }
    }
    let count = kind.sheets.len();
    let [ours, theirs] = best.map(|best| best / count as f64);
    print!("{:<12} {count:>6} {peak:>8} ", kind.name);
    match rust_only {
        true => println!("{:>12} {theirs:>12.1} {:>7}", "", ""),
        false => println!("{ours:>12.1} {theirs:>12.1} {:>7.2}", ours / theirs),
    }
}

pub fn main() {
    let arguments: Vec<String> = std::env::args().skip(1).collect();
    let arguments: Vec<&str> = arguments.iter().map(String::as_str).collect();
    match arguments[..] {
        ["--once", side, passes, file] => {
            let kind = load(file);
            let passes = passes.parse().expect("a number of passes");
            let (mut ours, mut rust) = (Ours::new(&kind), Rust::new(&kind));
            for _ in 0..passes {
                match side {
                    "ours" => pass_ours(&kind, &mut ours),
                    "rust" => pass_rust(&kind, &mut rust),
                    _ => panic!("ours or rust"),
                };
            }
        }
        ["--texts", file] => {
            let kind = load(file);
            let mut rust = Rust::new(&kind);
            for (at, sheet) in kind.sheets.iter().enumerate() {
                print!("#sheet {at}\n{}", rust.text(sheet));
            }
        }
        _ => {
            let rust_only = arguments.contains(&"--rust-only");
            let bare = arguments.contains(&"--bare");
            hook::LOOKS.store(!bare, Relaxed);
            println!("kind         sheets     peak      ours us      Rust us   ratio");
            for file in arguments.iter().filter(|text| !text.starts_with("--")) {
                measure(&load(file), rust_only, bare);
            }
        }
    }
}
