//! Answers the sheet in the file that is named, or a Bell pair, and prints the text.
//!
//!     rustc --edition 2021 -O -o example embed/example.rs -L crates/qubit_bench/out
//!     ./example sheets/noisy.sheet

use std::io::Write;

// qubit_bench.h says what each parameter is.
#[link(name = "qubit_bench", kind = "static")]
extern "C" {
    fn qubit_bench_answer(
        sheet: *const u8,
        sheet_len: usize,
        words: *mut u64,
        words_len: usize,
        coeffs: *mut f64,
        coeffs_len: usize,
        index: *mut u32,
        index_len: usize,
        means: *mut f64,
        means_len: usize,
        out: *mut u8,
        out_len: usize,
    ) -> usize;
}

/// The answer to a sheet in lent buffers of any lengths; gives how many bytes of the text were written. It needs less than 512 KB of stack.
pub fn answer(
    sheet: &[u8],
    words: &mut [u64],
    coeffs: &mut [f64],
    index: &mut [u32],
    means: &mut [f64],
    out: &mut [u8],
) -> usize {
    // Slices are valid for their lengths, aligned, never null, and those that are written overlap no other.
    unsafe {
        qubit_bench_answer(
            sheet.as_ptr(),
            sheet.len(),
            words.as_mut_ptr(),
            words.len(),
            coeffs.as_mut_ptr(),
            coeffs.len(),
            index.as_mut_ptr(),
            index.len(),
            means.as_mut_ptr(),
            means.len(),
            out.as_mut_ptr(),
            out.len(),
        )
    }
}

/// Buffers for all sheets up to a limit and a number of qubits, made once and used for any number of sheets.
pub struct Bench {
    words: Vec<u64>,
    coeffs: Vec<f64>,
    index: Vec<u32>,
    means: Vec<f64>,
    out: Vec<u8>,
}

impl Bench {
    pub fn new(limit: usize, qubits: usize) -> Self {
        Self {
            words: vec![0; 4 * limit * qubits.div_ceil(64)],
            coeffs: vec![0.0; 2 * limit],
            index: vec![0; 6 * limit + 2],
            means: vec![0.0; qubits],
            out: vec![0; 8192],
        }
    }

    /// The text of the answer.
    pub fn answer(&mut self, sheet: &[u8]) -> &[u8] {
        let count = answer(
            sheet,
            &mut self.words,
            &mut self.coeffs,
            &mut self.index,
            &mut self.means,
            &mut self.out,
        );
        &self.out[..count]
    }
}

/// The mean of Z on wire 0 times Z on wire 1, after a Hadamard gate and a controlled NOT: 1.
const BELL: &str = "qubits=2
run=full
epsilon=0000000000000000
max_terms=0
limit=256
terms=1
term=3ff0000000000000:Z0,Z1
ops=2
op=h:0
op=cx:0,1
";

fn main() -> std::io::Result<()> {
    let sheet = match std::env::args_os().nth(1) {
        Some(path) => std::fs::read(path)?,
        None => BELL.into(),
    };
    // As much room as `bench` has.
    let mut bench = Bench::new(256, 256);
    std::io::stdout().write_all(bench.answer(&sheet))
}
