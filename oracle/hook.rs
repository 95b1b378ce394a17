//! What the altered places of prism-q's files call: the numbers of the sheet
//! at hand, and a record of what a run shows while it goes. Nothing here
//! changes a number of the run.
//!
//! Everything in this file is ours.

use crate::Complex64;
use std::cell::RefCell;
use std::cmp::Ordering;
use std::fmt;
use std::sync::atomic::{AtomicBool, Ordering::Relaxed};

/// The words of one row and its coefficient.
pub struct Row {
    pub x: Vec<u64>,
    pub z: Vec<u64>,
    pub coeff: Complex64,
}

#[derive(Default)]
struct State {
    limit: usize,
    /// Sine and cosine of each rotation of the sheet.
    pairs: Vec<(f64, f64)>,
    /// Question 8 has been answered no.
    infinite: bool,
    /// Some coefficient had two parts that were not zero.
    two_parts: bool,
    /// The terms at the last end of a run, and how many runs have ended.
    rows: Vec<Row>,
    ends: usize,
}

thread_local! {
    static STATE: RefCell<State> = RefCell::new(State::default());
}

/// What is known after the runs of one sheet.
pub struct Seen {
    pub infinite: bool,
    pub two_parts: bool,
    pub rows: Vec<Row>,
    pub ends: usize,
}

/// Start a sheet.
pub fn start(limit: usize, pairs: Vec<(f64, f64)>) {
    STATE.with_borrow_mut(|state| {
        *state = State {
            limit,
            pairs,
            ..State::default()
        }
    });
}

/// End a sheet and hand over the record.
pub fn finish() -> Seen {
    STATE.with_borrow_mut(|state| Seen {
        infinite: state.infinite,
        two_parts: state.two_parts,
        rows: std::mem::take(&mut state.rows),
        ends: state.ends,
    })
}

// ---- the ceiling is limit ----

pub struct Ceiling;

pub static SPD_MAX_TERMS_CEILING: Ceiling = Ceiling;

fn limit() -> usize {
    STATE.with_borrow(|state| state.limit)
}

impl PartialEq<Ceiling> for usize {
    fn eq(&self, _other: &Ceiling) -> bool {
        *self == limit()
    }
}

impl PartialOrd<Ceiling> for usize {
    fn partial_cmp(&self, _other: &Ceiling) -> Option<Ordering> {
        self.partial_cmp(&limit())
    }
}

impl fmt::Display for Ceiling {
    fn fmt(&self, f: &mut fmt::Formatter<'_>) -> fmt::Result {
        limit().fmt(f)
    }
}

// ---- sines and cosines ----

/// A number that stands for the angle of the sheet's rotation `index`. It is
/// far from the angles of t and tdg and is exact for every index below 2^52.
pub fn angle(index: usize) -> f64 {
    1.0 + index as f64
}

pub const T_SINE: u64 = 0x3fe6a09e667f3bcc;
pub const T_COSINE: u64 = 0x3fe6a09e667f3bcd;

/// The stand-in for `f64::sin_cos`: the sheet's pair, or that of t and tdg.
pub fn sin_cos(theta: f64) -> (f64, f64) {
    let (sine, cosine) = (f64::from_bits(T_SINE), f64::from_bits(T_COSINE));
    if theta == std::f64::consts::FRAC_PI_4 {
        return (sine, cosine);
    }
    if theta == -std::f64::consts::FRAC_PI_4 {
        return (-sine, cosine);
    }
    STATE.with_borrow(|state| state.pairs[theta as usize - 1])
}

/// Whether this machine's own sine and cosine of binary64 pi/4 are document
/// 01's constants for t.
pub fn t_is_the_machines() -> bool {
    let (sine, cosine) = std::hint::black_box(std::f64::consts::FRAC_PI_4).sin_cos();
    sine.to_bits() == T_SINE && cosine.to_bits() == T_COSINE
}

// ---- question 8, where document 01 puts it ----

/// Whether question 8 is looked at. `speed --bare` does not, to time prism-q
/// without it.
pub static LOOKS: AtomicBool = AtomicBool::new(true);

fn looks() -> bool {
    cfg!(not(speed)) || LOOKS.load(Relaxed)
}

fn look(state: &mut State, coeff: Complex64) {
    if !coeff.is_finite() {
        state.infinite = true;
    } else if coeff.re != 0.0 && coeff.im != 0.0 {
        state.two_parts = true;
    }
}

/// After an op, after its truncation, and after the last drop.
pub fn ask(coeffs: impl Iterator<Item = Complex64>, discarded: f64) {
    if !looks() {
        return;
    }
    STATE.with_borrow_mut(|state| {
        if !discarded.is_finite() {
            state.infinite = true;
        }
        for coeff in coeffs {
            look(state, coeff);
        }
    });
}

/// The terms at the end of a run: words x, words z and coefficient of each.
/// They are kept to be printed, unless the program is `speed`, which prints no
/// rows.
pub fn end<'a>(terms: impl Iterator<Item = (&'a [u64], &'a [u64], Complex64)>) {
    STATE.with_borrow_mut(|state| {
        state.rows.clear();
        state.ends += 1;
        if !looks() {
            return;
        }
        for (x, z, coeff) in terms {
            look(state, coeff);
            if cfg!(not(speed)) {
                let (x, z) = (x.to_vec(), z.to_vec());
                state.rows.push(Row { x, z, coeff });
            }
        }
    });
}

/// The mean made at the end of a run, handed through.
pub fn mean(mean: f64) -> f64 {
    STATE.with_borrow_mut(|state| {
        if !mean.is_finite() {
            state.infinite = true;
        }
    });
    mean
}
