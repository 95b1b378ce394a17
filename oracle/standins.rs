//! What prism-q's files lean on and what is not among them: small stand-ins
//! for four crates of the registry and for the modules of prism-q that
//! document 01 does not name. `main.rs` makes the crate answer to the names
//! `num_complex`, `smallvec`, `rand` and `rand_chacha`, so the `use` lines of
//! prism-q's files stay as they are.
//!
//! Everything in this file is ours.

use std::fmt;
use std::ops::{Add, AddAssign, Deref, DerefMut, Div, Mul, MulAssign, Neg, Sub, SubAssign};

// ---- num_complex ----

/// A complex number of two binary64 parts. Products are by parts, product by
/// product: each product and each sum is rounded once, none is fused.
#[derive(Debug, Clone, Copy, PartialEq, Default)]
pub struct Complex64 {
    pub re: f64,
    pub im: f64,
}

impl Complex64 {
    pub const fn new(re: f64, im: f64) -> Self {
        Self { re, im }
    }

    pub fn from_polar(r: f64, theta: f64) -> Self {
        Self::new(r * theta.cos(), r * theta.sin())
    }

    pub fn conj(&self) -> Self {
        Self::new(self.re, -self.im)
    }

    pub fn arg(self) -> f64 {
        self.im.atan2(self.re)
    }

    pub fn norm(self) -> f64 {
        self.re.hypot(self.im)
    }

    pub fn norm_sqr(&self) -> f64 {
        self.re * self.re + self.im * self.im
    }

    pub fn exp(self) -> Self {
        Self::from_polar(self.re.exp(), self.im)
    }

    pub fn is_finite(self) -> bool {
        self.re.is_finite() && self.im.is_finite()
    }
}

impl Add for Complex64 {
    type Output = Self;
    fn add(self, other: Self) -> Self {
        Self::new(self.re + other.re, self.im + other.im)
    }
}

impl Sub for Complex64 {
    type Output = Self;
    fn sub(self, other: Self) -> Self {
        Self::new(self.re - other.re, self.im - other.im)
    }
}

impl Mul for Complex64 {
    type Output = Self;
    fn mul(self, other: Self) -> Self {
        Self::new(
            self.re * other.re - self.im * other.im,
            self.re * other.im + self.im * other.re,
        )
    }
}

impl Mul<f64> for Complex64 {
    type Output = Self;
    fn mul(self, other: f64) -> Self {
        Self::new(self.re * other, self.im * other)
    }
}

impl Div for Complex64 {
    type Output = Self;
    fn div(self, other: Self) -> Self {
        let square = other.norm_sqr();
        let re = self.re * other.re + self.im * other.im;
        let im = self.im * other.re - self.re * other.im;
        Self::new(re / square, im / square)
    }
}

impl Div<f64> for Complex64 {
    type Output = Self;
    fn div(self, other: f64) -> Self {
        Self::new(self.re / other, self.im / other)
    }
}

impl Neg for Complex64 {
    type Output = Self;
    fn neg(self) -> Self {
        Self::new(-self.re, -self.im)
    }
}

impl AddAssign for Complex64 {
    fn add_assign(&mut self, other: Self) {
        self.re += other.re;
        self.im += other.im;
    }
}

impl AddAssign<&Complex64> for Complex64 {
    fn add_assign(&mut self, other: &Self) {
        *self += *other;
    }
}

impl SubAssign for Complex64 {
    fn sub_assign(&mut self, other: Self) {
        *self = *self - other;
    }
}

impl MulAssign for Complex64 {
    fn mul_assign(&mut self, other: Self) {
        *self = *self * other;
    }
}

impl MulAssign<&Complex64> for Complex64 {
    fn mul_assign(&mut self, other: &Self) {
        *self *= *other;
    }
}

impl MulAssign<f64> for Complex64 {
    fn mul_assign(&mut self, other: f64) {
        self.re *= other;
        self.im *= other;
    }
}

// ---- smallvec ----

pub trait Array {
    type Item;
}

impl<T, const N: usize> Array for [T; N] {
    type Item = T;
}

/// A plain vector under the name of the inline one.
pub struct SmallVec<A: Array>(Vec<A::Item>);

impl<A: Array> SmallVec<A> {
    pub fn new() -> Self {
        Self(Vec::new())
    }

    pub fn from_vec(items: Vec<A::Item>) -> Self {
        Self(items)
    }

    pub fn from_slice(items: &[A::Item]) -> Self
    where
        A::Item: Copy,
    {
        Self(items.to_vec())
    }
}

impl<A: Array> Default for SmallVec<A> {
    fn default() -> Self {
        Self::new()
    }
}

impl<A: Array> Deref for SmallVec<A> {
    type Target = Vec<A::Item>;
    fn deref(&self) -> &Self::Target {
        &self.0
    }
}

impl<A: Array> DerefMut for SmallVec<A> {
    fn deref_mut(&mut self) -> &mut Self::Target {
        &mut self.0
    }
}

impl<A: Array> Clone for SmallVec<A>
where
    A::Item: Clone,
{
    fn clone(&self) -> Self {
        Self(self.0.clone())
    }
}

impl<A: Array> fmt::Debug for SmallVec<A>
where
    A::Item: fmt::Debug,
{
    fn fmt(&self, f: &mut fmt::Formatter<'_>) -> fmt::Result {
        self.0.fmt(f)
    }
}

impl<A: Array> PartialEq for SmallVec<A>
where
    A::Item: PartialEq,
{
    fn eq(&self, other: &Self) -> bool {
        self.0 == other.0
    }
}

impl<A: Array> FromIterator<A::Item> for SmallVec<A> {
    fn from_iter<I: IntoIterator<Item = A::Item>>(items: I) -> Self {
        Self(items.into_iter().collect())
    }
}

impl<A: Array> IntoIterator for SmallVec<A> {
    type Item = A::Item;
    type IntoIter = std::vec::IntoIter<A::Item>;
    fn into_iter(self) -> Self::IntoIter {
        self.0.into_iter()
    }
}

impl<'a, A: Array> IntoIterator for &'a SmallVec<A> {
    type Item = &'a A::Item;
    type IntoIter = std::slice::Iter<'a, A::Item>;
    fn into_iter(self) -> Self::IntoIter {
        self.0.iter()
    }
}

#[macro_export]
macro_rules! smallvec {
    ($($item:expr),* $(,)?) => {
        $crate::SmallVec::from_vec(vec![$($item),*])
    };
}

// ---- rand and rand_chacha: the sampling engine compiles and is never run ----

pub trait Rng {}

pub trait RngExt: Rng {
    fn random_bool(&mut self, _p: f64) -> bool {
        unreachable!("random sampling is left out")
    }
}

impl<R: Rng> RngExt for R {}

pub trait SeedableRng: Sized {
    fn seed_from_u64(seed: u64) -> Self;
}

pub struct ChaCha8Rng;

impl Rng for ChaCha8Rng {}

impl SeedableRng for ChaCha8Rng {
    fn seed_from_u64(_seed: u64) -> Self {
        Self
    }
}

// ---- prism-q's error ----

pub mod error {
    pub type Result<T> = std::result::Result<T, PrismError>;

    /// The four cases that the taken files build.
    #[derive(Debug)]
    pub enum PrismError {
        BackendUnsupported { backend: String, operation: String },
        IncompatibleBackend { backend: String, reason: String },
        InvalidParameter { message: String },
        InvalidQubit { index: usize, register_size: usize },
    }
}

// ---- prism-q's hash: a map that lists its keys by first insertion ----

pub mod hash {
    use std::collections::{HashMap, hash_map};
    use std::hash::{BuildHasherDefault, Hash, Hasher};

    /// The hash of the crate `rustc-hash`, version 2, word by word.
    #[derive(Default, Clone, Copy)]
    pub struct FxHasher(u64);

    impl Hasher for FxHasher {
        fn write(&mut self, bytes: &[u8]) {
            for chunk in bytes.chunks(8) {
                let mut word = [0; 8];
                word[..chunk.len()].copy_from_slice(chunk);
                self.write_u64(u64::from_le_bytes(word));
            }
        }

        #[inline]
        fn write_u64(&mut self, word: u64) {
            self.0 = self.0.wrapping_add(word).wrapping_mul(0xf1357aea2e62a9c5);
        }

        #[inline]
        fn finish(&self) -> u64 {
            self.0.rotate_left(26)
        }
    }

    pub struct FxBuildHasher;

    /// Each value has the number of its key beside it, counted by first
    /// insertion.
    pub struct FxHashMap<K, V> {
        numbered: HashMap<K, (V, usize), BuildHasherDefault<FxHasher>>,
    }

    impl<K, V> Default for FxHashMap<K, V> {
        fn default() -> Self {
            let numbered = HashMap::default();
            Self { numbered }
        }
    }

    pub struct Entry<'a, K, V> {
        map: &'a mut FxHashMap<K, V>,
        key: K,
    }

    impl<K: Eq + Hash, V> FxHashMap<K, V> {
        pub fn with_capacity_and_hasher(capacity: usize, _hasher: FxBuildHasher) -> Self {
            let numbered = HashMap::with_capacity_and_hasher(capacity, Default::default());
            Self { numbered }
        }

        pub fn clear(&mut self) {
            self.numbered.clear();
        }

        pub fn reserve(&mut self, more: usize) {
            self.numbered.reserve(more);
        }

        pub fn insert(&mut self, key: K, value: V) {
            let number = self.numbered.len();
            match self.numbered.entry(key) {
                hash_map::Entry::Occupied(mut found) => found.get_mut().0 = value,
                hash_map::Entry::Vacant(free) => {
                    free.insert((value, number));
                }
            }
        }

        pub fn get(&self, key: &K) -> Option<&V> {
            self.numbered.get(key).map(|found| &found.0)
        }

        pub fn entry(&mut self, key: K) -> Entry<'_, K, V> {
            Entry { map: self, key }
        }
    }

    impl<'a, K: Eq + Hash, V> Entry<'a, K, V> {
        pub fn or_insert(self, value: V) -> &'a mut V {
            let numbered = &mut self.map.numbered;
            let number = numbered.len();
            &mut numbered.entry(self.key).or_insert((value, number)).0
        }
    }

    impl<K, V> IntoIterator for FxHashMap<K, V> {
        type Item = (K, V);
        type IntoIter = std::vec::IntoIter<(K, V)>;
        fn into_iter(self) -> Self::IntoIter {
            let mut listed: Vec<_> = self.numbered.into_iter().collect();
            listed.sort_unstable_by_key(|(_, (_, number))| *number);
            let plain = listed.into_iter().map(|(key, (value, _))| (key, value));
            plain.collect::<Vec<_>>().into_iter()
        }
    }
}

// ---- prism-q's noise ----

pub mod noise {
    use super::SmallVec;

    /// The six channels of a sheet, and the others by name alone, since
    /// `channel_action` lists them.
    #[derive(Debug, Clone)]
    #[allow(dead_code)]
    pub enum NoiseChannel {
        Pauli {
            px: f64,
            py: f64,
            pz: f64,
        },
        Depolarizing {
            p: f64,
        },
        AmplitudeDamping {
            gamma: f64,
        },
        PhaseDamping {
            gamma: f64,
        },
        ThermalRelaxation {
            t1: f64,
            t2: f64,
            gate_time: f64,
            excited_population: f64,
        },
        TwoQubitDepolarizing {
            p: f64,
        },
        Custom {},
        Kraus2q {},
        Leakage {},
        Seepage {},
        LeakageTransport {},
        QuasiStatic {},
    }

    pub struct NoiseEvent {
        pub channel: NoiseChannel,
        pub qubits: SmallVec<[usize; 2]>,
    }

    pub struct NoiseModel {
        pub after_gate: Vec<Vec<NoiseEvent>>,
        pub readout: Vec<Option<()>>,
    }

    /// The sheet gives the two rates themselves; they travel as `t1` and `t2`.
    pub fn thermal_relaxation_rates(t1: f64, t2: f64, _gate_time: f64) -> (f64, f64) {
        (t1, t2)
    }
}

// ---- prism-q's words ----

pub mod bits {
    /// A Pauli string as words x and z.
    #[derive(Clone, PartialEq, Eq, Hash)]
    pub struct PauliVec {
        pub x: Vec<u64>,
        pub z: Vec<u64>,
    }

    impl PauliVec {
        pub fn new(words: usize) -> Self {
            Self {
                x: vec![0; words],
                z: vec![0; words],
            }
        }

        pub fn z_on_qubit(words: usize, qubit: usize) -> Self {
            let mut pauli = Self::new(words);
            flip_bit(&mut pauli.z, qubit);
            pauli
        }

        pub fn has_x_or_y(&self, qubit: usize) -> bool {
            get_bit(&self.x, qubit)
        }

        pub fn is_diagonal(&self) -> bool {
            self.x.iter().all(|&word| word == 0)
        }
    }

    /// Bit q of word q/64.
    pub fn get_bit(words: &[u64], qubit: usize) -> bool {
        (words[qubit / 64] >> (qubit % 64)) & 1 == 1
    }

    pub fn set_bit(words: &mut [u64], qubit: usize, value: bool) {
        let mask = 1u64 << (qubit % 64);
        if value {
            words[qubit / 64] |= mask;
        } else {
            words[qubit / 64] &= !mask;
        }
    }

    pub fn flip_bit(words: &mut [u64], qubit: usize) {
        words[qubit / 64] ^= 1u64 << (qubit % 64);
    }
}

// ---- modules that compile and are never reached ----

pub mod env_knobs {
    pub fn usize_override(_name: &str, _least: usize) -> Option<usize> {
        None
    }
}

pub mod backend {
    pub mod cache {
        pub fn tile_budget_bytes() -> usize {
            1 << 18
        }
    }
}
