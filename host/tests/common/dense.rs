//! A state vector over all d^n levels, with complex amplitudes: a simulator of another make.
//!
//! It knows levels and amplitudes and nothing of tableaus, and shares no code with `plain`.

use std::f64::consts::TAU;
use std::ops::{Add, AddAssign, Mul, Sub};

use cagvost::book::{Operation, WeylError};

#[derive(Clone, Copy, Debug, PartialEq)]
pub struct Complex {
    pub re: f64,
    pub im: f64,
}

impl Complex {
    const ZERO: Complex = Complex { re: 0.0, im: 0.0 };
    const ONE: Complex = Complex { re: 1.0, im: 0.0 };

    fn squared(self) -> f64 {
        self.re * self.re + self.im * self.im
    }

    fn scaled(self, by: f64) -> Complex {
        Complex {
            re: self.re * by,
            im: self.im * by,
        }
    }

    fn conjugate(self) -> Complex {
        Complex {
            re: self.re,
            im: -self.im,
        }
    }
}

impl Add for Complex {
    type Output = Complex;
    fn add(self, other: Complex) -> Complex {
        Complex {
            re: self.re + other.re,
            im: self.im + other.im,
        }
    }
}

impl AddAssign for Complex {
    fn add_assign(&mut self, other: Complex) {
        *self = *self + other;
    }
}

impl Sub for Complex {
    type Output = Complex;
    fn sub(self, other: Complex) -> Complex {
        self + other.scaled(-1.0)
    }
}

impl Mul for Complex {
    type Output = Complex;
    fn mul(self, other: Complex) -> Complex {
        Complex {
            re: self.re * other.re - self.im * other.im,
            im: self.re * other.im + self.im * other.re,
        }
    }
}

/// The amplitudes of n qudits, qudit 0 the most significant.
#[derive(Clone, Debug)]
pub struct State {
    d: usize,
    /// ω^0 to ω^(d−1).
    roots: Vec<Complex>,
    /// d^(n−1−q) for qudit q.
    strides: Vec<usize>,
    amplitudes: Vec<Complex>,
}

impl State {
    /// All qudits at level 0.
    pub fn zero(d: usize, n: usize) -> State {
        let root = |k: usize| TAU * k as f64 / d as f64;
        let mut amplitudes = vec![Complex::ZERO; d.pow(n as u32)];
        amplitudes[0] = Complex::ONE;
        State {
            d,
            roots: (0..d)
                .map(|k| Complex {
                    re: root(k).cos(),
                    im: root(k).sin(),
                })
                .collect(),
            strides: (0..n).map(|q| d.pow((n - 1 - q) as u32)).collect(),
            amplitudes,
        }
    }

    /// Does a gate as often as it is applied, singly. A measurement needs its outcome, and is done by
    /// `collapse`; so does a reset (`reset`), and a correction needs a result (`lower`).
    pub fn gate(&mut self, operation: Operation) {
        for _ in 0..super::times_of(operation) {
            self.gate_once(operation);
        }
    }

    /// Applies a gate once, however often it is to be applied.
    fn gate_once(&mut self, operation: Operation) {
        let d = self.d;
        match operation {
            Operation::Fourier { q, .. } => self.fourier(q.into()),
            Operation::PhaseGate { q, .. } => {
                self.diagonal(|s, i| s.level(i, q) * s.level(i, q).saturating_sub(1) / 2)
            }
            Operation::Sum { c, t, .. } => {
                self.permute(|s, i| s.with(i, t, (s.level(i, t) + s.level(i, c)) % d))
            }
            Operation::Cz { c, t, .. } => self.diagonal(|s, i| s.level(i, c) * s.level(i, t)),
            Operation::Swap { c, t } => {
                self.permute(|s, i| s.with(s.with(i, c, s.level(i, t)), t, s.level(i, c)))
            }
            Operation::Multiplier { q, u } => {
                self.permute(|s, i| s.with(i, q, s.level(i, q) * usize::from(u) % d))
            }
            Operation::Measure { .. } | Operation::Reset { .. } | Operation::Correct { .. } => {
                panic!("{operation} is no gate")
            }
        }
    }

    /// X^(−by) on qudit q: each level goes down by so many.
    pub fn lower(&mut self, q: u8, by: u8) {
        let d = self.d;
        let down = |level: usize| (level + d - usize::from(by)) % d;
        self.permute(|s, i| s.with(i, q, down(s.level(i, q))));
    }

    /// Measures qudit q with this outcome, and applies X to the minus outcome.
    pub fn reset(&mut self, q: u8, outcome: u8) {
        self.collapse(q, outcome.into());
        self.lower(q, outcome);
    }

    /// X^p Z^s: Z^s acts first.
    pub fn apply_error(&mut self, error: WeylError) {
        let WeylError { qudit, p, s: z, .. } = error;
        let d = self.d;
        self.diagonal(|s, i| usize::from(z) * s.level(i, qudit));
        self.permute(|s, i| s.with(i, qudit, (s.level(i, qudit) + usize::from(p)) % d));
    }

    /// ω^r Π X^a Z^b of a tableau's row.
    pub fn apply_row(&mut self, row: &[u8]) {
        let n = self.strides.len();
        let r = row[2 * n];
        self.diagonal(|_, _| usize::from(r));
        for q in 0..n {
            let (p, s) = (row[q], row[n + q]);
            let (place, qudit) = (0, q as u8);
            self.apply_error(WeylError { place, qudit, p, s });
        }
    }

    /// The probability of each level of qudit q.
    pub fn probabilities(&self, q: u8) -> Vec<f64> {
        let mut probabilities = vec![0.0; self.d];
        for (i, amplitude) in self.amplitudes.iter().enumerate() {
            probabilities[self.level(i, q)] += amplitude.squared();
        }
        probabilities
    }

    /// Projects qudit q onto a level, and makes the state's length 1 again.
    pub fn collapse(&mut self, q: u8, level: usize) {
        let length = self.probabilities(q)[level].sqrt();
        for i in 0..self.amplitudes.len() {
            let kept = self.level(i, q) == level;
            self.amplitudes[i] = if kept {
                self.amplitudes[i].scaled(1.0 / length)
            } else {
                Complex::ZERO
            };
        }
    }

    /// The largest difference of an amplitude.
    pub fn distance(&self, other: &State) -> f64 {
        let pairs = self.amplitudes.iter().zip(&other.amplitudes);
        pairs
            .map(|(x, y)| (*x - *y).squared().sqrt())
            .fold(0.0, f64::max)
    }

    /// The inner product, squared: 1 if the states differ by a phase alone.
    pub fn overlap(&self, other: &State) -> f64 {
        let mut inner = Complex::ZERO;
        for (x, y) in self.amplitudes.iter().zip(&other.amplitudes) {
            inner += x.conjugate() * *y;
        }
        inner.squared()
    }

    /// The level of qudit q in the basis state i.
    fn level(&self, i: usize, q: u8) -> usize {
        i / self.strides[usize::from(q)] % self.d
    }

    /// The basis state i with another level of qudit q.
    fn with(&self, i: usize, q: u8, level: usize) -> usize {
        i - self.level(i, q) * self.strides[usize::from(q)] + level * self.strides[usize::from(q)]
    }

    /// Multiplies each basis state by ω to an exponent.
    fn diagonal(&mut self, exponent: impl Fn(&State, usize) -> usize) {
        for i in 0..self.amplitudes.len() {
            let root = self.roots[exponent(self, i) % self.d];
            self.amplitudes[i] = self.amplitudes[i] * root;
        }
    }

    /// Sends each basis state to another.
    fn permute(&mut self, image: impl Fn(&State, usize) -> usize) {
        let mut moved = vec![Complex::ZERO; self.amplitudes.len()];
        for (i, &amplitude) in self.amplitudes.iter().enumerate() {
            moved[image(self, i)] += amplitude;
        }
        self.amplitudes = moved;
    }

    /// |j⟩ goes to Σ ω^(ij) |i⟩ / √d.
    fn fourier(&mut self, q: usize) {
        let (d, stride) = (self.d, self.strides[q]);
        let scale = 1.0 / (d as f64).sqrt();
        let mut moved = vec![Complex::ZERO; self.amplitudes.len()];
        for (from, &amplitude) in self.amplitudes.iter().enumerate() {
            let j = from / stride % d;
            for i in 0..d {
                let to = from - j * stride + i * stride;
                moved[to] += (amplitude * self.roots[i * j % d]).scaled(scale);
            }
        }
        self.amplitudes = moved;
    }
}

/// Every level of the qudits, as states.
pub fn levels(d: u8, n: u8) -> impl Iterator<Item = State> {
    (0..usize::from(d).pow(n.into())).map(move |code| {
        let mut state = State::zero(d.into(), n.into());
        for qudit in 0..n {
            let p = (code / usize::from(d).pow(qudit.into()) % usize::from(d)) as u8;
            let (place, s) = (0, 0);
            state.apply_error(WeylError { place, qudit, p, s });
        }
        state
    })
}
