//! The books that are timed, drawn alike on every machine.

use crate::common::plain;
use crate::common::{Rng, draw_gate, draw_single};
use cagvost::book::{Book, MAX_ERRORS, MAX_OPERATIONS, Operation};

/// What a full book has beside its 2,048 errors.
#[derive(Clone, Copy)]
pub enum Mix {
    /// One operation in sixteen is a measurement, and one of four of these repeats the last. At
    /// the end all qudits are measured.
    Mixed,
    /// Gates alone, each applied once.
    Gates,
    /// Gates alone, and about half of those that have powers are applied a drawn number of times.
    Powers,
    /// Multipliers alone. Each takes an inverse, and in a frame run two.
    Multipliers,
    /// 1,024 times three gates and the measurement of one of the last eight qudits, or of the last
    /// four where there are eight in all. It is free: the set had Z on that qudit since it was last
    /// measured, and Fourier makes this X.
    Measuring,
    /// Measurements alone, so that there are 4,096 choices: the longest book.
    Measurements,
    /// 1,024 times a SUM onto one of the last eight qudits, its measurement, the correction of the
    /// control by this result and the reset of that qudit, which is certain.
    Memory,
}

impl Mix {
    pub fn name(self) -> &'static str {
        match self {
            Mix::Mixed => "mixed",
            Mix::Gates => "gates",
            Mix::Powers => "powers",
            Mix::Multipliers => "multipliers",
            Mix::Measuring => "measuring",
            Mix::Measurements => "measurements",
            Mix::Memory => "memory",
        }
    }
}

/// A book of 4,096 operations and 2,048 errors, one before every second operation.
pub fn full(mix: Mix, d: u8, n: u8) -> Book {
    let mut rng = Rng(u64::from(d) * 100 + u64::from(n));
    let mut book = Book::new(d, n);
    for k in 0..MAX_OPERATIONS {
        if k % (MAX_OPERATIONS / MAX_ERRORS) == 0 {
            let (p, s) = (rng.byte_below(d), rng.byte_below(d));
            book.error(rng.byte_below(n), p, s);
        }
        match mix {
            Mix::Mixed => mixed(&mut rng, k, &mut book),
            Mix::Gates => _ = book.operation(draw_single(&mut rng, d, n)),
            Mix::Powers => _ = book.operation(draw_gate(&mut rng, d, n)),
            Mix::Multipliers => _ = book.operation(multiplier(&mut rng, d, n)),
            Mix::Measuring => measuring(&mut rng, k, &mut book),
            Mix::Measurements => _ = book.measure(rng.byte_below(n), rng.byte_below(d)),
            Mix::Memory => memory(&mut rng, k, &mut book),
        }
    }
    book
}

/// Adds operation k of a mixed book.
fn mixed(rng: &mut Rng, k: usize, book: &mut Book) {
    let (d, n) = (book.dimension(), book.qudits());
    let left = MAX_OPERATIONS - k;
    if left <= n.into() {
        book.measure(left as u8 - 1, rng.byte_below(d));
    } else if rng.once_in(16) {
        let again = book.operations().iter().rev().find_map(|o| match o {
            Operation::Measure { q } => Some(*q),
            _ => None,
        });
        let q = again.filter(|_| rng.once_in(4));
        book.measure(q.unwrap_or(rng.byte_below(n)), rng.byte_below(d));
    } else {
        book.operation(draw_single(rng, d, n));
    }
}

/// A multiplier on a drawn qudit by a drawn factor.
fn multiplier(rng: &mut Rng, d: u8, n: u8) -> Operation {
    Operation::Multiplier {
        q: rng.byte_below(n),
        u: 1 + rng.byte_below(d - 1),
    }
}

/// Adds operation k of a measuring book: a gate on the other qudits, CZ, Fourier, measurement.
fn measuring(rng: &mut Rng, k: usize, book: &mut Book) {
    let (d, n) = (book.dimension(), book.qudits());
    let measured = 8.min(n / 2);
    let others = n - measured;
    let q = others + (k / 4 % usize::from(measured)) as u8;
    match k % 4 {
        0 => book.operation(draw_single(rng, d, others)),
        1 => book.operation(Operation::Cz {
            c: q,
            t: rng.byte_below(others),
            times: 1,
        }),
        2 => book.operation(Operation::Fourier { q, times: 1 }),
        _ => book.measure(q, rng.byte_below(d)),
    };
}

/// Adds operation k of a memory book.
fn memory(rng: &mut Rng, k: usize, book: &mut Book) {
    let (d, n) = (book.dimension(), book.qudits());
    let measured = 8.min(n / 2);
    let others = n - measured;
    let round = k / 4;
    let q = others + (round % usize::from(measured)) as u8;
    let c = (round % usize::from(others)) as u8;
    match k % 4 {
        0 => book.operation(Operation::Sum { c, t: q, times: 1 }),
        1 => book.measure(q, rng.byte_below(d)),
        2 => book.correct(c, round as u16),
        _ => book.reset(q, rng.byte_below(d)),
    };
}

/// So many entries of one gate, without errors.
pub fn of_one_gate(d: u8, n: u8, gate: Operation, count: usize) -> Book {
    let mut book = Book::new(d, n);
    for _ in 0..count {
        book.operation(gate);
    }
    book
}

/// So many gates with drawn powers, without errors.
pub fn of_gates(d: u8, n: u8, count: usize) -> Book {
    let mut rng = Rng(u64::from(d));
    let mut book = Book::new(d, n);
    for _ in 0..count {
        book.operation(draw_gate(&mut rng, d, n));
    }
    book
}

/// The largest book of one error, without operations.
pub fn of_one_error(d: u8, n: u8) -> Book {
    let mut book = Book::new(d, n);
    for _ in 0..MAX_ERRORS {
        book.error(9 % n, 1, 2);
    }
    book
}

/// So many measurements, of one qudit after the other.
pub fn of_measurements(d: u8, n: u8, count: usize) -> Book {
    let mut book = Book::new(d, n);
    for q in (0..n).cycle().take(count) {
        book.measure(q, 1);
    }
    book
}

/// One measurement of qudit 0, and so many corrections of one qudit by its result.
pub fn of_corrections(d: u8, n: u8, count: usize) -> Book {
    let mut book = Book::new(d, n);
    book.measure(0, 1);
    for _ in 0..count {
        book.correct(9 % n, 0);
    }
    book
}

/// So many resets, of one qudit after the other.
pub fn of_resets(d: u8, n: u8, count: usize) -> Book {
    let mut book = Book::new(d, n);
    for q in (0..n).cycle().take(count) {
        book.reset(q, 1);
    }
    book
}

/// As many resets as a book can have errors, of one qudit after the other, and X on it before each.
pub fn of_struck_resets(d: u8, n: u8) -> Book {
    let mut book = Book::new(d, n);
    for q in (0..n).cycle().take(MAX_ERRORS) {
        book.error(q, 1, 0).reset(q, 1);
    }
    book
}

/// A valid tableau without order: the zero tableau after a full book of gates.
pub fn dense_tableau(d: u8, n: u8) -> Vec<u8> {
    let mut rng = Rng(1000 + u64::from(d));
    after_gates(d, n, || draw_single(&mut rng, d, n))
}

/// A valid tableau in which every measurement is certain, as the product of many stabilizers: with
/// no Fourier gate, no stabilizer gets an X power.
pub fn certain_tableau(d: u8, n: u8) -> Vec<u8> {
    let mut rng = Rng(1000 + u64::from(d));
    after_gates(d, n, || {
        loop {
            let gate = draw_single(&mut rng, d, n);
            if !matches!(gate, Operation::Fourier { .. }) {
                return gate;
            }
        }
    })
}

/// The zero tableau after 4,096 gates.
fn after_gates(d: u8, n: u8, mut gate: impl FnMut() -> Operation) -> Vec<u8> {
    let mut rows = plain::zero_rows(n.into());
    for _ in 0..MAX_OPERATIONS {
        let gate = plain::decode(d.into(), n.into(), &gate().to_bytes());
        let gate = gate.expect("a drawn gate is one");
        rows.iter_mut()
            .for_each(|row| plain::gate(d.into(), gate, row));
    }
    plain::tableau_of(d.into(), &rows)
}
