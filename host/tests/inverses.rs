//! Inverses modulo d: of every number from 1 to d − 1, in every dimension and wherever a run takes
//! one. A multiplier takes one for the rows and for the frame, a free measurement takes that of the
//! pivot's X power.
//!
//! The plain reference searches for an inverse. What is said here beside it, of the bytes that the
//! library leaves, is said without one, but for the factor that undoes a multiplier.

use crate::common;

use cagvost::book::{Book, DIMENSIONS, MAX_QUDITS, Operation};
use common::frames::{Buffers, carry_both};
use common::plain::{self, Op, Row};
use common::{ROWS, Rng, UNWRITTEN, draw_noisy, draw_tableau, every_factor, run_both, times};

// ---- Multipliers

/// Does the work for every factor of every dimension, a few times each.
fn for_every_factor(seed: u64, work: impl Fn(&mut Rng, u8, u8)) {
    let mut rng = Rng(seed);
    for (d, u) in every_factor().flat_map(|factor| [factor; 4]) {
        work(&mut rng, d, u);
    }
}

/// From one to six qudits, and one of them.
fn draw_qudit(rng: &mut Rng) -> (u8, u8) {
    let n = 1 + rng.byte_below(6);
    (n, rng.byte_below(n))
}

/// Each row's Z power on q, times u, is the one that it had.
#[test]
fn every_multiplier_on_rows() {
    for_every_factor(1, |rng, d, u| {
        let (n, q) = draw_qudit(rng);
        let tableau = draw_tableau(rng, d, n);
        let mut book = Book::new(d, n);
        book.operation(Operation::Multiplier { q, u });
        let run = run_both(&book.to_bytes(), &tableau, &[]);
        assert_eq!(run.returned, (0, 0));
        let (width, z) = (2 * usize::from(n) + 1, usize::from(n + q));
        let [before, after] = [&tableau, &run.tableau].map(|t| t[ROWS..].chunks(width));
        assert!(before.clone().any(|row| row[z] != 0));
        for (before, after) in before.zip(after) {
            assert_eq!(times(d, u, after[z]), before[z], "d {d} u {u}");
        }
    });
}

/// The frame's Z power on q, times u, is that of the error on q.
#[test]
fn every_multiplier_on_a_frame() {
    for_every_factor(2, |rng, d, u| {
        let (n, q) = draw_qudit(rng);
        let mut book = draw_noisy(rng, d, n);
        book.operation(Operation::Multiplier { q, u });
        let tableau = draw_tableau(rng, d, n);
        let before = Buffers::drawn(rng, n, 0, tableau);
        let (returned, left) = carry_both(&book.to_bytes(), &before);
        assert_eq!((returned.0, returned.1), (0, 0));
        let z = left.frame[usize::from(n + q)];
        let error = book.errors()[usize::from(q)];
        assert_eq!(times(d, u, z), error.s, "d {d} u {u}");
    });
}

/// The multipliers by u and then by its inverse leave the rows as they were, and in a frame run all
/// buffers as the errors before them do alone.
#[test]
fn every_multiplier_is_undone_by_the_inverse() {
    for_every_factor(3, |rng, d, u| {
        let (n, q) = draw_qudit(rng);
        let inverse = plain::inverse(d.into(), u.into()) as u8;
        let and_back = |mut book: Book| {
            book.operation(Operation::Multiplier { q, u })
                .operation(Operation::Multiplier { q, u: inverse });
            book.to_bytes()
        };
        let tableau = draw_tableau(rng, d, n);
        let run = run_both(&and_back(Book::new(d, n)), &tableau, &[]);
        assert_eq!(run.returned, (0, 0));
        assert_eq!(run.tableau, tableau, "d {d} u {u}");
        let noisy = draw_noisy(rng, d, n);
        let before = Buffers::drawn(rng, n, 0, tableau);
        let alone = carry_both(&noisy.to_bytes(), &before);
        assert_eq!((alone.0.0, alone.0.1), (0, 0));
        assert_eq!(carry_both(&and_back(noisy), &before), alone, "d {d} u {u}");
    });
}

// ---- Free measurements

/// The lowest stabilizer with an X power on q.
fn pivot(rows: &[Row], q: usize) -> Option<usize> {
    let stabilizers = &rows[rows.len() / 2..];
    stabilizers.iter().position(|row| row.a[q] != 0)
}

/// The rows of a drawn tableau, and a qudit whose measurement is free. At least three rows have an
/// X power there: one beside the pivot and its destabilizer, which an exponent changes.
fn draw_free(rng: &mut Rng, d: u8, n: u8) -> (Vec<Row>, usize) {
    loop {
        let rows = plain::rows_of(n.into(), &draw_tableau(rng, d, n)[ROWS..]);
        let q = rng.below(n.into());
        let changing = rows.iter().filter(|row| row.a[q] != 0).count();
        if pivot(&rows, q).is_some() && changing > 2 {
            return (rows, q);
        }
    }
}

/// Measures q with each choice, by both runs. Returns the pivot's X power there.
fn measure_free(rng: &mut Rng, d: u8, rows: &[Row], q: usize, choices: &[u8]) -> i64 {
    let (n, tableau) = (rows.len() / 2, plain::tableau_of(d.into(), rows));
    let k = pivot(rows, q).expect("a free measurement");
    let e = rows[n + k].a[q];
    for &m in choices {
        let measured = Book::new(d, n as u8).measure(q as u8, m).to_bytes();
        let run = run_both(&measured, &tableau, &[UNWRITTEN; 2]);
        assert_eq!(run.results, [m, 1]);
        let after = plain::rows_of(n, &run.tableau[ROWS..]);
        check_collapsed(d, rows, &after, (q, k, e));
        let mut noisy = draw_noisy(rng, d, n as u8);
        noisy.measure(q as u8, m);
        let before = Buffers::drawn(rng, n as u8, 1, tableau.clone());
        let (_, carried) = carry_both(&noisy.to_bytes(), &before);
        let reported = (m + noisy.errors()[q].p) % d;
        assert_eq!(carried.results[..2], [reported, 1]);
    }
    e
}

/// The pivot's destabilizer, to the power e, is the pivot that was, and no other row has an X power
/// on q.
fn check_collapsed(d: u8, before: &[Row], after: &[Row], (q, k, e): (usize, usize, i64)) {
    let pivot = &before[before.len() / 2 + k];
    assert_eq!(plain::power(d.into(), &after[k], e), *pivot);
    let mut others = after.iter().enumerate().filter(|&(i, _)| i != k);
    assert!(others.all(|(_, row)| row.a[q] == 0));
}

/// Multipliers on the measured qudit give the pivot every X power there, each once.
fn measure_every_power(rng: &mut Rng, d: u8, n: u8, choices: &[u8]) {
    let (drawn, q) = draw_free(rng, d, n);
    let mut met = Vec::new();
    for u in 1..d {
        let mut rows = drawn.clone();
        let multiplier = Op::Multiplier(q, u.into());
        rows.iter_mut()
            .for_each(|row| plain::gate(d.into(), multiplier, row));
        met.push(measure_free(rng, d, &rows, q, choices));
    }
    met.sort_unstable();
    assert_eq!(met, Vec::from_iter(1..i64::from(d)));
}

#[test]
fn every_power_of_a_pivot_with_every_choice() {
    let mut rng = Rng(4);
    for d in DIMENSIONS {
        let choices = Vec::from_iter(0..d);
        for n in 2..=5 {
            measure_every_power(&mut rng, d, n, &choices);
        }
    }
}

#[test]
fn every_power_of_a_pivot_among_64_qudits() {
    let mut rng = Rng(5);
    for d in DIMENSIONS {
        let choice = rng.byte_below(d);
        measure_every_power(&mut rng, d, MAX_QUDITS, &[choice]);
    }
}
