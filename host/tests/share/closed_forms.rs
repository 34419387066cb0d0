//! Counts against shares that are known.

use super::{circuit, count, is_likely, share};
use crate::common::Rng;
use crate::common::trays::draw_circuit;
use cagvost::book::{Book, DIMENSIONS, Operation};

const SHOTS: u64 = 200_000;

/// After Fourier a qudit is stabilized by X: an error harms it exactly if it has a power of Z. Of the
/// d² − 1 errors, d² − d do.
#[test]
fn one_error_after_fourier() {
    for d in DIMENSIONS {
        let book = circuit(&format!("qudits 1 dimension {d}\nfourier 0"));
        let unharmed = |model: &str| count(&share(&book, model), 1, SHOTS).unharmed;
        let harms = f64::from(d) / f64::from(d + 1);
        is_likely(unharmed("fourier 0.3"), SHOTS, 1.0 - 0.3 * harms);
        is_likely(unharmed("fourier z 0.3"), SHOTS, 0.7);
        is_likely(unharmed("fourier x 0.3 z 0.01"), SHOTS, 0.99);
        assert_eq!(unharmed("fourier x 0.3"), SHOTS);
        assert_eq!(unharmed("fourier x 1"), SHOTS);
        assert_eq!(unharmed("fourier z 1"), 0);
    }
}

/// A qudit at level 0 is stabilized by Z, and a power of X before its measurement changes the result.
#[test]
fn one_error_before_a_measurement() {
    for d in [3, 7, 31] {
        let book = circuit(&format!("qudits 1 dimension {d}\nmeasure 0"));
        let harms = f64::from(d) / f64::from(d + 1);
        let counts = count(&share(&book, "measure 0.4"), 2, SHOTS);
        is_likely(counts.unharmed, SHOTS, 1.0 - 0.4 * harms);
        assert_eq!(counts.results_unharmed, counts.unharmed);
    }
}

/// Fourier twice takes level 0 back to level 0. A power of Z after the first becomes a power of X,
/// and is undone by the opposite one, if this strikes after the second.
#[test]
fn two_errors_that_may_undo_each_other() {
    for d in [3, 5, 31] {
        let book = circuit(&format!("qudits 1 dimension {d}\nfourier 0\nfourier 0"));
        let counts = count(&share(&book, "fourier x 0.4 z 0.7"), 3, SHOTS);
        let both = 0.4 * 0.7 / f64::from(d - 1);
        is_likely(counts.unharmed, SHOTS, 0.6 * 0.3 + both);
    }
}

/// A power of X before a reset is gone behind it, and one at the reset stays: the reset has left
/// another level than 0.
#[test]
fn errors_before_and_at_a_reset() {
    for d in [3, 7, 31] {
        let book = circuit(&format!(
            "qudits 1 dimension {d}\nmultiplier 0 by 2\nreset 0"
        ));
        let unharmed = |model: &str| count(&share(&book, model), 5, SHOTS).unharmed;
        assert_eq!(unharmed("multiplier 1\nreset z 1"), SHOTS);
        is_likely(unharmed("multiplier 1\nreset x 0.3"), SHOTS, 0.7);
        let harms = f64::from(d) / f64::from(d + 1);
        is_likely(
            unharmed("multiplier 0\nreset 0.3"),
            SHOTS,
            1.0 - 0.3 * harms,
        );
    }
}

/// A power of X is found by a measurement and undone by the correction, which takes the result that
/// the shot has. One that strikes at the correction stays.
#[test]
fn an_error_that_a_correction_undoes() {
    for d in [3, 7, 31] {
        let book = circuit(&format!(
            "qudits 2 dimension {d}\nmultiplier 0 by 1\nsum 0 1\nmeasure 1\ncorrect 0 by 0\nreset 1"
        ));
        let counts = count(&share(&book, "multiplier x 0.4\nothers 0"), 6, SHOTS);
        assert_eq!(counts.unharmed, SHOTS);
        is_likely(counts.results_unharmed, SHOTS, 0.6);
        let counts = count(&share(&book, "correct x 0.4\nothers 0"), 6, SHOTS);
        is_likely(counts.unharmed, SHOTS, 0.6);
        assert_eq!(counts.results_unharmed, SHOTS);
        // A wrong result makes a wrong correction.
        let counts = count(&share(&book, "measure x 0.4\nothers 0"), 6, SHOTS);
        is_likely(counts.unharmed, SHOTS, 0.6);
        assert_eq!(counts.results_unharmed, counts.unharmed);
    }
}

/// An error between two measurements changes the second result alone, and the state.
#[test]
fn an_error_between_two_measurements() {
    let book = circuit("qudits 1 dimension 5\nmeasure 0\nmultiplier 0 by 2\nmeasure 0\nfourier 0");
    let counts = count(&share(&book, "multiplier x 0.25\nothers 0"), 4, SHOTS);
    is_likely(counts.unharmed, SHOTS, 0.75);
    assert_eq!(counts.results_unharmed, counts.unharmed);
    // After the last measurement it changes no result. X harms no state that X stabilizes.
    let counts = count(&share(&book, "fourier x 0.25\nothers 0"), 4, SHOTS);
    assert_eq!((counts.unharmed, counts.results_unharmed), (SHOTS, SHOTS));
    let counts = count(&share(&book, "fourier z 0.25\nothers 0"), 4, SHOTS);
    is_likely(counts.unharmed, SHOTS, 0.75);
    assert_eq!(counts.results_unharmed, SHOTS);
}

/// An entry that applies its gate several times is struck once.
#[test]
fn a_power_of_a_gate_is_one_operation() {
    let powers = circuit("qudits 2 dimension 7\nfourier 0 ^3\nsum 0 1 ^5\nphase 0 ^6\ncz 0 1 ^2");
    let once = circuit("qudits 2 dimension 7\nfourier 0\nsum 0 1\nphase 0\ncz 0 1");
    let [powers, once] = [powers, once].map(|book| share(&book, "others x 0.1 z 0.3"));
    for shot in 0..1000 {
        let [a, b] = [&powers, &once].map(|share| share.sampler().errors(1, shot));
        assert_eq!(a, b);
    }
}

/// Gates under which qudits at level 0 stay there, measurements and resets of them, and corrections.
fn at_level_0(rng: &mut Rng, d: u8, n: u8) -> Book {
    let mut book = Book::new(d, n);
    let drawn = draw_circuit(rng, d, n, 60, 6);
    for &operation in drawn.operations() {
        match operation {
            Operation::Fourier { .. } | Operation::PhaseGate { .. } => {}
            Operation::Measure { q } => _ = book.measure(q, rng.byte_below(d)),
            Operation::Reset { q } => _ = book.reset(q, rng.byte_below(d)),
            other => _ = book.operation(other),
        }
    }
    book
}

/// A power of Z harms nothing at level 0, where every gate but Fourier takes it to powers of Z.
#[test]
fn z_errors_on_level_0_harm_nothing() {
    let mut rng = Rng(5);
    for d in DIMENSIONS {
        let book = at_level_0(&mut rng, d, 4);
        assert!(book.operations().len() > 20 && book.measurements() == 6);
        for model in ["others z 1", "others z 0.5", "others x 0 z 0.01"] {
            let share = share(&book, model);
            assert!(!share.sampler().errors(1, 0).is_empty() || model.ends_with("0.01"));
            let counts = count(&share, 1, 3000);
            assert_eq!((counts.unharmed, counts.results_unharmed), (3000, 3000));
        }
        let counts = count(&share(&book, "others x 0.5"), 1, 3000);
        assert!(
            counts.unharmed < 300 && counts.results_unharmed < 300,
            "{counts:?}"
        );
    }
}

/// A power of X before each measurement leaves no result as it was, certain or free.
#[test]
fn x_errors_before_measurements_harm_every_result() {
    for d in DIMENSIONS {
        let book = circuit(&format!(
            "qudits 2 dimension {d}\nfourier 0\nmeasure 0\nmeasure 1"
        ));
        let counts = count(&share(&book, "measure x 1\nfourier 0"), 1, 3000);
        assert_eq!((counts.unharmed, counts.results_unharmed), (0, 0));
    }
}

/// A circuit without operations is never struck, and one without measurements has no result that
/// could be harmed.
#[test]
fn empty_circuits_and_circuits_without_measurements() {
    let empty = Book::new(3, 2);
    let counts = count(&share(&empty, "others 1"), 1, 300);
    assert_eq!(
        (counts.shots, counts.unharmed, counts.results_unharmed),
        (300, 300, 300)
    );
    let book = circuit("qudits 1 dimension 3\nfourier 0");
    let counts = count(&share(&book, "others z 1"), 1, 300);
    assert_eq!((counts.unharmed, counts.results_unharmed), (0, 300));
}
