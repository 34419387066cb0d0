//! Counts against direct runs of the drawn errors, whose final states are compared as stabilizer
//! sets.

use super::{circuit, count, share};
use crate::common::trays::draw_circuit;
use crate::common::{ROWS, Rng, Run, UNWRITTEN, plain, run_both};
use crate::common::{with_raised_choices, zero_tableau};
use cagvost::book::Book;
use cagvost::share::{Counts, Share};

/// A direct run from the zero tableau.
fn run(book: &Book) -> Run {
    let zero = zero_tableau(book.dimension(), book.qudits());
    let results = vec![UNWRITTEN; 2 * book.measurements()];
    run_both(&book.to_bytes(), &zero, &results)
}

/// Counts by a direct run for each shot, with the choices that the frame raises: that run ends as the
/// frame run of the same errors.
fn by_direct_runs(book: &Book, share: &Share, seed: u64, shots: u64) -> Counts {
    let without = book.without_errors();
    let clean = run(&without);
    let (d, n) = (book.dimension().into(), book.qudits().into());
    let mut counts = Counts::default();
    for shot in 0..shots {
        let mut noisy = without.clone();
        let errors = share.sampler().errors(seed, shot);
        errors
            .into_iter()
            .for_each(|error| _ = noisy.error_at(error));
        let ended = run(&with_raised_choices(&noisy));
        let same = plain::same_set(d, n, &ended.tableau[ROWS..], &clean.tableau[ROWS..]);
        counts.shots += 1;
        counts.unharmed += u64::from(same);
        counts.results_unharmed += u64::from(ended.results == clean.results);
    }
    counts
}

const MODELS: [&str; 4] = [
    "others 0.05",
    "others x 0.06 z 0.02",
    "fourier z 0.3\nphase 0.1\nsum x 0.02\nmeasure x 0.1\nothers 0",
    "measure 0.2\nswap 0.3\nothers x 0.04",
];

/// 4,320 shots of drawn circuits.
#[test]
fn counts_are_those_of_direct_runs() {
    let mut rng = Rng(23);
    let mut seen = [Counts::default(); 2];
    for (d, n) in [3, 5].into_iter().flat_map(|d| [1, 2, 3].map(|n| (d, n))) {
        for (measurements, text) in [0, 1, 4].into_iter().flat_map(|m| MODELS.map(|t| (m, t))) {
            let book = draw_circuit(&mut rng, d, n, 8, measurements);
            let share = share(&book, text);
            let seed = rng.next();
            let counts = count(&share, seed, 60);
            let expected = by_direct_runs(&book, &share, seed, 60);
            assert_eq!(counts, expected, "{text}\n{book}");
            let kind = usize::from(measurements > 0);
            seen[kind] = seen[kind] + counts;
        }
    }
    let [gates, measured] = seen;
    assert_eq!(gates.results_unharmed, gates.shots);
    for counts in [gates.unharmed, measured.unharmed, measured.results_unharmed] {
        assert!((400..2400).contains(&counts), "{seen:?}");
    }
    assert_ne!(measured.unharmed, measured.results_unharmed);
}

/// The circuit of the documents: entangled qudits, of which one is measured.
#[test]
fn counts_of_an_entangled_pair() {
    let book = circuit("qudits 2 dimension 3\nfourier 0\nsum 0 1\nmeasure 1 choose 2");
    let share = share(&book, "fourier 0.1\nsum 0.2\nmeasure x 0.1");
    let expected = by_direct_runs(&book, &share, 7, 1000);
    assert_eq!(count(&share, 7, 1000), expected);
}

/// A book's own errors strike no shot, and the share says how many there are.
#[test]
fn errors_of_the_circuit_are_not_used() {
    let book = circuit("qudits 2 dimension 3\nerror 0 x\nfourier 0\nerror 1 x\nsum 0 1\nmeasure 1");
    let [noisy, clean] = [&book, &book.without_errors()].map(|book| share(book, "others 0.1"));
    assert_eq!((noisy.unused_errors(), clean.unused_errors()), (2, 0));
    assert_eq!(count(&noisy, 3, 5000), count(&clean, 3, 5000));
    assert_eq!(noisy.job(3, 5000), clean.job(3, 5000));
    let none = share(&book, "others 0");
    let counts = count(&none, 3, 5000);
    assert_eq!((counts.unharmed, counts.results_unharmed), (5000, 5000));
}

/// What a free measurement chooses changes neither count.
#[test]
fn choices_do_not_change_the_counts() {
    let mut rng = Rng(41);
    for (d, n) in [(3, 2), (5, 3), (31, 4)] {
        let mut book = draw_circuit(&mut rng, d, n, 20, 8);
        book.choices_mut().fill(0);
        let expected = count(&share(&book, "others 0.02"), 11, 5000);
        assert!(expected.unharmed < expected.shots);
        for _ in 0..4 {
            book.choices_mut().fill_with(|| rng.byte_below(d));
            let counts = count(&share(&book, "others 0.02"), 11, 5000);
            assert_eq!(counts, expected, "{book}");
        }
    }
}
