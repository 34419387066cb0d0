//! The specification's cases, through the calls.

use crate::common;

use cagvost::book::{Book, DIMENSIONS, Operation};
use cagvost::{DirectRun, Refusal};
use common::{PAPER_BOOK, ROWS, Rng, UNWRITTEN, named, paper_book, plain, with_byte};
use common::{draw_tableau, zero_tableau};

/// What the run of a book without operations returns.
const EMPTY: DirectRun = DirectRun {
    measurements: 0,
    next: 1,
};

/// The tableau and the results of a book from the given tableau.
fn run(book: &Book, tableau: &[u8]) -> (Vec<u8>, Vec<u8>) {
    let mut tableau = tableau.to_vec();
    let mut results = vec![UNWRITTEN; cagvost::results_len(book.measurements())];
    let returned = cagvost::direct_run(&book.to_bytes(), &mut tableau, &mut results);
    let finished = DirectRun {
        measurements: book.measurements(),
        next: book.operations().len() + 1,
    };
    assert_eq!(returned, Ok(finished));
    (tableau, results)
}

/// The rows that a run of the book leaves of these, behind the same two bytes.
fn rows_after(book: &Book, rows: &[u8]) -> Vec<u8> {
    let (d, n) = (book.dimension(), book.qudits());
    let (left, _) = run(book, &named(d, n, rows));
    assert_eq!(left[..ROWS], [d, n]);
    left[ROWS..].to_vec()
}

/// The rows after one operation.
fn after(d: u8, n: u8, operation: Operation, rows: &[u8]) -> Vec<u8> {
    rows_after(Book::new(d, n).operation(operation), rows)
}

// ---- Starred cases that a call shows. The row of the case stands first in a valid tableau.

#[test]
fn starred_1_fourier() {
    let fourier = Operation::Fourier { q: 0, times: 1 };
    let left = after(3, 1, fourier, &[1, 1, 0, 0, 1, 0]);
    assert_eq!(left[..3], [2, 1, 2]);
}

#[test]
fn starred_2_phase_gate() {
    let phase_gate = Operation::PhaseGate { q: 0, times: 1 };
    let left = after(3, 1, phase_gate, &[2, 0, 0, 0, 2, 0]);
    assert_eq!(left[..3], [2, 2, 1]);
}

#[test]
fn starred_3_cz() {
    let rows = [
        1, 1, 0, 0, 0, // X on both
        0, 1, 0, 0, 0, //
        0, 0, 1, 0, 0, //
        0, 0, 2, 1, 0, //
    ];
    let (c, t, times) = (0, 1, 1);
    let left = after(3, 2, Operation::Cz { c, t, times }, &rows);
    assert_eq!(left[..5], [1, 1, 1, 1, 1]);
}

#[test]
fn starred_4_multiplier() {
    let multiplier = Operation::Multiplier { q: 0, u: 2 };
    let left = after(5, 1, multiplier, &[1, 1, 0, 0, 1, 0]);
    assert_eq!(left[..3], [2, 3, 0]);
}

#[test]
fn starred_7_error() {
    let left = rows_after(Book::new(3, 1).error(0, 1, 2), &[1, 1, 0, 0, 1, 0]);
    assert_eq!(left[..3], [1, 1, 1]);
}

#[test]
fn starred_8_certain() {
    let (left, results) = run(Book::new(3, 1).measure(0, 2), &zero_tableau(3, 1));
    assert_eq!(results, [0, 0]);
    assert_eq!(left, zero_tableau(3, 1));
}

#[test]
fn starred_9_free() {
    let mut book = Book::new(3, 1);
    book.operation(Operation::Fourier { q: 0, times: 1 })
        .measure(0, 2);
    let (left, results) = run(&book, &zero_tableau(3, 1));
    assert_eq!(results, [2, 1]);
    assert_eq!(left, named(3, 1, &[1, 0, 0, 0, 1, 1]));
}

// ---- The others

/// Numbers that are no dimension; some are one when cut to a byte or to 32 bits.
const NO_DIMENSIONS: [usize; 15] = [
    0,
    1,
    2,
    4,
    9,
    15,
    25,
    27,
    33,
    37,
    81,
    256 + 3,
    256 + 31,
    (1 << 32) + 3,
    usize::MAX,
];

/// Numbers of qudits outside 1 to 64; some are inside when cut.
const NO_COUNTS: [usize; 9] = [
    0,
    65,
    128,
    255,
    256,
    256 + 1,
    256 + 64,
    (1 << 32) + 1,
    usize::MAX,
];

#[test]
fn listed_dimensions_pass_and_others_are_refused_by_2() {
    let mut tableau = [UNWRITTEN; cagvost::tableau_len(1)];
    for d in DIMENSIONS {
        tableau.fill(UNWRITTEN);
        assert_eq!(cagvost::layer(&mut tableau, d.into(), 1), Ok(()));
        assert_eq!(cagvost::test_tableau(&tableau), Ok(()));
        assert_eq!(tableau[..], zero_tableau(d, 1));
    }
    for d in NO_DIMENSIONS {
        assert_eq!(cagvost::layer(&mut tableau, d, 1), Err(Refusal::Dimension));
        if let Ok(d) = u8::try_from(d) {
            let tested = cagvost::test_tableau(&with_byte(&tableau, 0, d));
            assert_eq!(tested, Err(Refusal::Dimension));
        }
    }
    assert_eq!(tableau[..], zero_tableau(31, 1));
}

#[test]
fn every_dimension_byte_of_a_book() {
    for d in 0..=255 {
        let mut tableau = zero_tableau(d, 1);
        let returned = cagvost::direct_run(&Book::new(d, 1).to_bytes(), &mut tableau, &mut []);
        let listed = DIMENSIONS.contains(&d);
        assert_eq!(
            returned,
            if listed {
                Ok(EMPTY)
            } else {
                Err(Refusal::Dimension)
            }
        );
        assert_eq!(tableau, zero_tableau(d, 1));
    }
}

#[test]
fn one_to_64_qudits_pass_and_others_are_refused_by_3() {
    let mut tableau = vec![UNWRITTEN; cagvost::tableau_len(300)];
    for n in 1..=64 {
        assert_eq!(cagvost::layer(&mut tableau, 31, n), Ok(()));
        assert_eq!(cagvost::test_tableau(&tableau), Ok(()));
        assert!(tableau[..cagvost::tableau_len(n)] == zero_tableau(31, n as u8));
    }
    let before = tableau.clone();
    for n in NO_COUNTS {
        assert_eq!(
            cagvost::layer(&mut tableau, 31, n),
            Err(Refusal::QuditCount)
        );
        if let Ok(n) = u8::try_from(n) {
            let tested = cagvost::test_tableau(&with_byte(&tableau, 1, n));
            assert_eq!(tested, Err(Refusal::QuditCount));
        }
    }
    assert!(tableau == before);
}

#[test]
fn every_qudit_count_byte_of_a_book() {
    for n in 0..=255 {
        let mut tableau = vec![0; cagvost::tableau_len(255)];
        tableau[..cagvost::tableau_len(n.into())].copy_from_slice(&zero_tableau(3, n));
        let before = tableau.clone();
        let returned = cagvost::direct_run(&Book::new(3, n).to_bytes(), &mut tableau, &mut []);
        let sized = (1..=64).contains(&n);
        assert_eq!(
            returned,
            if sized {
                Ok(EMPTY)
            } else {
                Err(Refusal::QuditCount)
            }
        );
        assert!(tableau == before);
    }
}

#[test]
fn no_operations_and_no_errors_keep_the_tableau() {
    let mut rng = Rng(1);
    for d in DIMENSIONS {
        for n in [1, 2, 5, 64] {
            let tableau = draw_tableau(&mut rng, d, n);
            let (left, results) = run(&Book::new(d, n), &tableau);
            assert!(left == tableau);
            assert!(results.is_empty());
        }
    }
}

#[test]
fn the_book_of_45_bytes() {
    let (left, results) = run(&paper_book(), &zero_tableau(3, 2));
    assert_eq!(results, [2, 1, 0, 0]);
    #[rustfmt::skip]
    assert_eq!(left, [
        3, 2,
        1, 1, 0, 0, 0,
        0, 1, 0, 0, 0,
        0, 0, 1, 0, 1,
        0, 0, 2, 1, 2,
    ]);
}

// ---- The plain reference itself, which other tests trust

fn row(a: i64, b: i64, r: i64) -> plain::Row {
    let (a, b) = (vec![a], vec![b]);
    plain::Row { a, b, r }
}

#[test]
fn starred_5_product_of_the_reference() {
    let (x, z) = (row(1, 0, 0), row(0, 1, 0));
    assert_eq!(plain::product(3, &z, &x), row(1, 1, 1));
    assert_eq!(plain::product(3, &x, &z), row(1, 1, 0));
}

#[test]
fn starred_6_power_of_the_reference() {
    assert_eq!(plain::power(3, &row(1, 1, 0), 2), row(2, 2, 1));
    assert_eq!(plain::power(3, &row(1, 1, 0), 3), row(0, 0, 0));
}

/// The listing of the specification, but for its words.
#[test]
fn the_book_of_45_bytes_as_frame_run_of_the_reference() {
    let (mut tableau, mut results) = (zero_tableau(3, 2), [UNWRITTEN; 4]);
    let (mut shifts, mut frame) = ([UNWRITTEN; 4], [UNWRITTEN; 4]);
    let returned = plain::frame_run(
        &PAPER_BOOK,
        &mut tableau,
        &mut results,
        &mut shifts,
        &mut frame,
    );
    assert_eq!(returned, (0, 2, 1));
    assert_eq!(results, [2, 1, 0, 0]);
    assert_eq!(shifts, [0, 0, 0, 2]);
    assert_eq!(frame, [0, 1, 0, 0]);
}
