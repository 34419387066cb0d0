//! The frame run: the specification's cases, its refusals, every byte as the plain reference has
//! it, demand 3, and the verdict by the stabilizer sets.

use crate::common;

use cagvost::book::{Book, DIMENSIONS, MAX_ERRORS, MAX_OPERATIONS, Operation, WeylError};
use common::frames::{Buffers, carry_both};
use common::plain::{self, Row};
use common::with_raised_choices;
use common::{PAPER_BOOK, ROWS, Rng, Shape, UNWRITTEN, Verdicts, named, run_both};
use common::{cz, draw_book, draw_error, draw_tableau, sum, zero_tableau};

// ---- Cases

#[test]
fn the_book_of_45_bytes() {
    let (returned, left) = carry_both(&PAPER_BOOK, &Buffers::zero(3, 2, 2));
    assert_eq!(returned, (0, 2, 1));
    assert_eq!(left.results, [2, 1, 0, 0]);
    assert_eq!(left.shifts, [0, 0, 0, 2]);
    assert_eq!(left.frame, [0, 1, 0, 0]);
    #[rustfmt::skip]
    assert_eq!(left.tableau, [
        3, 2,
        1, 1, 0, 0, 0,
        0, 1, 0, 0, 0,
        0, 0, 1, 0, 1,
        0, 0, 2, 1, 2,
    ]);
}

#[test]
fn no_operations_and_no_errors_keep_the_tableau() {
    let mut rng = Rng(1);
    for d in DIMENSIONS {
        for n in [1, 3, 64] {
            let tableau = draw_tableau(&mut rng, d, n);
            let before = Buffers::drawn(&mut rng, n, 0, tableau);
            let (returned, left) = carry_both(&Book::new(d, n).to_bytes(), &before);
            assert_eq!(returned, (0, 0, 0));
            assert!(left.tableau == before.tableau);
            assert!(left.shifts[..2 * usize::from(n)].iter().all(|&x| x == 0));
            assert!(left.frame[..2 * usize::from(n)].iter().all(|&x| x == 0));
        }
    }
}

/// A Z error on level 0 shifts a destabilizer alone: the state is the same.
#[test]
fn a_z_error_on_level_0_is_clean() {
    let book = Book::new(3, 1).error(0, 0, 1).to_bytes();
    let (returned, left) = carry_both(&book, &Buffers::zero(3, 1, 0));
    assert_eq!(returned, (0, 0, 0));
    assert_eq!(left.shifts, [1, 0]);
    assert_eq!(left.tableau, named(3, 1, &[1, 0, 1, 0, 1, 0]));
}

/// An X error on level 0 shifts a stabilizer: the state is level 1.
#[test]
fn an_x_error_on_level_0_is_shifted() {
    let book = Book::new(3, 1).error(0, 1, 0).to_bytes();
    let (returned, left) = carry_both(&book, &Buffers::zero(3, 1, 0));
    assert_eq!(returned, (0, 0, 1));
    assert_eq!(left.shifts, [0, 2]);
    assert_eq!(left.tableau, named(3, 1, &[1, 0, 0, 0, 1, 2]));
}

/// From the zero tableau an X error on a qudit shifts its stabilizer alone, a Z error its
/// destabilizer alone: each stabilizer is judged, and no destabilizer.
#[test]
fn each_row_alone() {
    for (d, power) in DIMENSIONS
        .into_iter()
        .flat_map(|d| (1..d).map(move |power| (d, power)))
    {
        for q in 0..3 {
            let carry = |p, s| {
                let book = Book::new(d, 3).error(q, p, s).to_bytes();
                let (returned, left) = carry_both(&book, &Buffers::zero(d, 3, 0));
                (returned, left.shifts)
            };
            let alone = |row: u8, shift| {
                let mut shifts = vec![0; 6];
                shifts[usize::from(row)] = shift;
                shifts
            };
            assert_eq!(carry(power, 0), ((0, 0, 1), alone(3 + q, d - power)));
            assert_eq!(carry(0, power), ((0, 0, 0), alone(q, power)));
        }
    }
}

/// Errors that cancel leave no trace but in the results between them.
#[test]
fn errors_that_cancel_are_clean() {
    let mut book = Book::new(5, 1);
    book.error(0, 2, 0).measure(0, 4).error(0, 3, 0);
    let (returned, left) = carry_both(&book.to_bytes(), &Buffers::zero(5, 1, 1));
    assert_eq!(returned, (0, 1, 0));
    assert_eq!(left.results, [2, 0]);
}

// ---- Refusals

/// The frame run refuses what the direct run refuses; short shifts or frame are refused by 8.
#[test]
fn refusals_in_their_order() {
    let mut good = Book::new(3, 2);
    good.operation(Operation::Fourier { q: 0, times: 1 })
        .error(1, 1, 1)
        .measure(0, 1);
    let good = good.to_bytes();
    let whole = Buffers::zero(3, 2, 1);
    let shorten: [fn(&mut Buffers); 4] = [
        |b| b.tableau.truncate(21),
        |b| b.results.truncate(1),
        |b| b.shifts.truncate(3),
        |b| b.frame.truncate(3),
    ];
    assert_eq!(carry_both(&good, &whole).0, (0, 1, 1));
    for shorten in shorten {
        let mut short = whole.clone();
        shorten(&mut short);
        assert_eq!(carry_both(&good, &short).0, (8, 0, 0));
        if let Some(last) = short.tableau.last_mut() {
            *last = 3;
        }
        assert_eq!(carry_both(&good, &short).0, (8, 0, 0));
        for length in 0..good.len() {
            let returned = carry_both(&good[..length], &short).0;
            assert_eq!(returned, if length < 22 { (1, 0, 0) } else { (4, 3, 0) });
        }
    }
    let mut invalid = whole.clone();
    invalid.tableau[ROWS] = 2;
    assert_eq!(carry_both(&good, &invalid).0, (9, 0, 0));
}

#[test]
fn every_single_byte_damage_of_the_paper_book() {
    let mut rng = Rng(45);
    for (place, byte) in (0..PAPER_BOOK.len()).flat_map(|i| (0..=255).map(move |x| (i, x))) {
        let mut book = PAPER_BOOK;
        book[place] = byte;
        let before = Buffers::drawn(&mut rng, 2, 2, zero_tableau(3, 2));
        carry_both(&book, &before);
    }
}

// ---- Drawn books

fn shape(rng: &mut Rng, d: u8, n: u8, most: usize) -> Shape {
    Shape {
        d,
        n,
        operations: rng.below(most),
        errors: rng.below(most / 3),
        measure_one_in: 2 + rng.below(8),
    }
}

/// Carries the errors of a book and applies them in the book with raised choices: demand 3, in every
/// byte of the tableau, and both runs leave the book's d and n before the rows. Then leaves the errors
/// out: the verdict is clean exactly if that run ends with the same stabilizer set.
pub fn framed_and_direct(rng: &mut Rng, book: &Book, tableau: Vec<u8>, seen: &mut Verdicts) {
    let (d, n, first) = (book.dimension(), book.qudits(), book.to_bytes());
    let before = Buffers::drawn(rng, n, book.measurements(), tableau);
    let run = |book: &Book| run_both(&book.to_bytes(), &before.tableau, &before.results);
    let (returned, framed) = carry_both(&first, &before);
    let direct = run(&with_raised_choices(book));
    assert_eq!((returned.0, returned.1), direct.returned);
    assert_eq!(returned.0, 0);
    assert!(framed.results == direct.results, "results of {first:02x?}");
    assert!(framed.tableau == direct.tableau, "tableau of {first:02x?}");
    assert_eq!(framed.tableau[..ROWS], [d, n]);
    let clean = run(&book.without_errors());
    let [carried, unstruck] = [&framed.tableau[ROWS..], &clean.tableau[ROWS..]];
    let same = plain::same_set(d.into(), n.into(), carried, unstruck);
    assert_eq!(returned.2, usize::from(!same), "verdict of {first:02x?}");
    seen.count(returned.2 == 0, &framed.shifts[..2 * usize::from(n)]);
}

/// The same for a drawn book and tableau.
fn carry_drawn(rng: &mut Rng, shape: Shape, seen: &mut Verdicts) {
    let book = draw_book(rng, shape);
    let tableau = draw_tableau(rng, shape.d, shape.n);
    framed_and_direct(rng, &book, tableau, seen);
}

fn carry_many(books: usize, least: u8, most: u8, operations: usize) -> Verdicts {
    let mut rng = Rng(least.into());
    let mut seen = Verdicts::default();
    for d in DIMENSIONS {
        for _ in 0..books {
            let n = least + rng.byte_below(most - least + 1);
            let shape = shape(&mut rng, d, n, operations);
            carry_drawn(&mut rng, shape, &mut seen);
        }
    }
    seen
}

#[test]
fn one_to_four_qudits() {
    carry_many(500, 1, 4, 80).are_enough(50);
}

#[test]
fn five_to_twenty_qudits() {
    carry_many(60, 5, 20, 150);
}

#[test]
fn twenty_one_to_64_qudits() {
    carry_many(8, 21, 64, 300);
}

#[test]
fn full_books() {
    let mut rng = Rng(4096);
    for (d, n) in [(3, 64), (31, 64), (5, 2)] {
        let shape = Shape {
            d,
            n,
            operations: MAX_OPERATIONS,
            errors: MAX_ERRORS,
            measure_one_in: 10,
        };
        carry_drawn(&mut rng, shape, &mut Verdicts::default());
    }
}

/// One error alone, at every place of a small circuit, with every power.
#[test]
fn every_error_at_every_place() {
    let mut rng = Rng(6);
    let mut seen = Verdicts::default();
    for (d, place, qudit) in (0..=7).flat_map(|k| [(3, k, 0), (3, k, 1), (5, k, 0), (5, k, 1)]) {
        for (p, s) in (0..d).flat_map(|p| (0..d).map(move |s| (p, s))) {
            let mut book = Book::new(d, 2);
            book.operation(Operation::Fourier { q: 0, times: 1 })
                .operation(Operation::PhaseGate { q: 0, times: 1 })
                .operation(sum(0, 1))
                .measure(1, 1)
                .operation(cz(1, 0))
                .operation(Operation::Multiplier { q: 0, u: 2 })
                .measure(0, 2);
            book.error_at(WeylError { place, qudit, p, s });
            framed_and_direct(&mut rng, &book, zero_tableau(d, 2), &mut seen);
        }
    }
    seen.are_enough(50);
}

// ---- The verdict, with errors that are often clean

/// How the errors of a book are drawn.
#[derive(Clone, Copy, Debug)]
enum Kind {
    /// One, anywhere.
    One,
    /// Powers of Z, before all operations.
    EarlyZ,
    /// One, and its inverse at the same place or the next.
    Undone,
    /// After all operations, what a drawn product of the last stabilizers has on each qudit.
    Stabilizer,
    /// The same, and one more.
    StabilizerAndOne,
}

/// A drawn product of powers of the stabilizers, as errors at one place. Its phase is lost.
fn draw_stabilizer(rng: &mut Rng, d: u8, rows: &[Row], place: usize) -> Vec<WeylError> {
    let (modulus, n) = (i64::from(d), rows.len() / 2);
    let mut whole = plain::identity(n);
    for row in &rows[n..] {
        let power = plain::power(modulus, row, rng.byte_below(d).into());
        whole = plain::product(modulus, &whole, &power);
    }
    let powers = whole.a.iter().zip(&whole.b).zip(0..);
    powers
        .map(|((&p, &s), qudit)| WeylError {
            place: place as u16,
            qudit,
            p: p as u8,
            s: s as u8,
        })
        .collect()
}

/// Errors for a book without any; `last` are the rows that it ends with.
fn draw_errors(rng: &mut Rng, kind: Kind, book: &Book, last: &[Row]) -> Vec<WeylError> {
    let (d, n, end) = (book.dimension(), book.qudits(), book.operations().len());
    let place = rng.below(end + 1);
    match kind {
        Kind::One => vec![draw_error(rng, d, n, place)],
        Kind::EarlyZ => (0..n)
            .map(|qudit| WeylError {
                place: 0,
                qudit,
                p: 0,
                s: rng.byte_below(d),
            })
            .collect(),
        Kind::Undone => {
            let error = draw_error(rng, d, n, place);
            let inverse = WeylError {
                place: (place + rng.below(2)).min(end) as u16,
                qudit: error.qudit,
                p: (d - error.p) % d,
                s: (d - error.s) % d,
            };
            vec![error, inverse]
        }
        Kind::Stabilizer => draw_stabilizer(rng, d, last, end),
        Kind::StabilizerAndOne => {
            let mut errors = draw_stabilizer(rng, d, last, end);
            errors.push(draw_error(rng, d, n, end));
            errors
        }
    }
}

/// A drawn book with errors of the kind, from level 0 or from a drawn tableau.
fn carry_kind(rng: &mut Rng, kind: Kind, d: u8, n: u8, seen: &mut Verdicts) {
    let shape = Shape {
        d,
        n,
        operations: rng.below(3 * usize::from(n)),
        errors: 0,
        measure_one_in: 2 + rng.below(8),
    };
    let mut book = draw_book(rng, shape);
    let tableau = match kind {
        Kind::One | Kind::EarlyZ => zero_tableau(d, n),
        _ => draw_tableau(rng, d, n),
    };
    let mut last = tableau.clone();
    let mut results = vec![UNWRITTEN; 2 * book.measurements()];
    cagvost::direct_run(&book.to_bytes(), &mut last, &mut results).expect("an accepted book");
    let errors = draw_errors(rng, kind, &book, &plain::rows_of(n.into(), &last[ROWS..]));
    errors
        .into_iter()
        .for_each(|error| _ = book.error_at(error));
    framed_and_direct(rng, &book, tableau, seen);
}

/// Every number of qudits with each kind of errors, in every dimension by turns.
#[test]
fn clean_exactly_if_the_set_is_that_without_errors() {
    let kinds = [
        Kind::One,
        Kind::EarlyZ,
        Kind::Undone,
        Kind::Stabilizer,
        Kind::StabilizerAndOne,
    ];
    let mut rng = Rng(2);
    let mut seen = Verdicts::default();
    for n in 1..=64 {
        for (i, kind) in kinds.into_iter().enumerate() {
            let d = DIMENSIONS[(usize::from(n) + i) % DIMENSIONS.len()];
            carry_kind(&mut rng, kind, d, n, &mut seen);
        }
    }
    seen.are_enough(100);
}
