//! The look at a qudit. `look_both` compares every number with the plain reference; what the numbers
//! must be is said here once more. That a look tells what a state vector has is in dense.rs.

use crate::common;

use cagvost::book::{Book, DIMENSIONS, MAX_QUDITS, Operation};
use cagvost::{Look, Refusal};
use common::halts::{Halted, look_all, look_both};
use common::{ROWS, Rng, Shape, draw_book, draw_tableau, named, run_both, sum, test_both};
use common::{with_byte, with_tail, zero_tableau};

const FREE: (usize, usize, usize) = (0, 1, 0);

fn certain(outcome: u8) -> (usize, usize, usize) {
    (0, 0, outcome.into())
}

/// The zero tableau after a book.
fn after(book: &Book) -> Vec<u8> {
    let zero = zero_tableau(book.dimension(), book.qudits());
    run_both(&book.to_bytes(), &zero, &vec![0; 2 * book.measurements()]).tableau
}

// ---- By hand

/// Every level on every qudit is told, and the other qudits are at level 0.
#[test]
fn every_level_is_certain() {
    for (d, n) in DIMENSIONS.into_iter().flat_map(|d| [(d, 1), (d, 3)]) {
        for (qudit, p) in (0..n).flat_map(|q| (0..d).map(move |p| (q, p))) {
            let left = after(Book::new(d, n).error(qudit, p, 1));
            for q in 0..n {
                let level = if q == qudit { p } else { 0 };
                assert_eq!(look_both(&left, q.into()), certain(level));
            }
        }
    }
}

/// An even superposition is free, whatever its phases are, and the same bytes say so again.
#[test]
fn an_even_superposition_is_free() {
    for d in DIMENSIONS {
        let mut book = Book::new(d, 2);
        book.operation(Operation::Fourier { q: 1, times: 1 })
            .error(1, 0, 2);
        let left = after(&book);
        for _ in 0..2 {
            assert_eq!(look_both(&left, 0), certain(0));
            assert_eq!(look_both(&left, 1), FREE);
        }
    }
}

/// Of a pair of like levels each is free; once one is measured, both are certain.
#[test]
fn a_pair_by_hand() {
    let mut book = Book::new(5, 2);
    book.operation(Operation::Fourier { q: 0, times: 1 })
        .operation(sum(0, 1));
    let pair = after(&book);
    assert_eq!([0, 1].map(|q| look_both(&pair, q)), [FREE; 2]);
    let measured = after(book.measure(1, 3));
    assert_eq!([0, 1].map(|q| look_both(&measured, q)), [certain(3); 2]);
    let reset = after(book.reset(1, 0));
    assert_eq!(look_both(&reset, 0), certain(3));
    assert_eq!(look_both(&reset, 1), certain(0));
}

/// Free comes with no outcome, and certain with its own.
#[test]
fn looks_as_values() {
    let left = after(Book::new(3, 2).operation(Operation::Fourier { q: 0, times: 1 }));
    assert_eq!(cagvost::look(&left, 0), Ok(Look::Free));
    assert_eq!(cagvost::look(&left, 1), Ok(Look::Certain(0)));
    assert_eq!(cagvost::look(&left, 2), Err(Refusal::NoSuchQudit));
    assert_eq!(
        format!("{:>9}|{:<9}", Look::Free, Look::Certain(30)),
        "     free|certain 30"
    );
}

// ---- What comes next

/// At each number at which a measurement or a reset comes next, what the look tells and what comes:
/// the outcome and its mark if it is a measurement. Without an error before it they are the same.
fn foretold(book: &Book, start: &[u8], seen: &mut [usize; 3]) {
    let (bytes, mut done) = (book.to_bytes(), 0);
    let mut run = Halted::new(start, &vec![0; 2 * book.measurements()]);
    let mut choices = book.choices().iter();
    for (k, &operation) in book.operations().iter().enumerate() {
        let next = run.go_on(&bytes, 1);
        let is_struck = book.errors().iter().any(|e| usize::from(e.place) == k);
        if let Operation::Measure { q } | Operation::Reset { q } = operation {
            let choice = *choices.next().expect("a choice");
            let told = match look_both(&run.tableau, q.into()) {
                FREE => [choice, 1],
                (_, _, outcome) => [outcome as u8, 0],
            };
            if let Operation::Measure { .. } = operation {
                let result = &next.results[2 * done..2 * done + 2];
                assert!(is_struck || told == result, "{k} of {book}");
                seen[usize::from(told[1])] += usize::from(!is_struck);
                seen[2] += usize::from(told != result);
                done += 1;
            } else {
                assert_eq!(look_both(&next.tableau, q.into()), certain(0));
            }
        }
        run = next;
    }
}

/// A look tells what the next measurement gives, if no error strikes before it: else it may not.
#[test]
fn a_look_foretells_the_next_measurement() {
    let mut rng = Rng(21);
    let mut seen = [0; 3];
    for d in DIMENSIONS {
        for _ in 0..40 {
            let n = 1 + rng.byte_below(5);
            let shape = Shape {
                d,
                n,
                operations: rng.below(40),
                errors: rng.below(20),
                measure_one_in: 2 + rng.below(3),
            };
            let book = draw_book(&mut rng, shape);
            let start = draw_tableau(&mut rng, d, n);
            foretold(&book, &start, &mut seen);
        }
    }
    // Certain ones, free ones, and those that an error has made other than was told.
    assert!(seen.iter().all(|&count| count > 50), "{seen:?}");
}

/// X strikes between the look and the measurement that comes next.
#[test]
fn an_error_before_the_next_operation_is_not_in_a_look() {
    let mut book = Book::new(3, 1);
    book.error(0, 2, 0).measure(0, 0);
    let run = Halted::new(&zero_tableau(3, 1), &[9; 2]);
    assert_eq!(look_both(&run.tableau, 0), certain(0));
    let run = run.go_on(&book.to_bytes(), 1);
    assert_eq!(run.results, [2, 0]);
    assert_eq!(look_both(&run.tableau, 0), certain(2));
}

// ---- Drawn tableaus

#[test]
fn drawn_tableaus_of_every_size() {
    let mut rng = Rng(22);
    for n in 1..=MAX_QUDITS {
        let d = DIMENSIONS[usize::from(n) % DIMENSIONS.len()];
        let tableau = draw_tableau(&mut rng, d, n);
        look_all(&with_tail(&mut rng, tableau));
    }
    for d in DIMENSIONS {
        for _ in 0..50 {
            let n = 1 + rng.byte_below(4);
            look_all(&draw_tableau(&mut rng, d, n));
        }
    }
}

// ---- Refusals

/// No qudit is cut to a byte, to two or to four: each of these would be one of the tableau's.
#[test]
fn a_qudit_that_is_not_there() {
    for n in [1, 2, 63, 64] {
        let zero = zero_tableau(31, n);
        let n = usize::from(n);
        assert_eq!(look_both(&zero, n - 1), certain(0));
        for q in [n, n + 1, 255, 256, 257, 300, 1 << 16, 1 << 32, usize::MAX] {
            assert_eq!(look_both(&zero, q), (13, 0, 0), "{q} of {n}");
        }
        for q in (0..n).flat_map(|q| [256 + q, (1 << 16) + q, (1 << 32) + q]) {
            assert_eq!(look_both(&zero, q), (13, 0, 0), "{q} of {n}");
        }
    }
}

/// What the tableau test says comes first, whatever qudit is asked for.
#[test]
fn what_the_test_refuses_comes_first() {
    let good = zero_tableau(3, 2);
    for qudit in [0, 1, 2, 300, usize::MAX] {
        let refused = |tableau: &[u8], number| {
            assert_eq!(test_both(tableau), (number, 0));
            assert_eq!(look_both(tableau, qudit), (number, 0, 0), "{tableau:?}");
        };
        (0..2).for_each(|length| refused(&good[..length], 8));
        refused(&[9, 0], 2);
        refused(&[3, 0], 3);
        refused(&[3, 65], 3);
        (2..good.len()).for_each(|length| refused(&good[..length], 8));
        refused(&with_byte(&good, ROWS, 2), 9);
        refused(&named(3, 2, &[0; 20]), 9);
    }
}

/// Every damage of one byte, with a qudit that would be there and one that would not.
#[test]
fn every_single_byte_damage_of_a_tableau() {
    let good = draw_tableau(&mut Rng(23), 5, 2);
    for (place, byte) in (0..good.len()).flat_map(|i| (0..=255).map(move |x| (i, x))) {
        let tableau = with_byte(&good, place, byte);
        let (number, _) = test_both(&tableau);
        assert_eq!(look_both(&tableau, 1).0, number);
        let past = if number == 0 { 13 } else { number };
        assert_eq!(look_both(&tableau, 64), (past, 0, 0));
    }
}
