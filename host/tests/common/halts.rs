//! Direct runs that halt and looks, by the library and by the plain reference.

use super::{Rng, is_still_valid, plain};
use cagvost::{DirectRun, Look, Refusal};

/// A direct run as the specification's three numbers.
pub fn reached(run: Result<DirectRun, Refusal>) -> (usize, usize, usize) {
    match run {
        Ok(DirectRun { measurements, next }) => (0, measurements, next),
        Err(refusal) => (refusal.number(), refusal.place(), 0),
    }
}

/// The number of a finished run of an accepted book, whose operations have four bytes each.
pub fn finished(book: &[u8]) -> usize {
    usize::from(u16::from_le_bytes([book[8], book[9]])) / 4 + 1
}

/// A look as the library's three numbers.
pub fn look_as_numbers(look: Result<Look, Refusal>) -> (usize, usize, usize) {
    match look {
        Ok(Look::Free) => (0, 1, 0),
        Ok(Look::Certain(outcome)) => (0, 0, outcome.into()),
        Err(refusal) => (refusal.number(), refusal.place(), 0),
    }
}

/// What a call has left: its numbers and both buffers.
#[derive(Clone, Debug, PartialEq, Eq)]
pub struct Halted {
    pub numbers: (usize, usize, usize),
    pub tableau: Vec<u8>,
    pub results: Vec<u8>,
}

impl Halted {
    /// A run that has not begun.
    pub fn new(tableau: &[u8], results: &[u8]) -> Halted {
        Halted {
            numbers: (0, 0, 0),
            tableau: tableau.to_vec(),
            results: results.to_vec(),
        }
    }

    /// The number that the run stands at.
    pub fn next(&self) -> usize {
        self.numbers.2
    }

    /// The next call goes on from here.
    pub fn go_on(&self, book: &[u8], count: usize) -> Halted {
        go_on_both(book, &self.tableau, &self.results, self.next(), count)
    }
}

/// Goes on on copies of the buffers, by the library and by the plain reference, which must agree in
/// each number and byte. A refusal must leave every byte. A run must reach the smaller of the asked
/// number and a finished run's, and what it leaves must name the book's d and n and pass the test. No
/// call may touch the book.
pub fn go_on_both(
    book: &[u8],
    tableau: &[u8],
    results: &[u8],
    from: usize,
    count: usize,
) -> Halted {
    let lent = book.to_vec();
    let (mut left, mut expected) = (Halted::new(tableau, results), Halted::new(tableau, results));
    let run = cagvost::go_on(&lent, &mut left.tableau, &mut left.results, from, count);
    left.numbers = reached(run);
    let (t, r) = (&mut expected.tableau, &mut expected.results);
    expected.numbers = plain::go_on(book, t, r, from, count);
    let what = || format!("from {from} for {count} of {book:02x?}");
    assert_eq!(left.numbers, expected.numbers, "numbers {}", what());
    assert!(lent == book, "the book was written: {book:02x?}");
    assert!(left.tableau == expected.tableau, "tableau {}", what());
    assert!(left.results == expected.results, "results {}", what());
    if left.numbers.0 != 0 {
        let kept = left.tableau == tableau && left.results == results;
        assert!(kept, "{:?} changed a buffer", left.numbers);
    } else {
        let reached = from.saturating_add(count).min(finished(book));
        assert_eq!(left.next(), reached, "{}", what());
        is_still_valid(book, &left.tableau);
    }
    left
}

/// Looks at a qudit of a copy of the buffer by both, which must agree; no byte may change.
pub fn look_both(tableau: &[u8], qudit: usize) -> (usize, usize, usize) {
    let lent = tableau.to_vec();
    let numbers = look_as_numbers(cagvost::look(&lent, qudit));
    let expected = plain::look_call(tableau, qudit);
    assert_eq!(numbers, expected, "qudit {qudit} of {tableau:02x?}");
    assert!(lent == tableau, "the look wrote the tableau");
    numbers
}

/// Looks at every qudit of a valid tableau, and one further.
pub fn look_all(tableau: &[u8]) {
    let n = usize::from(tableau[1]);
    (0..n).for_each(|q| assert_eq!(look_both(tableau, q).0, 0));
    assert_eq!(look_both(tableau, n), (13, 0, 0));
}

/// Calls with drawn counts and looks at drawn qudits between them, until the run has finished.
pub fn finish_in_calls(rng: &mut Rng, book: &[u8], start: &Halted, most: usize) -> Halted {
    let mut run = start.clone();
    while run.next() < finished(book) {
        run = run.go_on(book, rng.below(most + 1));
        assert_eq!(run.numbers.0, 0);
        let qudit = rng.below(book[2].into());
        assert_eq!(look_both(&run.tableau, qudit).0, 0);
    }
    run
}
