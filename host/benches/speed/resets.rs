//! Resets and corrections: beside a measurement and an error, and in full books.

use crate::books::{self, Mix, certain_tableau, dense_tableau};
use crate::calls::{Columns, Job};
use crate::timing::{Unit, compare, head, line, take_beyond};
use crate::{QUDITS, RUNS, full_book};
use cagvost::book::{Book, MAX_ERRORS, MAX_OPERATIONS, Operation};
use std::time::Duration;

/// How long the columns of a line take turns.
const BUDGET: Duration = Duration::from_millis(300);

/// Full books by both runs, then single operations.
pub fn resets(dimensions: &[u8]) {
    refused_books();
    head(
        "Full books of memory rounds: SUM, measurement, correction by its result, reset; 1,024 of these, \
         2,048 errors.",
        "µs per call",
    );
    for &d in dimensions {
        full_book(Mix::Memory, d, QUDITS);
    }
    head(
        "Single resets and corrections on 64 qudits, beside errors and measurements. A run without them is \
         subtracted.\nAt 0: but for the first 64, the qudits are at level 0 before. Struck: X takes the qudit to \
         level 1 before,\nin a direct run; the errors are subtracted too.",
        "ns per operation",
    );
    dimensions.iter().for_each(|&d| lines_of(d));
}

/// What is timed: so many operations of a job, beyond those of another.
struct Beyond {
    name: &'static str,
    count: usize,
    job: Job,
    other: Job,
}

fn lines_of(d: u8) {
    for (run, columns) in &RUNS {
        for beyond in [
            errors(d),
            corrections(d),
            free(d, "free measurement, of 64", books::of_measurements),
            free(d, "free reset, of 64", books::of_resets),
            certain(d, "certain measurement, of 4,096", books::of_measurements),
            certain(d, "certain reset at 0, of 4,096", books::of_resets),
            struck(d),
        ] {
            beyond.line(&format!("{run:<6} d {d:<2}"), columns);
        }
    }
}

impl Beyond {
    fn line(&self, label: &str, columns: &Columns<4>) {
        let times = take_beyond(&self.job, &self.other, columns, BUDGET);
        let label = format!("{label} {}", self.name);
        line(&label, Unit::NanosPer(self.count), &times);
    }
}

fn idle(d: u8, tableau: &[u8]) -> Job {
    Job::new(&Book::new(d, QUDITS), tableau.to_vec())
}

fn errors(d: u8) -> Beyond {
    let dense = dense_tableau(d, QUDITS);
    Beyond {
        name: "error, of 2,048",
        count: MAX_ERRORS,
        other: idle(d, &dense),
        job: Job::new(&books::of_one_error(d, QUDITS), dense),
    }
}

/// The measurement that they name is free, so that they are by its choice, which is not 0.
fn corrections(d: u8) -> Beyond {
    let dense = dense_tableau(d, QUDITS);
    let job = |count| Job::new(&books::of_corrections(d, QUDITS, count), dense.clone());
    Beyond {
        name: "correction, of 4,095",
        count: MAX_OPERATIONS - 1,
        job: job(MAX_OPERATIONS - 1),
        other: job(0),
    }
}

fn free(d: u8, name: &'static str, book: fn(u8, u8, usize) -> Book) -> Beyond {
    let dense = dense_tableau(d, QUDITS);
    Beyond {
        name,
        count: 64,
        other: idle(d, &dense),
        job: Job::new(&book(d, QUDITS, 64), dense),
    }
}

fn certain(d: u8, name: &'static str, book: fn(u8, u8, usize) -> Book) -> Beyond {
    let levels = certain_tableau(d, QUDITS);
    Beyond {
        name,
        count: MAX_OPERATIONS,
        other: idle(d, &levels),
        job: Job::new(&book(d, QUDITS, MAX_OPERATIONS), levels),
    }
}

/// The errors alone are subtracted.
fn struck(d: u8) -> Beyond {
    let levels = certain_tableau(d, QUDITS);
    let mut errors = Book::new(d, QUDITS);
    for q in (0..QUDITS).cycle().take(MAX_ERRORS) {
        errors.error(q, 1, 0);
    }
    Beyond {
        name: "struck reset, of 2,048",
        count: MAX_ERRORS,
        other: Job::new(&errors, levels.clone()),
        job: Job::new(&books::of_struck_resets(d, QUDITS), levels),
    }
}

/// The columns refuse alike what can be wrong with resets and corrections. Nothing is timed.
fn refused_books() {
    let measure = Operation::Measure { q: 0 };
    let reset = Operation::Reset { q: 0 };
    let by = |m| Operation::Correct { t: 1, m };
    for (operations, choices, expected) in [
        (&[measure, by(0), reset][..], 2, (0, 1, 0)),
        (&[reset, by(0)], 1, (5, 1, 0)),
        (&[by(0), measure], 1, (5, 0, 0)),
        (&[measure, by(1), measure], 2, (5, 1, 0)),
        (&[measure, by(256)], 1, (5, 1, 0)),
        (&[measure, Operation::Correct { t: 64, m: 0 }], 1, (5, 1, 0)),
        (&[measure, Operation::Reset { q: 64 }], 2, (5, 1, 0)),
        (&[measure, reset, by(0)], 1, (7, 1, 0)),
        (&[measure, reset, by(0)], 3, (7, 2, 0)),
    ] {
        let mut book = Book::new(31, QUDITS);
        operations.iter().for_each(|&o| _ = book.operation(o));
        (0..choices).for_each(|_| _ = book.choice(1));
        let job = Job::new(&book, dense_tableau(31, QUDITS));
        for (_, columns) in &RUNS {
            let (number, place, _) = compare(&job, columns).0;
            assert_eq!((number, place, 0), expected, "{operations:?}");
        }
    }
}
