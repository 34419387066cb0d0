//! Shots with more errors than a tray can have.

use super::{count, share};
use crate::common::sum;
use cagvost::book::{Book, MAX_ERRORS};
use cagvost::share::{Share, ShareError};
use std::num::NonZeroUsize;

/// 2,000 sums under this rate: 4,000 sites.
fn sums(rate: &str) -> Share {
    let mut book = Book::new(3, 2);
    (0..2000).for_each(|_| _ = book.operation(sum(0, 1)));
    share(&book, &format!("sum {rate}"))
}

fn refused(share: &Share, shots: u64, threads: usize) -> Option<ShareError> {
    let threads = NonZeroUsize::new(threads).expect("a thread");
    share.count(1, 0..shots, threads, &|_| {}).err()
}

#[test]
fn every_shot_has_too_many() {
    let share = sums("1");
    let error = ShareError::TooManyErrors {
        shot: 0,
        errors: 4000,
    };
    for threads in [1, 3] {
        assert_eq!(refused(&share, 5000, threads), Some(error));
    }
    let text = error.to_string();
    assert!(
        text.contains("shot 0 has 4000 errors") && text.contains("2048"),
        "{text}"
    );
}

/// The first shot that has too many, and none before it: at once, within a tray, and in a later one.
#[test]
fn the_first_shot_that_has_too_many() {
    for (rate, least) in [("0.512", 0), ("0.493", 30), ("0.488", 300)] {
        let share = sums(rate);
        let errors = |shot| share.sampler().errors(1, shot).len();
        let shot = (0..20_000).find(|&shot| errors(shot) > MAX_ERRORS);
        let shot = shot.expect("some shot has too many");
        assert!(shot >= least, "{rate}: {shot}");
        let error = ShareError::TooManyErrors {
            shot,
            errors: errors(shot),
        };
        for threads in [1, 3, 8] {
            assert_eq!(refused(&share, shot + 500, threads), Some(error), "{rate}");
        }
        assert_eq!(refused(&share, shot, 2), None);
    }
}

/// A shot may have just as many errors as a tray can have.
#[test]
fn the_most_errors_can_be_run() {
    let mut book = Book::new(3, 2);
    (0..MAX_ERRORS / 2).for_each(|_| _ = book.operation(sum(0, 1)));
    let share = share(&book, "sum 1");
    assert_eq!(share.sampler().errors(1, 0).len(), MAX_ERRORS);
    assert_eq!(count(&share, 1, 300).shots, 300);
}
