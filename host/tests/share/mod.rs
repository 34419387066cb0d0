//! Shares of unharmed shots: counted as direct runs and closed forms say, drawn as the model says,
//! the same on any number of threads and in any parts.
//!
//! All seeds are fixed, so that a test passes always or never. Where a frequency is compared with a
//! probability, the bound is five standard deviations; a chi-square may be six of its standard
//! deviations above its mean.

mod closed_forms;
mod direct_runs;
mod drawing;
mod parts;
mod threads;
mod too_many_errors;

use cagvost::book::Book;
use cagvost::share::{Counts, ErrorModel, Share};
use std::num::NonZeroUsize;
use std::ops::Range;

fn circuit(text: &str) -> Book {
    text.parse().unwrap_or_else(|e| panic!("{e}"))
}

fn model(text: &str) -> ErrorModel {
    text.parse().unwrap_or_else(|e| panic!("{e}"))
}

fn share(book: &Book, text: &str) -> Share {
    Share::new(book, &model(text)).unwrap_or_else(|e| panic!("{e}"))
}

fn count_on(share: &Share, seed: u64, shots: Range<u64>, threads: usize) -> Counts {
    let threads = NonZeroUsize::new(threads).expect("a thread");
    let counts = share.count(seed, shots, threads, &|_| {});
    counts.unwrap_or_else(|e| panic!("{e}"))
}

fn count(share: &Share, seed: u64, shots: u64) -> Counts {
    count_on(share, seed, 0..shots, 2)
}

/// So many of these have the probability p, up to five standard deviations.
fn is_likely(count: u64, of: u64, p: f64) {
    let (mean, variance) = (of as f64 * p, of as f64 * p * (1.0 - p));
    let away = (count as f64 - mean).abs();
    assert!(
        away <= 5.0 * variance.sqrt(),
        "{count} of {of}, mean {mean}"
    );
}
