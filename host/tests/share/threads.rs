//! The same counts on any number of threads and from any ranges.

use super::{circuit, count, count_on, share};
use crate::common::Rng;
use crate::common::trays::draw_circuit;
use cagvost::share::{Counts, Share};
use std::collections::HashSet;
use std::num::NonZeroUsize;
use std::sync::Mutex;
use std::thread;
use std::time::Duration;

fn drawn(d: u8, n: u8, measurements: usize) -> Share {
    let mut rng = Rng(u64::from(d) + u64::from(n));
    let book = draw_circuit(&mut rng, d, n, 60, measurements);
    share(&book, "others x 0.01 z 0.005")
}

#[test]
fn any_number_of_threads_counts_the_same() {
    for (d, n, measurements) in [(3, 2, 5), (5, 8, 0), (31, 64, 20)] {
        let share = drawn(d, n, measurements);
        let expected = count_on(&share, 1, 0..20_001, 1);
        assert_eq!(expected.shots, 20_001);
        assert!(expected.unharmed > 1000 && expected.unharmed < 20_000);
        for threads in [2, 3, 7, 100] {
            assert_eq!(count_on(&share, 1, 0..20_001, threads), expected);
        }
    }
}

#[test]
fn any_ranges_add_up() {
    let share = drawn(3, 4, 6);
    let expected = count(&share, 9, 10_000);
    let mut rng = Rng(9);
    for _ in 0..10 {
        let mut cuts: Vec<u64> = (0..rng.below(6))
            .map(|_| rng.below(10_001) as u64)
            .collect();
        cuts.extend([0, 10_000]);
        cuts.sort_unstable();
        let part = |pair: &[u64]| count_on(&share, 9, pair[0]..pair[1], 1 + rng.below(3));
        let sum: Counts = cuts.windows(2).map(part).sum();
        assert_eq!(sum, expected, "{cuts:?}");
    }
}

/// The first and the last shot that have a number.
#[test]
fn single_shots_of_any_number() {
    let share = drawn(5, 3, 4);
    for shot in [0, 1, 4095, 4096, 1 << 40, u64::MAX - 1] {
        let counts = count_on(&share, 2, shot..shot + 1, 2);
        assert_eq!(counts.shots, 1);
        assert_eq!(count_on(&share, 2, shot..shot + 1, 1), counts);
    }
    assert_eq!(count_on(&share, 2, 5..5, 3), Counts::default());
}

#[test]
fn another_seed_or_model_gives_other_counts() {
    let share = drawn(3, 4, 6);
    let counts: Vec<Counts> = (0..5).map(|seed| count(&share, seed, 10_000)).collect();
    assert!((1..5).any(|seed| counts[seed] != counts[0]), "{counts:?}");
    let book = circuit("qudits 1 dimension 3\nfourier 0");
    let [few, many] = ["others 0.1", "others 0.2"].map(|model| self::share(&book, model));
    assert!(count(&few, 1, 10_000).unharmed > count(&many, 1, 10_000).unharmed);
}

/// Progress is told rising numbers, the last of them all shots.
#[test]
fn progress_rises_to_all_shots() {
    let share = drawn(3, 2, 5);
    for threads in [1, 2, 5].map(|threads| NonZeroUsize::new(threads).expect("a thread")) {
        let told = Mutex::new(Vec::new());
        let tell = |done| told.lock().expect("no panic").push(done);
        share
            .count(1, 3..30_003, threads, &tell)
            .expect("few errors");
        let told = told.into_inner().expect("no panic");
        assert!(
            told.is_sorted_by(|x, y| x < y) && told.len() > 3,
            "{told:?}"
        );
        assert_eq!(told.last(), Some(&30_000));
    }
}

/// Several threads take part. Each waits a little after its trays, so that the others come to theirs.
#[test]
fn as_many_threads_as_asked_for_take_part() {
    let book = circuit("qudits 1 dimension 3\nmeasure 0");
    let share = share(&book, "measure 0.1");
    for threads in [1, 3] {
        let seen = Mutex::new(HashSet::new());
        let progress = |_| {
            seen.lock()
                .expect("no panic")
                .insert(thread::current().id());
            thread::sleep(Duration::from_millis(1));
        };
        let count = NonZeroUsize::new(threads).expect("a thread");
        let counts = share.count(1, 0..100 * 4096, count, &progress);
        assert_eq!(counts.map(|counts| counts.shots), Ok(100 * 4096));
        assert_eq!(seen.into_inner().expect("no panic").len(), threads);
    }
}
