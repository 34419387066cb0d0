//! Shots cut into trays, for several threads.

use crate::MAX_SHOTS;
use std::num::NonZeroUsize;
use std::ops::Range;
use std::sync::atomic::{AtomicU64, Ordering};

/// The shots of a tray are a multiple of this, unless the last has fewer: a tray run carries so many
/// side by side.
const GROUP: u64 = 256;

/// The most bytes that a tray may take, about.
const MOST_BYTES: usize = 16 << 20;

/// Shots cut into trays, which are handed out in order.
pub(super) struct Trays {
    shots: Range<u64>,
    /// The shots of each tray but the last, which may have fewer.
    size: u64,
    /// How many trays there are.
    pub(super) count: u64,
    next: AtomicU64,
}

impl Trays {
    /// Trays of these shots for so many threads. A shot takes so many bytes, about.
    pub(super) fn new(shots: Range<u64>, threads: NonZeroUsize, bytes: usize) -> Trays {
        let all = shots.end.saturating_sub(shots.start);
        // Each thread gets work, and the trays are as large as that and their bytes allow.
        let even = all.div_ceil(threads.get() as u64).div_ceil(GROUP);
        let room = (MOST_BYTES / bytes) as u64 / GROUP;
        let most = MAX_SHOTS as u64 / GROUP;
        let size = GROUP * even.min(room).min(most).max(1);
        Trays {
            count: all.div_ceil(size),
            shots,
            size,
            next: AtomicU64::new(0),
        }
    }

    /// The shots of the next tray, if one is left.
    pub(super) fn next(&self) -> Option<Range<u64>> {
        let index = self.next.fetch_add(1, Ordering::Relaxed);
        let start = self.shots.start + (index < self.count).then(|| index * self.size)?;
        Some(start..self.shots.end.min(start.saturating_add(self.size)))
    }

    /// No further tray is handed out.
    pub(super) fn stop(&self) {
        self.next.fetch_max(self.count, Ordering::Relaxed);
    }
}

#[cfg(test)]
mod tests {
    use super::*;

    fn cut(shots: Range<u64>, threads: usize, bytes: usize) -> Vec<Range<u64>> {
        let threads = NonZeroUsize::new(threads).expect("a thread");
        let trays = Trays::new(shots, threads, bytes);
        std::iter::from_fn(|| trays.next()).collect()
    }

    #[test]
    fn trays_follow_each_other_and_fit() {
        for bytes in [1, 3, 641, 8193, 1 << 15, 1 << 30] {
            for (start, count) in [(0, 1), (5, 256), (7, 4096), (1 << 40, 100_001)] {
                for threads in [1, 2, 3, 1000] {
                    let trays = cut(start..start + count, threads, bytes);
                    assert_eq!(trays[0].start, start);
                    assert_eq!(trays[trays.len() - 1].end, start + count);
                    assert!(trays.windows(2).all(|pair| pair[0].end == pair[1].start));
                    for tray in trays {
                        let shots = (tray.end - tray.start) as usize;
                        assert!((1..=MAX_SHOTS).contains(&shots));
                        assert!(shots * bytes <= MOST_BYTES || shots <= GROUP as usize);
                    }
                }
            }
        }
    }

    #[test]
    fn trays_are_large_where_they_can_be_and_serve_all_threads() {
        assert_eq!(cut(0..8192, 1, 129), [0..4096, 4096..8192]);
        assert_eq!(cut(0..4096, 2, 129), [0..2048, 2048..4096]);
        assert_eq!(cut(0..300, 4, 129), [0..256, 256..300]);
        assert_eq!(cut(0..2000, 1, 8193), [0..1792, 1792..2000]);
        let last = u64::MAX - 1..u64::MAX;
        assert_eq!(cut(last.clone(), 1, 1), vec![last; 1]);
    }

    #[test]
    fn no_shots_have_no_trays() {
        let empty = Range { start: 5, end: 3 };
        assert!(cut(7..7, 2, 3).is_empty() && cut(empty, 2, 3).is_empty());
    }

    #[test]
    fn after_a_stop_there_are_none() {
        let trays = Trays::new(0..1 << 20, NonZeroUsize::MIN, 1);
        assert_eq!(trays.next(), Some(0..4096));
        trays.stop();
        assert_eq!(trays.next(), None);
    }
}
