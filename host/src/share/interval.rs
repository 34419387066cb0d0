//! Confidence intervals of a share.

use std::fmt;

/// The 97.5 % quantile of the standard normal distribution: 95 % lie between it and its negative.
const QUANTILE: f64 = 1.959963984540054;

const LEAST_DECIMALS: usize = 6;

/// An interval of shares.
#[derive(Clone, Copy, Debug, PartialEq)]
pub struct Interval {
    /// Its lower end, at least 0.
    pub low: f64,
    /// Its upper end, at most 1.
    pub high: f64,
}

impl Interval {
    /// Wilson's 95 % interval of a share, of which so many shots were counted among all; none if
    /// there are no shots, or fewer than were counted.
    ///
    /// If a shot is counted with probability p, then p lies in the interval in about 95 % of such
    /// experiments. Next to 0 and 1 it is 95 % in the mean over p; for some p, such that about one
    /// shot in six experiments is counted, it is as low as 84 %. Unlike two standard deviations to
    /// both sides, the interval is never a single point and never passes 0 and 1.
    ///
    /// ```
    /// use cagvost::share::Interval;
    ///
    /// let interval = Interval::wilson(95_012, 100_000).unwrap();
    /// assert_eq!(interval.to_string(), "0.948753 to 0.951452");
    /// assert_eq!(format!("{interval:.3}"), "0.949 to 0.951");
    /// assert_eq!(Interval::wilson(0, 0), None);
    /// ```
    pub fn wilson(count: u64, shots: u64) -> Option<Interval> {
        if shots == 0 || count > shots {
            return None;
        }
        let (n, square) = (shots as f64, QUANTILE * QUANTILE);
        let share = count as f64 / n;
        let centre = share + square / (2.0 * n);
        let variance = share * (1.0 - share) / n + square / (4.0 * n * n);
        let (half, whole) = (QUANTILE * variance.sqrt(), 1.0 + square / n);
        let end = |x: f64| (x / whole).clamp(0.0, 1.0);
        Some(Interval {
            low: if count == 0 { 0.0 } else { end(centre - half) },
            high: if count == shots {
                1.0
            } else {
                end(centre + half)
            },
        })
    }
}

/// Writes both ends with six decimals, or with as many as are asked for.
impl fmt::Display for Interval {
    fn fmt(&self, f: &mut fmt::Formatter<'_>) -> fmt::Result {
        let decimals = f.precision().unwrap_or(LEAST_DECIMALS);
        write!(f, "{:.2$} to {:.2$}", self.low, self.high, decimals)
    }
}

/// The decimals of shares and intervals of so many shots: enough to tell one shot from none.
pub(super) fn decimals(shots: u64) -> usize {
    shots.to_string().len().max(LEAST_DECIMALS)
}

#[cfg(test)]
mod tests {
    use super::*;

    /// Both ends solve (share − p)² = z²·p·(1 − p)/n, which is how Wilson defines them.
    #[test]
    fn the_ends_solve_wilsons_equation() {
        for shots in [1, 2, 10, 97, 100_000, 1 << 40] {
            for count in [0, 1, shots / 3, shots / 2, shots - 1, shots] {
                let interval = Interval::wilson(count, shots).expect("shots");
                let (n, share) = (shots as f64, count as f64 / shots as f64);
                for p in [interval.low, interval.high] {
                    let left = (share - p) * (share - p);
                    let right = QUANTILE * QUANTILE * p * (1.0 - p) / n;
                    assert!((left - right).abs() < 1e-13, "{count} of {shots}: {p}");
                }
                assert!(interval.low <= share && share <= interval.high);
                assert!(interval.low >= 0.0 && interval.high <= 1.0);
            }
        }
    }

    #[test]
    fn known_values() {
        for (count, shots, low, high) in [
            (0, 10, 0.0, 0.277533),
            (1, 10, 0.017876, 0.404150),
            (5, 10, 0.236593, 0.763407),
            (10, 10, 0.722467, 1.0),
            (81, 263, 0.255289, 0.366210),
        ] {
            let interval = Interval::wilson(count, shots).expect("shots");
            assert!((interval.low - low).abs() < 1e-6, "{interval}");
            assert!((interval.high - high).abs() < 1e-6, "{interval}");
        }
    }

    #[test]
    fn the_ends_are_exact_where_all_or_none_are_counted() {
        for shots in [1, 3, 1000, 123_456_789, u64::MAX] {
            assert_eq!(Interval::wilson(0, shots).map(|i| i.low), Some(0.0));
            assert_eq!(Interval::wilson(shots, shots).map(|i| i.high), Some(1.0));
        }
    }

    #[test]
    fn there_is_none_without_shots() {
        assert_eq!(Interval::wilson(0, 0), None);
        assert_eq!(Interval::wilson(2, 1), None);
    }
}
