//! The figure: what is printed of the counts.

use super::counts::Counts;
use super::interval::{Interval, decimals};
use std::fmt;

/// The counts of a whole job, for printing.
///
/// ```
/// use cagvost::share::{Counts, Figure};
///
/// let counts = Counts { shots: 100_000, unharmed: 95_012, results_unharmed: 96_001 };
/// let figure = Figure { seed: 1, counts, measurements: 2 };
/// assert_eq!(
///     figure.to_string(),
///     "\
/// shots                  100000   seed 1
/// unharmed                95012   share 0.950120   95 % interval 0.948753 to 0.951452
/// every result unharmed   96001   share 0.960010   95 % interval 0.958778 to 0.961207
/// "
/// );
/// ```
#[derive(Clone, Copy, Debug, PartialEq, Eq)]
pub struct Figure {
    /// The seed by which the shots were drawn.
    pub seed: u64,
    /// The counts.
    pub counts: Counts,
    /// How many measurements the circuit has.
    pub measurements: u64,
}

/// Writes three lines.
impl fmt::Display for Figure {
    fn fmt(&self, f: &mut fmt::Formatter<'_>) -> fmt::Result {
        let Counts {
            shots,
            unharmed,
            results_unharmed,
        } = self.counts;
        let width = shots.to_string().len();
        let all = "every result unharmed";
        writeln!(f, "{:<21}  {shots:>width$}   seed {}", "shots", self.seed)?;
        let share = |count| ShareOf { count, shots };
        writeln!(
            f,
            "{:<21}  {unharmed:>width$}   {}",
            "unharmed",
            share(unharmed)
        )?;
        match self.measurements {
            0 => writeln!(
                f,
                "{all}  {:>width$}   the circuit has no measurements",
                "-"
            ),
            _ => writeln!(
                f,
                "{all}  {results_unharmed:>width$}   {}",
                share(results_unharmed)
            ),
        }
    }
}

/// A share with its interval, in words.
struct ShareOf {
    count: u64,
    shots: u64,
}

impl fmt::Display for ShareOf {
    fn fmt(&self, f: &mut fmt::Formatter<'_>) -> fmt::Result {
        match Interval::wilson(self.count, self.shots) {
            Some(interval) => {
                let (share, digits) = (share(self.count, self.shots), decimals(self.shots));
                write!(
                    f,
                    "share {share:.digits$}   95 % interval {interval:.digits$}"
                )
            }
            None => write!(f, "no share, as there are no shots"),
        }
    }
}

/// The share of so many among all shots, of which there are some.
pub(super) fn share(count: u64, shots: u64) -> f64 {
    count as f64 / shots as f64
}

#[cfg(test)]
mod tests {
    use super::*;

    fn lines(counts: Counts, measurements: u64) -> Vec<String> {
        let seed = u64::MAX;
        let figure = Figure {
            seed,
            counts,
            measurements,
        };
        figure.to_string().lines().map(str::to_string).collect()
    }

    /// A circuit without measurements has no share of results, which would be 1.
    #[test]
    fn without_measurements_the_last_line_says_so() {
        let counts = Counts {
            shots: 1000,
            unharmed: 3,
            results_unharmed: 1000,
        };
        assert_eq!(
            lines(counts, 0),
            [
                "shots                  1000   seed 18446744073709551615",
                "unharmed                  3   share 0.003000   95 % interval 0.001021 to 0.008783",
                "every result unharmed     -   the circuit has no measurements",
            ]
        );
    }

    /// One shot of many millions shows in the share.
    #[test]
    fn many_shots_have_more_decimals() {
        let counts = Counts {
            shots: 10_000_000,
            unharmed: 9_999_999,
            results_unharmed: 10_000_000,
        };
        let lines = lines(counts, 1);
        let unharmed = "9999999   share 0.99999990   95 % interval 0.99999943 to 0.99999998";
        assert!(lines[1].ends_with(unharmed), "{}", lines[1]);
        let all = "10000000   share 1.00000000   95 % interval 0.99999962 to 1.00000000";
        assert!(lines[2].ends_with(all), "{}", lines[2]);
    }

    #[test]
    fn without_shots_there_is_no_share() {
        assert_eq!(
            lines(Counts::default(), 1),
            [
                "shots                  0   seed 18446744073709551615",
                "unharmed               0   no share, as there are no shots",
                "every result unharmed  0   no share, as there are no shots",
            ]
        );
    }
}
