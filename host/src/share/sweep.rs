//! Sweeps: the counts at several error rates, and their table.

use super::counts::Counts;
use super::figure::share;
use super::interval::{Interval, decimals};
use super::value::{Decimal, ValueError};
use std::fmt;
use std::iter;
use std::str::FromStr;

/// The error rates of a sweep: `0.001,0.002,0.005`, or `0.001:0.1:9` for nine rates in equal
/// logarithmic steps.
///
/// A rate may be a probability for every kind of operation, or a factor by which a model is scaled.
/// Those of logarithmic steps between the first and the last are rounded to three digits, so that
/// each can be typed to repeat its point.
///
/// ```
/// use cagvost::share::Sweep;
///
/// let sweep: Sweep = "0.001:0.01:5".parse()?;
/// assert_eq!(sweep.rates(), [0.001, 0.00178, 0.00316, 0.00562, 0.01]);
/// let sweep: Sweep = "0,0.5,1".parse()?;
/// assert_eq!(sweep.rates(), [0.0, 0.5, 1.0]);
/// # Ok::<(), cagvost::share::ValueError>(())
/// ```
#[derive(Clone, Debug, PartialEq)]
pub struct Sweep {
    rates: Vec<f64>,
}

const SWEEP: &str = "rates from 0 on such as 0.001,0.002,0.005, or FROM:TO:COUNT such as 0.001:0.1:9 \
                     with 0 < FROM < TO and COUNT from 2 to 1000";

impl Sweep {
    /// The rates, in the order in which they were given.
    pub fn rates(&self) -> &[f64] {
        &self.rates
    }
}

impl FromStr for Sweep {
    type Err = ValueError;

    fn from_str(word: &str) -> Result<Sweep, ValueError> {
        let rates = match word.split(':').collect::<Vec<_>>()[..] {
            [from, to, count] => steps(from, to, count),
            _ => word.split(',').map(rate).collect(),
        };
        let rates = rates.ok_or_else(|| ValueError::new(SWEEP, word))?;
        Ok(Sweep { rates })
    }
}

fn rate(word: &str) -> Option<f64> {
    let number: f64 = word.trim().parse().ok()?;
    // Minus zero becomes zero, which is written without a sign.
    (number == 0.0 || (1e-100..=1e100).contains(&number)).then_some(number + 0.0)
}

/// Equal logarithmic steps. Rates that are rounded to the same are given once.
fn steps(from: &str, to: &str, count: &str) -> Option<Vec<f64>> {
    let (from, to) = (rate(from)?, rate(to)?);
    let count: u32 = count.trim().parse().ok()?;
    if from <= 0.0 || from >= to || !(2..=1000).contains(&count) {
        return None;
    }
    let step = |i: u32| from * (to / from).powf(f64::from(i) / f64::from(count - 1));
    // Both ends are as they were given.
    let between = (1..count - 1).map(|i| three_digits(step(i)));
    let between = between.filter(|&rate| from < rate && rate < to);
    let mut rates: Vec<f64> = iter::once(from).chain(between).chain([to]).collect();
    rates.dedup();
    Some(rates)
}

/// The decimal of three digits that is next to the number.
pub(super) fn three_digits(number: f64) -> f64 {
    format!("{number:.2e}").parse().expect("what was written")
}

/// What a sweep found at one rate.
#[derive(Clone, Copy, Debug, PartialEq)]
pub struct Point {
    /// The error rate.
    pub rate: f64,
    /// The counts.
    pub counts: Counts,
}

/// What a sweep found. Every point has the same seed.
///
/// ```
/// use cagvost::share::{Counts, Curve, Point};
///
/// let counts = Counts { shots: 1000, unharmed: 901, results_unharmed: 930 };
/// let points = vec![Point { rate: 0.01, counts }];
/// let curve = Curve { seed: 1, measurements: 2, points };
/// assert_eq!(
///     curve.to_string(),
///     "\
/// rate  shots  unharmed     share         95 % interval  every result     share         95 % interval
/// 0.01   1000       901  0.901000  0.880926 to 0.918005           930  0.930000  0.912485 to 0.944224
/// "
/// );
/// ```
#[derive(Clone, Debug, PartialEq)]
pub struct Curve {
    /// The seed by which the shots of every point were drawn.
    pub seed: u64,
    /// How many measurements the circuit has.
    pub measurements: u64,
    /// The points, in the order of the sweep.
    pub points: Vec<Point>,
}

/// The heads of a table's columns for the state, and of those for the results.
const HEADS: [&str; 5] = ["rate", "shots", "unharmed", "share", "95 % interval"];
const RESULT_HEADS: [&str; 3] = ["every result", "share", "95 % interval"];

/// Writes a table with a line for each rate. A circuit without measurements has no columns for
/// results.
impl fmt::Display for Curve {
    fn fmt(&self, f: &mut fmt::Formatter<'_>) -> fmt::Result {
        let mut heads = HEADS.to_vec();
        if self.measurements > 0 {
            heads.extend(RESULT_HEADS);
        }
        let mut lines = vec![heads.iter().map(ToString::to_string).collect()];
        lines.extend(self.points.iter().map(|point| self.cells(point)));
        let width = |column: usize| lines.iter().map(|line: &Vec<_>| line[column].len()).max();
        let widths: Vec<usize> = (0..heads.len()).filter_map(width).collect();
        for line in &lines {
            let cells = line.iter().zip(&widths);
            let cells: Vec<String> = cells
                .map(|(cell, width)| format!("{cell:>width$}"))
                .collect();
            writeln!(f, "{}", cells.join("  "))?;
        }
        Ok(())
    }
}

impl Curve {
    /// The cells of a point's line.
    fn cells(&self, point: &Point) -> Vec<String> {
        let Counts {
            shots,
            unharmed,
            results_unharmed,
        } = point.counts;
        let mut cells = vec![Decimal(point.rate).to_string(), shots.to_string()];
        cells.extend(share_cells(unharmed, shots));
        if self.measurements > 0 {
            cells.extend(share_cells(results_unharmed, shots));
        }
        cells
    }
}

/// A count with its share and its interval, if there are shots.
fn share_cells(count: u64, shots: u64) -> [String; 3] {
    let (interval, digits) = (Interval::wilson(count, shots), decimals(shots));
    let share = interval.map(|_| format!("{:.digits$}", share(count, shots)));
    let or_none = |cell: Option<String>| cell.unwrap_or("-".to_string());
    let interval = interval.map(|interval| format!("{interval:.digits$}"));
    [count.to_string(), or_none(share), or_none(interval)]
}

#[cfg(test)]
mod tests {
    use super::*;

    fn read(word: &str) -> Vec<f64> {
        word.parse::<Sweep>()
            .unwrap_or_else(|e| panic!("{e}"))
            .rates
    }

    #[test]
    fn lists_are_taken_as_they_are() {
        assert_eq!(read("0.01"), [0.01]);
        assert_eq!(read("0.02, 1e-3,0"), [0.02, 0.001, 0.0]);
        assert!(read("-0")[0].is_sign_positive());
    }

    #[test]
    fn steps_begin_and_end_where_they_should() {
        assert_eq!(read("0.001:0.1:3"), [0.001, 0.01, 0.1]);
        assert_eq!(read("0.5:2:2"), [0.5, 2.0]);
        let rates = read("1e-6:1:1000");
        assert!(rates.is_sorted_by(|x, y| x < y));
        assert_eq!((rates[0], rates[rates.len() - 1]), (1e-6, 1.0));
        assert_eq!(read("0.1:0.1001:9"), [0.1, 0.1001]);
        assert_eq!(read("0.12345:0.98765:2"), [0.12345, 0.98765]);
        assert_eq!(read("0.1:0.9999:3"), [0.1, 0.316, 0.9999]);
    }

    /// What the table prints for a rate is read as the same rate.
    #[test]
    fn printed_rates_are_read_back() {
        for rate in read("1e-9:1:100") {
            assert_eq!(read(&Decimal(rate).to_string()), [rate]);
        }
    }

    #[test]
    fn damaged_sweeps_are_refused() {
        for word in [
            "",
            ",",
            "0.1,",
            "x",
            "-0.1",
            "nan",
            "inf,1",
            "0.1:0.2",
            "0.1:0.2:3:4",
            "0:1:3",
            "0.2:0.1:3",
            "0.1:0.2:1",
            "0.1:0.2:1001",
            "0.1:0.2:x",
            "0.1:inf:3",
            "1e-101",
            "1e101",
        ] {
            let error = word.parse::<Sweep>().expect_err(word);
            assert_eq!(
                error.to_string(),
                format!("expected {SWEEP}, found '{word}'")
            );
        }
    }

    #[test]
    fn a_table_without_measurements_or_shots() {
        let counts = Counts::default();
        let points = vec![Point { rate: 1e-7, counts }];
        let curve = Curve {
            seed: 1,
            measurements: 0,
            points,
        };
        assert_eq!(
            curve.to_string(),
            "\
rate  shots  unharmed  share  95 % interval
1e-7      0         0      -              -
"
        );
    }
}
