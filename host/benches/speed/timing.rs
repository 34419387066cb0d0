//! Timing by turns, and the table.

use crate::calls::{CAGVOST, Call, Columns, EVEN, Job, Lent, PLAIN, Returned, TUNED};
use std::array;
use std::hint::black_box;
use std::time::{Duration, Instant};

/// The plain column takes part in one round of so many, until it has taken this share of the time: it
/// is slow.
const PLAIN_ONE_IN: usize = 5;
const PLAIN_SHARE: u32 = 4;

const FEWEST_ROUNDS: usize = 10;
const MOST_ROUNDS: usize = 1000;

/// Least and median time of each column, in nanoseconds.
#[derive(Clone, Copy)]
pub struct Times<const N: usize> {
    pub least: [f64; N],
    pub median: [f64; N],
}

impl<const N: usize> Times<N> {
    /// Least and median time of a column, if it took part.
    fn column(&self, i: usize) -> Option<[f64; 2]> {
        Some([*self.least.get(i)?, *self.median.get(i)?])
    }

    /// The ratios of column i to column j, of the least and of the median times.
    pub fn ratios(&self, i: usize, j: usize) -> Option<[f64; 2]> {
        let ([x, x_median], [y, y_median]) = (self.column(i)?, self.column(j)?);
        Some([x / y, x_median / y_median])
    }
}

/// Times the call in each column for about as long as the budget says.
pub fn take<const N: usize>(job: &Job, columns: &Columns<N>, budget: Duration) -> Times<N> {
    let [times] = rounds([job], columns, budget);
    summary(times)
}

/// Times what a job takes beyond another one, which is called next to it in every round: a clock
/// rate that drifts then falls on both.
pub fn take_beyond<const N: usize>(
    job: &Job,
    other: &Job,
    columns: &Columns<N>,
    budget: Duration,
) -> Times<N> {
    let [more, less] = rounds([job, other], columns, budget);
    let (all, rest) = (summary(more.clone()), summary(less.clone()));
    let mut times = summary(array::from_fn(|i| {
        let pairs = more[i].iter().zip(&less[i]);
        pairs.map(|(x, y)| x.saturating_sub(*y)).collect()
    }));
    times.least = array::from_fn(|i| all.least[i] - rest.least[i]);
    times
}

/// The times of each job in each column.
///
/// The columns take turns, and the one that begins changes from round to round. Buffers are
/// refilled before a call and compared after it, both off the clock.
fn rounds<const N: usize, const J: usize>(
    jobs: [&Job; J],
    columns: &Columns<N>,
    budget: Duration,
) -> [[Vec<Duration>; N]; J] {
    let expected = jobs.map(|job| compare(job, columns));
    let mut buffers = jobs.map(|job| job.before.clone());
    let mut times = [(); J].map(|()| [(); N].map(|()| Vec::new()));
    let mut by_plain = Duration::ZERO;
    let begin = Instant::now();
    for round in 0..MOST_ROUNDS {
        if round >= FEWEST_ROUNDS && begin.elapsed() > budget {
            break;
        }
        let rest = round % PLAIN_ONE_IN != 0 || by_plain * PLAIN_SHARE > budget;
        for i in (0..N).map(|i| (i + round) % N) {
            if i == PLAIN && rest {
                continue;
            }
            for (j, job) in jobs.iter().enumerate() {
                refill(&mut buffers[j], &job.before);
                let start = Instant::now();
                let returned = columns[i](black_box(job), black_box(&mut buffers[j]));
                let time = start.elapsed();
                times[j][i].push(time);
                by_plain += if i == PLAIN { time } else { Duration::ZERO };
                let left = (returned, &buffers[j]);
                assert!(left == (expected[j].0, &expected[j].1), "column {i}");
            }
        }
    }
    times
}

/// Copies bytes into buffers of the same lengths, without new memory.
fn refill(buffers: &mut Lent, from: &Lent) {
    buffers.run.tableau.copy_from_slice(&from.run.tableau);
    buffers.run.results.copy_from_slice(&from.run.results);
    buffers.run.shifts.copy_from_slice(&from.run.shifts);
    buffers.run.frame.copy_from_slice(&from.run.frame);
    buffers.written.copy_from_slice(&from.written);
}

/// What the columns agree in: the numbers and every byte. Each is called once.
pub fn compare<const N: usize>(job: &Job, columns: &Columns<N>) -> (Returned, Lent) {
    let plain = leaves(job, columns[PLAIN]);
    for i in (0..N).filter(|&i| i != PLAIN) {
        let left = leaves(job, columns[i]);
        assert!(left.0 == plain.0, "numbers of column {i}");
        assert!(left.1 == plain.1, "bytes of column {i}");
    }
    plain
}

/// What a call returns and leaves.
pub fn leaves(job: &Job, call: Call) -> (Returned, Lent) {
    let mut buffers = job.before.clone();
    (call(job, &mut buffers), buffers)
}

pub fn summary<const N: usize>(times: [Vec<Duration>; N]) -> Times<N> {
    let sorted = times.map(|mut column| {
        column.sort_unstable();
        column
    });
    let nanoseconds = |time: Duration| time.as_nanos() as f64;
    Times {
        least: sorted.each_ref().map(|column| nanoseconds(column[0])),
        median: sorted
            .each_ref()
            .map(|column| nanoseconds(column[column.len() / 2])),
    }
}

/// What a printed time is for: a call, or one of the operations that a call has.
#[derive(Clone, Copy)]
pub enum Unit {
    MicrosPerCall,
    NanosPer(usize),
}

pub fn head(title: &str, unit: &str) {
    println!("\n{title}");
    println!(
        "{unit:<41} {:^17} {:^17} {:^17} {:^19} {:^13} {:^13} {:^13}",
        "Cagvost",
        "(b) tuned Rust",
        "even phases",
        "(a) Rust with %",
        "Cagvost/(b)",
        "(b)/even",
        "(a)/Cagvost"
    );
    let [times, wide, ratio] =
        [8, 9, 6].map(|width| format!("{:>width$} {:>width$}", "least", "median"));
    println!(
        "{:<41} {times} {times} {times} {wide} {ratio} {ratio} {ratio}",
        ""
    );
}

/// A line of the table.
pub fn line<const N: usize>(label: &str, unit: Unit, times: &Times<N>) {
    let scale = match unit {
        Unit::MicrosPerCall => 1000.0,
        Unit::NanosPer(count) => count as f64,
    };
    let time = |i| times.column(i).map(|pair| pair.map(|time| time / scale));
    let [c, b, e] = [CAGVOST, TUNED, EVEN].map(|i| cells(time(i), 8, 1));
    let a = cells(time(PLAIN), 9, 0);
    let to_tuned = cells(times.ratios(CAGVOST, TUNED), 6, 2);
    let to_even = cells(times.ratios(TUNED, EVEN), 6, 2);
    let to_cagvost = cells(times.ratios(PLAIN, CAGVOST), 6, 1);
    println!("{label:<41} {c} {b} {e} {a} {to_tuned} {to_even} {to_cagvost}");
}

/// Two numbers of a line, or blanks.
fn cells(pair: Option<[f64; 2]>, width: usize, decimals: usize) -> String {
    match pair {
        Some([x, y]) => format!("{x:>width$.decimals$} {y:>width$.decimals$}"),
        None => " ".repeat(2 * width + 1),
    }
}
