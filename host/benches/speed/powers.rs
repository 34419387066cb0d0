//! Powers of gates: one entry beside the same applications written singly.

use crate::books::{dense_tableau, of_one_gate};
use crate::calls::{Columns, Job};
use crate::common::{times_of, with_times};
use crate::timing::{Unit, compare, head, line, take_beyond};
use crate::{QUDITS, RUNS};
use cagvost::book::{Book, MAX_OPERATIONS, Operation};
use std::time::Duration;

/// How long the columns of a line take turns.
const BUDGET: Duration = Duration::from_millis(150);

/// The powers in a book that has one entry for each. The plain Rust makes each application.
const POWERS: usize = 1024;

/// What the lines of a dimension share.
struct Lines {
    d: u8,
    dense: Vec<u8>,
    idle: Job,
}

impl Lines {
    fn new(d: u8) -> Lines {
        let dense = dense_tableau(d, QUDITS);
        let idle = Job::new(&Book::new(d, QUDITS), dense.clone());
        Lines { d, dense, idle }
    }

    /// A book of so many entries of this gate.
    fn job(&self, gate: Operation, entries: usize) -> Job {
        let book = of_one_gate(self.d, QUDITS, gate, entries);
        Job::new(&book, self.dense.clone())
    }

    /// Each power by one entry.
    fn one_entry(&self, label: &str, power: Operation, columns: &Columns<4>) {
        let job = self.job(power, POWERS);
        let label = format!("{label}, {} in 1 entry", times_of(power));
        self.line(&label, POWERS, &job, columns);
    }

    /// Each power by as many entries as it has applications. They must leave what the powers leave.
    fn singly(&self, label: &str, power: Operation, columns: &Columns<4>) {
        let times = usize::from(times_of(power));
        let count = MAX_OPERATIONS / times;
        let job = self.job(with_times(power, 1), count * times);
        let [singly, together] = [&job, &self.job(power, count)].map(|job| {
            let (returned, left) = compare(job, columns);
            (returned, left.run)
        });
        assert!(singly == together, "{label}");
        let label = format!("{label}, {times} in {times} entries");
        self.line(&label, count, &job, columns);
    }

    fn line(&self, label: &str, count: usize, job: &Job, columns: &Columns<4>) {
        let times = take_beyond(job, &self.idle, columns, BUDGET);
        line(label, Unit::NanosPer(count), &times);
    }
}

/// Every gate that has powers by direct runs, and SUM by both runs and written singly too.
pub fn powers(dimensions: &[u8]) {
    head(
        "Powers on 64 qudits: a gate applied d − 1 times (Fourier: 2 and 3) by one entry, of 1,024, and \
         SUM also\nby entries that apply it once. A run without entries is subtracted.",
        "ns per power",
    );
    dimensions.iter().for_each(|&d| lines_of(d));
}

fn lines_of(d: u8) {
    let lines = Lines::new(d);
    let (q, c, t, times) = (9, 9, 20, d - 1);
    let [(_, direct), _] = &RUNS;
    for (name, power) in [
        ("Fourier", Operation::Fourier { q, times: 2 }),
        ("Fourier", Operation::Fourier { q, times: 3 }),
        ("phase gate", Operation::PhaseGate { q, times }),
        ("CZ", Operation::Cz { c, t, times }),
    ] {
        lines.one_entry(&format!("direct d {d:<2} {name}"), power, direct);
    }
    let sum = Operation::Sum { c, t, times };
    for (run, columns) in &RUNS {
        let label = format!("{run:<6} d {d:<2} SUM");
        lines.one_entry(&label, sum, columns);
        lines.singly(&label, sum, columns);
    }
}
