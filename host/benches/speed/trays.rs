//! Trays: the package beside Rust lanes, separate frame runs and the plain Rust.

use crate::books::dense_tableau;
use crate::common::trays::{Lent, Returned, Reused, numbers, separate};
use crate::common::trays::{draw_circuit_of, draw_reused_of, measurements_in};
use crate::common::{ROWS, Rng, draw_error, draw_gate, draw_single, plain};
use crate::lanes;
use crate::timing::{Times, summary};
use cagvost::book::{Book, MAX_OPERATIONS, Operation};
use cagvost::{MAX_SHOTS, Tray};
use std::hint::black_box;
use std::time::{Duration, Instant};

/// How long the columns of a line take turns, and the fewest rounds.
const BUDGET: Duration = Duration::from_millis(1300);
const ROUNDS: usize = 20;

/// So many shots of the tray are given to the slow columns.
const FEW: usize = 2;

/// The plain column takes part in so many rounds: it is very slow.
const PLAIN_ROUNDS: usize = 2;

/// Cagvost and the Rust lanes run the whole tray, separate runs and the plain Rust a few shots of it.
const COLUMNS: [fn(&mut Lent) -> Returned; 4] = [
    |lent| numbers(lent.by_library()),
    |lent| lanes::tray(&lent.book, &lent.tray, &lent.tableau, &mut lent.out),
    separate_runs,
    Lent::by_plain,
];

/// A frame run for each shot: its book is written, the tableau copied, and the run made.
fn separate_runs(lent: &mut Lent) -> Returned {
    let bodies = plain::tray_bodies(&lent.tray).expect("a drawn tray");
    let [operations, _, choices] = plain::read_contents(&lent.book).expect("a drawn book");
    let (d, n, mut ended) = (lent.book[1], lent.book[2], [0, 0]);
    let width = 1 + 2 * measurements_in(operations);
    for (row, body) in lent.out.chunks_mut(width).zip(bodies) {
        let ran = separate([operations, body, choices], d, n, &lent.tableau);
        row.copy_from_slice(&ran);
        ended[usize::from(ran[0])] += 1;
    }
    (0, ended[0], ended[1])
}

/// What a line is about.
#[derive(Clone, Copy)]
struct Sizes {
    d: u8,
    n: u8,
    /// The mean number of errors in a shot.
    errors: f64,
    measurements: usize,
    /// How many resets there are, and as many corrections.
    reused: usize,
    /// Draws the gates of the circuit.
    gate: fn(&mut Rng, u8, u8) -> Operation,
}

impl Sizes {
    /// The same with so many measurements, as many resets and as many corrections.
    fn with_reused(self, count: usize) -> Sizes {
        Sizes {
            measurements: count,
            reused: count,
            ..self
        }
    }

    fn circuit(self, rng: &mut Rng) -> Book {
        let (measurements, reused) = (self.measurements, self.reused);
        let gates = MAX_OPERATIONS - measurements - 2 * reused;
        if reused == 0 {
            return draw_circuit_of(self.gate, rng, self.d, self.n, gates, measurements);
        }
        let counts = Reused {
            gates,
            measurements,
            resets: reused,
            corrections: reused,
        };
        draw_reused_of(self.gate, rng, self.d, self.n, counts)
    }
}

/// The whole tray and a few of its shots.
struct Job {
    whole: Lent,
    few: Lent,
    /// Where the few are in the whole.
    chosen: Vec<usize>,
    empty: usize,
}

impl Job {
    fn drawn(sizes: Sizes) -> Job {
        let Sizes { d, n, .. } = sizes;
        let mut rng = Rng(u64::from(d) * 100 + u64::from(n));
        let book = sizes.circuit(&mut rng);
        let (mut whole, mut few, mut chosen, mut empty) = (Tray::new(), Tray::new(), vec![], 0);
        for i in 0..MAX_SHOTS {
            let body = draw_body(&mut rng, &book, sizes.errors);
            whole.body(&body);
            empty += usize::from(body.is_empty());
            if chosen.len() < FEW && !body.is_empty() {
                few.body(&body);
                chosen.push(i);
            }
        }
        let tableau = dense_tableau(d, n);
        let lent = |tray: &Tray| Lent {
            tableau: tableau.clone(),
            ..Lent::zero(&book, tray)
        };
        Job {
            whole: lent(&whole),
            few: lent(&few),
            chosen,
            empty,
        }
    }

    /// What column i is lent.
    fn lent(&self, i: usize) -> &Lent {
        if i < 2 { &self.whole } else { &self.few }
    }

    /// What the columns return and leave, which must agree.
    fn compare(&self) -> [(Returned, Vec<u8>); 4] {
        let left = [0, 1, 2, 3].map(|i| {
            let mut lent = self.lent(i).clone();
            let returned = COLUMNS[i](&mut lent);
            assert_eq!(returned.0, 0, "column {i}");
            (returned, lent.out)
        });
        let width = self.few.out.len() / FEW;
        assert!(left[0] == left[1] && left[2] == left[3]);
        for (&i, row) in self.chosen.iter().zip(left[2].1.chunks(width)) {
            assert!(left[0].1[i * width..(i + 1) * width] == *row, "shot {i}");
        }
        left
    }
}

/// The errors of a shot. At every place there is one with the same chance.
fn draw_body(rng: &mut Rng, book: &Book, mean: f64) -> Vec<u8> {
    let end = book.operations().len();
    let chance = (mean / (end + 1) as f64 * 2f64.powi(53)) as u64;
    let noisy = (0..=end).filter(|_| rng.next() >> 11 < chance);
    let places: Vec<usize> = noisy.collect();
    let error = |place| draw_error(rng, book.dimension(), book.qudits(), place);
    places
        .into_iter()
        .map(error)
        .flat_map(|e| e.to_bytes())
        .collect()
}

/// Times the columns by turns; buffers are refilled and compared off the clock.
fn take(job: &Job) -> (Returned, Times<4>) {
    let expected = job.compare();
    let mut times = <[Vec<Duration>; 4]>::default();
    let mut lents = [0, 1, 2, 3].map(|i| job.lent(i).clone());
    let begin = Instant::now();
    for round in 0.. {
        if round >= ROUNDS && begin.elapsed() > BUDGET {
            break;
        }
        for i in (0..4).map(|i| (i + round) % 4) {
            if i == 3 && round >= PLAIN_ROUNDS {
                continue;
            }
            let lent = &mut lents[i];
            lent.out.copy_from_slice(&job.lent(i).out);
            let start = Instant::now();
            let returned = COLUMNS[i](black_box(lent));
            times[i].push(start.elapsed());
            assert!(
                returned == expected[i].0 && lent.out == expected[i].1,
                "{i}"
            );
        }
    }
    (expected[0].0, summary(times))
}

/// A number, and a fault that it refuses.
type Fault = (usize, fn(&mut Lent));

/// Cagvost, the Rust lanes and the plain Rust refuse alike. Nothing is timed.
fn compare_refusals() {
    let mut book = draw_circuit_of(draw_single, &mut Rng(6), 5, 2, 3, 1);
    book.error(1, 1, 1);
    let mut tray = Tray::new();
    tray.body(&[0, 0, 1, 4, 4, 4, 0, 0, 0, 4])
        .body(&[])
        .body(&[2, 0, 0, 1, 0]);
    let good = Lent::zero(&book, &tray);
    let faults: [Fault; 11] = [
        (0, |_| {}),
        (7, |lent| *lent.book.last_mut().expect("a choice") = 5),
        (11, |lent| lent.tray.push(0)),
        (11, |lent| lent.tray[1] = 17),
        (6, |lent| lent.tray[8] = 5),
        (6, |lent| *lent.tray.last_mut().expect("a power") = 5),
        (8, |lent| lent.out.truncate(8)),
        (8, |lent| lent.tableau.truncate(21)),
        (9, |lent| lent.tableau[0] = 3),
        (9, |lent| lent.tableau[1] = 1),
        (9, |lent| lent.tableau[ROWS] = 2),
    ];
    for (number, fault) in faults {
        let mut lent = good.clone();
        fault(&mut lent);
        let [cagvost, lanes, plain] = [0, 1, 3].map(|i| {
            let mut lent = lent.clone();
            (COLUMNS[i](&mut lent), lent)
        });
        assert_eq!(plain.0.0, number);
        assert!(cagvost == plain && lanes == plain, "{number}");
    }
}

fn line(sizes: Sizes) {
    let job = Job::drawn(sizes);
    let ((_, clean, _), times) = take(&job);
    let per_shot = |nanos: [f64; 4]| {
        let shots = [MAX_SHOTS, MAX_SHOTS, FEW, FEW];
        [0, 1, 2, 3].map(|i| nanos[i] / 1000.0 / shots[i] as f64)
    };
    let [c, b, s, a] = per_shot(times.least);
    let [c_median, b_median, ..] = per_shot(times.median);
    let share = |count: usize| 100 * count / MAX_SHOTS;
    println!(
        "{:<2} {:>2} {:>5.1} {:>5} {:>3} % {:>3} %  {c:>7.3} {c_median:>7.3} {b:>7.3} {b_median:>7.3} \
         {s:>8.0} {a:>8.0}  {:>6.2} {:>6.2} {:>7.0} {:>7.0}",
        sizes.d,
        sizes.n,
        sizes.errors,
        sizes.measurements,
        share(job.empty),
        share(clean),
        c / b,
        c_median / b_median,
        s / c,
        a / c
    );
}

fn head() {
    println!(
        "
Trays: 4,096 shots of a circuit of 4,096 operations, from a dense tableau. Errors are the mean of
a shot; a shot without any is empty. (b) is the fastest safe Rust on lanes that we could write.
Separate frame runs and (a) are timed on {FEW} shots that have errors, (a) in {PLAIN_ROUNDS} rounds. (a) reads the
book and tests the tableau once for these few, which adds up to a seventh to its time for a shot.
Every rate and number of measurements at d 5, n 64; the other sizes at 41 errors and 64 of them.
µs per shot                         Cagvost     (b) Rust lanes  separate      (a)   Cagvost/(b)   sep./   (a)/
d   n  err. meas. empty clean    least  median   least  median    least    least   least median Cagvost Cagvost"
    );
}

/// Every rate of errors and number of measurements at one size, then the other sizes, then powers,
/// then resets and corrections.
pub fn trays() {
    compare_refusals();
    head();
    let usual = Sizes {
        d: 5,
        n: 64,
        errors: 41.0,
        measurements: 64,
        reused: 0,
        gate: draw_single,
    };
    for errors in [0.4, 4.0, 41.0, 410.0] {
        for measurements in [0, 64, 1000] {
            line(Sizes {
                errors,
                measurements,
                ..usual
            });
        }
    }
    for (d, n) in [(3, 24), (3, 64), (5, 24), (31, 24), (31, 64)] {
        line(Sizes { d, n, ..usual });
    }
    println!(
        "About half of the gates that have powers applied up to 30 times by one entry (Fourier: 3):"
    );
    line(Sizes {
        d: 31,
        gate: draw_gate,
        ..usual
    });
    println!("As many resets, and as many corrections, as measurements:");
    for count in [64, 1000] {
        line(usual.with_reused(count));
    }
}
