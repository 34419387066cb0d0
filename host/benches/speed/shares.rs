//! Shares: drawing errors and running them, beside each of the two alone.

use crate::books::{self, Mix};
use crate::common::trays::draw_circuit_of;
use crate::common::{Rng, draw_single};
use crate::timing::{Times, summary};
use cagvost::book::Book;
use cagvost::share::{ErrorModel, Probability, Share};
use cagvost::{MAX_SHOTS, Tray};
use std::hint::black_box;
use std::num::NonZeroUsize;
use std::thread;
use std::time::{Duration, Instant};

/// How long the columns of a line take turns, and the fewest rounds.
const BUDGET: Duration = Duration::from_millis(900);
const ROUNDS: usize = 5;

const SEED: u64 = 1;

/// The trays of a share for each thread.
const TRAYS: usize = 4;

/// A circuit under a uniform model, and one of its trays.
struct Job {
    share: Share,
    book: Vec<u8>,
    tray: Vec<u8>,
    tableau: Vec<u8>,
    out: Vec<u8>,
    /// The threads of the last column.
    threads: NonZeroUsize,
}

impl Job {
    /// The rate is such that a shot has so many errors in the mean.
    fn new(book: &Book, errors: f64, threads: NonZeroUsize) -> Job {
        let sites: usize = book.operations().iter().map(|o| o.qudits().count()).sum();
        let rate = Probability::new(errors / sites as f64).expect("few errors");
        let share = Share::new(book, &ErrorModel::uniform(rate)).expect("a good book");
        let mut tray = Tray::new();
        for shot in 0..MAX_SHOTS as u64 {
            tray.shot(&share.sampler().errors(SEED, shot));
        }
        let (d, n) = (book.dimension().into(), book.qudits().into());
        let mut tableau = vec![0; cagvost::tableau_len(n)];
        cagvost::layer(&mut tableau, d, n).expect("a good size");
        Job {
            share,
            book: book.to_bytes(),
            tray: tray.to_bytes(),
            tableau,
            out: vec![0; cagvost::shots_len(MAX_SHOTS, book.measurements())],
            threads,
        }
    }

    /// Draws the errors of a tray's shots.
    fn draw(&mut self, bytes: &mut Vec<u8>) {
        bytes.clear();
        for shot in 0..MAX_SHOTS as u64 {
            self.share.sampler().draw(SEED, shot, bytes);
        }
    }

    /// Runs the same errors.
    fn run(&mut self) {
        let counts = cagvost::tray_run(&self.book, &self.tray, &self.tableau, &mut self.out);
        black_box(counts.expect("a drawn tray"));
    }

    /// Draws and runs some trays for each thread.
    fn count(&self, threads: NonZeroUsize) {
        let shots = 0..(MAX_SHOTS * TRAYS * threads.get()) as u64;
        let counts = self.share.count(SEED, shots, threads, &|_| {});
        black_box(counts.expect("few errors"));
    }
}

/// Times drawing, a tray run, and a share on one and on all threads, by turns.
fn take(job: &mut Job) -> Times<4> {
    let mut times = <[Vec<Duration>; 4]>::default();
    let mut bytes = Vec::new();
    let begin = Instant::now();
    for round in 0.. {
        if round >= ROUNDS && begin.elapsed() > BUDGET {
            break;
        }
        for (i, times) in times.iter_mut().enumerate() {
            let start = Instant::now();
            match i {
                0 => job.draw(black_box(&mut bytes)),
                1 => job.run(),
                2 => job.count(NonZeroUsize::MIN),
                _ => job.count(job.threads),
            }
            times.push(start.elapsed());
        }
    }
    summary(times)
}

fn line(name: &str, book: &Book, errors: f64, threads: NonZeroUsize) {
    let mut job = Job::new(book, errors, threads);
    let times = take(&mut job);
    let trays = [1, 1, TRAYS, TRAYS * threads.get()];
    let per_shot = |nanos: [f64; 4]| [0, 1, 2, 3].map(|i| nanos[i] / (trays[i] * MAX_SHOTS) as f64);
    let [least, median] = [times.least, times.median].map(per_shot);
    let [draw, tray, one, all] =
        [0, 1, 2, 3].map(|i| format!("{:>7.0} {:>7.0}", least[i], median[i]));
    let (ratio, rate) = (median[0] / median[1], 1e9 / median[3]);
    println!("{name} {errors:>5.1}  {draw} {tray} {one} {all}  {ratio:>5.2} {rate:>12.0}");
}

fn head(threads: NonZeroUsize) {
    println!(
        "
Shares: shots that are drawn, run and counted. Every operation has one uniform rate, such that a shot
has so many errors in the mean. Drawing alone and the tray run alone take the same {MAX_SHOTS} shots, on
one thread. A share takes {TRAYS} such trays for each of its threads. draw/tray compares the medians; the
shots in a second are those of the share on all threads.
ns per shot                 drawing alone    tray alone     share, 1 thread share, all {threads:>3}   draw/     shots
d   n  oper.  err.     least  median   least  median   least  median   least  median   tray  per second"
    );
}

/// Five qudits in seven operations, as in examples/ghz.circuit.
fn tiny(d: u8) -> Book {
    let sums = "sum 0 1\nsum 1 2\nsum 2 3\nsum 0 4\nsum 3 4 ^2";
    let text = format!("qudits 5 dimension {d}\nfourier 0\n{sums}\nmeasure 4");
    text.parse().expect("a circuit")
}

/// A circuit of full length, a small and a tiny one, at several rates of errors. The last lines of
/// the two small ones have rates of 0.1 and more.
pub fn shares() {
    let threads = thread::available_parallelism().unwrap_or(NonZeroUsize::MIN);
    head(threads);
    for d in [3, 31] {
        let full = books::full(Mix::Mixed, d, 64);
        let small = draw_circuit_of(draw_single, &mut Rng(d.into()), d, 8, 92, 8);
        for errors in [0.4, 4.0, 41.0] {
            line(&format!("{d:<2} 64   4096"), &full, errors, threads);
        }
        for errors in [0.4, 4.0, 40.0] {
            line(&format!("{d:<2}  8    100"), &small, errors, threads);
        }
        for errors in [0.1, 1.2] {
            line(&format!("{d:<2}  5      7"), &tiny(d), errors, threads);
        }
    }
}
