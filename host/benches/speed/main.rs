//! Times the package's calls beside the same calls in Rust: `cargo bench` in this package,
//! `cargo bench -- quick` for few sizes and no trays, `cargo bench -- trays` for the tray runs alone,
//! `cargo bench -- mirrors` for the mirrors alone, `cargo bench -- halts` for runs that halt and for
//! looks, or `cargo bench -- share` for drawing errors and running them.
//!
//! The columns are the package, (b) the fastest safe Rust that we could write (`tuned.rs`, and
//! `lanes.rs` for trays), for runs the same with even phases, which shows what it costs to keep the
//! specification's in the rows, and (a) the specification with `%` and no thought of speed
//! (`tests/common/plain.rs`). All run in this process and must agree in every number and byte.

mod books;
mod calls;
#[allow(dead_code)] // not all of it is timed
#[path = "../../tests/common/mod.rs"]
mod common;
mod halts;
mod lanes;
mod powers;
mod resets;
mod shares;
mod timing;
mod trays;
mod tuned;

use books::{Mix, certain_tableau, dense_tableau};
use cagvost::book::{Book, MAX_OPERATIONS, Operation};
use calls::{CAGVOST, Columns, DIRECT, FRAME, Job, MIRROR, PLAIN, TEST, TUNED, WRITE};
use common::zero_tableau;
use std::thread;
use std::time::{Duration, Instant};
use timing::{Unit, compare, head, leaves, line, take, take_beyond};

const DIMENSIONS: [u8; 3] = [3, 5, 31];
const QUDITS: u8 = 64;

const RUNS: [(&str, Columns<4>); 2] = [("direct", DIRECT), ("frame", FRAME)];

/// Frame runs of full books are timed on so many qudits, direct ones on all that are listed.
const FRAME_QUDITS: [u8; 2] = [8, QUDITS];

/// The sizes that are timed.
struct Sizes {
    dimensions: &'static [u8],
    qudits: &'static [u8],
}

const ALL: Sizes = Sizes {
    dimensions: &DIMENSIONS,
    qudits: &[8, 16, 32, QUDITS],
};

const FEW: Sizes = Sizes {
    dimensions: &[3, 31],
    qudits: &[8, QUDITS],
};

/// How long the columns of a line take turns.
const FULL_BOOK: Duration = Duration::from_millis(800);
const SINGLE: Duration = Duration::from_millis(400);

fn main() {
    let is_given = |name: &str| std::env::args().any(|argument| argument == name);
    // `cargo test --all-targets` runs this file too, without that argument and not optimised.
    if !is_given("--bench") {
        println!("nothing is timed: run `cargo bench`");
        return;
    }
    let begin = Instant::now();
    let parts = ["quick", "trays", "mirrors", "halts", "share"];
    let [quick, trays, mirrors, halts, share] = parts.map(is_given);
    let all = !parts.into_iter().any(is_given);
    preface();
    if quick || all {
        runs(if quick { &FEW } else { &ALL });
    }
    if all {
        multipliers();
        full_of_powers();
        writing();
    }
    if mirrors || all {
        mirroring();
    }
    if halts || all {
        halts::halts(&DIMENSIONS);
    }
    if trays || all {
        trays::trays();
    }
    if share || all {
        shares::shares();
    }
    small_stack();
    println!("\nAll of it took {:.0} s.", begin.elapsed().as_secs_f64());
}

const PREFACE: &str = "\
Cagvost beside the same calls in Rust, all in this process.
The columns take turns round by round, (a) in one round of five or fewer. Before each call the
buffers are refilled by a copy, and after it every number and byte is compared; neither is timed.
Given are the least and the median time over the rounds, and the ratios of both; where they differ
much, the machine was busy. Every run reads and checks its book and tests its tableau.
(b) is the fastest safe Rust on rows that we could write. As Cagvost does, it keeps the
specification's phase in every row, from the first step of a run to the last. The column of even
phases is this Rust with another phase in the rows, r less half of the sum of a·b, which takes less
work: (b)/even is what it costs to keep the specification's. (a) has no thought of speed.";

fn preface() {
    println!("{PREFACE}");
    if cfg!(target_feature = "avx2") {
        println!("Beware: the Rust columns were compiled for AVX2, which Cagvost does not use.");
    }
}

/// Every full book is shifted. X on one qudit at level 0 shifts a stabilizer alone, and Z a
/// destabilizer alone, which is clean: there the columns must agree too. Nothing is timed.
fn single_errors() {
    for (q, d) in (0..QUDITS).flat_map(|q| DIMENSIONS.map(|d| (q, d))) {
        for (p, s, verdict) in [(1, 0, 1), (0, 1, 0)] {
            let book = Book::new(d, QUDITS).error(q, p, s).clone();
            let job = Job::new(&book, zero_tableau(d, QUDITS));
            assert_eq!(compare(&job, &FRAME).0, (0, 0, verdict));
        }
    }
}

fn full_job(mix: Mix, d: u8, n: u8) -> Job {
    Job::new(&books::full(mix, d, n), dense_tableau(d, n))
}

/// How many measurements of a job are free, and how many are certain.
fn kinds(job: &Job) -> (usize, usize) {
    let results = leaves(job, DIRECT[TUNED]).1.run.results;
    let marks = results.chunks_exact(2).map(|result| result[1]);
    let free = marks.filter(|&mark| mark == 1).count();
    (free, results.len() / 2 - free)
}

fn runs(sizes: &Sizes) {
    single_errors();
    full_books(sizes);
    single_operations(sizes);
    powers::powers(sizes.dimensions);
    resets::resets(sizes.dimensions);
}

fn full_books(sizes: &Sizes) {
    head(
        "Full books: 4,096 operations, 2,048 errors, from a dense tableau. f: free measurements, c: \
         certain ones.",
        "µs per call",
    );
    for mix in [Mix::Mixed, Mix::Gates, Mix::Measuring] {
        for &n in sizes.qudits {
            for &d in sizes.dimensions {
                full_book(mix, d, n);
            }
        }
    }
}

fn full_book(mix: Mix, d: u8, n: u8) {
    let job = full_job(mix, d, n);
    let (free, certain) = kinds(&job);
    let name = mix.name();
    let runs = if FRAME_QUDITS.contains(&n) {
        &RUNS
    } else {
        &RUNS[..1]
    };
    for (run, columns) in runs {
        let label = format!("{run:<6} {name:<11} n {n:<2} d {d:<2} {free:>4} f {certain:>3} c");
        line(&label, Unit::MicrosPerCall, &take(&job, columns, FULL_BOOK));
    }
}

fn multipliers() {
    head(
        "Full books of multipliers alone: 4,096 of them, 2,048 errors.",
        "µs per call",
    );
    for d in DIMENSIONS {
        full_book(Mix::Multipliers, d, QUDITS);
    }
}

fn full_of_powers() {
    head(
        "Full books of gates, about half of those that have powers applied up to 30 times by one entry \
         (Fourier: 3):\n4,096 of them, 2,048 errors.",
        "µs per call",
    );
    for n in FRAME_QUDITS {
        full_book(Mix::Powers, 31, n);
    }
}

fn single_operations(sizes: &Sizes) {
    head(
        "Single operations on 64 qudits, by direct runs of books that repeat one. A run without \
         entries,\ngiven last, is subtracted: it has read the book, tested the tableau and no more.",
        "ns per operation",
    );
    for &d in sizes.dimensions {
        let dense = dense_tableau(d, QUDITS);
        let idle = Job::new(&Book::new(d, QUDITS), dense.clone());
        for (name, gate) in gates() {
            let book = books::of_one_gate(d, QUDITS, gate, MAX_OPERATIONS);
            let job = Job::new(&book, dense.clone());
            single(&format!("d {d:<2} {name}, of 4,096"), 4096, &job, &idle);
        }
        let job = Job::new(&books::of_one_error(d, QUDITS), dense.clone());
        single(&format!("d {d:<2} error, of 2,048"), 2048, &job, &idle);
        measurements(d, dense, &idle);
        let times = take(&idle, &DIRECT, SINGLE);
        line(
            &format!("d {d:<2} run without entries"),
            Unit::NanosPer(1),
            &times,
        );
        line(
            &format!("d {d:<2} test, all pairings"),
            Unit::NanosPer(1),
            &take(&idle, &TEST, SINGLE),
        );
    }
}

fn measurements(d: u8, dense: Vec<u8>, idle: &Job) {
    let free = Job::new(&books::of_measurements(d, QUDITS, 64), dense);
    assert_eq!(kinds(&free), (64, 0));
    let label = format!("d {d:<2} free measurement, of 64");
    single(&label, 64, &free, idle);
    let book = books::of_measurements(d, QUDITS, 4096);
    let certain = Job::new(&book, certain_tableau(d, QUDITS));
    assert_eq!(kinds(&certain), (0, 4096));
    let label = format!("d {d:<2} certain measurement, of 4,096");
    single(&label, 4096, &certain, idle);
}

fn single(label: &str, count: usize, job: &Job, idle: &Job) {
    let times = take_beyond(job, idle, &DIRECT, SINGLE);
    line(label, Unit::NanosPer(count), &times);
}

fn gates() -> [(&'static str, Operation); 6] {
    let (q, c, t) = (9, 9, 20);
    [
        ("Fourier", Operation::Fourier { q, times: 1 }),
        ("phase gate", Operation::PhaseGate { q, times: 1 }),
        ("SUM", Operation::Sum { c, t, times: 1 }),
        ("CZ", Operation::Cz { c, t, times: 1 }),
        ("swap", Operation::Swap { c, t }),
        ("multiplier", Operation::Multiplier { q, u: 2 }),
    ]
}

fn writing() {
    head(
        "Writing a full book: 64 qudits, 4,096 operations, 2,048 errors.",
        "µs per call",
    );
    for mix in [Mix::Mixed, Mix::Measurements] {
        for d in DIMENSIONS {
            let name = mix.name();
            // The writer takes no tableau.
            let job = Job::new(&books::full(mix, d, QUDITS), Vec::new());
            let label = format!("write  d {d:<2} {name:<12} {} B", job.book.len());
            let times = take(&job, &WRITE, SINGLE);
            line(&label, Unit::MicrosPerCall, &times);
        }
    }
}

fn mirroring() {
    refused_mirrors();
    head(
        "Mirror books, on 64 qudits: of eight gates and no errors, and of full books with 4,096 gates and \
         2,048 errors.",
        "ns per call",
    );
    for d in DIMENSIONS {
        mirror_line("eight gates", &books::of_gates(d, QUDITS, 8));
        for mix in [Mix::Powers, Mix::Multipliers] {
            mirror_line(mix.name(), &books::full(mix, d, QUDITS));
        }
    }
}

fn mirror_line(name: &str, book: &Book) {
    // The mirror takes no tableau.
    let job = Job::new(book, Vec::new());
    let length = cagvost::mirror_len(book.operations().len());
    let label = format!("mirror d {:<2} {name:<12} {length} B", job.d);
    line(&label, Unit::NanosPer(1), &take(&job, &MIRROR, SINGLE));
}

/// The columns refuse alike a book with measurements, and a buffer that is too short for one without.
/// Nothing is timed.
fn refused_mirrors() {
    let mut short = books::of_gates(31, QUDITS, 8);
    let job = Job::new(short.measure(0, 1), Vec::new());
    assert_eq!(compare(&job, &MIRROR).0, (12, 8, 0));
    let mut job = Job::new(&books::of_gates(31, QUDITS, 8), Vec::new());
    job.before.written.pop();
    assert_eq!(compare(&job, &MIRROR).0, (8, 0, 0));
}

/// Does full runs of the package on a small stack. If it were too small, the process would abort.
fn small_stack() {
    let job = full_job(Mix::Mixed, 31, QUDITS);
    println!();
    for (run, columns) in RUNS {
        let left = thread::scope(|scope| {
            let small = thread::Builder::new().stack_size(256 * 1024);
            let thread = small.spawn_scoped(scope, || leaves(&job, columns[CAGVOST]));
            thread.expect("a thread").join().expect("no panic")
        });
        assert!(left == leaves(&job, columns[PLAIN]), "{run} run");
        println!("Stack: a full {run} run by Cagvost worked in a thread with 256 KiB of it.");
    }
}
