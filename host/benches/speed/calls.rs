//! The calls that are timed: each by Cagvost, by the tuned Rust and by the plain Rust.

use crate::common::frames::Buffers;
use crate::common::{UNWRITTEN, halts, plain, slices};
use crate::tuned::{self, Even, Phases, Specified};
use cagvost::Refusal;
use cagvost::book::Book;

/// What a call may write: the buffers of a frame run, of which a direct run leaves the last two, and
/// room for the book that the writer writes, or for the shorter one that is its mirror. The tableau
/// test leaves all.
#[derive(Clone, PartialEq, Eq)]
pub struct Lent {
    pub run: Buffers,
    pub written: Vec<u8>,
}

/// A book, also by its bodies, and what is lent with it. The writer takes the sizes and the bodies,
/// the tableau test and a look the tableau alone, which names its sizes.
pub struct Job {
    pub d: usize,
    pub n: usize,
    pub bodies: [Vec<u8>; 3],
    pub book: Vec<u8>,
    pub before: Lent,
    /// The number that a run goes on from.
    pub from: usize,
}

impl Job {
    pub fn new(book: &Book, tableau: Vec<u8>) -> Job {
        let n = usize::from(book.qudits());
        let bytes = book.to_bytes();
        let run = Buffers {
            tableau,
            results: vec![UNWRITTEN; cagvost::results_len(book.measurements())],
            shifts: vec![UNWRITTEN; cagvost::shifts_len(n)],
            frame: vec![UNWRITTEN; cagvost::frame_len(n)],
        };
        let written = vec![UNWRITTEN; bytes.len()];
        Job {
            d: book.dimension().into(),
            n,
            bodies: book.bodies(),
            book: bytes,
            before: Lent { run, written },
            from: 0,
        }
    }

    /// How many operations the book has.
    pub fn operations(&self) -> usize {
        self.bodies[0].len() / 4
    }
}

/// A number, its place and, from a direct run, the number of the next operation, from the frame run
/// the verdict.
pub type Returned = (usize, usize, usize);

pub type Call = fn(&Job, &mut Lent) -> Returned;

/// The same call by Cagvost, by the tuned Rust and by the plain Rust. A run is also made by the tuned
/// Rust with even phases.
pub type Columns<const N: usize> = [Call; N];

/// The places of the columns.
pub const CAGVOST: usize = 0;
pub const TUNED: usize = 1;
pub const PLAIN: usize = 2;
pub const EVEN: usize = 3;

pub const TEST: Columns<3> = [
    |_, lent| numbers(cagvost::test_tableau(&lent.run.tableau).map(|()| 0)),
    |_, lent| widen(tuned::test(&lent.run.tableau)),
    |_, lent| widen(plain::test(&lent.run.tableau)),
];

pub const DIRECT: Columns<4> = [
    |job, Lent { run, .. }| {
        let returned = cagvost::direct_run(&job.book, &mut run.tableau, &mut run.results);
        halts::reached(returned)
    },
    tuned_direct::<Specified>,
    |job, Lent { run, .. }| plain::direct_run(&job.book, &mut run.tableau, &mut run.results),
    tuned_direct::<Even>,
];

pub const FRAME: Columns<4> = [
    |job, lent| lent.run.by_library(&job.book),
    tuned_frame::<Specified>,
    |job, lent| lent.run.by_plain(&job.book),
    tuned_frame::<Even>,
];

fn tuned_direct<P: Phases>(job: &Job, Lent { run, .. }: &mut Lent) -> Returned {
    tuned::direct_run::<P>(&job.book, &mut run.tableau, &mut run.results)
}

fn tuned_frame<P: Phases>(job: &Job, Lent { run, .. }: &mut Lent) -> Returned {
    tuned::frame_run::<P>(
        &job.book,
        &mut run.tableau,
        &mut run.results,
        &mut run.shifts,
        &mut run.frame,
    )
}

pub const WRITE: Columns<3> = [
    |job, lent| {
        let [operations, errors, choices] = slices(&job.bodies);
        let (d, n, out) = (job.d, job.n, &mut lent.written);
        numbers(cagvost::write_book(d, n, operations, errors, choices, out))
    },
    |job, lent| {
        let bodies = slices(&job.bodies);
        widen(tuned::write(bodies, job.d, job.n, &mut lent.written))
    },
    |job, lent| {
        let bodies = slices(&job.bodies);
        widen(plain::write(bodies, job.d, job.n, &mut lent.written))
    },
];

pub const MIRROR: Columns<3> = [
    |job, lent| numbers(cagvost::mirror(&job.book, &mut lent.written)),
    |job, lent| widen(tuned::mirror(&job.book, &mut lent.written)),
    |job, lent| widen(plain::mirror(&job.book, &mut lent.written)),
];

fn numbers(returned: Result<usize, Refusal>) -> Returned {
    match returned {
        Ok(count) => (0, count, 0),
        Err(refusal) => (refusal.number(), refusal.place(), 0),
    }
}

fn widen((number, place): plain::Returned) -> Returned {
    (number, place, 0)
}
