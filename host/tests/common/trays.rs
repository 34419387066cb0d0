//! Tray runs by the library, by the plain reference and by separate frame runs.

use super::frames::Buffers;
use super::{Rng, UNWRITTEN, draw_error, draw_gate, draw_named, draw_tableau};
use super::{plain, with_tail, zero_tableau};
use cagvost::book::{Book, Operation, WeylError};
use cagvost::{Refusal, Tray, TrayCounts};

/// A number, its place or how many shots were clean, and how many were shifted.
pub type Returned = (usize, usize, usize);

/// What a tray run is lent. All but the last is only read.
#[derive(Clone, Debug, PartialEq, Eq)]
pub struct Lent {
    pub book: Vec<u8>,
    pub tray: Vec<u8>,
    pub tableau: Vec<u8>,
    pub out: Vec<u8>,
}

impl Lent {
    /// A book and a tray with a drawn tableau, and room filled with bytes that must not be read; both
    /// buffers have tails that must be kept.
    pub fn drawn(rng: &mut Rng, book: &Book, tray: &Tray) -> Lent {
        let tableau = draw_tableau(rng, book.dimension(), book.qudits());
        let room = rng.bytes(cagvost::shots_len(tray.shots(), book.measurements()));
        Lent {
            book: book.to_bytes(),
            tray: tray.to_bytes(),
            tableau: with_tail(rng, tableau),
            out: with_tail(rng, room),
        }
    }

    /// The same with exactly the room that is needed, and the zero tableau.
    pub fn zero(book: &Book, tray: &Tray) -> Lent {
        let room = cagvost::shots_len(tray.shots(), book.measurements());
        Lent {
            book: book.to_bytes(),
            tray: tray.to_bytes(),
            tableau: zero_tableau(book.dimension(), book.qudits()),
            out: vec![UNWRITTEN; room],
        }
    }

    /// A tray run by the package.
    pub fn by_library(&mut self) -> Result<TrayCounts, Refusal> {
        cagvost::tray_run(&self.book, &self.tray, &self.tableau, &mut self.out)
    }

    /// The same call to the plain reference.
    pub fn by_plain(&mut self) -> Returned {
        plain::tray(&self.book, &self.tray, &self.tableau, &mut self.out)
    }

    /// Book and tray for a message, the first bytes of each.
    fn named(&self) -> String {
        let first = |bytes: &[u8]| format!("{:02x?}", &bytes[..bytes.len().min(300)]);
        format!("book {} tray {}", first(&self.book), first(&self.tray))
    }
}

/// The numbers of a tray run.
pub fn numbers(run: Result<TrayCounts, Refusal>) -> Returned {
    match run {
        Ok(TrayCounts { clean, shifted }) => (0, clean, shifted),
        Err(refusal) => (refusal.number(), refusal.place(), 0),
    }
}

/// A tray run by the library and by the plain reference, which must agree in each number and byte.
/// Nothing but `out` may change, and by a refusal not even this. Of each shot the bytes must be those
/// of a separate frame run.
pub fn tray_both(before: &Lent) -> (Returned, Vec<u8>) {
    let (mut left, mut expected) = (before.clone(), before.clone());
    let run = left.by_library();
    let returned = numbers(run);
    let named = || before.named();
    assert_eq!(returned, expected.by_plain(), "numbers of {}", named());
    assert!(left.out == expected.out, "bytes of {}", named());
    left.out.clone_from(&before.out);
    assert!(left == *before, "a buffer was written by {}", named());
    match run {
        Ok(_) => one_by_one(before, &expected.out),
        Err(refusal) => {
            let kept = expected.out == before.out;
            assert!(kept, "{returned:?} changed the shots of {}", named());
            let in_tray = matches!(refusal, Refusal::TrayShot { .. });
            let good_book = plain::read(&before.book).is_ok();
            assert_eq!(in_tray, returned.0 == 6 && good_book, "{}", named());
        }
    }
    (returned, expected.out)
}

/// Compares an accepted tray's bytes with separate frame runs of written books, and what comes after
/// them with what was there before.
fn one_by_one(before: &Lent, out: &[u8]) {
    let bodies = plain::tray_bodies(&before.tray).expect("an accepted tray");
    let [operations, _, choices] = plain::read_contents(&before.book).expect("an accepted book");
    let (d, n) = (before.book[1], before.book[2]);
    let width = 1 + 2 * measurements_in(operations);
    for (i, body) in bodies.iter().enumerate() {
        let row = separate([operations, body, choices], d, n, &before.tableau);
        let same = row == out[i * width..(i + 1) * width];
        assert!(same, "shot {i} of {}", before.named());
    }
    let end = bodies.len() * width;
    assert!(out[end..] == before.out[end..], "bytes past the shots");
}

/// How many results the operations of an accepted book give: one for each of code 6.
pub fn measurements_in(operations: &[u8]) -> usize {
    let entries = operations.chunks_exact(4);
    entries.filter(|entry| entry[0] == 6).count()
}

/// The verdict and the results of a separate frame run of the book that is written of these bodies.
pub fn separate(bodies: [&[u8]; 3], d: u8, n: u8, tableau: &[u8]) -> Vec<u8> {
    let book = written(bodies, d, n);
    let mut run = Buffers::zero(d, n, measurements_in(bodies[0]));
    run.tableau = tableau.to_vec();
    let (number, _, verdict) = run.by_library(&book);
    assert_eq!(number, 0, "{bodies:02x?}");
    [&[verdict as u8], &run.results[..]].concat()
}

/// The book that the library writes of these bodies.
fn written([operations, errors, choices]: [&[u8]; 3], d: u8, n: u8) -> Vec<u8> {
    let mut book = vec![UNWRITTEN; cagvost::book_len(operations, errors, choices)];
    cagvost::write_book(d.into(), n.into(), operations, errors, choices, &mut book)
        .expect("bodies of an accepted book and tray");
    book
}

/// A book without errors that has just so many gates and measurements, in drawn order.
pub fn draw_circuit(rng: &mut Rng, d: u8, n: u8, gates: usize, measurements: usize) -> Book {
    draw_circuit_of(draw_gate, rng, d, n, gates, measurements)
}

/// The same with gates that are drawn in this way. A measurement sometimes repeats the last, so that
/// certain outcomes are common.
pub fn draw_circuit_of(
    gate: fn(&mut Rng, u8, u8) -> Operation,
    rng: &mut Rng,
    d: u8,
    n: u8,
    gates: usize,
    measurements: usize,
) -> Book {
    let mut book = Book::new(d, n);
    let (mut left, mut last) = (measurements, 0);
    for k in (1..=gates + measurements).rev() {
        if rng.below(k) < left {
            left -= 1;
            last = if rng.once_in(4) {
                last
            } else {
                rng.byte_below(n)
            };
            book.measure(last, rng.byte_below(d));
        } else {
            book.operation(gate(rng, d, n));
        }
    }
    book
}

/// How many operations of each kind a circuit has in which qudits are reused.
#[derive(Clone, Copy, Debug)]
pub struct Reused {
    pub gates: usize,
    pub measurements: usize,
    pub resets: usize,
    pub corrections: usize,
}

/// A book without errors that has just so many operations of each kind, in drawn order but that a
/// measurement comes before all corrections. Of the corrections, half are by the last result.
pub fn draw_reused(rng: &mut Rng, d: u8, n: u8, counts: Reused) -> Book {
    draw_reused_of(draw_gate, rng, d, n, counts)
}

/// The same with gates that are drawn in this way.
pub fn draw_reused_of(
    gate: fn(&mut Rng, u8, u8) -> Operation,
    rng: &mut Rng,
    d: u8,
    n: u8,
    counts: Reused,
) -> Book {
    let mut book = Book::new(d, n);
    let mut left = [
        counts.gates,
        counts.measurements,
        counts.resets,
        counts.corrections,
    ];
    let mut last = 0;
    while left.iter().any(|&count| count > 0) {
        let named = draw_named(rng, &book);
        let kind = draw_kind(rng, &left, named.is_some());
        left[kind] -= 1;
        if !rng.once_in(4) {
            last = rng.byte_below(n);
        }
        match (kind, named) {
            (0, _) => book.operation(gate(rng, d, n)),
            (1, _) => book.measure(last, rng.byte_below(d)),
            (2, _) => book.reset(last, rng.byte_below(d)),
            (_, m) => book.correct(rng.byte_below(n), m.expect("a measurement")),
        };
    }
    book
}

/// One of the kinds that are left, by their numbers; the last of them only where it may be.
fn draw_kind(rng: &mut Rng, left: &[usize; 4], last_may_be: bool) -> usize {
    let kinds = if last_may_be { &left[..] } else { &left[..3] };
    let mut at = rng.below(kinds.iter().sum());
    let kind = kinds.iter().position(|&count| {
        let is_here = at < count;
        at = at.wrapping_sub(count);
        is_here
    });
    kind.expect("one is left")
}

/// So many errors that are not the identity, at drawn places of a circuit of this book.
pub fn draw_errors(rng: &mut Rng, book: &Book, count: usize) -> Vec<WeylError> {
    let end = book.operations().len();
    let mut places: Vec<usize> = (0..count).map(|_| rng.below(end + 1)).collect();
    places.sort_unstable();
    let error = |place| draw_error(rng, book.dimension(), book.qudits(), place);
    places.into_iter().map(error).collect()
}

/// A tray of so many shots over this book, each with up to `most` errors.
pub fn draw_tray(rng: &mut Rng, book: &Book, shots: usize, most: usize) -> Tray {
    let mut tray = Tray::new();
    for _ in 0..shots {
        let count = rng.below(most + 1);
        tray.shot(&draw_errors(rng, book, count));
    }
    tray
}
