//! Resets and corrections: codes 7 and 8.
//!
//! `run_both`, `carry_both`, `tray_both`, `write_both` and `mirror_both` compare every number and
//! byte with the plain reference, and what must not be written with what was there before. What the
//! numbers and bytes must be is said here once more.

use crate::common;
use crate::frame::framed_and_direct;

use cagvost::book::{Book, DIMENSIONS, MAX_CHOICES, MAX_ERRORS, MAX_OPERATIONS};
use cagvost::book::{MAX_QUDITS, Operation, WeylError};
use cagvost::{MAX_SHOTS, Tray};
use common::frames::{Buffers, carry_both};
use common::plain::{self, Look, Returned};
use common::trays::{Lent, Reused, draw_errors, draw_reused, draw_tray, tray_both};
use common::{BODIES, ROWS, Rng, Shape, UNWRITTEN, Verdicts, mirror_both, named, run_both, slices};
use common::{cz, draw_book_of, draw_noisy, draw_tableau, refused, sum, with_byte};
use common::{with_raised_choices, with_tail, write_both, zero_tableau};
use std::thread;

fn fourier(q: u8) -> Operation {
    Operation::Fourier { q, times: 1 }
}

// ---- By hand

/// What a direct run leaves, and what a frame run leaves: all of it worked by hand.
struct Worked {
    /// The tableau's rows and the results.
    direct: (&'static [u8], &'static [u8]),
    framed: (&'static [u8], &'static [u8]),
    shifts: &'static [u8],
    frame: &'static [u8],
    verdict: usize,
}

/// Both runs of a book from the zero tableau, whose buffers have three more bytes than are needed;
/// and the direct run with the raised choices, which must leave what the frame run leaves.
fn is_as_worked(book: &Book, raised: &[u8], worked: &Worked) {
    let (d, n, bytes) = (book.dimension(), book.qudits(), book.to_bytes());
    let mut before = Buffers::zero(d, n, book.measurements());
    before.results.extend([7, 8, 9]);
    let filled = |results: &[u8]| [results, &[7, 8, 9]].concat();
    let direct = run_both(&bytes, &before.tableau, &before.results);
    assert_eq!(direct.returned, (0, book.measurements()));
    assert_eq!(direct.results, filled(worked.direct.1));
    assert_eq!(direct.tableau, named(d, n, worked.direct.0));
    let (returned, left) = carry_both(&bytes, &before);
    assert_eq!(returned, (0, book.measurements(), worked.verdict));
    assert_eq!(left.results, filled(worked.framed.1));
    assert_eq!(left.tableau, named(d, n, worked.framed.0));
    assert_eq!(left.shifts, worked.shifts);
    assert_eq!(left.frame, worked.frame);
    let mut second = book.clone();
    second.choices_mut().copy_from_slice(raised);
    assert_eq!(second, with_raised_choices(book));
    let second = run_both(&second.to_bytes(), &before.tableau, &before.results);
    assert_eq!(second.results, left.results);
    assert_eq!(second.tableau, left.tableau);
}

/// d = 5. Fourier makes (0,1,0) and (4,0,0) of the zero tableau.
///
/// Direct: X^2 Z adds a − 2b, so the rows are (0,1,3) and (4,0,4). The reset is free with e = 4, and
/// 1/e is 4. The destabilizer becomes the stabilizer to the power 4, (1,0,16), and the stabilizer Z
/// with phase −3. X^−3 adds 3b: Z gets the phase 0.
///
/// Frame: from (0,1,0) and (4,0,0) the reset makes (1,0,0) and (0,1,0). The frame's X power 2 is
/// taken away, its Z power 1 is kept and shifts the destabilizer by b·a = 1. The choice is raised by
/// the X power that is taken away: 3 + 2 is 0.
#[test]
fn a_free_reset_by_hand() {
    let mut book = Book::new(5, 1);
    book.operation(fourier(0)).error(0, 2, 1).reset(0, 3);
    let worked = Worked {
        direct: (&[1, 0, 1, 0, 1, 0], &[]),
        framed: (&[1, 0, 1, 0, 1, 0], &[]),
        shifts: &[1, 0],
        frame: &[0, 1],
        verdict: 0,
    };
    is_as_worked(&book, &[0], &worked);
}

/// d = 5. X^2 Z^3 adds 3a − 2b: (1,0,3) and (0,1,3), which is level 2. The reset is certain, X^−2
/// adds 2b, and the choice 4 is unused. Nothing is written into the results: there are none.
///
/// Frame: on level 0 the reset does nothing to the rows. Z^3 is kept and shifts the destabilizer by
/// 3; the choice is raised all the same, 4 + 2.
#[test]
fn a_certain_reset_by_hand() {
    let mut book = Book::new(5, 1);
    book.error(0, 2, 3).reset(0, 4);
    let worked = Worked {
        direct: (&[1, 0, 3, 0, 1, 0], &[]),
        framed: (&[1, 0, 3, 0, 1, 0], &[]),
        shifts: &[3, 0],
        frame: &[0, 3],
        verdict: 0,
    };
    is_as_worked(&book, &[1], &worked);
}

/// d = 5. Fourier and SUM make the pair of like levels j and j: the rows are (0,0,1,0,0),
/// (0,1,0,0,0), (4,4,0,0,0) and (0,0,4,1,0), X powers first.
///
/// Direct: X Z^2 on qudit 0 adds 2a − b there, the levels are j + 1 and j, and the third row becomes
/// (4,4,0,0,3), the first (0,0,1,0,4), the fourth (0,0,4,1,1). Qudit 0 is measured free as 3: j is 2.
/// The third row to the power 4 is (1,1,0,0,2), and in its place comes Z with phase −3. X^2 takes
/// qudit 1 from 2 to 4 and the last phase from 1 to 4, the correction by 3 these to 1 and to 7, that
/// is 2. So qudit 1 is certainly 1.
///
/// Frame: the clean results are 3 and, since the rows are corrected by 3, 0. The frame is X Z^2 on
/// qudit 0, which shifts the first result to 4, and X^2 on qudit 1, of which the correction takes
/// this 1: X is left and shifts the second result to 1. With a correction by the reported 4, the rows
/// would end with another phase.
#[test]
fn a_correction_by_hand() {
    let mut book = Book::new(5, 2);
    book.operation(fourier(0))
        .operation(sum(0, 1))
        .error(0, 1, 2)
        .measure(0, 3)
        .error(1, 2, 0)
        .correct(1, 0)
        .measure(1, 0);
    #[rustfmt::skip]
    let worked = Worked {
        direct: (&[
            1, 1, 0, 0, 2,
            0, 1, 0, 0, 0,
            0, 0, 1, 0, 2,
            0, 0, 4, 1, 2,
        ], &[3, 1, 1, 0]),
        framed: (&[
            1, 1, 0, 0, 2, // shift 2·1
            0, 1, 0, 0, 0,
            0, 0, 1, 0, 1, // −3, shift −1·1
            0, 0, 4, 1, 3, // 0 + 3 by the clean result, shift −1·4 − 1·1
        ], &[4, 1, 1, 0]),
        shifts: &[2, 0, 4, 0],
        frame: &[1, 1, 2, 0],
        verdict: 1,
    };
    is_as_worked(&book, &[4, 1], &worked);
}

/// d = 3, an error before each of a free reset, a certain measurement, a correction and a certain
/// reset. Three choices are taken and one result is given: the correction is by measurement 0, which
/// has choice 1.
///
/// Direct: Fourier makes (0,0,1,0,0), (0,1,0,0,0), (2,0,0,0,0), (0,0,0,1,0). Z on qudit 0 adds a:
/// the third row is (2,0,0,0,2). The reset is free with e = 2 and 1/e = 2: the first row becomes the
/// third squared, (1,0,0,0,4), and the third Z with phase −1, by X^−1 with phase 0. X^2 on qudit 0:
/// it is certainly 2, phase −2. X Z on qudit 1 adds a − b: (0,1,0,0,1), (0,0,0,1,2), level 1. The
/// correction by 2 takes it to level 2 and adds 2b: (0,0,0,1,4). X^2 on it adds −2b: level 1, phase
/// 2, which the certain reset takes to 0.
///
/// Frame: Z, of which Z is kept by the reset, then X^2 Z on qudit 0: the result is shifted from 0 to
/// 2. On qudit 1 X Z, less 2 by the correction: X^2 Z; then X Z, whose X power the reset takes away.
/// The raised choices are 1 + 0, 0 + 2 and 2 + 1.
#[test]
fn all_of_them_by_hand() {
    let mut book = Book::new(3, 2);
    book.operation(fourier(0))
        .error(0, 0, 1)
        .reset(0, 1)
        .error(0, 2, 0)
        .measure(0, 0)
        .error(1, 1, 1)
        .correct(1, 0)
        .error(1, 2, 0)
        .reset(1, 2);
    #[rustfmt::skip]
    let rows = &[
        1, 0, 0, 0, 1,
        0, 1, 0, 0, 1,
        0, 0, 1, 0, 1,
        0, 0, 0, 1, 0,
    ];
    let worked = Worked {
        direct: (rows, &[2, 0]),
        framed: (rows, &[2, 0]),
        shifts: &[1, 1, 1, 0],
        frame: &[2, 0, 1, 1],
        verdict: 1,
    };
    is_as_worked(&book, &[1, 2, 0], &worked);
}

// ---- Bytes

/// A book of so many measurements of qudit 0, then this entry, then a gate; each choice that is
/// taken is there.
fn book_with(d: u8, n: u8, measurements: usize, entry: [u8; 4]) -> Vec<u8> {
    let mut book = Book::new(d, n);
    (0..measurements).for_each(|_| _ = book.measure(0, d - 1));
    if [6, 7].contains(&entry[0]) {
        book.choice(d - 1);
    }
    book.error(0, 1, 1)
        .operation(fourier(0))
        .operation(fourier(0));
    let mut bytes = book.to_bytes();
    bytes[BODIES + 4 * measurements..][..4].copy_from_slice(&entry);
    bytes
}

/// What all calls say to such a book: nothing, or the refusal of that entry.
fn entry_is(good: bool, d: u8, n: u8, measurements: usize, entry: [u8; 4]) {
    let book = book_with(d, n, measurements, entry);
    let expected = (!good).then_some((5, measurements));
    let returned = refused(&mut Rng(measurements as u64), &book);
    assert_eq!(returned, expected, "{entry:?} after {measurements}");
}

/// Codes 7 and 8 are two of the nine there are; 9 and all above are none.
#[test]
fn every_value_of_the_code() {
    for (d, code) in [3, 31]
        .into_iter()
        .flat_map(|d| (0..=255).map(move |c| (d, c)))
    {
        // A multiplier has no factor 0.
        let is_good = code < 9 && code != 5;
        entry_is(is_good, d, 3, 1, [code, 1, 0, 0]);
    }
}

#[test]
fn every_value_of_the_qudit() {
    for (n, q) in [1, 2, 3, MAX_QUDITS]
        .into_iter()
        .flat_map(|n| (0..=255).map(move |q| (n, q)))
    {
        entry_is(q < n, 5, n, 1, [7, q, 0, 0]);
        entry_is(q < n, 5, n, 1, [8, q, 0, 0]);
    }
}

/// A reset has no other operand: both of its last bytes are 0.
#[test]
fn every_value_of_the_last_bytes_of_a_reset() {
    for (d, byte) in [3, 31]
        .into_iter()
        .flat_map(|d| (0..=255).map(move |b| (d, b)))
    {
        for measurements in [0, 1, 3] {
            entry_is(byte == 0, d, 2, measurements, [7, 1, byte, 0]);
            entry_is(byte == 0, d, 2, measurements, [7, 1, 0, byte]);
        }
    }
}

/// The last two bytes of a correction are a number, the low one first, that must be below that of the
/// measurements before it.
#[test]
fn every_value_of_the_last_bytes_of_a_correction() {
    for measurements in [0, 1, 2, 255, 256, 257, 300] {
        for (low, high) in
            (0..=255).flat_map(|x| [(x, 0), (x, 1), (x, 2), (0, x), (1, x), (255, x)])
        {
            let is_good = usize::from(u16::from_le_bytes([low, high])) < measurements;
            entry_is(is_good, 3, 1, measurements, [8, 0, low, high]);
        }
    }
}

/// All 65,536 numbers, by the reader alone: of an accepted book a run says 8 if it has no buffers.
#[test]
fn every_number_that_a_correction_can_name() {
    for m in 0..=u16::MAX {
        let [low, high] = m.to_le_bytes();
        let book = book_with(3, 1, 300, [8, 0, low, high]);
        let expected = if m < 300 { (8, 0) } else { (5, 300) };
        assert_eq!(run_both(&book, &[], &[]).returned, expected, "{m}");
        let operation = Operation::Correct { t: 0, m };
        assert_eq!(operation.to_bytes(), [8, 0, low, high]);
        assert_eq!(Operation::from_bytes([8, 0, low, high]), Some(operation));
    }
}

// ---- The named measurement

/// What the calls say to the book, whose choices are as many as are taken.
fn said(book: &Book) -> Option<Returned> {
    refused(&mut Rng(5), &book.to_bytes())
}

/// A book of these operations on two qudits of dimension 5, each with the choice that it takes.
fn book_of(operations: &[Operation]) -> Book {
    let mut book = Book::new(5, 2);
    for &operation in operations {
        book.operation(operation);
        if let Operation::Measure { .. } | Operation::Reset { .. } = operation {
            book.choice(4);
        }
    }
    book
}

#[test]
fn a_named_measurement_comes_earlier() {
    let [measure, reset] = [Operation::Measure { q: 0 }, Operation::Reset { q: 0 }];
    let by = |m| Operation::Correct { t: 1, m };
    for (operations, expected) in [
        // Before any measurement, and before the one that is named.
        (&[by(0)][..], Some((5, 0))),
        (&[by(0), measure], Some((5, 0))),
        (&[fourier(0), by(0), measure], Some((5, 1))),
        (&[measure, by(1), measure], Some((5, 1))),
        (&[measure, by(0), by(1), measure], Some((5, 2))),
        (&[measure, measure, by(2), measure], Some((5, 2))),
        // Resets are not counted.
        (&[reset, by(0)], Some((5, 1))),
        (&[reset, measure, by(1)], Some((5, 2))),
        (&[measure, reset, by(1)], Some((5, 2))),
        (&[measure, reset, reset, reset, by(2)], Some((5, 4))),
        (&[reset, reset, measure, by(0), by(1)], Some((5, 4))),
        // Neither are corrections.
        (&[measure, by(0), by(0), by(2)], Some((5, 3))),
        // Good ones, also of the qudit that is corrected and more than once.
        (&[measure, by(0)], None),
        (&[measure, Operation::Correct { t: 0, m: 0 }], None),
        (&[reset, measure, by(0)], None),
        (&[measure, by(0), by(0), measure, by(1), by(0)], None),
        (&[measure, reset, measure, reset, by(1), by(0)], None),
    ] {
        let book = book_of(operations);
        assert_eq!(said(&book), expected, "{operations:?}");
    }
}

/// With 4,096 operations there can be 4,095 measurements before a correction, and the last of them
/// has the number 4,094.
#[test]
fn the_largest_number_of_a_measurement() {
    let full = |m: u16| {
        let mut book = Book::new(3, 1);
        (1..MAX_OPERATIONS).for_each(|_| _ = book.measure(0, 1));
        book.correct(0, m).to_bytes()
    };
    let results = [UNWRITTEN; 2 * 4095];
    let run = |m| run_both(&full(m), &zero_tableau(3, 1), &results).returned;
    for m in [0, 1, 255, 256, 4093, 4094] {
        assert_eq!(run(m), (0, 4095), "{m}");
    }
    for m in [4095, 4096, 4097, 65_039, u16::MAX] {
        assert_eq!(run(m), (5, 4095), "{m}");
    }
    assert_eq!(refused(&mut Rng(6), &full(4094)), None);
    assert_eq!(refused(&mut Rng(6), &full(4095)), Some((5, 4095)));
}

/// Just below and at the number of the measurements before it, where one of the two bytes turns.
#[test]
fn numbers_around_every_byte() {
    for measurements in [1, 2, 254, 255, 256, 257, 258, 511, 512, 513, 1024, 2816] {
        let book = |m| {
            let [low, high] = (m as u16).to_le_bytes();
            book_with(5, 1, measurements, [8, 0, low, high])
        };
        let reader = |m| run_both(&book(m), &[], &[]).returned;
        assert_eq!(reader(measurements - 1), (8, 0), "{measurements}");
        assert_eq!(reader(measurements), (5, measurements));
        assert_eq!(reader(measurements + 256), (5, measurements));
    }
}

/// Qudit 0 is measured free again and again, so that the results are the choices, and in a frame run
/// the choices raised. Qudit 1 is then corrected by one of them: from level 0 to minus that result.
#[test]
fn corrections_are_by_the_named_result() {
    let mut rng = Rng(7);
    let numbers = [
        0, 1, 2, 15, 16, 17, 254, 255, 256, 257, 258, 510, 511, 512, 513, 599,
    ];
    for (d, m) in [3, 7, 31].into_iter().flat_map(|d| numbers.map(|m| (d, m))) {
        let mut book = Book::new(d, 2);
        for _ in 0..600 {
            book.operation(fourier(0)).measure(0, rng.byte_below(d));
        }
        let named = book.choices()[usize::from(m)];
        book.correct(1, m).measure(1, 0);
        // Just before measurement m, and Z before Fourier makes another X of it in the next.
        let (place, p, s) = (2 * m + 1, 1 + rng.byte_below(d - 1), rng.byte_below(d));
        book.error_at(WeylError {
            place,
            qudit: 0,
            p,
            s,
        });
        let before = Buffers::zero(d, 2, 601);
        let minus = |level: u8| (d - level % d) % d;
        let direct = run_both(&book.to_bytes(), &before.tableau, &before.results);
        assert_eq!(direct.results[1200..], [minus(named), 0], "{m}");
        let (_, carried) = carry_both(&book.to_bytes(), &before);
        let reported = (named + p) % d;
        assert_eq!(carried.results[2 * usize::from(m)], reported, "{m}");
        assert_eq!(carried.results[1200..], [minus(reported), 0], "{m}");
        assert_eq!(carried.frame[1], minus(p), "{m}");
    }
}

// ---- The order of the refusals

/// A correction by a measurement that is not earlier is a bad operation like any other: the first of
/// them is named.
#[test]
fn the_first_bad_operation_is_named() {
    let mut rng = Rng(8);
    for _ in 0..300 {
        let count = 3 + rng.below(60);
        let mut book = Book::new(3, 2);
        book.measure(0, 1);
        (0..count).for_each(|_| _ = book.operation(cz(0, 1)));
        let mut bytes = book.to_bytes();
        let bad = [0, 0, 0].map(|_| 1 + rng.below(count));
        for index in bad {
            let entries = [
                [8, 1, 1, 0],
                [8, 1, 0, 1],
                [8, 2, 0, 0],
                [9, 0, 0, 0],
                [7, 0, 0, 1],
            ];
            let entry = entries[rng.below(entries.len())];
            bytes[BODIES + 4 * index..][..4].copy_from_slice(&entry);
        }
        let first = *bad.iter().min().expect("three");
        assert_eq!(refused(&mut rng, &bytes), Some((5, first)), "{bytes:?}");
    }
}

/// What refuses a fault, and how the fault is made.
type Fault = (Returned, fn(&mut Vec<u8>));

/// Faults of a book of seven operations, two errors and three choices, in the order in which they are
/// tested. The measurement is operation 2.
const FAULTS: [Fault; 8] = [
    ((4, 2), |book| book[16] = 9),
    ((5, 0), |book| book[BODIES] = 9),
    ((5, 1), |book| {
        book[BODIES + 4..][..4].copy_from_slice(&[8, 1, 0, 0])
    }),
    ((5, 3), |book| book[BODIES + 12 + 2] = 1),
    ((5, 4), |book| book[BODIES + 16 + 3] = 1),
    ((6, 0), |book| book[BODIES + 28 + 3] = 5),
    ((6, 1), |book| book[BODIES + 28 + 5] = 8),
    ((7, 1), |book| book[BODIES + 38 + 1] = 5),
];

#[test]
fn the_first_of_several_faults_is_returned() {
    let mut book = Book::new(5, 2);
    book.operation(fourier(0))
        .error(1, 4, 4)
        .operation(fourier(1))
        .measure(0, 3)
        .correct(1, 0)
        .reset(0, 2)
        .error(0, 1, 0)
        .reset(1, 1)
        .correct(0, 0);
    let (book, buffers) = (book.to_bytes(), Buffers::zero(5, 2, 1));
    assert_eq!(book.len(), BODIES + 28 + 10 + 3);
    for chosen in 0..1 << FAULTS.len() {
        let (mut damaged, mut first) = (book.clone(), None);
        for (_, (expected, make)) in (0..).zip(FAULTS).filter(|(i, _)| chosen >> i & 1 == 1) {
            make(&mut damaged);
            first = first.or(Some(expected));
        }
        let direct = run_both(&damaged, &buffers.tableau, &buffers.results).returned;
        assert_eq!(direct, first.unwrap_or((0, 1)), "{chosen:b}");
        assert_eq!(
            run_both(&damaged, &[], &[]).returned,
            first.unwrap_or((8, 0))
        );
        let mirrored = mirror_both(&damaged, &[]).0;
        assert_eq!(mirrored, first.unwrap_or((12, 2)), "{chosen:b}");
    }
}

// ---- Results and choices that differ in number

/// So many measurements and resets in drawn order, and a correction behind them if there is a result.
fn counted(rng: &mut Rng, measurements: usize, resets: usize) -> Book {
    let counts = Reused {
        gates: 3,
        measurements,
        resets,
        corrections: measurements.min(2),
    };
    draw_reused(rng, 5, 2, counts)
}

/// Every small number of both: as many results as measurements, and as many choices as both.
fn for_every_count(seed: u64, work: impl Fn(&mut Rng, usize, usize, &Book)) {
    let mut rng = Rng(seed);
    let counts = (0..5).flat_map(|m| (0..5).map(move |r| (m, r)));
    for (measurements, resets) in counts.chain([(40, 7), (7, 40), (0, 300), (300, 0), (256, 256)]) {
        let book = counted(&mut rng, measurements, resets);
        work(&mut rng, measurements, resets, &book);
    }
}

/// The room of the results goes by the measurements alone: two bytes for each are enough, and one
/// byte less is too short. A book of resets needs none.
#[test]
fn the_room_of_the_results() {
    for_every_count(9, |rng, measurements, _, book| {
        let tableau = draw_tableau(rng, 5, 2);
        let before = Buffers::drawn(rng, 2, measurements, tableau);
        for length in 0..=2 * measurements + 2 {
            let mut lent = before.clone();
            lent.results.resize(length, UNWRITTEN);
            let is_short = length < 2 * measurements;
            let expected = if is_short { (8, 0) } else { (0, measurements) };
            let direct = run_both(&book.to_bytes(), &lent.tableau, &lent.results);
            assert_eq!(direct.returned, expected, "{book:?}");
            let (framed, left) = carry_both(&book.to_bytes(), &lent);
            assert_eq!((framed.0, framed.1), expected, "{book:?}");
            let needed = (2 * measurements).min(length);
            assert_eq!(left.results[needed..], lent.results[needed..]);
            assert_eq!(direct.results[needed..], lent.results[needed..]);
        }
    });
}

/// The bytes of a shot go by the measurements too.
#[test]
fn the_width_of_a_shot() {
    for_every_count(10, |rng, measurements, _, book| {
        let tray = draw_tray(rng, book, 3, 2);
        let lent = Lent::drawn(rng, book, &tray);
        let needed = 3 * (1 + 2 * measurements);
        assert_eq!(cagvost::shots_len(3, book.measurements()), needed);
        for (length, expected) in [(needed, 0), (needed - 1, 8), (0, 8), (needed + 5, 0)] {
            let mut lent = lent.clone();
            lent.out.resize(length, UNWRITTEN);
            assert_eq!(tray_both(&lent).0.0, expected, "{book:?}");
        }
    });
}

/// A choice for each measurement and each reset: the smaller count is named, whatever else is wrong
/// with the choices.
#[test]
fn the_number_of_the_choices() {
    for_every_count(11, |rng, measurements, resets, book| {
        let [operations, errors, choices] = book.bodies();
        let taken = measurements + resets;
        assert_eq!(choices.len(), taken);
        for count in [
            0,
            measurements,
            resets,
            taken.saturating_sub(1),
            taken,
            taken + 1,
            taken + 9,
        ] {
            let mut other = choices.clone();
            other.resize(count, 4);
            let book = plain::book_of([&operations, &errors, &other], 5, 2);
            let expected = (count != taken).then_some((7, count.min(taken)));
            assert_eq!(refused(rng, &book), expected);
            if let Some(first) = other.first_mut() {
                *first = 5;
                let book = plain::book_of([&operations, &errors, &other], 5, 2);
                let named = if count == taken { 0 } else { count.min(taken) };
                assert_eq!(refused(rng, &book), Some((7, named)));
            }
        }
    });
}

/// Each choice is held to d, those of resets too.
#[test]
fn every_choice_is_below_d() {
    for_every_count(12, |rng, measurements, resets, book| {
        let bytes = book.to_bytes();
        let first = bytes.len() - measurements - resets;
        for index in (0..measurements + resets).take(12) {
            for choice in [5, 6, 255] {
                let bad = with_byte(&bytes, first + index, choice);
                assert_eq!(refused(rng, &bad), Some((7, index)));
            }
        }
    });
}

/// A correction behind all of them may name each measurement, and none that only a count of resets or
/// of corrections would give.
#[test]
fn measurements_alone_are_named() {
    for_every_count(28, |rng, measurements, resets, book| {
        let index = book.operations().len();
        for m in [0, measurements / 2, measurements.saturating_sub(1)]
            .into_iter()
            .chain([measurements, measurements + 1, measurements + resets, index])
        {
            let bytes = book.clone().correct(1, m as u16).to_bytes();
            let expected = (m >= measurements).then_some((5, index));
            assert_eq!(refused(rng, &bytes), expected, "{m} of {measurements}");
        }
    });
}

/// As many choices as a book can have, taken by both codes; one more is refused by 4 before anything
/// is counted.
#[test]
fn the_most_choices() {
    for one_in in [1, 2, 5, usize::MAX] {
        let mut rng = Rng(13);
        let mut book = Book::new(3, 2);
        for k in 0..MAX_OPERATIONS {
            if (k + 1).is_multiple_of(one_in) {
                book.reset(rng.byte_below(2), rng.byte_below(3));
            } else {
                book.measure(rng.byte_below(2), rng.byte_below(3));
            }
        }
        (0..MAX_ERRORS).for_each(|_| _ = book.error(1, 1, 2));
        let results = vec![UNWRITTEN; 2 * book.measurements()];
        let run = |book: &Book| run_both(&book.to_bytes(), &zero_tableau(3, 2), &results).returned;
        assert_eq!(book.choices().len(), MAX_CHOICES);
        assert_eq!(run(&book), (0, book.measurements()));
        assert_eq!(run(book.choice(0)), (4, 2));
        assert_eq!(run(book.reset(0, 0)), (4, 0));
    }
}

/// Whatever stands in the results before a run: corrections are by what the run itself wrote there.
#[test]
fn results_before_a_run_do_not_matter() {
    for_every_count(14, |rng, measurements, _, book| {
        let mut book = book.clone();
        for error in draw_errors(rng, &book, 4) {
            book.error_at(error);
        }
        let (bytes, tableau) = (book.to_bytes(), draw_tableau(rng, 5, 2));
        let mut before = Buffers::drawn(rng, 2, measurements, tableau);
        before.results.truncate(2 * measurements);
        let run = |before: &Buffers| {
            let direct = run_both(&bytes, &before.tableau, &before.results);
            (direct, carry_both(&bytes, before))
        };
        let expected = run(&before);
        for _ in 0..3 {
            before.results = rng.bytes(2 * measurements);
            assert!(run(&before) == expected, "{book:?}");
        }
        before.results.fill(UNWRITTEN);
        assert!(run(&before) == expected, "{book:?}");
    });
}

// ---- Level 0

/// How often a reset was free, and certain from a level that is not 0.
#[derive(Default)]
struct Resets {
    free: usize,
    certain: usize,
}

/// Brings a drawn tableau to a level on some of its qudits, so that certain resets are common.
fn draw_start(rng: &mut Rng, d: u8, n: u8) -> Vec<u8> {
    let tableau = draw_tableau(rng, d, n);
    let mut book = Book::new(d, n);
    for q in (0..n).filter(|q| q % 2 == 0) {
        book.measure(q, rng.byte_below(d));
    }
    let room = vec![UNWRITTEN; 2 * book.measurements()];
    run_both(&book.to_bytes(), &tableau, &room).tableau
}

/// Resets q, with an error on each qudit before it or with none, and measures it: it is certainly 0,
/// with every choice, and Z on q is a stabilizer. An error between the two is what is measured.
fn measures_0(rng: &mut Rng, tableau: &[u8], q: u8, noisy: bool, seen: &mut Resets) {
    let (d, n) = (tableau[0], tableau[1]);
    let start = if noisy {
        draw_noisy(rng, d, n)
    } else {
        Book::new(d, n)
    };
    let (choice, p) = (rng.byte_below(d), rng.byte_below(d));
    let mut book = start.clone();
    book.reset(q, choice).measure(q, rng.byte_below(d));
    let before = Buffers::drawn(rng, n, 2, tableau.to_vec());
    let direct = run_both(&book.to_bytes(), &before.tableau, &before.results);
    assert_eq!(direct.results[..2], [0, 0], "{book:?}");
    assert_eq!(direct.results[2..], before.results[2..], "{book:?}");
    let (_, carried) = carry_both(&book.to_bytes(), &before);
    assert_eq!(carried.results[..2], [0, 0], "{book:?}");
    let z = plain::z_on(n.into(), q.into(), 0);
    for left in [&direct.tableau, &carried.tableau] {
        let rows = plain::rows_of(n.into(), &left[ROWS..]);
        assert!(plain::stabilizes(d.into(), n.into(), &rows, &z), "{book:?}");
    }
    let mut struck = start.clone();
    struck.reset(q, choice).error(q, p, 1).measure(q, choice);
    let direct = run_both(&struck.to_bytes(), &before.tableau, &before.results);
    assert_eq!(direct.results[..2], [p, 0], "{struck:?}");
    let (_, carried) = carry_both(&struck.to_bytes(), &before);
    assert_eq!(carried.results[..2], [p, 0], "{struck:?}");
    let rows = plain::rows_of(n.into(), &tableau[ROWS..]);
    match plain::look(d.into(), n.into(), &rows, q.into()) {
        Look::Free(_) => seen.free += 1,
        Look::Certain(level) => seen.certain += usize::from(level != 0),
    }
}

#[test]
fn a_reset_qudit_is_certainly_at_level_0() {
    let mut rng = Rng(15);
    for d in DIMENSIONS {
        let mut seen = Resets::default();
        for n in (1..=6).chain([17, MAX_QUDITS]) {
            for (q, noisy) in (0..n.min(8)).flat_map(|q| [(q, false), (q, true)]) {
                let tableau = draw_start(&mut rng, d, n);
                measures_0(&mut rng, &tableau, q, noisy, &mut seen);
            }
        }
        assert!(seen.free > 5 && seen.certain > 5, "d {d}");
    }
}

/// A reset and a reset again: the second changes no byte. A measurement and a correction of the same
/// qudit by it do what a reset does, but that they give a result.
#[test]
fn a_reset_is_a_measurement_and_a_correction_by_it() {
    let mut rng = Rng(16);
    for (d, n) in DIMENSIONS
        .into_iter()
        .flat_map(|d| [(d, 1), (d, 3), (d, 9)])
    {
        for _ in 0..10 {
            let tableau = draw_start(&mut rng, d, n);
            let (q, choice) = (rng.byte_below(n), rng.byte_below(d));
            let noisy = draw_noisy(&mut rng, d, n);
            let [mut once, mut twice, mut apart] = [(); 3].map(|()| noisy.clone());
            once.reset(q, choice);
            twice.reset(q, choice).reset(q, rng.byte_below(d));
            apart.measure(q, choice).correct(q, 0);
            let run = |book: &Book| {
                let before = Buffers {
                    tableau: tableau.clone(),
                    ..Buffers::zero(d, n, book.measurements())
                };
                let direct = run_both(&book.to_bytes(), &tableau, &before.results);
                let (returned, left) = carry_both(&book.to_bytes(), &before);
                (
                    direct.tableau,
                    returned.2,
                    left.tableau,
                    left.shifts,
                    left.frame,
                )
            };
            let expected = run(&once);
            assert!(run(&twice) == expected, "{twice:?}");
            assert!(run(&apart) == expected, "{apart:?}");
        }
    }
}

// ---- Demand 3

fn reused_shape(rng: &mut Rng, d: u8, n: u8, most: usize) -> Shape {
    Shape {
        d,
        n,
        operations: rng.below(most),
        errors: rng.below(most / 2),
        measure_one_in: 2 + rng.below(4),
    }
}

/// Drawn books from drawn tableaus: the frame run leaves every byte of the direct run with raised
/// choices, and its verdict is that of the stabilizer sets.
fn carry_reused(books: usize, least: u8, most: u8, operations: usize) -> Verdicts {
    let mut rng = Rng(100 + u64::from(least));
    let mut seen = Verdicts::default();
    for d in DIMENSIONS {
        for _ in 0..books {
            let n = least + rng.byte_below(most - least + 1);
            let shape = reused_shape(&mut rng, d, n, operations);
            let book = draw_book_of(&mut rng, shape, true);
            let tableau = draw_tableau(&mut rng, d, n);
            framed_and_direct(&mut rng, &book, tableau, &mut seen);
        }
    }
    seen
}

#[test]
fn demand_3_on_one_to_four_qudits() {
    carry_reused(300, 1, 4, 60).are_enough(100);
}

#[test]
fn demand_3_on_five_to_twenty_qudits() {
    carry_reused(30, 5, 20, 150);
}

#[test]
fn demand_3_on_21_to_64_qudits() {
    carry_reused(4, 21, 64, 300);
}

#[test]
fn demand_3_on_full_books() {
    let mut rng = Rng(17);
    for (d, n) in [(3, 64), (31, 33), (5, 2), (7, 1)] {
        let shape = Shape {
            d,
            n,
            operations: MAX_OPERATIONS,
            errors: MAX_ERRORS,
            measure_one_in: 6,
        };
        let book = draw_book_of(&mut rng, shape, true);
        let tableau = draw_tableau(&mut rng, d, n);
        framed_and_direct(&mut rng, &book, tableau, &mut Verdicts::default());
    }
}

/// One error alone, at every place of a circuit with a free reset, corrections by both results, one
/// of them twice, and a certain reset, with every power.
#[test]
fn every_error_at_every_place() {
    let mut rng = Rng(18);
    let mut seen = Verdicts::default();
    let places = |d| (0..=11).flat_map(move |k| [0, 1].map(|qudit| (d, k, qudit)));
    for (d, place, qudit) in [3, 5].into_iter().flat_map(places) {
        for (p, s) in (0..d).flat_map(|p| (0..d).map(move |s| (p, s))) {
            let mut book = Book::new(d, 2);
            book.operation(fourier(0))
                .operation(sum(0, 1))
                .measure(1, 1)
                .correct(0, 0)
                .operation(fourier(0))
                .reset(0, 2)
                .operation(cz(1, 0))
                .measure(1, 2)
                .correct(1, 1)
                .correct(0, 0)
                .reset(1, 1);
            book.error_at(WeylError { place, qudit, p, s });
            framed_and_direct(&mut rng, &book, zero_tableau(d, 2), &mut seen);
        }
    }
    seen.are_enough(20);
}

/// A frame's X power on a reset qudit is 0 just after it and its Z power is kept; nothing else of the
/// frame is moved.
#[test]
fn a_frame_loses_its_x_power_at_a_reset() {
    let mut rng = Rng(19);
    for (d, n) in DIMENSIONS
        .into_iter()
        .flat_map(|d| [(d, 1), (d, 2), (d, 7)])
    {
        let q = rng.byte_below(n);
        let mut book = draw_noisy(&mut rng, d, n);
        book.reset(q, rng.byte_below(d));
        let tableau = draw_tableau(&mut rng, d, n);
        let before = Buffers::drawn(&mut rng, n, 0, tableau);
        let (_, left) = carry_both(&book.to_bytes(), &before);
        for (i, error) in book.errors().iter().enumerate() {
            let x = if i == usize::from(q) { 0 } else { error.p };
            let power = (left.frame[i], left.frame[usize::from(n) + i]);
            assert_eq!(power, (x, error.s), "{book:?}");
        }
    }
}

// ---- Trays

/// Runs a tray over the book. How many shots were clean, and how many shifted.
fn accept(rng: &mut Rng, book: &Book, tray: &Tray) -> [usize; 2] {
    let (number, clean, shifted) = tray_both(&Lent::drawn(rng, book, tray)).0;
    assert_eq!((number, clean + shifted), (0, tray.shots()));
    [clean, shifted]
}

/// The library turns results in tiles of 16 measurements, and a correction reads what is still there
/// or what is written already. Shots go in blocks of 256, and those without errors take no place.
#[test]
fn trays_around_every_tile_and_block() {
    let mut rng = Rng(20);
    let mut seen = [0, 0];
    for measurements in [1, 2, 15, 16, 17, 31, 32, 33, 48, 64, 65] {
        for (shots, most) in [(1, 3), (40, 2), (257, 4)] {
            let d = DIMENSIONS[rng.below(DIMENSIONS.len())];
            let counts = Reused {
                gates: 15,
                measurements,
                resets: 6,
                corrections: 10 + measurements / 2,
            };
            let book = draw_reused(&mut rng, d, 2, counts);
            let tray = draw_tray(&mut rng, &book, shots, most);
            let [clean, shifted] = accept(&mut rng, &book, &tray);
            seen = [seen[0] + clean, seen[1] + shifted];
        }
    }
    assert!(seen.iter().all(|&count| count > 500), "{seen:?}");
}

/// Trays of more than a block over circuits of more than 256 measurements.
#[test]
fn trays_of_many_shots_and_measurements() {
    let mut rng = Rng(21);
    for (d, n, measurements, shots) in [
        (3, 2, 300, 300),
        (5, 3, 290, 513),
        (31, 1, 257, 256),
        (7, 4, 600, 310),
    ] {
        let counts = Reused {
            gates: 150,
            measurements,
            resets: 60,
            corrections: 200,
        };
        let book = draw_reused(&mut rng, d, n, counts);
        let tray = draw_tray(&mut rng, &book, shots, 6);
        accept(&mut rng, &book, &tray);
    }
}

/// After each measurement a correction by each that is as far back as a tile, and by the first: of
/// those in the tile, those at its edge and those that are written.
#[test]
fn corrections_by_every_measurement_of_the_last_tiles() {
    let mut rng = Rng(22);
    for (d, n) in [(3, 3), (11, 2)] {
        let mut book = Book::new(d, n);
        for measured in 1..=70 {
            book.operation(fourier(rng.byte_below(n)));
            book.measure(rng.byte_below(n), rng.byte_below(d));
            for back in [1, 2, 15, 16, 17, 31, 32, 33, measured] {
                if back <= measured {
                    book.correct(rng.byte_below(n), measured - back);
                }
            }
        }
        let tray = draw_tray(&mut rng, &book, 300, 5);
        accept(&mut rng, &book, &tray);
    }
}

/// One error alone at each place, so that each shift is taken out where it must be.
#[test]
fn every_place_in_a_tray() {
    let mut rng = Rng(23);
    for d in [3, 5, 31] {
        let counts = Reused {
            gates: 60,
            measurements: 40,
            resets: 20,
            corrections: 60,
        };
        let book = draw_reused(&mut rng, d, 3, counts);
        let mut tray = Tray::new();
        for place in 0..=book.operations().len() {
            for qudit in 0..3 {
                let (place, p, s) = (place as u16, 1 + rng.byte_below(d - 1), rng.byte_below(d));
                tray.shot(&[WeylError { place, qudit, p, s }]);
            }
        }
        accept(&mut rng, &book, &tray);
    }
}

#[test]
fn drawn_trays_of_every_number_of_qudits() {
    let mut rng = Rng(24);
    for n in 1..=MAX_QUDITS {
        let d = DIMENSIONS[usize::from(n) % DIMENSIONS.len()];
        let shape = reused_shape(&mut rng, d, n, 60);
        let book = draw_book_of(&mut rng, shape, true);
        let tray = draw_tray(&mut rng, &book, 10, 5);
        accept(&mut rng, &book, &tray);
    }
}

/// The longest book in which a correction names the last measurement there can be, with shots of
/// every block.
#[test]
fn a_full_tray_of_a_full_book() {
    let mut rng = Rng(25);
    let counts = Reused {
        gates: 0,
        measurements: 2800,
        resets: 296,
        corrections: 1000,
    };
    let book = draw_reused(&mut rng, 5, 2, counts);
    assert_eq!(book.operations().len(), MAX_OPERATIONS);
    let tray = draw_tray(&mut rng, &book, 260, 4);
    accept(&mut rng, &book, &tray);
}

// ---- The writer and the package's values

/// Drawn bodies come out as a book, and the book's values are read back.
#[test]
fn drawn_books_come_out_byte_for_byte() {
    let mut rng = Rng(26);
    for i in 0..400 {
        let d = DIMENSIONS[i % DIMENSIONS.len()];
        let n = 1 + rng.byte_below(MAX_QUDITS);
        let shape = reused_shape(&mut rng, d, n, 200);
        let book = draw_book_of(&mut rng, shape, true);
        let (bodies, bytes) = (book.bodies(), book.to_bytes());
        let room = rng.bytes(bytes.len());
        let room = with_tail(&mut rng, room);
        let (returned, left) = write_both(&bodies, d.into(), n.into(), &room);
        assert_eq!(returned, (0, bytes.len()));
        assert!(left[..bytes.len()] == bytes, "{book:?}");
        assert_eq!(plain::read_contents(&bytes), Ok(slices(&bodies)));
        assert_eq!(Book::from_bytes(&bytes).as_ref(), Ok(&book));
    }
}

// ---- The stack

/// The largest book and tray on a stack of 256 KiB. If a call needed more, the process would abort.
#[test]
fn a_small_stack_is_enough() {
    let mut rng = Rng(27);
    let counts = Reused {
        gates: MAX_OPERATIONS - 400,
        measurements: 100,
        resets: 100,
        corrections: 200,
    };
    let mut book = draw_reused(&mut rng, 31, MAX_QUDITS, counts);
    let tray = draw_tray(&mut rng, &book, MAX_SHOTS, 8);
    for error in draw_errors(&mut rng, &book, MAX_ERRORS) {
        book.error_at(error);
    }
    let lent = Lent::drawn(&mut rng, &book, &tray);
    let buffers = Buffers::zero(31, MAX_QUDITS, book.measurements());
    let run = move |mut lent: Lent, mut buffers: Buffers| {
        let (mut tableau, mut results) = (buffers.tableau.clone(), buffers.results.clone());
        let direct = cagvost::direct_run(&lent.book, &mut tableau, &mut results);
        let framed = buffers.by_library(&lent.book);
        (
            direct,
            tableau,
            results,
            framed,
            buffers,
            lent.by_library(),
            lent.out,
        )
    };
    let on_small = {
        let (lent, buffers) = (lent.clone(), buffers.clone());
        let small = thread::Builder::new().stack_size(256 * 1024);
        let thread = small.spawn(move || run(lent, buffers)).expect("a thread");
        thread.join().expect("no panic")
    };
    let direct = on_small.0.expect("an accepted book");
    assert_eq!((direct.measurements, direct.next), (100, 4097));
    assert!(on_small == run(lent, buffers));
}
