//! Saved tableaus that name themselves: d and n stand before the rows. The layer writes these two
//! bytes, the test reads them, and a run refuses them where they are not its book's and leaves them
//! as they are.
//!
//! `layer_both`, `test_both`, `run_both`, `carry_both` and `tray_both` compare every number and byte
//! with the plain reference, and what must not be written with what was there before. Which number it
//! must be is said here once more.

use crate::common;

use cagvost::Tray;
use cagvost::book::{Book, DIMENSIONS, Operation};
use common::frames::{Buffers, carry_both};
use common::trays::{Lent, Returned, tray_both};
use common::{ROWS, Rng, Shape, UNWRITTEN, draw_book, draw_tableau, layer_both, named, run_both};
use common::{test_both, with_byte, zero_tableau};
use std::cmp::Ordering;

/// A gate, an error and a measurement on the last qudit.
fn small_book(d: u8, n: u8) -> Book {
    let q = n - 1;
    let mut book = Book::new(d, n);
    book.operation(Operation::Fourier { q, times: 1 })
        .error(q, 1, d - 1)
        .measure(q, d - 1);
    book
}

/// A shot without errors and one with X on qudit 0.
fn small_tray() -> Tray {
    let mut tray = Tray::new();
    tray.body(&[]).body(&[0, 0, 0, 1, 0]);
    tray
}

/// Every first thing with every second.
fn pairs<T: Copy>(first: &[T], second: &[T]) -> Vec<(T, T)> {
    let with = |&x: &T| second.iter().map(move |&y| (x, y));
    first.iter().flat_map(with).collect()
}

/// Every byte there is.
fn every_byte() -> Vec<u8> {
    Vec::from_iter(0..=255)
}

/// The bytes, and up to this length others that no row has.
fn padded(bytes: &[u8], length: usize) -> Vec<u8> {
    let mut padded = bytes.to_vec();
    padded.resize(length.max(bytes.len()), UNWRITTEN);
    padded
}

/// The number by which both runs and the tray run of a book refuse a tableau, or 0: it must be the
/// same. All other buffers are longer than needed.
fn answer(book: &Book, tableau: &[u8]) -> usize {
    let (d, n) = (book.dimension(), book.qudits());
    let [bytes, tableau] = [book.to_bytes(), tableau.to_vec()];
    let mut before = Buffers::zero(d, n, book.measurements() + 1);
    before.tableau.clone_from(&tableau);
    before.shifts.push(UNWRITTEN);
    before.frame.push(UNWRITTEN);
    let mut lent = Lent::zero(book, &small_tray());
    lent.tableau = tableau;
    lent.out.push(UNWRITTEN);
    let direct = run_both(&bytes, &before.tableau, &before.results).returned;
    let framed = carry_both(&bytes, &before).0;
    let shots = tray_both(&lent).0;
    if direct.0 == 0 {
        let counted = [direct.1, framed.1, shots.1 + shots.2];
        assert_eq!(counted, [book.measurements(), book.measurements(), 2]);
        assert_eq!([framed.0, shots.0], [0, 0]);
    } else {
        assert_eq!(direct.1, 0);
        assert_eq!([framed, shots], [(direct.0, 0, 0); 2], "d {d} n {n}");
    }
    direct.0
}

// ---- Lengths

/// What the layer says to a buffer of this length, in which no byte is one that it writes.
fn laid(length: usize, d: u8, n: u8) -> usize {
    let (number, place) = layer_both(&vec![UNWRITTEN; length], d.into(), n.into()).0;
    assert_eq!(place, 0);
    number
}

/// Up to the needed bytes 8, from there on none: by layer, test and all runs.
#[test]
fn every_length() {
    let mut rng = Rng(1);
    for (d, n) in [(3, 1), (5, 2), (31, 3)] {
        let needed = cagvost::tableau_len(n.into());
        let whole = padded(&draw_tableau(&mut rng, d, n), needed + 4);
        for length in 0..=needed + 4 {
            let expected = if length < needed { 8 } else { 0 };
            let lent = &whole[..length];
            assert_eq!(laid(length, d, n), expected, "layer of {length} bytes");
            assert_eq!(test_both(lent), (expected, 0), "test of {length} bytes");
            assert_eq!(answer(&small_book(d, n), lent), expected, "{length} bytes");
        }
    }
}

#[test]
fn lengths_of_the_largest_tableau() {
    let whole = draw_tableau(&mut Rng(2), 31, 64);
    assert_eq!((whole.len(), &whole[..ROWS]), (16_514, &[31, 64][..]));
    for length in [0, 1, 2, 3, 16_512, 16_513] {
        let short = &whole[..length];
        assert_eq!(laid(length, 31, 64), 8);
        assert_eq!(test_both(short), (8, 0));
        assert_eq!(answer(&small_book(31, 64), short), 8);
    }
    assert_eq!(laid(whole.len(), 31, 64), 0);
    assert_eq!(test_both(&whole), (0, 0));
    assert_eq!(answer(&small_book(31, 64), &whole), 0);
}

/// The test reads d only where n is there too: whatever one byte is, it is too few.
#[test]
fn less_than_two_bytes_are_refused_by_8() {
    assert_eq!(test_both(&[]), (8, 0));
    for byte in every_byte() {
        assert_eq!(test_both(&[byte]), (8, 0), "{byte}");
    }
}

/// Tableaus that were stored before they named themselves are rows alone.
#[test]
fn rows_alone_are_no_tableau() {
    for (d, n) in DIMENSIONS.into_iter().flat_map(|d| [(d, 1), (d, 4)]) {
        let rows = zero_tableau(d, n).split_off(ROWS);
        assert_eq!(test_both(&rows), (2, 0)); // they begin with 1
        assert_eq!(answer(&small_book(d, n), &rows), 8);
        let long = padded(&rows, rows.len() + ROWS);
        assert_eq!(answer(&small_book(d, n), &long), 9);
    }
}

// ---- The layer

#[test]
fn the_layer_writes_d_and_then_n() {
    for (d, n) in pairs(&DIMENSIONS, &[1, 2, 63, 64]) {
        let room = vec![UNWRITTEN; cagvost::tableau_len(n.into()) + 3];
        let (returned, laid) = layer_both(&room, d.into(), n.into());
        assert_eq!((returned, &laid[..ROWS]), ((0, 0), &[d, n][..]));
        assert!(laid == padded(&zero_tableau(d, n), room.len()));
        assert_eq!(test_both(&laid), (0, 0));
    }
}

/// Numbers that are good if all but their low byte is lost, with room for the largest tableau.
#[test]
fn the_layer_takes_no_number_for_its_low_byte() {
    let room = [UNWRITTEN; cagvost::tableau_len(64)];
    let sizes = pairs(&DIMENSIONS.map(usize::from), &[1, 2, 63, 64]);
    for (d, n) in sizes {
        for more in [256, 1 << 16, 1 << 32] {
            assert_eq!(layer_both(&room, d + more, n).0, (2, 0));
            assert_eq!(layer_both(&room, d, n + more).0, (3, 0));
            assert_eq!(layer_both(&room, d + more, n + more).0, (2, 0));
        }
    }
}

// ---- The test

/// Each pair of bytes alone, and before rows that are those of three qudits, with room for five. The
/// order is 2, 3, 8, 9: of two faults, the first is named.
#[test]
fn every_pair_of_bytes_in_the_test() {
    let rows = zero_tableau(3, 3).split_off(ROWS);
    for (d, n) in pairs(&every_byte(), &every_byte()) {
        let long = padded(&named(d, n, &rows), cagvost::tableau_len(5));
        let [alone, before_rows] = match n {
            _ if !DIMENSIONS.contains(&d) => [2, 2],
            0 | 65.. => [3, 3],
            6.. => [8, 8],
            3 => [8, 0],
            _ => [8, 9],
        };
        assert_eq!(test_both(&[d, n]), (alone, 0), "d {d} n {n} alone");
        assert_eq!(test_both(&long), (before_rows, 0), "d {d} n {n}");
    }
}

/// No length makes such a number good, not even that of the rows of so many qudits.
#[test]
fn no_qudits_and_more_than_64_are_refused_by_3() {
    for (d, n) in pairs(&[3, 31], &[0, 65, 66, 128, 255]) {
        let whole = padded(&zero_tableau(d, n), cagvost::tableau_len(64));
        for length in [ROWS, ROWS + 1, cagvost::tableau_len(64), whole.len()] {
            assert_eq!(test_both(&whole[..length]), (3, 0), "n {n}: {length}");
        }
    }
}

/// Every n by its own needed bytes: one less is 8, even where a byte is not below d.
#[test]
fn every_number_of_qudits_by_its_own_length() {
    for n in 1..=64 {
        let d = DIMENSIONS[usize::from(n) % DIMENSIONS.len()];
        let tableau = zero_tableau(d, n);
        let (needed, bad) = (tableau.len(), with_byte(&tableau, ROWS, d));
        assert_eq!(test_both(&tableau), (0, 0), "n {n}");
        assert_eq!(test_both(&bad), (9, 0), "n {n}");
        for tableau in [&tableau, &bad] {
            assert_eq!(test_both(&tableau[..needed - 1]), (8, 0), "n {n}");
        }
    }
}

/// Whether a phase is good depends on the dimension that the tableau names, and on nothing else.
#[test]
fn rows_are_held_to_the_tableaus_own_dimension() {
    for (d, phase) in pairs(&DIMENSIONS, &every_byte()) {
        let expected = if phase < d { 0 } else { 9 };
        for row in 0..4 {
            let last = ROWS + 5 * row + 4;
            let tableau = with_byte(&zero_tableau(d, 2), last, phase);
            assert_eq!(test_both(&tableau), (expected, 0), "d {d} phase {phase}");
        }
        let tableau = with_byte(&zero_tableau(d, 2), ROWS + 4, phase);
        assert_eq!(answer(&small_book(d, 2), &tableau), expected);
    }
}

/// Drawn rows behind another dimension: some byte is not below it, or some pairing is another.
#[test]
fn drawn_rows_are_not_valid_in_another_dimension() {
    let mut rng = Rng(4);
    for (d, other) in pairs(&DIMENSIONS, &DIMENSIONS) {
        let rows = draw_tableau(&mut rng, d, 6).split_off(ROWS);
        let expected = if d == other { 0 } else { 9 };
        assert_eq!(test_both(&named(other, 6, &rows)), (expected, 0));
    }
}

// ---- Runs

/// Each byte alone with every value, and many values of both, before rows that are the book's: none
/// of 2 and 3 is said of a tableau by a run, and a buffer is too short by the book's n alone.
#[test]
fn every_value_of_both_bytes_in_a_run() {
    let mut rng = Rng(5);
    for (d, n) in [(5, 2), (3, 1), (31, 3)] {
        let (book, own) = (small_book(d, n), draw_tableau(&mut rng, d, n));
        let mut bytes = pairs(&every_byte(), &[n]);
        bytes.extend(pairs(&[d], &every_byte()));
        bytes.extend(pairs(&DIMENSIONS, &[0, 1, 2, 3, 4, 5, 31, 64, 65, 255]));
        bytes.extend(pairs(&[0, 1, 2, 9, 255], &[0, 1, 2, 3, 65, 255]));
        for (x, y) in bytes {
            let tableau = named(x, y, &own[ROWS..]);
            let expected = if (x, y) == (d, n) { 0 } else { 9 };
            let long = padded(&tableau, tableau.len() + 5);
            assert_eq!(answer(&book, &tableau), expected, "{x} and {y}");
            assert_eq!(answer(&book, &long), expected, "{x} and {y}");
            assert_eq!(answer(&book, &tableau[..tableau.len() - 1]), 8);
        }
    }
}

/// The rows of the zero tableau are the same in every dimension: only the first byte tells.
#[test]
fn a_zero_tableau_of_another_dimension() {
    for (d, other) in pairs(&DIMENSIONS, &DIMENSIONS) {
        for n in [1, 2, 5] {
            let (book, tableau) = (small_book(d, n), zero_tableau(other, n));
            let expected = if d == other { 0 } else { 9 };
            assert_eq!(test_both(&tableau), (0, 0));
            assert_eq!(answer(&book, &tableau), expected, "d {d} and {other}");
            assert_eq!(answer(&book, &tableau[..tableau.len() - 1]), 8);
        }
    }
}

/// A tableau of another n as it was saved is too short or not the book's. With room for both it is
/// not the book's.
#[test]
fn a_tableau_of_another_number_of_qudits() {
    let mut rng = Rng(6);
    let mut sizes = pairs(&[1, 2, 3, 4, 5], &[1, 2, 3, 4, 5]);
    sizes.extend([(63, 64), (64, 63)]);
    for (n, other) in sizes {
        let (book, saved) = (small_book(7, n), draw_tableau(&mut rng, 7, other));
        let long = padded(&saved, cagvost::tableau_len(n.max(5).into()));
        let expected = match other.cmp(&n) {
            Ordering::Less => [8, 9],
            Ordering::Equal => [0, 0],
            Ordering::Greater => [9, 9],
        };
        assert_eq!([&saved, &long].map(|t| test_both(t)), [(0, 0); 2]);
        let said = [&saved, &long].map(|t| answer(&book, t));
        assert_eq!(said, expected, "n {n} and {other}");
    }
}

/// Bytes that are valid rows of one qudit and of two: only the second byte tells.
#[test]
fn rows_that_are_valid_for_one_qudit_and_for_two() {
    for d in DIMENSIONS {
        let mut rows = zero_tableau(d, 2).split_off(ROWS);
        // For two qudits the phase of destabilizer 0, for one the Z power of its stabilizer.
        rows[4] = 1;
        for (n, other) in pairs(&[1, 2], &[1, 2]) {
            let tableau = named(d, other, &rows);
            assert_eq!(test_both(&tableau), (0, 0));
            let expected = if n == other { 0 } else { 9 };
            assert_eq!(answer(&small_book(d, n), &tableau), expected);
        }
    }
}

/// d 3 and n 5 are not d 5 and n 3: neither a tableau of those sizes, nor the own rows behind the
/// bytes in the wrong order.
#[test]
fn d_and_n_exchanged() {
    let mut rng = Rng(7);
    for (d, n) in [(3, 5), (5, 3), (7, 11), (11, 7), (3, 31), (31, 3)] {
        let (book, saved) = (small_book(d, n), draw_tableau(&mut rng, n, d));
        let long = padded(&saved, cagvost::tableau_len(31));
        assert_eq!(test_both(&saved), (0, 0));
        assert_eq!(answer(&book, &saved), if d < n { 8 } else { 9 });
        assert_eq!(answer(&book, &long), 9);
        let own = draw_tableau(&mut rng, d, n);
        assert_eq!(answer(&book, &own), 0);
        assert_eq!(answer(&book, &named(n, d, &own[ROWS..])), 9);
    }
}

// ---- The order

/// Bytes that are not those of a book of d 5 and n 2, each with its place.
const NOT_THE_BOOKS: [(usize, u8); 8] = [
    (0, 3),
    (0, 7),
    (0, 0),
    (0, 255),
    (1, 1),
    (1, 3),
    (1, 0),
    (1, 65),
];

/// Each of a run's buffers one byte short.
const SHORTEN: [fn(&mut Buffers); 4] = [
    |lent| _ = lent.tableau.pop(),
    |lent| _ = lent.results.pop(),
    |lent| _ = lent.shifts.pop(),
    |lent| _ = lent.frame.pop(),
];

/// Another d or n comes after a bad book and every short buffer.
#[test]
fn short_buffers_come_before_another_d_or_n() {
    let good = small_book(5, 2).to_bytes();
    let bad = with_byte(&good, good.len() - 1, 5);
    for (place, byte) in NOT_THE_BOOKS {
        let mut other = Buffers::zero(5, 2, 1);
        other.tableau[place] = byte;
        assert_eq!(carry_both(&good, &other).0, (9, 0, 0));
        assert_eq!(carry_both(&bad, &other).0, (7, 0, 0));
        for (i, shorten) in SHORTEN.into_iter().enumerate() {
            let mut short = other.clone();
            shorten(&mut short);
            assert_eq!(carry_both(&good, &short).0, (8, 0, 0));
            assert_eq!(carry_both(&bad, &short).0, (7, 0, 0));
            // A direct run has the first two of the buffers.
            let direct = |book: &[u8]| run_both(book, &short.tableau, &short.results).returned;
            assert_eq!(direct(&good), (if i < 2 { 8 } else { 9 }, 0));
            assert_eq!(direct(&bad), (7, 0));
        }
    }
}

/// What refuses a fault, and how the fault is made.
type Fault = (Returned, fn(&mut Lent));

/// What comes before another d or n in a tray run, from the last to the first.
const BEFORE_9: [Fault; 5] = [
    ((8, 0, 0), |lent| _ = lent.out.pop()),
    ((8, 0, 0), |lent| _ = lent.tableau.pop()),
    ((6, 1, 0), |lent| lent.tray[6 + 3] = 5),
    ((11, 0, 0), |lent| lent.tray.push(0)),
    ((7, 0, 0), |lent| {
        *lent.book.last_mut().expect("a choice") = 5
    }),
];

/// Each fault alone, and each upon those that come after it.
#[test]
fn the_order_of_a_tray_run_with_another_d_or_n() {
    for (place, byte) in NOT_THE_BOOKS {
        let mut other = Lent::zero(&small_book(5, 2), &small_tray());
        assert_eq!(tray_both(&other).0.0, 0);
        other.tableau[place] = byte;
        assert_eq!(tray_both(&other).0, (9, 0, 0));
        let mut all = other.clone();
        for (expected, fault) in BEFORE_9 {
            let mut one = other.clone();
            fault(&mut one);
            fault(&mut all);
            assert_eq!([&one, &all].map(|lent| tray_both(lent).0), [expected; 2]);
        }
    }
}

// ---- What a run leaves

/// What a run has left starts books of the same d and n, and no others.
fn serves_its_own_books_alone(d: u8, n: u8, saved: &[u8]) {
    assert_eq!(saved[..ROWS], [d, n]);
    assert_eq!(test_both(saved), (0, 0));
    assert_eq!(answer(&small_book(d, n), saved), 0);
    for other in DIMENSIONS.into_iter().filter(|&other| other != d) {
        assert_eq!(answer(&small_book(other, n), saved), 9);
    }
    if n > 1 {
        assert_eq!(answer(&small_book(d, n - 1), saved), 9);
    }
    if n < 64 {
        assert_eq!(answer(&small_book(d, n + 1), saved), 8);
    }
}

/// One drawn book after the other, with errors, from what the one before has left: by direct runs
/// and by frame runs.
fn run_on(rng: &mut Rng, d: u8, n: u8) {
    let shape = Shape {
        d,
        n,
        operations: 30,
        errors: 10,
        measure_one_in: 3,
    };
    let [mut struck, mut carried] = [0, 0].map(|_| zero_tableau(d, n));
    for _ in 0..3 {
        let book = draw_book(rng, shape);
        let (bytes, measurements) = (book.to_bytes(), book.measurements());
        let before = Buffers::drawn(rng, n, measurements, struck.clone());
        let run = run_both(&bytes, &before.tableau, &before.results);
        struck = run.tableau[..struck.len()].to_vec();
        let before = Buffers::drawn(rng, n, measurements, carried.clone());
        let (_, left) = carry_both(&bytes, &before);
        carried = left.tableau[..carried.len()].to_vec();
        for saved in [&struck, &carried] {
            serves_its_own_books_alone(d, n, saved);
        }
    }
}

#[test]
fn what_a_run_leaves_serves_its_own_books_alone() {
    let mut rng = Rng(8);
    for (d, n) in pairs(&DIMENSIONS, &[1, 2, 5]) {
        run_on(&mut rng, d, n);
    }
    run_on(&mut rng, 3, 64);
    run_on(&mut rng, 31, 40);
}
