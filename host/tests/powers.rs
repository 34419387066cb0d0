//! Powers of a gate: one entry that applies it several times, as its last byte says.
//!
//! `run_both`, `carry_both`, `tray_both`, `write_both` and `mirror_both` compare every number and
//! byte with the plain reference, which applies a power gate by gate, and what a refusal must leave
//! with what was there before.

use crate::common;

use cagvost::Tray;
use cagvost::book::{Book, DIMENSIONS, MAX_QUDITS, Operation, WeylError};
use common::dense::levels;
use common::frames::{Buffers, carry_both};
use common::plain;
use common::trays::{Lent, draw_errors, draw_tray, tray_both};
use common::{BODIES, ROWS, Rng, Shape, named, refused, run_both, slices, write_both};
use common::{cz, draw_book, draw_gate, draw_noisy, draw_tableau, most_times, sum, times_of};
use common::{every_power, gates_on, shuffled, with_tail, with_times};

/// Does the work for every power of every gate of every dimension, on each of so many qudits.
fn for_every_power(seed: u64, qudits: &[u8], work: impl Fn(&mut Rng, u8, u8, Operation)) {
    let mut rng = Rng(seed);
    let sizes = |d| qudits.iter().map(move |&n| (d, n));
    for (d, n) in DIMENSIONS.into_iter().flat_map(sizes) {
        let all = Vec::from_iter(0..n);
        every_power(d, gates_on(&all)).for_each(|power| work(&mut rng, d, n, power));
    }
}

// ---- The last byte

/// What the last byte may be after each code, as the table of operations has it.
fn last_bytes(d: u8, code: u8) -> Vec<u8> {
    match code {
        0 => vec![0, 2, 3],                                  // Fourier, whatever d is
        1..=3 => [0].into_iter().chain(2..=d - 1).collect(), // phase gate, SUM, CZ
        4 | 6 | 7 => vec![0],                                // swap, measure, reset
        5 => (1..=d - 1).collect(),                          // multiplier: its factor
        _ => vec![], // a correction without a result, or no operation
    }
}

/// A book of five drawn gates and a measurement, with errors, that has these entries in place of
/// some of the gates. Each measurement and each reset among them gets its choice.
fn book_with(rng: &mut Rng, d: u8, n: u8, entries: &[(usize, [u8; 4])]) -> Vec<u8> {
    let mut book = draw_noisy(rng, d, n);
    for _ in 0..5 {
        book.operation(draw_gate(rng, d, n));
    }
    book.error(0, 1, d - 1).measure(n - 1, rng.byte_below(d));
    for _ in entries
        .iter()
        .filter(|(_, entry)| [6, 7].contains(&entry[0]))
    {
        book.choice(rng.byte_below(d));
    }
    let mut bytes = book.to_bytes();
    for (index, entry) in entries {
        bytes[BODIES + 4 * index..][..4].copy_from_slice(entry);
    }
    bytes
}

/// Every last byte after every code, in an entry that is not the first.
#[test]
fn every_last_byte_after_every_code() {
    let mut rng = Rng(50);
    let codes = |d| (0..=9).chain([255]).map(move |code| (d, code));
    let codes = DIMENSIONS.into_iter().flat_map(codes);
    for ((d, code), last) in codes.flat_map(|code| (0..=255).map(move |last| (code, last))) {
        let (n, index) = (2 + rng.byte_below(2), 1 + rng.below(4));
        let book = book_with(&mut rng, d, n, &[(index, [code, 1, 0, last])]);
        let is_good = last_bytes(d, code).contains(&last);
        let expected = (!is_good).then_some((5, index));
        let returned = refused(&mut rng, &book);
        assert_eq!(returned, expected, "d {d} code {code} last byte {last}");
    }
}

/// Of two entries with a bad number of applications, the first is named.
#[test]
fn the_first_bad_power_is_named() {
    let mut rng = Rng(51);
    for d in DIMENSIONS.into_iter().flat_map(|d| [d; 40]) {
        let [first, second] = [0, 0].map(|_| {
            let code = rng.byte_below(4);
            let too_many = if code == 0 { 4 } else { d };
            [code, 1, 0, [1, too_many, 255][rng.below(3)]]
        });
        let index = rng.below(4);
        let next = index + 1 + rng.below(4 - index);
        let book = book_with(&mut rng, d, 2, &[(index, first), (next, second)]);
        assert_eq!(refused(&mut rng, &book), Some((5, index)), "{book:02x?}");
    }
}

/// A power changes nothing in what the qudits of an entry may be, and no second qudit comes to a
/// gate on one.
#[test]
fn the_other_bytes_of_a_power() {
    let mut rng = Rng(52);
    let bytes = [0, 1, 2, 3, 255];
    let entries = |d| (0..4).flat_map(move |code| bytes.map(|x| (d, code, x)));
    let entries = [3, 5, 31].into_iter().flat_map(entries);
    for ((d, code, x), y) in entries.flat_map(|entry| bytes.map(|y| (entry, y))) {
        let last = *last_bytes(d, code).last().expect("a power");
        let book = book_with(&mut rng, d, 3, &[(2, [code, x, y, last])]);
        let is_good = match code {
            0 | 1 => x < 3 && y == 0,
            _ => x < 3 && y < 3 && x != y,
        };
        let expected = (!is_good).then_some((5, 2));
        assert_eq!(refused(&mut rng, &book), expected, "{book:02x?}");
    }
}

/// The package's `Operation` writes once as 0, more as their number, and none as 1, which is
/// refused.
#[test]
fn the_last_byte_that_is_written() {
    let mut rng = Rng(53);
    let gates = |d| gates_on(&[0, 1]).into_iter().map(move |gate| (d, gate));
    for (d, gate) in DIMENSIONS.into_iter().flat_map(gates) {
        for k in 0..=255 {
            let entry = with_times(gate, k).to_bytes();
            let last = match k {
                0 => 1,
                1 => 0,
                _ => k,
            };
            assert_eq!(entry[..3], gate.to_bytes()[..3]);
            assert_eq!(entry[3], last, "{gate:?} {k} times");
        }
        let book = book_with(&mut rng, d, 2, &[(3, with_times(gate, 0).to_bytes())]);
        assert_eq!(refused(&mut rng, &book), Some((5, 3)), "{gate:?} no times");
    }
}

// ---- Rows by hand

/// The tableau after one operation, by both.
fn after(d: u8, n: u8, operation: Operation, tableau: &[u8]) -> Vec<u8> {
    let mut book = Book::new(d, n);
    book.operation(operation);
    let run = run_both(&book.to_bytes(), tableau, &[]);
    assert_eq!(run.returned, (0, 0), "{operation:?}");
    run.tableau
}

/// d = 5, the row (2, 1, 0).
#[test]
fn powers_on_one_qudit_worked_by_hand() {
    let q = 0;
    let tableau = named(5, 1, &[2, 1, 0, 0, 3, 0]);
    for (power, row) in [
        (Operation::Fourier { q, times: 2 }, [3, 4, 0]),
        (Operation::Fourier { q, times: 3 }, [1, 3, 3]),
        (Operation::PhaseGate { q, times: 2 }, [2, 0, 2]),
        (Operation::PhaseGate { q, times: 3 }, [2, 2, 3]),
        (Operation::PhaseGate { q, times: 4 }, [2, 4, 4]),
    ] {
        let left = after(5, 1, power, &tableau);
        assert_eq!(left[ROWS..][..3], row, "{power:?}");
    }
}

/// d = 5, the row with the X powers 1 and 2, the Z powers 3 and 1 and the phase 4.
#[test]
fn powers_on_two_qudits_worked_by_hand() {
    #[rustfmt::skip]
    let tableau = [
        5, 2,
        1, 2, 3, 1, 4,
        0, 1, 1, 0, 0,
        0, 0, 1, 0, 0,
        0, 0, 3, 1, 0,
    ];
    for (gate, k, row) in [
        (sum(0, 1), 2, [1, 4, 1, 1, 4]),
        (sum(0, 1), 4, [1, 1, 4, 1, 4]),
        (sum(1, 0), 3, [2, 2, 3, 2, 4]),
        (cz(0, 1), 3, [1, 2, 4, 4, 0]),
        (cz(1, 0), 4, [1, 2, 1, 0, 2]),
    ] {
        let left = after(5, 2, with_times(gate, k), &tableau);
        assert_eq!(left[ROWS..][..5], row, "{gate:?} {k} times");
    }
}

// ---- Every power alone

/// Every byte of a drawn tableau, phases included, as single gates leave it.
#[test]
fn every_power_on_rows() {
    for_every_power(1, &[1, 2, 3, 5], |rng, d, n, power| {
        let tableau = draw_tableau(rng, d, n);
        after(d, n, power, &tableau);
    });
}

/// Measures each qudit after the book's operations.
fn measure_all(rng: &mut Rng, mut book: Book) -> Book {
    for q in 0..book.qudits() {
        let choice = rng.byte_below(book.dimension());
        book.measure(q, choice);
    }
    book
}

/// The same after a Fourier gate on each, so that results show the Z powers of a frame.
fn fourier_and_measure_all(rng: &mut Rng, mut book: Book) -> Book {
    for q in 0..book.qudits() {
        book.operation(Operation::Fourier { q, times: 1 });
    }
    measure_all(rng, book)
}

/// Every byte of a frame run in which each qudit has an error before the power and is measured
/// after it.
#[test]
fn every_power_on_a_frame() {
    for_every_power(2, &[1, 2, 3, 5], |rng, d, n, power| {
        let mut book = draw_noisy(rng, d, n);
        book.operation(power);
        let book = measure_all(rng, book);
        let tableau = draw_tableau(rng, d, n);
        let before = Buffers::drawn(rng, n, n.into(), tableau);
        let returned = carry_both(&book.to_bytes(), &before).0;
        assert_eq!((returned.0, returned.1), (0, n.into()), "{power:?}");
    });
}

/// The same in a tray, where the results have to show what became of both powers on each qudit.
#[test]
fn every_power_in_a_tray() {
    for_every_power(3, &[1, 2, 3], |rng, d, n, power| {
        for measure in [measure_all, fourier_and_measure_all] {
            let mut book = Book::new(d, n);
            book.operation(power);
            let book = measure(rng, book);
            let mut tray = draw_tray(rng, &book, 2, 3);
            tray.shot(draw_noisy(rng, d, n).errors());
            let returned = tray_both(&Lent::drawn(rng, &book, &tray)).0;
            assert_eq!((returned.0, returned.1 + returned.2), (0, 3), "{power:?}");
        }
    });
}

/// k applications and then those that are left give back each byte of the rows, and in a frame run
/// all buffers as the errors before them leave them alone.
#[test]
fn every_power_is_undone_by_the_rest() {
    for_every_power(4, &[1, 2, 3], |rng, d, n, power| {
        let rest = with_times(power, most_times(d, power) + 1 - times_of(power));
        let and_back = |mut book: Book| book.operation(power).operation(rest).to_bytes();
        let tableau = draw_tableau(rng, d, n);
        let run = run_both(&and_back(Book::new(d, n)), &tableau, &[]);
        assert_eq!(run.returned, (0, 0));
        assert_eq!(run.tableau, tableau, "{power:?}");
        let noisy = draw_noisy(rng, d, n);
        let before = Buffers::drawn(rng, n, 0, tableau);
        let alone = carry_both(&noisy.to_bytes(), &before);
        assert_eq!(carry_both(&and_back(noisy), &before), alone, "{power:?}");
    });
}

// ---- Every power among many qudits

/// A book of every power on the first, a middle and the last qudit, in a drawn order and with errors
/// between them; then these qudits are measured.
fn draw_every_power(rng: &mut Rng, d: u8, n: u8) -> Book {
    let qudits = [0, n / 2, n - 1];
    let mut book = draw_noisy(rng, d, n);
    for power in shuffled(rng, every_power(d, gates_on(&qudits)).collect()) {
        book.operation(power);
        let [p, s] = [0, 0].map(|_| rng.byte_below(d));
        book.error(qudits[rng.below(3)], p, s);
    }
    for q in qudits {
        book.measure(q, rng.byte_below(d));
    }
    book
}

#[test]
fn every_power_among_many_qudits() {
    let mut rng = Rng(6);
    let sizes = |d| [7, 16, 33, MAX_QUDITS].map(|n| (d, n));
    for (d, n) in DIMENSIONS.into_iter().flat_map(sizes) {
        let book = draw_every_power(&mut rng, d, n);
        let tableau = draw_tableau(&mut rng, d, n);
        let before = Buffers::drawn(&mut rng, n, 3, tableau);
        let bytes = book.to_bytes();
        assert_eq!(
            run_both(&bytes, &before.tableau, &before.results).returned,
            (0, 3)
        );
        assert_eq!(carry_both(&bytes, &before).0.0, 0);
        let tray = draw_tray(&mut rng, &book, 5, 40);
        assert_eq!(tray_both(&Lent::drawn(&mut rng, &book, &tray)).0.0, 0);
    }
}

/// Trays around a block of 256 shots with errors.
#[test]
fn every_power_in_a_long_tray() {
    let mut rng = Rng(7);
    for (d, shots) in DIMENSIONS
        .into_iter()
        .zip([255, 256, 257, 300].into_iter().cycle())
    {
        let book = draw_every_power(&mut rng, d, 3);
        let mut tray = Tray::new();
        for _ in 0..shots {
            tray.shot(&draw_errors(&mut rng, &book, 3));
        }
        assert_eq!(tray_both(&Lent::drawn(&mut rng, &book, &tray)).0.0, 0);
    }
}

// ---- Against the dense simulator

/// Rounding in some hundred gates stays far below, a root's step far above.
const CLOSE: f64 = 1e-9;

/// On every level, a row and then the power do what the power does and then the row that a run made
/// of it. This fixes the powers and the phase of that row.
fn check_on_levels(d: u8, n: u8, power: Operation, row: &[u8], after: &[u8]) {
    for level in levels(d, n) {
        let (mut row_first, mut power_first) = (level.clone(), level);
        row_first.apply_row(row);
        row_first.gate(power);
        power_first.gate(power);
        power_first.apply_row(after);
        let distance = row_first.distance(&power_first);
        assert!(distance < CLOSE, "d {d} n {n} {power:?} on {row:?}");
    }
}

/// The same for each row of drawn tableaus and every power of every gate.
fn check_powers_on_levels(d: u8, n: u8) {
    let mut rng = Rng(8);
    let width = 2 * usize::from(n) + 1;
    for power in every_power(d, gates_on(&Vec::from_iter(0..n))) {
        let tableau = draw_tableau(&mut rng, d, n);
        let left = after(d, n, power, &tableau);
        let rows = tableau[ROWS..].chunks(width);
        for (row, after) in rows.zip(left[ROWS..].chunks(width)) {
            check_on_levels(d, n, power, row, after);
        }
    }
}

#[test]
fn every_power_on_every_level_of_one_qudit() {
    DIMENSIONS
        .into_iter()
        .for_each(|d| check_powers_on_levels(d, 1));
}

#[test]
fn every_power_on_every_level_of_more_qudits() {
    for (d, n) in [(3, 2), (5, 2), (7, 2), (3, 3)] {
        check_powers_on_levels(d, n);
    }
}

// ---- The same book written singly

/// The place in the book that is written singly: every application before it is an entry.
fn place_singly(book: &Book, place: u16) -> u16 {
    let before = &book.operations()[..place.into()];
    before.iter().map(|&o| u16::from(times_of(o))).sum()
}

/// These errors at their places in the book that is written singly.
fn errors_singly(book: &Book, errors: &[WeylError]) -> Vec<WeylError> {
    let moved = |error: &WeylError| WeylError {
        place: place_singly(book, error.place),
        ..*error
    };
    errors.iter().map(moved).collect()
}

/// The book with every application as an entry of its own.
fn singly(book: &Book) -> Book {
    let mut single = Book::new(book.dimension(), book.qudits());
    for &operation in book.operations() {
        let once = with_times(operation, 1);
        (0..times_of(operation)).for_each(|_| _ = single.operation(once));
    }
    for error in errors_singly(book, book.errors()) {
        single.error_at(error);
    }
    book.choices().iter().for_each(|&c| _ = single.choice(c));
    single
}

/// Both runs and a tray run leave the same bytes for a book with powers and for the same book
/// written singly.
fn compare_with_singly(rng: &mut Rng, book: &Book) {
    let (d, n, single) = (book.dimension(), book.qudits(), singly(book));
    let tableau = draw_tableau(rng, d, n);
    let before = Buffers::drawn(rng, n, book.measurements(), tableau);
    let direct = |book: &Book| run_both(&book.to_bytes(), &before.tableau, &before.results);
    assert_eq!(direct(book).returned.0, 0);
    assert!(direct(book) == direct(&single), "{book:?}");
    let framed = |book: &Book| carry_both(&book.to_bytes(), &before);
    assert!(framed(book) == framed(&single), "{book:?}");
    let (mut tray, mut tray_singly) = (Tray::new(), Tray::new());
    for count in [1, 0, 2, 5] {
        let errors = draw_errors(rng, book, count);
        tray.shot(&errors);
        tray_singly.shot(&errors_singly(book, &errors));
    }
    let lent = Lent::drawn(rng, book, &tray);
    let lent_singly = Lent {
        book: single.to_bytes(),
        tray: tray_singly.to_bytes(),
        ..lent.clone()
    };
    assert!(tray_both(&lent) == tray_both(&lent_singly), "{book:?}");
}

/// Every power alone, each qudit with an error before it and measured after it.
#[test]
fn every_power_and_the_same_written_singly() {
    for_every_power(9, &[1, 2, 3], |rng, d, n, power| {
        let mut book = draw_noisy(rng, d, n);
        book.operation(power);
        let book = measure_all(rng, book);
        assert_eq!(
            singly(&book).operations().len(),
            usize::from(n + times_of(power))
        );
        compare_with_singly(rng, &book);
    });
}

#[test]
fn drawn_books_and_the_same_written_singly() {
    let mut rng = Rng(10);
    for i in 0..400 {
        let shape = Shape {
            d: DIMENSIONS[i % DIMENSIONS.len()],
            n: if i < 10 { 64 } else { 1 + rng.byte_below(6) },
            operations: 20 + rng.below(100),
            errors: rng.below(30),
            measure_one_in: 2 + rng.below(8),
        };
        let book = draw_book(&mut rng, shape);
        compare_with_singly(&mut rng, &book);
    }
}

// ---- The writer

/// The bodies of the book with every power of every gate on two qudits, written and fetched again;
/// and the same bodies with a number of applications that is none.
#[test]
fn the_writer_and_every_power() {
    let mut rng = Rng(11);
    for d in DIMENSIONS {
        let mut book = Book::new(d, 2);
        let powers = shuffled(&mut rng, every_power(d, gates_on(&[0, 1])).collect());
        powers.iter().for_each(|&power| _ = book.operation(power));
        let book = book.error(1, d - 1, 1).measure(0, d - 1);
        let (bodies, bytes) = (book.bodies(), book.to_bytes());
        let room = rng.bytes(bytes.len());
        let room = with_tail(&mut rng, room);
        let write = |bodies: &[Vec<u8>; 3]| write_both(bodies, d.into(), 2, &room);
        let (returned, left) = write(&bodies);
        assert_eq!(returned, (0, bytes.len()));
        assert!(left[..returned.1] == bytes && left[returned.1..] == room[returned.1..]);
        assert_eq!(plain::read_contents(&bytes), Ok(slices(&bodies)));
        for (i, power) in powers.iter().enumerate() {
            for bad in [1, most_times(d, *power) + 1] {
                let mut damaged = bodies.clone();
                damaged[0][4 * i + 3] = bad;
                let refused = write(&damaged);
                assert_eq!(refused, ((5, i), room.clone()), "{power:?}, then {bad}");
            }
        }
    }
}
