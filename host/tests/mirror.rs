//! The mirror: the book that undoes another, and what a run of both leaves of a tableau.
//!
//! `mirror_both` compares number, place and every byte with the plain mirror, which decodes the book,
//! searches for inverses and reverses the list; the book, the buffer of a refusal and the bytes past
//! the mirror must stay as they were. `run_both`, `carry_both` and `write_both` do the same for the
//! other calls.

use crate::common;

use cagvost::book::{Book, DIMENSIONS, MAX_ERRORS, MAX_OPERATIONS, MAX_QUDITS};
use cagvost::book::{Operation, WeylError};
use common::frames::{Buffers, carry_both};
use common::plain::{self, Returned, Row};
use common::trays::{draw_circuit, draw_errors};
use common::with_tail;
use common::{BODIES, PAPER_BOOK, ROWS, Rng, Shape, UNWRITTEN, mirror_both, run_both, write_both};
use common::{cz, damage, draw_book, draw_error, draw_gate, draw_tableau, sum, with_times};
use common::{every_gate, gates_on, most_times, operations_of, shuffled, slices, times, with_byte};
use std::thread;

/// Exactly the room that the mirror of so many operations needs.
fn room(operations: usize) -> Vec<u8> {
    vec![UNWRITTEN; cagvost::mirror_len(operations)]
}

/// The mirror of a book without measurements.
fn mirror_of(book: &Book) -> Vec<u8> {
    let (answer, mirror) = mirror_both(&book.to_bytes(), &room(book.operations().len()));
    assert_eq!(answer, (0, mirror.len()));
    mirror
}

/// Every dimension with each of these numbers of qudits.
fn sizes(qudits: &[u8]) -> impl Iterator<Item = (u8, u8)> {
    let with = |d| qudits.iter().map(move |&n| (d, n));
    DIMENSIONS.into_iter().flat_map(with)
}

/// Every dimension with every number of qudits.
fn every_size() -> impl Iterator<Item = (u8, u8)> {
    let with = |d| (1..=MAX_QUDITS).map(move |n| (d, n));
    DIMENSIONS.into_iter().flat_map(with)
}

// ---- By hand

/// Every kind of gate, three of them applied as often as an entry can, d = 7. The error is dropped.
#[test]
fn a_book_of_every_gate_by_hand() {
    #[rustfmt::skip]
    let book = [
        81, 7, 3, 3,
        1, 0, 22, 0, 52, 0,
        2, 0, 74, 0, 5, 0,
        3, 0, 79, 0, 0, 0,
        0, 0, 0, 0, // Fourier once
        0, 1, 0, 2, // twice
        0, 2, 0, 3, // three times
        1, 0, 0, 0, // phase gate once
        1, 1, 0, 6, // six times
        2, 0, 2, 2, // SUM twice
        2, 1, 0, 0, // once
        3, 2, 1, 3, // CZ three times
        3, 0, 1, 6, // six times
        4, 1, 2, 0, // swap
        5, 0, 0, 3, // multiplier by 3
        5, 1, 0, 1, // by 1
        5, 2, 0, 6, // by 6
        4, 0, 1, 2, 3, // an error
    ];
    #[rustfmt::skip]
    let mirror = [
        81, 7, 3, 3,
        1, 0, 22, 0, 52, 0,
        2, 0, 74, 0, 0, 0,
        3, 0, 74, 0, 0, 0,
        5, 2, 0, 6, // 6·6 = 36
        5, 1, 0, 1,
        5, 0, 0, 5, // 3·5 = 15
        4, 1, 2, 0,
        3, 0, 1, 0, // 7 − 6, once
        3, 2, 1, 4,
        2, 1, 0, 6,
        2, 0, 2, 5,
        1, 1, 0, 0,
        1, 0, 0, 6,
        0, 2, 0, 0, // 4 − 3, once
        0, 1, 0, 2,
        0, 0, 0, 3,
    ];
    assert_eq!(
        mirror_both(&book, &[UNWRITTEN; 74]),
        ((0, 74), mirror.to_vec())
    );
}

/// It is the book of 22 bytes, whatever errors there are, and this is its own mirror.
#[test]
fn a_book_without_operations() {
    for (d, n) in every_size() {
        let empty = Book::new(d, n);
        let mut noisy = empty.clone();
        noisy.error(0, 1, 0).error(n - 1, d - 1, d - 1);
        for book in [&empty, &noisy] {
            assert_eq!(mirror_of(book), empty.to_bytes(), "d {d} n {n}");
        }
    }
}

/// No mirror has more bytes. Lengths and offsets are in two, with the low one first.
#[test]
fn the_longest_mirror() {
    let mut book = Book::new(3, 64);
    for k in 0..MAX_OPERATIONS {
        book.operation(Operation::Swap {
            c: 63,
            t: (k % 63) as u8,
        });
    }
    (0..MAX_ERRORS).for_each(|_| _ = book.error(63, 2, 2));
    let mirror = mirror_of(&book);
    assert_eq!(mirror.len(), 16_406);
    #[rustfmt::skip]
    assert_eq!(mirror[..BODIES], [
        81, 3, 64, 3,
        1, 0, 22, 0, 0, 64,
        2, 0, 22, 64, 0, 0,
        3, 0, 22, 64, 0, 0,
    ]);
    assert_eq!(mirror[BODIES..BODIES + 4], [4, 63, 0, 0]); // 4,095 is 65 times 63
    assert_eq!(mirror[mirror.len() - 8..], [4, 63, 1, 0, 4, 63, 0, 0]);
}

// ---- Entries

/// Whether an entry is that of the gate which undoes another: the same gate on the same qudits,
/// applied as often as is left of four or of d times, or with the factor that is the inverse.
fn undoes(d: u8, back: &[u8], entry: &[u8]) -> bool {
    let applied = |last: u8| if last == 0 { 1 } else { last };
    let last = match entry[0] {
        0 => applied(back[3]) + applied(entry[3]) == 4,
        1..=3 => applied(back[3]) + applied(entry[3]) == d,
        4 => back[3] == 0,
        _ => back[3] < d && times(d, back[3], entry[3]) == 1,
    };
    last && back[..3] == entry[..3]
}

/// Every power of every gate, every swap and every factor, on few qudits and on some of 64.
#[test]
fn every_gate_alone() {
    let qudits = [vec![0], vec![0, 1], vec![0, 31, 63]];
    for (d, qudits) in DIMENSIONS
        .into_iter()
        .flat_map(|d| qudits.iter().map(move |q| (d, q)))
    {
        for gate in every_gate(d, qudits) {
            let mut book = Book::new(d, 1 + qudits[qudits.len() - 1]);
            let mirror = mirror_of(book.operation(gate));
            let [entry, back] = [&gate.to_bytes(), &mirror[BODIES..]];
            assert!(undoes(d, back, entry), "d {d} {gate:?}: {back:?}");
            assert!(entry[0] == 5 || back[3] != 1, "d {d} {gate:?}: {back:?}");
        }
    }
}

/// What is applied as often as an entry can is undone by one application.
#[test]
fn once_is_written_as_0_and_the_factor_1_as_1() {
    for d in DIMENSIONS {
        let mut book = Book::new(d, 2);
        book.operation(Operation::Multiplier { q: 1, u: 1 });
        for gate in gates_on(&[0, 1]) {
            book.operation(with_times(gate, most_times(d, gate)));
        }
        let mirror = mirror_of(&book);
        let last = mirror[BODIES..].chunks(4).map(|entry| entry[3]);
        assert_eq!(Vec::from_iter(last), [0, 0, 0, 0, 0, 0, 0, 0, 1], "d {d}");
    }
}

/// All gates there are on some qudits, in one book and in a drawn order.
#[test]
fn every_gate_in_reversed_order() {
    let mut rng = Rng(1);
    for (d, n) in sizes(&[3, 4, 17, 64]) {
        let mut book = Book::new(d, n);
        for gate in shuffled(&mut rng, every_gate(d, &[0, n / 2, n - 1])) {
            book.operation(gate);
        }
        let ([operations, ..], mirror) = (book.bodies(), mirror_of(&book));
        let entries = operations.chunks(4).rev();
        assert_eq!(mirror.len(), BODIES + operations.len());
        for (k, (back, entry)) in mirror[BODIES..].chunks(4).zip(entries).enumerate() {
            assert!(undoes(d, back, entry), "d {d} n {n} operation {k}");
        }
    }
}

/// The same header, as many operations and nothing else: what the writer makes of the operations.
#[test]
fn the_mirror_is_a_written_book() {
    let mut rng = Rng(2);
    for (d, n) in every_size() {
        let book = draw_noisy_circuit(&mut rng, d, n);
        let mirror = mirror_of(&book);
        let read = plain::read(&mirror).expect("an accepted book");
        assert_eq!((read.d, read.n), (d.into(), n.into()));
        assert_eq!(read.operations.len(), book.operations().len());
        assert!(read.errors.is_empty() && read.choices.is_empty());
        let bodies = [mirror[BODIES..].to_vec(), vec![], vec![]];
        let written = write_both(&bodies, d.into(), n.into(), &room(read.operations.len()));
        assert_eq!(written, ((0, mirror.len()), mirror));
    }
}

/// Some drawn gates, with some errors strewn over them.
fn draw_noisy_circuit(rng: &mut Rng, d: u8, n: u8) -> Book {
    let (gates, errors) = (rng.below(60), rng.below(20));
    let mut book = draw_circuit(rng, d, n, gates, 0);
    for error in draw_errors(rng, &book, errors) {
        book.error_at(error);
    }
    book
}

#[test]
fn the_mirror_of_the_mirror_is_the_book_without_its_errors() {
    let mut rng = Rng(3);
    for (d, n) in every_size() {
        let book = draw_noisy_circuit(&mut rng, d, n);
        let room = room(book.operations().len());
        let (answer, twice) = mirror_both(&mirror_of(&book), &room);
        let [operations, ..] = book.bodies();
        let written = write_both(&[operations, vec![], vec![]], d.into(), n.into(), &room);
        assert_eq!((answer, twice), written, "d {d} n {n}");
        assert_eq!(written.1, book.without_errors().to_bytes());
    }
}

// ---- There and back without errors

/// Where a book and then its mirror lead, by direct runs and by frame runs alike.
struct Ended {
    start: Vec<u8>,
    end: Vec<u8>,
    /// The frame of the book's frame run.
    frame: Vec<u8>,
}

/// Runs the book and then its mirror from a drawn tableau, in buffers that are longer than needed.
fn there_and_back(rng: &mut Rng, book: &Book) -> Ended {
    let (n, bytes, mirror) = (book.qudits(), book.to_bytes(), mirror_of(book));
    let tableau = draw_tableau(rng, book.dimension(), n);
    let before = Buffers::drawn(rng, n, 0, tableau);
    let there = run_both(&bytes, &before.tableau, &before.results);
    let back = run_both(&mirror, &there.tableau, &there.results);
    assert_eq!([there.returned, back.returned], [(0, 0); 2]);
    assert_eq!(back.results, before.results);
    let (first, carried) = carry_both(&bytes, &before);
    let (second, ended) = carry_both(&mirror, &carried);
    // No error strikes in the mirror, so that its own frame is none and its run clean.
    assert_eq!([(first.0, first.1, 0), second], [(0, 0, 0); 2]);
    assert!(ended.frame[..2 * usize::from(n)].iter().all(|&x| x == 0));
    assert!(ended.tableau == back.tableau, "{bytes:02x?}");
    Ended {
        start: before.tableau,
        end: back.tableau,
        frame: carried.frame[..2 * usize::from(n)].to_vec(),
    }
}

/// Every byte of the tableau is as it was, those past the needed ones too.
fn comes_back(rng: &mut Rng, book: &Book) {
    let ended = there_and_back(rng, book);
    assert!(ended.end == ended.start, "{book:?}");
}

#[test]
fn drawn_circuits_of_one_to_four_qudits_come_back() {
    let mut rng = Rng(4);
    for (d, n) in sizes(&[1, 2, 3, 4]) {
        for _ in 0..30 {
            let gates = rng.below(80);
            let book = draw_circuit(&mut rng, d, n, gates, 0);
            comes_back(&mut rng, &book);
        }
    }
}

#[test]
fn every_gate_comes_back() {
    let mut rng = Rng(5);
    for (d, n) in sizes(&[1, 2]) {
        for gate in every_gate(d, &Vec::from_iter(0..n)) {
            comes_back(&mut rng, Book::new(d, n).operation(gate));
        }
    }
}

#[test]
fn circuits_of_every_number_of_qudits_come_back() {
    let mut rng = Rng(6);
    for n in 1..=MAX_QUDITS {
        let d = DIMENSIONS[usize::from(n) % DIMENSIONS.len()];
        let book = draw_circuit(&mut rng, d, n, 150, 0);
        comes_back(&mut rng, &book);
    }
}

/// The tableau after a direct run by the library alone.
fn after(book: &[u8], tableau: &[u8]) -> Vec<u8> {
    let mut tableau = tableau.to_vec();
    cagvost::direct_run(book, &mut tableau, &mut []).expect("an accepted book");
    tableau
}

/// The tableau after a frame run by the library alone, and its frame.
fn carried(book: &[u8], tableau: &[u8]) -> (Vec<u8>, Vec<u8>) {
    let mut left = Buffers::zero(book[1], book[2], 0);
    left.tableau = tableau.to_vec();
    assert_eq!(left.by_library(book).0, 0);
    (left.tableau, left.frame)
}

/// A book of 64 qudits with as many operations as there may be, and a tableau with a tail.
fn draw_full(rng: &mut Rng, d: u8, errors: usize) -> (Book, Vec<u8>) {
    let mut book = draw_circuit(rng, d, MAX_QUDITS, MAX_OPERATIONS, 0);
    for error in draw_errors(rng, &book, errors) {
        book.error_at(error);
    }
    let tableau = draw_tableau(rng, d, MAX_QUDITS);
    (book, with_tail(rng, tableau))
}

#[test]
fn full_books_come_back() {
    let mut rng = Rng(7);
    for d in DIMENSIONS {
        let (book, start) = draw_full(&mut rng, d, 0);
        let (bytes, mirror) = (book.to_bytes(), mirror_of(&book));
        let there = after(&bytes, &start);
        assert!(
            there != start && carried(&bytes, &start).0 == there,
            "d {d}"
        );
        assert!(after(&mirror, &there) == start, "d {d}");
        assert!(carried(&mirror, &there).0 == start, "d {d}");
    }
}

// ---- With errors

/// The tableau with the phase of each row raised by the pairing of the frame with that row.
fn shifted_by(frame: &Row, tableau: &[u8]) -> Vec<u8> {
    let (d, n) = (i64::from(tableau[0]), usize::from(tableau[1]));
    let (needed, tail) = tableau.split_at(cagvost::tableau_len(n));
    let mut rows = plain::rows_of(n, &needed[ROWS..]);
    for row in &mut rows {
        row.r = (row.r + plain::pairing(d, frame, row)) % d;
    }
    [plain::tableau_of(d, &rows), tail.to_vec()].concat()
}

/// The bytes of a frame: the powers of its row.
fn bytes_of(frame: &Row) -> Vec<u8> {
    let mut bytes = plain::bytes_of(std::slice::from_ref(frame));
    bytes.pop();
    bytes
}

/// The frame that the book's errors make by the end of the book, and what the mirror makes of it.
fn frames_of(book: &Book, mirror: &[u8]) -> [Row; 2] {
    let read = |book: &[u8]| plain::read(book).expect("an accepted book");
    let (book, mirror) = (read(&book.to_bytes()), read(mirror));
    let first = plain::carried_on(&book, plain::identity(book.n));
    [first.clone(), plain::carried_on(&mirror, first)]
}

/// The tableau ends as it began, but for the pairing of each row with one frame: that of the book's
/// frame run, carried on through the mirror. Returns this frame.
fn ends_shifted(rng: &mut Rng, book: &Book) -> Row {
    let ended = there_and_back(rng, book);
    let [first, last] = frames_of(book, &mirror_of(book));
    assert_eq!(ended.frame, bytes_of(&first), "{book:?}");
    assert!(ended.end == shifted_by(&last, &ended.start), "{book:?}");
    last
}

/// A book of drawn gates that has an error at every place, and none of them is the identity.
fn draw_struck(rng: &mut Rng, d: u8, n: u8, gates: usize) -> Book {
    let mut book = draw_circuit(rng, d, n, gates, 0);
    for place in 0..=gates {
        book.error_at(draw_error(rng, d, n, place));
    }
    book
}

#[test]
fn errors_at_every_place_of_drawn_circuits() {
    let mut rng = Rng(8);
    let mut moved = 0;
    for (d, n) in sizes(&[1, 2, 3, 4]) {
        for _ in 0..30 {
            let gates = rng.below(50);
            let book = draw_struck(&mut rng, d, n, gates);
            let last = ends_shifted(&mut rng, &book);
            moved += usize::from(bytes_of(&last).iter().any(|&x| x != 0));
        }
    }
    assert!(moved > 1000, "only {moved} of 1,200 frames are not 0");
}

#[test]
fn errors_in_circuits_of_every_number_of_qudits() {
    let mut rng = Rng(9);
    for n in 1..=MAX_QUDITS {
        let d = DIMENSIONS[usize::from(n) % DIMENSIONS.len()];
        let book = draw_struck(&mut rng, d, n, 60);
        ends_shifted(&mut rng, &book);
    }
}

#[test]
fn full_books_with_errors() {
    let mut rng = Rng(10);
    for d in DIMENSIONS {
        let (book, start) = draw_full(&mut rng, d, MAX_ERRORS);
        let (bytes, mirror) = (book.to_bytes(), mirror_of(&book));
        let [first, last] = frames_of(&book, &mirror);
        let (there, frame) = carried(&bytes, &start);
        assert!(frame == bytes_of(&first) && after(&bytes, &start) == there);
        let end = after(&mirror, &there);
        assert!(end != start && end == shifted_by(&last, &start), "d {d}");
        assert!(carried(&mirror, &there).0 == end, "d {d}");
    }
}

/// The operations of a book and then those of its mirror as one book, with the errors of the first.
fn joined(book: &Book) -> Book {
    let mut joined = book.clone();
    for operation in operations_of(&mirror_of(book)) {
        joined.operation(operation);
    }
    joined
}

/// The frame run of both circuits in one book ends with the frame, and with the tableau shifted.
#[test]
fn the_frame_is_that_of_both_circuits_in_one_book() {
    let mut rng = Rng(11);
    for (d, n) in sizes(&[1, 2, 3, 5, 20]) {
        let book = draw_struck(&mut rng, d, n, 40);
        let tableau = draw_tableau(&mut rng, d, n);
        let before = Buffers::drawn(&mut rng, n, 0, tableau);
        let (returned, left) = carry_both(&joined(&book).to_bytes(), &before);
        assert_eq!((returned.0, returned.1), (0, 0));
        let [_, last] = frames_of(&book, &mirror_of(&book));
        assert_eq!(left.frame[..2 * usize::from(n)], bytes_of(&last));
        assert!(left.tableau == shifted_by(&last, &before.tableau));
    }
}

/// The tableau with the phase of each row raised by what every error adds to it where it strikes: by
/// s·a − p·b of the row that the operations before have made of it. Nothing is known here of frames
/// and mirrors.
fn struck_on_the_way(book: &Book, tableau: &[u8]) -> Vec<u8> {
    let read = plain::read(&book.to_bytes()).expect("an accepted book");
    let mut moving = plain::rows_of(read.n, &tableau[ROWS..]);
    let mut rows = moving.clone();
    for k in 0..=read.operations.len() {
        for error in read.errors.iter().filter(|error| error.place == k) {
            for (row, moved) in rows.iter_mut().zip(&moving) {
                let added = error.s * moved.a[error.q] - error.p * moved.b[error.q];
                row.r = (row.r + added).rem_euclid(read.d);
            }
        }
        if let Some(&op) = read.operations.get(k) {
            moving
                .iter_mut()
                .for_each(|row| plain::gate(read.d, op, row));
        }
    }
    plain::tableau_of(read.d, &rows)
}

/// Every error at every place of a circuit of every kind of gate, alone.
#[test]
fn one_error_shifts_each_row_as_where_it_struck() {
    let mut rng = Rng(12);
    let places = |d| (0..=7).flat_map(move |place| [0, 1].map(|qudit| (d, place, qudit)));
    for (d, place, qudit) in [3, 5].into_iter().flat_map(places) {
        for (p, s) in (0..d).flat_map(|p| (0..d).map(move |s| (p, s))) {
            let mut book = Book::new(d, 2);
            book.operation(Operation::Fourier { q: 0, times: 1 })
                .operation(Operation::PhaseGate { q: 0, times: 2 })
                .operation(with_times(sum(0, 1), d - 1))
                .operation(Operation::Multiplier { q: 1, u: 2 })
                .operation(cz(1, 0))
                .operation(Operation::Swap { c: 0, t: 1 })
                .operation(Operation::Fourier { q: 1, times: 3 });
            book.error_at(WeylError { place, qudit, p, s });
            let Ended { start, end, .. } = there_and_back(&mut rng, &book);
            let expected = struck_on_the_way(&book, &start);
            assert_eq!(end[..expected.len()], expected, "{book:?}");
        }
    }
}

#[test]
fn many_errors_shift_each_row_as_where_they_struck() {
    let mut rng = Rng(13);
    for (d, n) in sizes(&[1, 2, 3, 4]) {
        for _ in 0..10 {
            let book = draw_struck(&mut rng, d, n, 40);
            let Ended { start, end, .. } = there_and_back(&mut rng, &book);
            let expected = struck_on_the_way(&book, &start);
            assert!(end[..expected.len()] == expected, "{book:?}");
        }
    }
}

// ---- Refusals

/// What is said of a book when the buffer is long enough. It must be what the library's reader says,
/// and of an accepted book 0 or 12.
fn answer(book: &[u8]) -> Returned {
    let answer = mirror_both(book, &vec![UNWRITTEN; book.len()]).0;
    // Of an accepted book, a run says 8 if its buffers are too short.
    match run_both(book, &[], &[]).returned {
        (8, 0) => assert!([0, 12].contains(&answer.0), "{book:02x?}"),
        refused => assert_eq!(answer, refused, "{book:02x?}"),
    }
    answer
}

/// A book by its parts, and the buffer.
#[derive(Clone)]
struct Handed {
    mark: u8,
    d: u8,
    n: u8,
    bodies: [Vec<u8>; 3],
    out: Vec<u8>,
}

impl Handed {
    /// Four gates and two errors on three qudits of dimension 5, and just the room that is needed.
    fn small() -> Handed {
        let mut book = Book::new(5, 3);
        book.operation(Operation::Fourier { q: 2, times: 3 })
            .error(1, 4, 2)
            .operation(with_times(sum(0, 2), 2))
            .operation(Operation::Multiplier { q: 1, u: 2 })
            .error(0, 1, 0)
            .operation(Operation::Swap { c: 2, t: 1 });
        Handed {
            mark: 81,
            d: 5,
            n: 3,
            bodies: book.bodies(),
            out: room(4),
        }
    }

    fn book(&self) -> Vec<u8> {
        let book = plain::book_of(slices(&self.bodies), self.d.into(), self.n.into());
        with_byte(&book, 0, self.mark)
    }
}

/// What refuses a fault, and how the fault is made.
type Fault = (Returned, fn(&mut Handed));

/// One fault of the small book for each number, in the order in which they are tested. Operations 2
/// and 3 become a reset and a measurement, which have their choices.
const FAULTS: [Fault; 9] = [
    ((1, 0), |h| h.mark = 80),
    ((2, 0), |h| h.d = 9),
    ((3, 0), |h| h.n = 65),
    ((4, 1), |h| h.bodies[1].push(0)),
    ((5, 1), |h| h.bodies[0][4] = 9),
    ((6, 1), |h| h.bodies[1][8] = 255),
    ((7, 0), |h| h.bodies[2].push(255)),
    ((12, 2), |h| {
        h.bodies[0][8..].copy_from_slice(&[7, 1, 0, 0, 6, 2, 0, 0]);
        h.bodies[2].resize(2, 4);
    }),
    ((8, 0), |h| h.out.truncate(37)),
];

#[test]
fn the_first_of_several_faults_is_returned() {
    for chosen in 0..1 << FAULTS.len() {
        let mut handed = Handed::small();
        let mut first = None;
        for (_, (expected, make)) in (0..).zip(FAULTS).filter(|(i, _)| chosen >> i & 1 == 1) {
            make(&mut handed);
            first = first.or(Some(expected));
        }
        let (answer, _) = mirror_both(&handed.book(), &handed.out);
        assert_eq!(answer, first.unwrap_or((0, 38)), "{chosen:b}");
    }
}

/// The errors come to nothing in the mirror, and are tested all the same.
#[test]
fn bad_errors_are_refused_though_they_are_dropped() {
    let good = WeylError {
        place: 1,
        qudit: 1,
        p: 4,
        s: 4,
    };
    let book = |error| {
        let mut book = Book::new(5, 2);
        book.operation(sum(0, 1)).operation(cz(0, 1));
        book.error_at(good).error_at(error);
        answer(&book.to_bytes())
    };
    assert_eq!(book(good), (0, 30));
    for bad in [
        WeylError { place: 0, ..good },
        WeylError { place: 3, ..good },
        WeylError { qudit: 2, ..good },
        WeylError { p: 5, ..good },
        WeylError { s: 5, ..good },
    ] {
        assert_eq!(book(bad), (6, 1), "{bad:?}");
    }
}

// ---- Measurements

/// A book of so many operations: measurements and resets at these places, each with a choice, a
/// correction behind a measurement by chance, and else gates.
fn measured_at(rng: &mut Rng, operations: usize, places: &[usize]) -> Vec<u8> {
    let mut book = Book::new(7, 3);
    let mut measured = 0;
    for k in 0..operations {
        if places.contains(&k) && rng.once_in(2) {
            book.measure(rng.byte_below(3), rng.byte_below(7));
            measured += 1;
        } else if places.contains(&k) {
            book.reset(rng.byte_below(3), rng.byte_below(7));
        } else if measured > 0 && rng.once_in(3) {
            book.correct(rng.byte_below(3), measured - 1);
        } else {
            book.operation(draw_gate(rng, 7, 3));
        }
    }
    book.to_bytes()
}

/// One alone, as the first and as the last operation too, or several; and the same with resets.
#[test]
fn the_first_measurement_is_named_by_its_operation() {
    let mut rng = Rng(14);
    let places = (0..9).flat_map(|first| (first..9).map(move |next| (first, next)));
    for (first, next) in places.flat_map(|places| [places; 8]) {
        let book = measured_at(&mut rng, 9, &[first, next, 8.max(next)]);
        assert_eq!(answer(&book), (12, first), "{book:02x?}");
        let alone = measured_at(&mut rng, next + 1, &[next]);
        assert_eq!(answer(&alone), (12, next), "{alone:02x?}");
    }
}

#[test]
fn the_first_measurement_of_a_full_book() {
    let mut rng = Rng(15);
    for first in [0, 1, 255, 256, 257, 2048, 4094, 4095] {
        let alone = measured_at(&mut rng, MAX_OPERATIONS, &[first]);
        assert_eq!(answer(&alone), (12, first));
        let later = [0; 5].map(|_| first + rng.below(MAX_OPERATIONS - first));
        let places = [&later[..], &[first]].concat();
        let several = measured_at(&mut rng, MAX_OPERATIONS, &places);
        assert_eq!(answer(&several), (12, first));
    }
    let all = Vec::from_iter(0..MAX_OPERATIONS);
    assert_eq!(
        answer(&measured_at(&mut rng, MAX_OPERATIONS, &all)),
        (12, 0)
    );
}

/// A measurement or a reset that lacks its choice, or has a bad one or one too many, is refused by 7.
/// With a good one it is refused by 12, in every buffer.
#[test]
fn a_measurement_comes_after_the_choices_and_before_the_buffer() {
    for operation in [Operation::Measure { q: 0 }, Operation::Reset { q: 0 }] {
        let mut book = Book::new(3, 1);
        book.operation(Operation::Fourier { q: 0, times: 1 })
            .operation(operation);
        for (choices, expected) in [
            (&[][..], (7, 0)),
            (&[3], (7, 0)),
            (&[2, 2], (7, 1)),
            (&[2], (12, 1)),
        ] {
            let mut chosen = book.clone();
            choices.iter().for_each(|&choice| _ = chosen.choice(choice));
            for length in 0..=31 {
                let (answer, _) = mirror_both(&chosen.to_bytes(), &vec![UNWRITTEN; length]);
                assert_eq!(answer, expected, "{choices:?} in {length} bytes");
            }
        }
    }
}

/// A correction needs an earlier measurement, so that none is the first operation without an inverse:
/// where it has no result, the book is refused by 5, and else by 12 for that measurement.
#[test]
fn a_correction_is_never_the_first_without_an_inverse() {
    let mut alone = Book::new(3, 1);
    alone.operation(Operation::Fourier { q: 0, times: 1 });
    let mut measured = alone.clone();
    alone.correct(0, 0);
    assert_eq!(answer(&alone.to_bytes()), (5, 1));
    measured.measure(0, 1).correct(0, 0).reset(0, 1);
    assert_eq!(answer(&measured.to_bytes()), (12, 1));
}

// ---- The buffer

/// The rest is kept if it is too long, and all of it if it is too short.
#[test]
fn every_length_of_the_buffer() {
    let mut rng = Rng(16);
    let short = Handed::small().book();
    let long = draw_struck(&mut rng, 31, 64, 300).to_bytes();
    for book in [Book::new(3, 1).to_bytes(), short, long] {
        let operations = plain::read(&book).expect("an accepted book").operations;
        let needed = 22 + 4 * operations.len();
        assert_eq!(cagvost::mirror_len(operations.len()), needed);
        for length in 0..=needed + 9 {
            let out = rng.bytes(length);
            let (answer, left) = mirror_both(&book, &out);
            if length < needed {
                assert!(answer == (8, 0) && left == out, "{length}");
            } else {
                assert_eq!(answer, (0, needed), "{length}");
                assert!(left[needed..] == out[needed..], "{length}");
            }
        }
    }
}

/// Errors make no difference, not even where the buffer has room for them.
#[test]
fn errors_leave_no_trace_in_the_mirror() {
    let mut rng = Rng(17);
    for d in DIMENSIONS {
        let noisy = draw_struck(&mut rng, d, 3, 30);
        let clean = noisy.without_errors().to_bytes();
        let noisy = noisy.to_bytes();
        assert!(noisy.len() > clean.len());
        let room = rng.bytes(noisy.len());
        assert_eq!(mirror_both(&noisy, &room), mirror_both(&clean, &room));
    }
}

/// The largest book on a stack of 32 KiB, twice the bytes of its operations. If the call needed more,
/// the process would abort.
#[test]
fn a_small_stack_is_enough() {
    let (book, _) = draw_full(&mut Rng(21), 31, MAX_ERRORS);
    let (bytes, mut out) = (book.to_bytes(), room(MAX_OPERATIONS));
    let small = thread::Builder::new().stack_size(32 * 1024);
    let thread = small.spawn(move || (cagvost::mirror(&bytes, &mut out), out));
    let (written, out) = thread.expect("a thread").join().expect("no panic");
    assert_eq!(written, Ok(out.len()));
    assert!(out == mirror_of(&book));
}

// ---- Damage

/// Every value of every byte, in a book with measurements and in one without.
#[test]
fn every_single_byte_damage_of_two_books() {
    let mut numbers = [0; 13];
    for book in [PAPER_BOOK.to_vec(), Handed::small().book()] {
        for (place, byte) in (0..book.len()).flat_map(|i| (0..=255).map(move |x| (i, x))) {
            numbers[answer(&with_byte(&book, place, byte)).0] += 1;
        }
    }
    let reached = [0, 1, 2, 3, 4, 5, 6, 7, 12].map(|number| numbers[number]);
    assert!(reached.iter().all(|&count| count > 100), "{numbers:?}");
}

#[test]
fn drawn_books_damaged_a_few_times() {
    let mut rng = Rng(18);
    let mut numbers = [0; 13];
    for i in 0..24_000 {
        let mut shape = Shape::small(&mut rng);
        if i % 2 == 0 {
            shape.measure_one_in = usize::MAX;
        }
        let mut book = draw_book(&mut rng, shape).to_bytes();
        for _ in 0..1 + rng.below(3) {
            damage(&mut rng, &mut book);
        }
        answer(&book);
        let length = rng.below(book.len() + 30);
        numbers[mirror_both(&book, &rng.bytes(length)).0.0] += 1;
    }
    // The damage reached every number that the call has, and some of it was harmless.
    let reached = [0, 1, 2, 3, 4, 5, 6, 7, 8, 12].map(|number| numbers[number]);
    assert!(reached.iter().all(|&count| count > 100), "{numbers:?}");
}

#[test]
fn long_books_damaged_once() {
    let mut rng = Rng(19);
    let book = draw_full(&mut rng, 5, MAX_ERRORS).0.to_bytes();
    for _ in 0..300 {
        let place = rng.below(book.len());
        answer(&with_byte(&book, place, rng.byte_below(10)));
    }
}

#[test]
fn random_bytes_as_books() {
    let mut rng = Rng(20);
    for i in 0..6000 {
        let length = rng.below(if i % 100 == 0 { 70_000 } else { 120 });
        let mut book = rng.bytes(length);
        if i % 2 == 0 && length >= 4 {
            book[..4].copy_from_slice(&[81, 3, 2, 3]);
        }
        let returned = answer(&book);
        assert_ne!(returned.0, 0, "an unlikely book: {book:02x?}");
    }
}
