//! What the tests share: drawn circuits, books and tableaus, and two references.

pub mod dense;
pub mod frames;
pub mod halts;
pub mod plain;
pub mod trays;

use cagvost::book::{Book, DIMENSIONS, MAX_ERRORS, MAX_OPERATIONS, Operation, WeylError};
use cagvost::{Refusal, Tray};

/// A byte that no call but the writer writes: results, marks, shifts, powers and phases are below
/// 31, d and n at most 64. Buffers are filled with it before a call, so that a byte left unwritten
/// shows.
pub const UNWRITTEN: u8 = 255;

/// Where the bodies of a book begin.
pub const BODIES: usize = 22;

/// Where the rows of a tableau begin.
pub use plain::ROWS;

/// The 45-byte book of the specification.
pub const PAPER_BOOK: [u8; 45] = [
    0x51, 0x03, 0x02, 0x03, 0x01, 0x00, 0x16, 0x00, 0x10, 0x00, 0x02, 0x00, 0x26, 0x00, 0x05, 0x00,
    0x03, 0x00, 0x2B, 0x00, 0x02, 0x00, 0x00, 0x00, 0x00, 0x00, 0x02, 0x00, 0x01, 0x00, 0x06, 0x00,
    0x00, 0x00, 0x06, 0x01, 0x00, 0x00, 0x02, 0x00, 0x01, 0x01, 0x00, 0x02, 0x00,
];

/// The same book, built; its bytes are held to the specification's.
pub fn paper_book() -> Book {
    let mut book = Book::new(3, 2);
    book.operation(Operation::Fourier { q: 0, times: 1 })
        .operation(sum(0, 1))
        .error(1, 1, 0)
        .measure(0, 2)
        .measure(1, 0);
    assert_eq!(book.to_bytes(), PAPER_BOOK);
    book
}

/// A book with so many operations (all measurements), errors and choices.
pub fn counted(operations: usize, errors: usize, choices: usize) -> Book {
    let mut book = Book::new(3, 1);
    (0..errors).for_each(|_| _ = book.error(0, 1, 2));
    (0..operations).for_each(|_| _ = book.operation(Operation::Measure { q: 0 }));
    (0..choices).for_each(|_| _ = book.choice(2));
    book
}

/// The book with another byte.
pub fn with_byte(book: &[u8], place: usize, byte: u8) -> Vec<u8> {
    let mut damaged = book.to_vec();
    damaged[place] = byte;
    damaged
}

// ---- Factors

/// Every dimension with each factor that a multiplier can have there.
pub fn every_factor() -> impl Iterator<Item = (u8, u8)> {
    let factors = |d: u8| (1..d).map(move |u| (d, u));
    DIMENSIONS.into_iter().flat_map(factors)
}

/// The rest of x·y.
pub fn times(d: u8, x: u8, y: u8) -> u8 {
    (u16::from(x) * u16::from(y) % u16::from(d)) as u8
}

// ---- Powers

/// SUM, applied once.
pub fn sum(c: u8, t: u8) -> Operation {
    Operation::Sum { c, t, times: 1 }
}

/// CZ, applied once.
pub fn cz(c: u8, t: u8) -> Operation {
    Operation::Cz { c, t, times: 1 }
}

/// How often an operation is applied.
pub fn times_of(operation: Operation) -> u8 {
    match operation {
        Operation::Fourier { times, .. }
        | Operation::PhaseGate { times, .. }
        | Operation::Sum { times, .. }
        | Operation::Cz { times, .. } => times,
        _ => 1,
    }
}

/// How often one entry can apply it at most.
pub fn most_times(d: u8, operation: Operation) -> u8 {
    match operation {
        Operation::Fourier { .. } => 3,
        Operation::PhaseGate { .. } | Operation::Sum { .. } | Operation::Cz { .. } => d - 1,
        _ => 1,
    }
}

/// The operation applied so often; one that has no powers stays as it is.
pub fn with_times(mut operation: Operation, k: u8) -> Operation {
    match &mut operation {
        Operation::Fourier { times, .. }
        | Operation::PhaseGate { times, .. }
        | Operation::Sum { times, .. }
        | Operation::Cz { times, .. } => *times = k,
        _ => {}
    }
    operation
}

/// Each gate that has powers, applied once, on these qudits: in both orders if it has two.
pub fn gates_on(qudits: &[u8]) -> Vec<Operation> {
    let mut gates = Vec::new();
    for &q in qudits {
        gates.push(Operation::Fourier { q, times: 1 });
        gates.push(Operation::PhaseGate { q, times: 1 });
        let others = qudits.iter().filter(|&&t| t != q);
        gates.extend(others.flat_map(|&t| [sum(q, t), cz(q, t)]));
    }
    gates
}

/// Each of these gates with every number of applications, once included.
pub fn every_power(d: u8, gates: Vec<Operation>) -> impl Iterator<Item = Operation> {
    let powers = move |gate| (1..=most_times(d, gate)).map(move |k| with_times(gate, k));
    gates.into_iter().flat_map(powers)
}

/// Every entry on these qudits that is a gate: each power, each swap and each factor.
pub fn every_gate(d: u8, qudits: &[u8]) -> Vec<Operation> {
    let mut gates = Vec::from_iter(every_power(d, gates_on(qudits)));
    for &q in qudits {
        gates.extend((1..d).map(|u| Operation::Multiplier { q, u }));
        let others = qudits.iter().filter(|&&t| t != q);
        gates.extend(others.map(|&t| Operation::Swap { c: q, t }));
    }
    gates
}

// ---- Entries

/// The operations of an accepted book.
pub fn operations_of(book: &[u8]) -> Vec<Operation> {
    let book = Book::from_bytes(book).expect("an accepted book");
    book.operations().to_vec()
}

// ---- Drawing

/// splitmix64: small, and the same on every machine.
pub struct Rng(pub u64);

impl Rng {
    pub fn next(&mut self) -> u64 {
        self.0 = self.0.wrapping_add(0x9E37_79B9_7F4A_7C15);
        let mut z = self.0;
        z = (z ^ (z >> 30)).wrapping_mul(0xBF58_476D_1CE4_E5B9);
        z = (z ^ (z >> 27)).wrapping_mul(0x94D0_49BB_1331_11EB);
        z ^ (z >> 31)
    }

    /// A number below `end`; the tiny bias does not matter here.
    pub fn below(&mut self, end: usize) -> usize {
        (self.next() % end as u64) as usize
    }

    /// A byte below `end`.
    pub fn byte_below(&mut self, end: u8) -> u8 {
        self.below(end.into()) as u8
    }

    pub fn byte(&mut self) -> u8 {
        self.next() as u8
    }

    pub fn bytes(&mut self, length: usize) -> Vec<u8> {
        (0..length).map(|_| self.byte()).collect()
    }

    /// True once in `times`.
    pub fn once_in(&mut self, times: usize) -> bool {
        self.below(times) == 0
    }
}

/// Two different qudits. There must be two.
fn draw_two(rng: &mut Rng, n: u8) -> (u8, u8) {
    let c = rng.byte_below(n);
    let t = rng.byte_below(n - 1);
    (c, if t < c { t } else { t + 1 })
}

/// A gate, half of the time with a drawn number of applications.
pub fn draw_gate(rng: &mut Rng, d: u8, n: u8) -> Operation {
    let gate = draw_single(rng, d, n);
    if rng.once_in(2) {
        return gate;
    }
    with_times(gate, 1 + rng.byte_below(most_times(d, gate)))
}

/// A gate that is applied once; one qudit alone gets no gate on two. The benchmark's books are made
/// of these.
pub fn draw_single(rng: &mut Rng, d: u8, n: u8) -> Operation {
    let q = rng.byte_below(n);
    match rng.below(if n == 1 { 5 } else { 10 }) {
        0 | 1 => Operation::Fourier { q, times: 1 },
        2 | 3 => Operation::PhaseGate { q, times: 1 },
        4 => Operation::Multiplier {
            q,
            u: 1 + rng.byte_below(d - 1),
        },
        kind => {
            let (c, t) = draw_two(rng, n);
            match kind {
                5 | 6 => Operation::Sum { c, t, times: 1 },
                7 | 8 => Operation::Cz { c, t, times: 1 },
                _ => Operation::Swap { c, t },
            }
        }
    }
}

/// How a drawn circuit is made.
#[derive(Clone, Copy)]
pub struct Shape {
    pub d: u8,
    pub n: u8,
    pub operations: usize,
    pub errors: usize,
    /// About one operation in so many is a measurement; where qudits are reused, some of these are
    /// resets, and about as many more are corrections. With 1, all are measurements.
    pub measure_one_in: usize,
}

/// A full book on two qudits.
pub const FULL: Shape = Shape {
    d: 5,
    n: 2,
    operations: MAX_OPERATIONS,
    errors: MAX_ERRORS,
    measure_one_in: 4,
};

impl Shape {
    /// A small book, for faults to be drawn into it.
    pub fn small(rng: &mut Rng) -> Shape {
        Shape {
            d: [3, 5, 7][rng.below(3)],
            n: 1 + rng.byte_below(4),
            operations: rng.below(12),
            errors: rng.below(4),
            measure_one_in: 3,
        }
    }
}

/// An acceptable book: gates, measurements and errors strewn over it, and in every second book, by
/// chance, resets and corrections too.
pub fn draw_book(rng: &mut Rng, shape: Shape) -> Book {
    let reuses = rng.once_in(2);
    draw_book_of(rng, shape, reuses)
}

/// The same, with resets and corrections or without.
///
/// A measurement sometimes repeats the one before it, or all qudits are measured in a row, so that
/// certain outcomes are common for many qudits too. The same holds of resets.
pub fn draw_book_of(rng: &mut Rng, shape: Shape, reuses: bool) -> Book {
    let mut places: Vec<usize> = (0..shape.errors)
        .map(|_| rng.below(shape.operations + 1))
        .collect();
    places.sort_unstable();
    let mut places = places.into_iter().peekable();
    let mut book = Book::new(shape.d, shape.n);
    let mut last = rng.byte_below(shape.n);
    let mut sweep = 0;
    for k in 0..=shape.operations {
        while places.next_if_eq(&k).is_some() {
            let (p, s) = (rng.byte_below(shape.d), rng.byte_below(shape.d));
            book.error(rng.byte_below(shape.n), p, s);
        }
        if k == shape.operations {
            break;
        }
        if sweep == 0 && rng.once_in(100) {
            sweep = shape.n;
        }
        if sweep > 0 || rng.once_in(shape.measure_one_in) {
            last = match sweep {
                0 if rng.once_in(4) => last,
                0 => rng.byte_below(shape.n),
                _ => sweep - 1,
            };
            sweep = sweep.saturating_sub(1);
            let resets = reuses && shape.measure_one_in > 1 && rng.once_in(3);
            take_choice(&mut book, last, resets, rng.byte_below(shape.d));
        } else {
            let corrects = reuses && rng.once_in(shape.measure_one_in);
            draw_other(rng, &mut book, corrects);
        }
    }
    book
}

/// Adds a measurement or a reset with its choice.
fn take_choice(book: &mut Book, q: u8, resets: bool, choice: u8) {
    if resets {
        book.reset(q, choice);
    } else {
        book.measure(q, choice);
    }
}

/// Adds a correction, if one is wanted and there is a result for it, and else a gate.
fn draw_other(rng: &mut Rng, book: &mut Book, corrects: bool) {
    let (d, n) = (book.dimension(), book.qudits());
    let named = if corrects {
        draw_named(rng, book)
    } else {
        None
    };
    match named {
        Some(m) => book.correct(rng.byte_below(n), m),
        None => book.operation(draw_gate(rng, d, n)),
    };
}

/// The number of a measurement that is in the book, half of the time of the last.
pub fn draw_named(rng: &mut Rng, book: &Book) -> Option<u16> {
    let measured = book.measurements();
    if measured == 0 || rng.once_in(2) {
        return measured.checked_sub(1).map(|m| m as u16);
    }
    Some(rng.below(measured) as u16)
}

/// A book with an error on each qudit. No power is 0, so that what becomes of each is seen.
pub fn draw_noisy(rng: &mut Rng, d: u8, n: u8) -> Book {
    let mut book = Book::new(d, n);
    for q in 0..n {
        let [p, s] = [0, 0].map(|_| 1 + rng.byte_below(d - 1));
        book.error(q, p, s);
    }
    book
}

/// An error that is not the identity.
pub fn draw_error(rng: &mut Rng, d: u8, n: u8, place: usize) -> WeylError {
    let powers = 1 + rng.below(usize::from(d).pow(2) - 1);
    WeylError {
        place: place as u16,
        qudit: rng.byte_below(n),
        p: (powers / usize::from(d)) as u8,
        s: (powers % usize::from(d)) as u8,
    }
}

/// The same operations in a drawn order.
pub fn shuffled(rng: &mut Rng, mut operations: Vec<Operation>) -> Vec<Operation> {
    for i in (1..operations.len()).rev() {
        operations.swap(i, rng.below(i + 1));
    }
    operations
}

/// The same book with each choice raised by the frame's X power on the qudit that is measured or
/// reset.
pub fn with_raised_choices(book: &Book) -> Book {
    let read = plain::read(&book.to_bytes()).expect("an accepted book");
    let mut raised = book.clone();
    let choices = plain::raised_choices(&read);
    raised.choices_mut().copy_from_slice(&choices);
    raised
}

/// A valid tableau: the zero tableau after drawn gates and errors, by the plain reference.
pub fn draw_tableau(rng: &mut Rng, d: u8, n: u8) -> Vec<u8> {
    let (modulus, count) = (i64::from(d), usize::from(n));
    let mut rows = plain::zero_rows(count);
    for _ in 0..8 * count {
        let entry = draw_gate(rng, d, n).to_bytes();
        let gate = plain::decode(modulus, count, &entry).expect("a drawn gate is one");
        rows.iter_mut()
            .for_each(|row| plain::gate(modulus, gate, row));
    }
    for row in &mut rows {
        row.r = i64::from(rng.byte_below(d));
    }
    plain::tableau_of(modulus, &rows)
}

/// The zero tableau, by the plain reference.
pub fn zero_tableau(d: u8, n: u8) -> Vec<u8> {
    plain::tableau_of(d.into(), &plain::zero_rows(n.into()))
}

/// The tableau that has these bytes as rows, behind the two that name them.
pub fn named(d: u8, n: u8, rows: &[u8]) -> Vec<u8> {
    [&[d, n], rows].concat()
}

/// One small change of a book: a byte replaced, put in or taken out, or the end moved.
pub fn damage(rng: &mut Rng, book: &mut Vec<u8>) {
    let place = rng.below(book.len() + 1);
    match rng.below(16) {
        0 => book.insert(place, rng.byte_below(10)),
        1 => book.truncate(place),
        2 => drop(book.drain(place..(place + 5).min(book.len()))),
        // The table of contents and the last choices, more often than their length earns.
        3 | 4 if book.len() > BODIES => book[rng.below(BODIES)] = rng.byte_below(90),
        5 | 6 if book.len() > BODIES => *book.last_mut().unwrap() = rng.byte_below(8),
        _ if place < book.len() => book[place] = rng.byte_below(10),
        _ => book.push(rng.byte()),
    }
}

/// The bytes, and after them others that no call may touch.
pub fn with_tail(rng: &mut Rng, mut bytes: Vec<u8>) -> Vec<u8> {
    let length = rng.below(9);
    bytes.extend(rng.bytes(length));
    bytes
}

// ---- Comparing

/// A result as the specification's two numbers.
pub fn returned(result: Result<usize, Refusal>) -> plain::Returned {
    match result {
        Ok(count) => (0, count),
        Err(refusal) => (refusal.number(), refusal.place()),
    }
}

/// How often a frame run was seen clean, of these with a shift that is not 0, and shifted.
#[derive(Debug, Default)]
pub struct Verdicts {
    pub clean: usize,
    pub clean_with_shift: usize,
    pub shifted: usize,
}

impl Verdicts {
    pub fn count(&mut self, clean: bool, shifts: &[u8]) {
        let shift = shifts.iter().any(|&shift| shift != 0);
        self.clean += usize::from(clean);
        self.clean_with_shift += usize::from(clean && shift);
        self.shifted += usize::from(!clean);
    }

    pub fn are_enough(&self, of_each: usize) {
        let least = self.clean_with_shift.min(self.shifted);
        assert!(least > of_each, "{self:?}");
    }
}

/// A direct run and what it left.
#[derive(Debug, PartialEq, Eq)]
pub struct Run {
    pub returned: plain::Returned,
    pub tableau: Vec<u8>,
    pub results: Vec<u8>,
}

/// Runs the book on copies of the buffers, by the library and by the plain reference, which must
/// agree in each number and byte. A refusal must leave every byte, what a run leaves must name the
/// book's d and n and pass the test, and no run may touch the book.
pub fn run_both(book: &[u8], tableau: &[u8], results: &[u8]) -> Run {
    let lent = book.to_vec();
    let (mut by_library, mut by_plain) = (
        (tableau.to_vec(), results.to_vec()),
        (tableau.to_vec(), results.to_vec()),
    );
    let run = cagvost::direct_run(&lent, &mut by_library.0, &mut by_library.1);
    let answer = halts::reached(run);
    let expected = plain::direct_run(book, &mut by_plain.0, &mut by_plain.1);
    assert_eq!(answer, expected, "numbers of the run of {book:02x?}");
    assert!(lent == book, "the book was written: {book:02x?}");
    assert!(by_library.0 == by_plain.0, "tableau of {book:02x?}");
    assert!(by_library.1 == by_plain.1, "results of {book:02x?}");
    if answer.0 != 0 {
        assert!(by_library.0 == tableau, "{answer:?} changed the tableau");
        assert!(by_library.1 == results, "{answer:?} changed the results");
    } else {
        is_still_valid(book, &by_library.0);
    }
    Run {
        returned: (answer.0, answer.1),
        tableau: by_library.0,
        results: by_library.1,
    }
}

/// What a run of this book leaves begins with the book's d and n and passes the test.
pub fn is_still_valid(book: &[u8], tableau: &[u8]) {
    assert_eq!(tableau[..ROWS], book[1..3], "after {book:02x?}");
    assert_eq!(test_both(tableau), (0, 0), "after {book:02x?}");
}

/// Lays the zero tableau on a copy of the buffer by both, which must agree; a refusal must leave it.
pub fn layer_both(tableau: &[u8], d: usize, n: usize) -> (plain::Returned, Vec<u8>) {
    let (mut by_library, mut by_plain) = (tableau.to_vec(), tableau.to_vec());
    let answer = returned(cagvost::layer(&mut by_library, d, n).map(|()| 0));
    assert_eq!(
        answer,
        plain::layer(&mut by_plain, d, n),
        "layer of d {d} n {n}"
    );
    assert!(by_library == by_plain, "layer of d {d} n {n}");
    if answer.0 != 0 {
        assert!(by_library == tableau, "{answer:?} changed the tableau");
    }
    (answer, by_library)
}

/// Tests a copy of the buffer by both, which must agree; no byte may change.
pub fn test_both(tableau: &[u8]) -> plain::Returned {
    let lent = tableau.to_vec();
    let answer = returned(cagvost::test_tableau(&lent).map(|()| 0));
    let (length, first) = (tableau.len(), &tableau[..tableau.len().min(ROWS)]);
    let expected = plain::test(tableau);
    assert_eq!(answer, expected, "test of {length} bytes, first {first:?}");
    assert!(lent == tableau, "the test wrote the tableau");
    answer
}

/// The three bodies as slices.
pub fn slices(bodies: &[Vec<u8>; 3]) -> [&[u8]; 3] {
    bodies.each_ref().map(Vec::as_slice)
}

/// Writes the book of three bodies on a copy of the buffer by both, which must agree in each number
/// and byte. No body may change, a refusal must leave the buffer, and a success what is past the
/// book.
pub fn write_both(
    bodies: &[Vec<u8>; 3],
    d: usize,
    n: usize,
    out: &[u8],
) -> (plain::Returned, Vec<u8>) {
    let lent = bodies.clone();
    let (mut by_library, mut by_plain) = (out.to_vec(), out.to_vec());
    let [operations, errors, choices] = slices(&lent);
    let written = cagvost::write_book(d, n, operations, errors, choices, &mut by_library);
    let answer = returned(written);
    let expected = plain::write(slices(bodies), d, n, &mut by_plain);
    assert_eq!(answer, expected, "d {d} n {n} of {bodies:02x?}");
    assert!(by_library == by_plain, "bytes of d {d} n {n} {bodies:02x?}");
    assert!(lent == *bodies, "a body was written: {bodies:02x?}");
    keeps_the_rest(answer, out, &by_library);
    (answer, by_library)
}

/// Makes the mirror of a book on a copy of the buffer by both, which must agree in each number and
/// byte. The book may not change, a refusal must leave the buffer, and a success what is past the
/// mirror.
pub fn mirror_both(book: &[u8], out: &[u8]) -> (plain::Returned, Vec<u8>) {
    let lent = book.to_vec();
    let (mut by_library, mut by_plain) = (out.to_vec(), out.to_vec());
    let answer = returned(cagvost::mirror(&lent, &mut by_library));
    let expected = plain::mirror(book, &mut by_plain);
    assert_eq!(answer, expected, "numbers of the mirror of {book:02x?}");
    assert!(by_library == by_plain, "bytes of the mirror of {book:02x?}");
    assert!(lent == book, "the book was written: {book:02x?}");
    keeps_the_rest(answer, out, &by_library);
    (answer, by_library)
}

/// What both runs, the tray run and the writer say to a book with a good table of contents, which
/// must be the same: nothing, or the refusal. Only the book can be wrong. The mirror says the same,
/// but that it refuses a good book by 12 if a choice is taken there.
pub fn refused(rng: &mut Rng, book: &[u8]) -> Option<plain::Returned> {
    let bodies = plain::read_contents(book).expect("a good table of contents");
    let bodies = bodies.map(<[u8]>::to_vec);
    let (d, n, measurements) = (book[1], book[2], trays::measurements_in(&bodies[0]));
    let tableau = draw_tableau(rng, d, n);
    let before = frames::Buffers::drawn(rng, n, measurements, tableau);
    let mut tray = Tray::new();
    tray.body(&bodies[1]).body(&[]).body(&[1, 0, 0, 1, 1]);
    let lent = trays::Lent {
        book: book.to_vec(),
        tray: tray.to_bytes(),
        tableau: before.tableau.clone(),
        out: rng.bytes(cagvost::shots_len(tray.shots(), measurements)),
    };
    let direct = run_both(book, &before.tableau, &before.results).returned;
    let framed = frames::carry_both(book, &before).0;
    let shots = trays::tray_both(&lent).0;
    let written = write_both(&bodies, d.into(), n.into(), &vec![UNWRITTEN; book.len()]).0;
    let mirrored = mirror_both(book, &vec![UNWRITTEN; book.len()]).0;
    let returned = [(framed.0, framed.1), (shots.0, shots.1), written];
    if direct.0 == 0 {
        assert_eq!(direct.1, measurements, "{book:02x?}");
        let accepted = returned.iter().all(|r| r.0 == 0);
        assert!(accepted, "{book:02x?}: {returned:?}");
        let expected = if bodies[2].is_empty() { 0 } else { 12 };
        assert_eq!(mirrored.0, expected, "{book:02x?}");
        return None;
    }
    assert_eq!(returned, [direct; 3], "{book:02x?}");
    assert_eq!(mirrored, direct, "{book:02x?}");
    Some(direct)
}

/// A call that writes a book keeps all bytes past it, and by a refusal all there are.
fn keeps_the_rest(answer: plain::Returned, before: &[u8], after: &[u8]) {
    let filled = if answer.0 == 0 { answer.1 } else { 0 };
    let kept = after[filled..] == before[filled..];
    assert!(kept, "{answer:?} changed bytes from {filled} on");
}
