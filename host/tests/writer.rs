//! The writer: for three bodies it writes the one book that the reader accepts, or refuses as the
//! reader does, and a short buffer after that.
//!
//! `write_both` compares number, place and every byte with the plain writer, which makes the bytes
//! first and lets the plain reader judge them; bodies, the buffer of a refusal and the bytes past
//! the book must stay as they were.

use crate::common;

use cagvost::book::{Book, DIMENSIONS, MAX_CHOICES, MAX_ERRORS, MAX_OPERATIONS, Operation};
use common::plain::{self, Returned};
use common::{
    BODIES, FULL, PAPER_BOOK, Rng, Run, Shape, UNWRITTEN, counted, draw_book, paper_book,
};
use common::{returned, run_both, slices, with_byte, with_tail, write_both, zero_tableau};

/// What the writer is handed beside the buffer.
#[derive(Clone, Debug, PartialEq, Eq)]
struct Handed {
    d: usize,
    n: usize,
    bodies: [Vec<u8>; 3],
}

impl Handed {
    fn of(book: &Book) -> Handed {
        Handed {
            d: book.dimension().into(),
            n: book.qudits().into(),
            bodies: book.bodies(),
        }
    }

    /// What stands in a book, the bodies where the table of contents says.
    fn fetched(book: &[u8]) -> Handed {
        let bodies = plain::read_contents(book).expect("a good table of contents");
        Handed {
            d: book[1].into(),
            n: book[2].into(),
            bodies: bodies.map(<[u8]>::to_vec),
        }
    }

    /// The same with another body.
    fn with_body(&self, i: usize, body: Vec<u8>) -> Handed {
        let mut changed = self.clone();
        changed.bodies[i] = body;
        changed
    }

    fn book_len(&self) -> usize {
        let [operations, errors, choices] = slices(&self.bodies);
        cagvost::book_len(operations, errors, choices)
    }

    fn write(&self, out: &[u8]) -> (Returned, Vec<u8>) {
        write_both(&self.bodies, self.d, self.n, out)
    }

    /// What the writer says when the buffer is long enough. It must be what the library's reader
    /// says to the bytes that these bodies make, and an accepted book must be just these bytes.
    fn answer(&self) -> Returned {
        let book = plain::book_of(slices(&self.bodies), self.d, self.n);
        let room = vec![UNWRITTEN; book.len()];
        let (answer, left) = self.write(&room);
        // Of an accepted book, a run and the writer say 8 if their buffers are too short.
        let read = run_both(&book, &[], &[]).returned;
        assert_eq!(self.write(&room[1..]).0, read, "{self:02x?}");
        if read == (8, 0) {
            assert_eq!(answer, (0, book.len()), "{self:02x?}");
            assert!(left == book, "{self:02x?}");
        } else {
            assert_eq!(answer, read, "{self:02x?}");
        }
        answer
    }
}

#[test]
fn the_paper_book_from_its_bodies() {
    let bodies = [
        vec![0, 0, 0, 0, 2, 0, 1, 0, 6, 0, 0, 0, 6, 1, 0, 0],
        vec![2, 0, 1, 1, 0],
        vec![2, 0],
    ];
    assert_eq!(paper_book().bodies(), bodies);
    let (answer, left) = write_both(&bodies, 3, 2, &[UNWRITTEN; 45]);
    assert_eq!(answer, (0, 45));
    assert_eq!(left, PAPER_BOOK);
}

/// Every value of every byte of the bodies, and of the dimension and the number of qudits.
#[test]
fn every_single_byte_damage_of_the_paper_book() {
    let mut numbers = [0; 9];
    let places = [1, 2].into_iter().chain(BODIES..PAPER_BOOK.len());
    for (place, byte) in places.flat_map(|i| (0..=255).map(move |x| (i, x))) {
        let damaged = with_byte(&PAPER_BOOK, place, byte);
        let handed = Handed::fetched(&damaged);
        let (answer, left) = handed.write(&[UNWRITTEN; 45]);
        match plain::read(&damaged) {
            Ok(_) => assert!(answer == (0, 45) && left == damaged, "{damaged:02x?}"),
            Err(refused) => assert_eq!(answer, refused, "{damaged:02x?}"),
        }
        assert_eq!(handed.answer(), answer);
        numbers[answer.0] += 1;
    }
    // More is accepted than the book itself, and the damage reached every number that it can reach.
    assert!(numbers[0] > PAPER_BOOK.len(), "{numbers:?}");
    let reached = [2, 3, 5, 6, 7].map(|number| numbers[number]);
    assert!(reached.iter().all(|&count| count > 100), "{numbers:?}");
}

// ---- The order of the refusals

/// What refuses a fault, and how the fault is made.
type Fault = (Returned, fn(&mut Handed));

/// One fault of the paper's book for each number and, of 4, for each body, in the order in which
/// they are tested.
const FAULTS: [Fault; 8] = [
    ((2, 0), |h| h.d = 9),
    ((3, 0), |h| h.n = 65),
    ((4, 0), |h| h.bodies[0].push(0)),
    ((4, 1), |h| h.bodies[1].push(0)),
    ((4, 2), |h| h.bodies[2].resize(MAX_CHOICES + 1, 0)),
    ((5, 1), |h| h.bodies[0][4] = 9),
    ((6, 0), |h| h.bodies[1][3] = 255),
    ((7, 1), |h| h.bodies[2][1] = 255),
];

#[test]
fn the_first_of_several_faults_is_returned() {
    for chosen in 0..1 << FAULTS.len() {
        let mut handed = Handed::of(&paper_book());
        let faults = FAULTS.iter().enumerate();
        let faults = faults.filter(|(i, _)| chosen >> i & 1 == 1);
        let mut first = None;
        for (_, (expected, make)) in faults {
            make(&mut handed);
            first = first.or(Some(*expected));
        }
        assert_eq!(handed.answer(), first.unwrap_or((0, 45)));
        // Every fault of the book comes before a short buffer.
        let needed = handed.book_len();
        for length in [0, BODIES, needed - 1] {
            let short = vec![UNWRITTEN; length];
            assert_eq!(handed.write(&short).0, first.unwrap_or((8, 0)));
        }
    }
}

#[test]
fn the_first_bad_entry_is_named() {
    // It has four operations, two of them measurements.
    let handed = Handed::of(&paper_book());
    for (i, body, expected) in [
        (0, vec![0, 0, 0, 0, 9, 0, 0, 0, 6, 2, 0, 0], (5, 1)),
        // A correction by the measurement that comes next, and one by an earlier and by none.
        (0, vec![8, 0, 0, 0, 6, 0, 0, 0, 6, 1, 0, 0], (5, 0)),
        (0, vec![6, 0, 0, 0, 8, 0, 0, 0, 8, 1, 1, 0], (5, 2)),
        // A place after the end, and a place that falls.
        (1, vec![4, 0, 1, 1, 0, 5, 0, 1, 1, 0, 9, 9, 9, 9, 9], (6, 1)),
        (1, vec![3, 0, 1, 1, 0, 2, 0, 1, 1, 0, 9, 9, 9, 9, 9], (6, 1)),
        (2, vec![2, 3], (7, 1)),
        (2, vec![3, 3], (7, 0)),
        // Unequal counts win over a bad choice at a lower index.
        (2, vec![], (7, 0)),
        (2, vec![9], (7, 1)),
        (2, vec![9, 0, 0, 0], (7, 2)),
    ] {
        assert_eq!(handed.with_body(i, body).answer(), expected);
    }
}

// ---- d and n

/// Some of the numbers would pass if they were cut to one, two or four bytes.
#[test]
fn dimensions_and_qudits_are_full_numbers() {
    let dimensions = (0..=300).chain([(1 << 16) + 3, (1 << 32) + 31, usize::MAX]);
    let more = [256, 256 + 1, 256 + 64, (1 << 16) + 1, (1 << 32) + 64];
    let counts = (0..=70).chain(more).chain([usize::MAX]);
    for (d, n) in dimensions.flat_map(|d| counts.clone().map(move |n| (d, n))) {
        let bodies = Default::default();
        let listed = DIMENSIONS.map(usize::from).contains(&d);
        let expected = match (listed, (1..=64).contains(&n)) {
            (false, _) => (2, 0),
            (true, false) => (3, 0),
            (true, true) => (0, 22),
        };
        let (answer, left) = Handed { d, n, bodies }.write(&[UNWRITTEN; 22]);
        assert_eq!(answer, expected, "d {d} n {n}");
        if answer.0 == 0 {
            assert_eq!(left[..4], [81, d as u8, n as u8, 3]);
        }
    }
}

/// The largest qudit, factor, power, place and choice that a book may have, and the next ones.
#[test]
fn the_edges_of_every_size() {
    let next = [
        (0, 1, (5, 0)), // qudit
        (0, 3, (5, 0)), // factor
        (0, 5, (5, 1)), // measured qudit
        (1, 0, (6, 0)), // place
        (1, 1, (6, 0)), // place, 256 more
        (1, 2, (6, 0)), // qudit
        (1, 3, (6, 0)), // p
        (1, 4, (6, 0)), // s
        (2, 0, (7, 0)), // choice
    ];
    for (d, n) in DIMENSIONS
        .into_iter()
        .flat_map(|d| (1..=64).map(move |n| (d, n)))
    {
        let (q, most) = (n - 1, d - 1);
        let mut book = Book::new(d, n);
        book.operation(Operation::Multiplier { q, u: most })
            .measure(q, most)
            .error(q, most, most);
        let handed = Handed::of(&book);
        assert_eq!(handed.answer(), (0, 36));
        for (body, byte, refused) in next {
            let mut over = handed.clone();
            over.bodies[body][byte] += 1;
            assert_eq!(over.answer(), refused, "{over:02x?}");
        }
    }
}

// ---- Lengths

#[test]
fn bodies_that_are_not_whole_entries() {
    let handed = Handed::of(&paper_book());
    for (i, size) in [(0, 4), (1, 5)] {
        let body = &handed.bodies[i];
        for off in 1..size {
            let longer = [&body[..], &vec![0; off]].concat();
            let shorter = body[off..].to_vec();
            assert_eq!(handed.with_body(i, longer).answer(), (4, i));
            assert_eq!(handed.with_body(i, shorter).answer(), (4, i));
        }
    }
    // A choice has one byte, so that one more or fewer is a matter of their number.
    assert_eq!(handed.with_body(2, vec![2]).answer(), (7, 1));
    assert_eq!(handed.with_body(2, vec![2, 0, 0]).answer(), (7, 2));
}

#[test]
fn the_longest_bodies_pass_and_longer_ones_are_refused_by_4() {
    let longest = Handed::of(&counted(MAX_OPERATIONS, MAX_ERRORS, MAX_CHOICES));
    assert_eq!(longest.answer(), (0, 30_742));
    assert_eq!(Handed::of(&counted(0, MAX_ERRORS, 0)).answer(), (0, 10_262));
    for (i, size) in [4, 5, 1].into_iter().enumerate() {
        let body = &longest.bodies[i];
        // Up to one good entry more, and twice as many.
        for more in (1..=size).chain([body.len()]) {
            let longer = [&body[..], &body[..more]].concat();
            assert_eq!(longest.with_body(i, longer).answer(), (4, i));
        }
    }
}

/// Lengths that two bytes do not hold. Cut to two bytes, they would be those of good bodies.
#[test]
fn bodies_longer_than_65_535_bytes() {
    for count in 0..6 {
        let good = Handed::of(&counted(count, count, count));
        assert_eq!(good.answer().0, 0);
        for (i, more) in (0..3).flat_map(|i| [1 << 16, 3 << 16].map(|more| (i, more))) {
            let longer = [&good.bodies[i][..], &vec![0; more]].concat();
            assert_eq!(good.with_body(i, longer).answer(), (4, i));
        }
    }
    let empty = Handed::of(&Book::new(3, 1));
    for (i, length) in (0..3).flat_map(|i| (65_530..65_550).map(move |length| (i, length))) {
        assert_eq!(empty.with_body(i, vec![0; length]).answer(), (4, i));
    }
}

#[test]
fn every_length_of_the_buffer() {
    let mut rng = Rng(88);
    let long = Shape {
        d: 31,
        n: 64,
        operations: 300,
        errors: 100,
        measure_one_in: 3,
    };
    let drawn = draw_book(&mut rng, long);
    for book in [Book::new(3, 1), paper_book(), drawn] {
        let (handed, bytes) = (Handed::of(&book), book.to_bytes());
        let needed = bytes.len();
        assert_eq!(handed.book_len(), needed);
        for length in 0..=needed + 9 {
            let out = rng.bytes(length);
            let (answer, left) = handed.write(&out);
            if length < needed {
                assert!(answer == (8, 0) && left == out, "{length}");
            } else {
                assert_eq!(answer, (0, needed), "{length}");
                assert!(left[..needed] == bytes && left[needed..] == out[needed..]);
            }
        }
    }
}

// ---- Drawn books

/// The library's direct run of the book from the zero tableau.
fn run(book: &[u8], measurements: usize) -> Run {
    let mut tableau = zero_tableau(book[1], book[2]);
    let mut results = vec![UNWRITTEN; 2 * measurements];
    let run = cagvost::direct_run(book, &mut tableau, &mut results);
    Run {
        returned: returned(run.map(|run| run.measurements)),
        tableau,
        results,
    }
}

/// Writes the book, takes the bodies out of it, writes them again, and runs what was written.
fn write_twice(rng: &mut Rng, book: &Book) {
    let (handed, bytes) = (Handed::of(book), book.to_bytes());
    assert_eq!(handed.book_len(), bytes.len());
    let room = rng.bytes(bytes.len());
    let room = with_tail(rng, room);
    let (answer, left) = handed.write(&room);
    assert_eq!(answer, (0, bytes.len()));
    let written = &left[..answer.1];
    assert!(written == bytes, "{bytes:02x?}");
    assert!(plain::read(written).is_ok());
    let fetched = Handed::fetched(written);
    assert_eq!(fetched, handed);
    let (again, twice) = fetched.write(&room);
    assert!(again == answer && twice == left);
    let ran = run(written, book.measurements());
    assert_eq!(ran.returned, (0, book.measurements()));
    assert!(ran == run(&bytes, book.measurements()));
}

#[test]
fn drawn_books_come_out_byte_for_byte() {
    let mut rng = Rng(40);
    for i in 0..2000 {
        let most = if i % 40 == 0 { MAX_OPERATIONS } else { 80 };
        let shape = Shape {
            d: DIMENSIONS[i % DIMENSIONS.len()],
            n: 1 + rng.byte_below(64),
            operations: rng.below(most + 1),
            errors: rng.below(most / 2 + 1),
            measure_one_in: 1 + rng.below(8),
        };
        let book = draw_book(&mut rng, shape);
        write_twice(&mut rng, &book);
    }
}

/// One change of what the writer is handed: a size, or in a body a byte replaced, put in or taken
/// out, or another length.
fn damage(rng: &mut Rng, handed: &mut Handed) {
    let i = rng.below(3);
    let body = &mut handed.bodies[i];
    let place = rng.below(body.len() + 1);
    match rng.below(16) {
        0 => handed.d = rng.below(300),
        1 => handed.n = rng.below(300),
        2 => body.insert(place, rng.byte_below(10)),
        3 => body.truncate(place),
        4 => drop(body.drain(place..(place + [4, 5, 1][i]).min(body.len()))),
        5 => body.resize(place + [16_385, 10_241, 4097][i], 0),
        6 => body.resize(place + 65_536, 0),
        _ if place < body.len() => body[place] = rng.byte_below(10),
        _ => body.extend([0; 5].iter().take([4, 5, 1][i])),
    }
}

#[test]
fn drawn_bodies_damaged_a_few_times() {
    let mut rng = Rng(41);
    let (mut numbers, mut entries) = ([0; 9], [0; 3]);
    for _ in 0..20_000 {
        let shape = Shape::small(&mut rng);
        let mut handed = Handed::of(&draw_book(&mut rng, shape));
        for _ in 0..1 + rng.below(3) {
            damage(&mut rng, &mut handed);
        }
        let (number, place) = handed.answer();
        numbers[number] += 1;
        if number == 4 {
            entries[place] += 1;
        }
    }
    // The damage reached every refusal of a book but 1, and some of it was harmless.
    let reached = [0, 2, 3, 4, 5, 6, 7].map(|number| numbers[number]);
    assert!(reached.iter().all(|&count| count > 100), "{numbers:?}");
    assert!(entries.iter().all(|&count| count > 100), "{entries:?}");
}

#[test]
fn long_bodies_damaged_once() {
    let mut rng = Rng(42);
    let handed = Handed::of(&draw_book(&mut rng, FULL));
    for _ in 0..300 {
        let mut damaged = handed.clone();
        let body = &mut damaged.bodies[rng.below(3)];
        let place = rng.below(body.len());
        body[place] = rng.byte_below(10);
        damaged.answer();
    }
}
