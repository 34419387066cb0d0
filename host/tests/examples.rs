//! The stored books in `examples/` at the top of the repository: each listing as the plain reference
//! makes it. Two of the books are too large to be written by hand and are drawn here;
//! `cargo test --test suite examples -- --ignored` writes them again, with their listings.

use crate::common;

use cagvost::book::{
    Book, MAX_CHOICES, MAX_ERRORS, MAX_OPERATIONS, MAX_QUDITS, Operation, WeylError,
};
use cagvost::{FrameEnd, Simulation, Verdict};
use common::frames::Buffers;
use common::{Rng, UNWRITTEN, plain, zero_tableau};
use std::collections::BTreeSet;
use std::ffi::OsString;
use std::fs;
use std::path::{Path, PathBuf};

/// The program reads no more bytes than these, one more than the largest book has.
const MOST_READ: usize = 30_743;

// ---- The books

/// The largest book: as many operations as there may be, each a measurement, and so as many choices
/// and results, and as many errors. Without a gate every outcome of the zero tableau is certain, and
/// what is reported is the X power that the errors have left on the qudit.
fn largest() -> Book {
    draw_full(4096, 31, measure)
}

/// Three measurements to each gate, Fourier or SUM, so that free and certain ones come up over the
/// whole book.
fn free_and_certain() -> Book {
    draw_full(3072, 29, |rng, book| match book.operations().len() % 8 {
        0 => fourier(rng, book),
        4 => sum(rng, book),
        _ => measure(rng, book),
    })
}

/// A book of 64 qudits with as many operations as there may be, each drawn by `add`, and as many
/// errors, strewn over it; the last one strikes after all operations.
fn draw_full(seed: u64, d: u8, add: impl Fn(&mut Rng, &mut Book)) -> Book {
    let mut rng = Rng(seed);
    let mut places: Vec<usize> = (1..MAX_ERRORS)
        .map(|_| rng.below(MAX_OPERATIONS + 1))
        .chain([MAX_OPERATIONS])
        .collect();
    places.sort_unstable();
    let mut book = Book::new(d, MAX_QUDITS);
    for place in places {
        while book.operations().len() < place {
            add(&mut rng, &mut book);
        }
        let (q, p, s) = (qudit(&mut rng), rng.byte_below(d), rng.byte_below(d));
        book.error(q, p, s);
    }
    book
}

fn qudit(rng: &mut Rng) -> u8 {
    rng.byte_below(MAX_QUDITS)
}

fn measure(rng: &mut Rng, book: &mut Book) {
    let choice = rng.byte_below(book.dimension());
    book.measure(qudit(rng), choice);
}

fn fourier(rng: &mut Rng, book: &mut Book) {
    let q = qudit(rng);
    book.operation(Operation::Fourier { q, times: 1 });
}

/// From a qudit to one further on.
fn sum(rng: &mut Rng, book: &mut Book) {
    let c = rng.byte_below(MAX_QUDITS - 1);
    let t = c + 1 + rng.byte_below(MAX_QUDITS - 1 - c);
    let times = 1 + rng.byte_below(book.dimension() - 1);
    book.operation(Operation::Sum { c, t, times });
}

/// The drawn books and their names.
fn drawn() -> [(&'static str, Book); 2] {
    [
        ("largest", largest()),
        ("free_and_certain", free_and_certain()),
    ]
}

// ---- The listing

/// What the program prints for these bytes.
fn listing(bytes: &[u8]) -> String {
    let bytes = &bytes[..bytes.len().min(MOST_READ)];
    let book = match plain::read(bytes) {
        Ok(book) => book,
        Err((number, place)) => return format!("refused {number} at {place}\n"),
    };
    let mut left = Buffers::zero(book.d as u8, book.n as u8, book.measurements());
    let (number, _, verdict) = left.by_plain(bytes);
    assert_eq!(number, 0);
    let mut text = format!(
        "d {} n {} operations {} errors {}\n",
        book.d,
        book.n,
        book.operations.len(),
        book.errors.len()
    );
    let mut results = left.results.chunks(2).enumerate();
    for operation in &book.operations {
        if let plain::Op::Measure(q) = operation {
            let (j, result) = results.next().expect("a result for each measurement");
            let kind = ["certain", "free"][usize::from(result[1])];
            text += &format!("m {j} qudit {q} {kind} {}\n", result[0]);
        }
    }
    text += "shift";
    for shift in &left.shifts {
        text += &format!(" {shift}");
    }
    text + "\nverdict " + ["clean", "shifted"][verdict] + "\n"
}

fn examples() -> PathBuf {
    Path::new(env!("CARGO_MANIFEST_DIR")).join("../examples")
}

fn stored(name: &str, ending: &str) -> PathBuf {
    examples().join(name).with_extension(ending)
}

/// The names of the stored files with this ending.
fn names(ending: &str) -> BTreeSet<OsString> {
    let files = fs::read_dir(examples()).expect("the folder of examples");
    files
        .map(|file| file.expect("a file").path())
        .filter(|path| path.extension().is_some_and(|found| found == ending))
        .filter_map(|path| path.file_stem().map(OsString::from))
        .collect()
}

// ---- Tests

#[test]
fn every_listing_by_the_plain_reference() {
    let books = names("book");
    assert_eq!(books, names("txt"));
    for name in books {
        let name = name.to_str().expect("a plain name");
        let book = fs::read(stored(name, "book")).expect("a stored book");
        let text = fs::read_to_string(stored(name, "txt")).expect("a stored listing");
        assert!(listing(&book) == text, "examples/{name}.txt");
    }
}

#[test]
fn drawn_books_are_the_stored_ones() {
    for (name, book) in drawn() {
        let bytes = fs::read(stored(name, "book")).expect("a stored book");
        assert!(book.to_bytes() == bytes, "examples/{name}.book");
    }
}

/// No book has more bytes or more results, and each quarter of its results is another.
#[test]
fn the_largest_book() {
    let book = largest();
    assert_eq!(book.measurements(), MAX_CHOICES);
    assert_eq!(book.to_bytes().len(), MOST_READ - 1);
    let text = listing(&book.to_bytes());
    let outcomes: Vec<&str> = text
        .lines()
        .filter_map(|line| line.split_once(" certain "))
        .map(|(_, outcome)| outcome)
        .collect();
    assert_eq!(outcomes.len(), MAX_CHOICES);
    let quarters: BTreeSet<&[&str]> = outcomes.chunks(MAX_CHOICES / 4).collect();
    assert_eq!(quarters.len(), 4);
    assert!(text.ends_with("verdict shifted\n"));
}

/// Free and certain measurements in each quarter of the book.
#[test]
fn free_and_certain_over_the_whole_book() {
    let text = listing(&free_and_certain().to_bytes());
    let lines: Vec<&str> = text.lines().filter(|line| line.starts_with("m ")).collect();
    assert_eq!(lines.len(), 3072);
    for quarter in lines.chunks(768) {
        let free = quarter.iter().filter(|line| line.contains("free")).count();
        assert!(free > 50 && free < 718, "{free} of 768 are free");
    }
}

/// A stored circuit with a Z error, and its mirror.
fn circuit_and_mirror() -> [Vec<u8>; 2] {
    ["circuit", "mirror"].map(|name| fs::read(stored(name, "book")).expect("a stored book"))
}

#[test]
fn the_stored_mirror_is_that_of_the_stored_circuit() {
    let [circuit, mirror] = circuit_and_mirror();
    let mut out = vec![UNWRITTEN; mirror.len()];
    assert_eq!(cagvost::mirror(&circuit, &mut out), Ok(46));
    assert_eq!(out, mirror);
    assert_eq!(plain::mirror(&mirror, &mut out), (0, 46));
    assert_eq!(out[22..], circuit[22..46]);
}

/// Worked by hand: Z on qudit 1 after SUM comes to the end as Z on qudit 0, by the swap. Back before
/// SUM it is Z^3 on qudit 0, as SUM was applied three times, and Z on qudit 1; and before Fourier the
/// first of these is X^3. So the zero tableau comes back, but for the phases of destabilizer 1 and of
/// stabilizer 0, and qudit 0 is at level 3.
#[test]
fn what_the_stored_circuit_and_its_mirror_leave() {
    let [circuit, mirror] = circuit_and_mirror();
    let mut tableau = zero_tableau(5, 2);
    for book in [&circuit, &mirror] {
        cagvost::direct_run(book, &mut tableau, &mut []).expect("an accepted book");
    }
    #[rustfmt::skip]
    assert_eq!(tableau, [
        5, 2,
        1, 0, 0, 0, 0,
        0, 1, 0, 0, 1,
        0, 0, 1, 0, 2,
        0, 0, 0, 1, 0,
    ]);
    let mut carried = Buffers::zero(5, 2, 0);
    assert_eq!(carried.by_library(&circuit), (0, 0, 1));
    assert_eq!(carried.frame, [0, 0, 1, 0]);
    assert_eq!(carried.by_library(&mirror), (0, 0, 0));
    assert_eq!(carried.tableau, tableau);
}

// ---- The memory experiment

fn memory() -> Book {
    let text = fs::read_to_string(stored("memory", "circuit")).expect("the stored circuit");
    text.parse().unwrap_or_else(|e| panic!("{e}"))
}

/// Where a qutrit waits: the place behind that operation, and the qutrit.
fn waits(book: &Book) -> Vec<(u16, u8)> {
    let wait = |(k, operation): (u16, &Operation)| match *operation {
        Operation::Multiplier { q, u: 1 } => Some((k + 1, q)),
        _ => None,
    };
    (0..).zip(book.operations()).filter_map(wait).collect()
}

/// The end of its frame run. Every outcome but the first is certain, and no error strikes before that
/// one, so that a direct run with the same choices ends with the same rows and results.
fn kept(book: &Book, error: WeylError) -> FrameEnd {
    let mut book = book.clone();
    let simulation = Simulation::new(book.error_at(error)).expect("a good book");
    let (frame, direct) = (simulation.frame(), simulation.direct());
    assert_eq!(
        (&frame.outcomes, &frame.tableau),
        (&direct.outcomes, &direct.tableau)
    );
    frame
}

/// Each error on the qutrit that waits is found and undone. The same error on another one is found
/// too, and the correction is then one of the wrong qutrit. An error on the one that the kept state is
/// entangled with is neither found nor undone.
#[test]
fn errors_on_the_waiting_qutrit_are_undone() {
    let book = memory();
    let waits = waits(&book);
    assert_eq!(waits, [(13, 1), (30, 2)]);
    for (round, &(place, waiting)) in waits.iter().enumerate() {
        for (p, s) in (0..3).flat_map(|p| (0..3).map(move |s| (p, s))).skip(1) {
            let mut found = [2, 0, 0, 0, 0];
            let end = |qudit| kept(&book, WeylError { place, qudit, p, s });
            let values = |end: &FrameEnd| Vec::from_iter(end.outcomes.iter().map(|o| o.value));
            assert_eq!(
                (end(4).verdict, values(&end(4))),
                (Verdict::Shifted, found.to_vec())
            );
            found[2 * round + 1..][..2].copy_from_slice(&[p, s]);
            for qudit in 0..3 {
                let end = end(qudit);
                let is_undone = end.verdict == Verdict::Clean;
                assert_eq!(is_undone, qudit == waiting, "X^{p} Z^{s} on {qudit}");
                assert_eq!(values(&end), found);
            }
        }
    }
}

/// Without its corrections the circuit finds the same errors and keeps them.
#[test]
fn without_corrections_errors_stay() {
    let mut book = Book::new(3, 5);
    for &operation in memory().operations() {
        match operation {
            Operation::Measure { q } => book.measure(q, 0),
            Operation::Reset { q } => book.reset(q, 0),
            Operation::Correct { .. } => &mut book,
            gate => book.operation(gate),
        };
    }
    for (place, qudit) in waits(&book) {
        let end = kept(
            &book,
            WeylError {
                place,
                qudit,
                p: 1,
                s: 0,
            },
        );
        assert_eq!(end.verdict, Verdict::Shifted);
    }
}

/// The stored book is the circuit with an error on each qutrit that waits, and one on the third before
/// it is reset.
#[test]
fn the_stored_memory_is_the_circuit_with_errors() {
    let bytes = fs::read(stored("memory", "book")).expect("a stored book");
    let book = Book::from_bytes(&bytes).expect("a good book");
    assert_eq!(book.without_errors(), memory());
    let struck = book.errors().iter().map(|error| (error.place, error.qudit));
    assert_eq!(Vec::from_iter(struck), [(13, 1), (19, 3), (30, 2)]);
    assert_eq!(book.operations()[19], Operation::Reset { q: 3 });
    let end = Simulation::new(&book).expect("a good book").frame();
    assert_eq!(end.verdict, Verdict::Clean);
}

/// Worked by hand. The first reset is free: it finds 3 without errors, and so qudit 1 is left at level
/// 3, which X makes 4. The second finds 2, which was measured before, and has no use for its choice.
/// Then qudit 0 is moved back by 3 from level 0, qudit 1 to level 0, and qudit 2 by 2 from level 0; the
/// X before the first of these is taken out by the shift of measurement 0. What is left is X² on qudit 2
/// and, on qudit 0, Z and Z³.
#[test]
fn what_the_stored_resets_leave() {
    let bytes = fs::read(stored("resets", "book")).expect("a stored book");
    let book = Book::from_bytes(&bytes).expect("a good book");
    let end = Simulation::new(&book).expect("a good book").frame();
    let outcomes = end.outcomes.iter().map(|o| (o.qudit, o.to_string()));
    let expected = [
        (1, "certain 4"),
        (2, "free 2"),
        (0, "certain 2"),
        (2, "certain 0"),
    ];
    assert!(outcomes.eq(expected.map(|(qudit, said)| (qudit, said.to_string()))));
    assert_eq!(end.frame.to_string(), "Z0^4 X2^2");
    assert_eq!(end.verdict, Verdict::Shifted);
}

#[test]
#[ignore = "writes the drawn books and their listings into examples/"]
fn write_the_drawn_books() {
    for (name, book) in drawn() {
        let bytes = book.to_bytes();
        fs::write(stored(name, "book"), &bytes).expect("a book to write");
        fs::write(stored(name, "txt"), listing(&bytes)).expect("a listing to write");
    }
}
