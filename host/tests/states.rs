//! Simulations, tableaus, rows and outcomes as values: each byte and number as the calls on bytes
//! have it, and words that can be read back.

use crate::common;

use cagvost::book::{Book, DIMENSIONS, MAX_QUDITS, Operation};
use cagvost::{Frame, Mark, Outcome, Refusal, Row, Simulation, Tableau, Verdict};
use common::frames::{Buffers, carry_both};
use common::{ROWS, Rng, Shape, counted, draw_book, draw_tableau, paper_book, plain};
use common::{named, run_both, with_byte, zero_tableau};
use std::fs;
use std::path::Path;

// ---- Against the calls on bytes

/// The results of a run as its outcomes say them.
fn results_of(outcomes: &[Outcome]) -> Vec<u8> {
    let bytes = |outcome: &Outcome| [outcome.value, u8::from(outcome.mark == Mark::Free)];
    outcomes.iter().flat_map(bytes).collect()
}

/// The measured qudits, in order.
fn measured(book: &Book) -> Vec<u8> {
    let measurements = book.operations().iter();
    let measurements = measurements.filter(|o| matches!(o, Operation::Measure { .. }));
    measurements.flat_map(|o| o.qudits()).collect()
}

fn qudits_of(outcomes: &[Outcome]) -> Vec<u8> {
    outcomes.iter().map(|outcome| outcome.qudit).collect()
}

/// Both runs of a simulation against both calls on bytes, from this tableau.
fn runs_agree(simulation: &Simulation, book: &Book, tableau: Vec<u8>) {
    let (bytes, measurements) = (book.to_bytes(), book.measurements());
    let mut before = Buffers::zero(book.dimension(), book.qudits(), measurements);
    before.tableau = tableau;
    let direct = run_both(&bytes, &before.tableau, &before.results);
    let end = simulation.direct();
    assert_eq!(direct.returned, (0, measurements));
    assert!(end.tableau.as_bytes() == direct.tableau, "{book}");
    assert_eq!(results_of(&end.outcomes), direct.results, "{book}");
    assert_eq!(qudits_of(&end.outcomes), measured(book), "{book}");

    let (returned, framed) = carry_both(&bytes, &before);
    let end = simulation.frame();
    let shifted = usize::from(end.verdict == Verdict::Shifted);
    assert_eq!(returned, (0, measurements, shifted), "{book}");
    assert!(end.tableau.as_bytes() == framed.tableau, "{book}");
    assert_eq!(results_of(&end.outcomes), framed.results, "{book}");
    assert_eq!(qudits_of(&end.outcomes), measured(book), "{book}");
    assert_eq!(end.shifts, framed.shifts, "{book}");
    assert_eq!([end.frame.x, end.frame.z].concat(), framed.frame, "{book}");
}

fn draw_shape(rng: &mut Rng, d: u8, n: u8) -> Shape {
    Shape {
        d,
        n,
        operations: rng.below(60),
        errors: rng.below(12),
        measure_one_in: 2 + rng.below(5),
    }
}

/// Books of every dimension and of few and many qudits, as often as this says.
fn draw_books(rng: &mut Rng, times: usize) -> Vec<Book> {
    let mut books = Vec::new();
    for (d, n) in DIMENSIONS.into_iter().flat_map(|d| [(d, 4), (d, 64)]) {
        for _ in 0..times {
            let n = 1 + rng.byte_below(n);
            let shape = draw_shape(rng, d, n);
            books.push(draw_book(rng, shape));
        }
    }
    books
}

#[test]
fn runs_from_the_zero_tableau() {
    for book in draw_books(&mut Rng(1), 20) {
        let simulation = Simulation::new(&book).expect("an accepted book");
        let zero = zero_tableau(book.dimension(), book.qudits());
        runs_agree(&simulation, &book, zero);
    }
}

#[test]
fn runs_from_drawn_tableaus() {
    let mut rng = Rng(2);
    for book in draw_books(&mut rng, 20) {
        let bytes = draw_tableau(&mut rng, book.dimension(), book.qudits());
        let tableau = Tableau::from_bytes(&bytes).expect("a valid tableau");
        let simulation = Simulation::starting_from(&book, tableau).expect("of the same d and n");
        runs_agree(&simulation, &book, bytes);
    }
}

/// Whatever ran before, each run is that of a simulation which is run for the first time.
#[test]
fn runs_start_anew_and_do_not_meet() {
    let mut rng = Rng(3);
    for book in draw_books(&mut rng, 3) {
        let fresh = || Simulation::new(&book).expect("an accepted book");
        let (direct, frame) = (fresh().direct(), fresh().frame());
        let simulation = fresh();
        let copy = simulation.clone();
        for _ in 0..6 {
            match rng.once_in(2) {
                true => assert_eq!(simulation.direct(), direct, "{book}"),
                false => assert_eq!(simulation.frame(), frame, "{book}"),
            }
        }
        assert_eq!((copy.frame(), copy.direct()), (frame, direct), "{book}");
    }
}

/// The operation as it stands in a book that has so many measurements before it.
fn after_measurements(operation: Operation, measurements: usize) -> Operation {
    match operation {
        Operation::Correct { t, m } => Operation::Correct {
            t,
            m: m + measurements as u16,
        },
        other => other,
    }
}

/// Where one simulation ends another begins: the same as one book of both parts.
#[test]
fn an_end_is_a_start() {
    let mut rng = Rng(4);
    for d in DIMENSIONS {
        let shape = draw_shape(&mut rng, d, 5);
        let [first, second] = [(); 2].map(|()| draw_book(&mut rng, Shape { errors: 0, ..shape }));
        let mut whole = first.clone();
        for &operation in second.operations() {
            whole.operation(after_measurements(operation, first.measurements()));
        }
        second.choices().iter().for_each(|&c| _ = whole.choice(c));
        let between = Simulation::new(&first).expect("accepted").direct();
        let end = Simulation::starting_from(&second, between.tableau)
            .expect("of the same d and n")
            .direct();
        let at_once = Simulation::new(&whole).expect("accepted").direct();
        assert_eq!(end.tableau, at_once.tableau);
        assert_eq!([between.outcomes, end.outcomes].concat(), at_once.outcomes);
    }
}

// ---- Cases

/// The rows that the package's first page has.
#[test]
fn the_book_of_the_specification() {
    let simulation = Simulation::new(&paper_book()).expect("an accepted book");
    let end = simulation.direct();
    #[rustfmt::skip]
    assert_eq!(end.tableau.as_bytes(), [
        3, 2,
        1, 1, 0, 0, 0,
        0, 1, 0, 0, 0,
        0, 0, 1, 0, 1,
        0, 0, 2, 1, 2,
    ]);
    assert_eq!(
        end.tableau.to_string(),
        "destabilizer 0  X0 X1\n\
         destabilizer 1  X1\n\
         stabilizer 0    ω Z0\n\
         stabilizer 1    ω^2 Z0^2 Z1\n"
    );
    let words = end.outcomes.iter().map(Outcome::to_string);
    assert_eq!(Vec::from_iter(words), ["free 2", "certain 0"]);
    let carried = simulation.frame();
    assert_eq!(
        (carried.outcomes, carried.tableau),
        (end.outcomes, end.tableau)
    );
    assert_eq!(carried.shifts, [0, 0, 0, 2]);
    assert_eq!(carried.frame.to_string(), "X1");
    assert_eq!(carried.verdict, Verdict::Shifted);
}

/// What the program prints of an accepted book, out of values and their words.
fn listing(book: &Book) -> String {
    let end = Simulation::new(book).expect("an accepted book").frame();
    let (d, n) = (book.dimension(), book.qudits());
    let counts = (book.operations().len(), book.errors().len());
    let mut text = format!("d {d} n {n} operations {} errors {}\n", counts.0, counts.1);
    for (i, outcome) in end.outcomes.iter().enumerate() {
        text += &format!("m {i} qudit {} {outcome}\n", outcome.qudit);
    }
    let shifts = end.shifts.iter().map(|shift| format!(" {shift}"));
    text + "shift" + &shifts.collect::<String>() + &format!("\nverdict {}\n", end.verdict)
}

/// The words are those of the program: of each stored book it prints this.
#[test]
fn listings_of_the_stored_books() {
    let folder = Path::new(env!("CARGO_MANIFEST_DIR")).join("../examples");
    let mut listed = 0;
    for file in fs::read_dir(folder).expect("the folder of examples") {
        let path = file.expect("a file").path();
        if path.extension().is_none_or(|ending| ending != "book") {
            continue;
        }
        let bytes = fs::read(&path).expect("a stored book");
        if let Ok(book) = Book::from_bytes(&bytes) {
            let stored = fs::read_to_string(path.with_extension("txt")).expect("its listing");
            assert!(listing(&book) == stored, "{}", path.display());
            listed += 1;
        }
    }
    assert!(listed > 8, "{listed} accepted books");
}

// ---- Rows

/// Each row of a tableau has the bytes of that row, and each line of its text the row's words.
#[test]
fn rows_of_drawn_tableaus() {
    let mut rng = Rng(5);
    for (d, n) in DIMENSIONS
        .into_iter()
        .flat_map(|d| [(d, 1), (d, 3), (d, 11), (d, 64)])
    {
        let count = usize::from(n);
        let bytes = draw_tableau(&mut rng, d, n);
        let tableau = Tableau::from_bytes(&bytes).expect("a valid tableau");
        assert_eq!((tableau.dimension(), tableau.qudits()), (d, n));
        let rows = Vec::from_iter(tableau.destabilizers().chain(tableau.stabilizers()));
        let joined = rows
            .iter()
            .flat_map(|row| [&row.x[..], &row.z, &[row.phase]].concat());
        assert_eq!(named(d, n, &Vec::from_iter(joined)), bytes);
        let text = tableau.to_string();
        assert_eq!(text.lines().count(), 2 * count);
        for (i, (line, row)) in text.lines().zip(&rows).enumerate() {
            let (kind, one) = match i < count {
                true => ("destabilizer", tableau.destabilizer(i)),
                false => ("stabilizer", tableau.stabilizer(i - count)),
            };
            assert_eq!(*row, one);
            let words = line.strip_prefix(&format!("{kind} {} ", i % count));
            assert_eq!(words.map(str::trim_start), Some(&row.to_string()[..]));
        }
    }
}

/// The powers that a product in words has: ω, then for each qudit X and Z. Factors that are 1 are not
/// written, and the others stand in this order.
fn read_product(text: &str, n: usize) -> Row {
    let bases = (0..n).flat_map(|q| [format!("X{q}"), format!("Z{q}")]);
    let bases = Vec::from_iter(["ω".to_string()].into_iter().chain(bases));
    let mut powers = vec![0; bases.len()];
    let mut from = 0;
    for factor in text.split(' ').filter(|_| text != "1") {
        let (base, power) = match factor.split_once('^') {
            Some((base, power)) => (base, power.parse().expect("a power")),
            None => (factor, 1),
        };
        let at = bases.iter().position(|other| other == base);
        let at = at.unwrap_or_else(|| panic!("{factor} in {text}"));
        assert!(at >= from, "{factor} in {text} is out of order");
        assert!(power > 1 || !factor.contains('^'), "{factor} in {text}");
        powers[at] = power;
        from = at + 1;
    }
    let of_qudits = |first: usize| powers[1..].iter().skip(first).step_by(2);
    Row {
        phase: powers[0],
        x: of_qudits(0).copied().collect(),
        z: of_qudits(1).copied().collect(),
    }
}

/// So many powers, of which about one in `times` is not 0.
fn draw_powers(rng: &mut Rng, d: u8, n: usize, times: usize) -> Vec<u8> {
    let power = |_| u8::from(rng.once_in(times)) * rng.byte_below(d);
    (0..n).map(power).collect()
}

#[test]
fn words_of_drawn_rows_and_frames_are_read_back() {
    let mut rng = Rng(6);
    for (d, n) in DIMENSIONS
        .into_iter()
        .flat_map(|d| (1..=64).map(move |n| (d, n)))
    {
        let times = 1 + rng.below(n);
        let [x, z] = [(); 2].map(|()| draw_powers(&mut rng, d, n, times));
        let phase = rng.byte_below(d);
        let row = Row { phase, x, z };
        assert_eq!(read_product(&row.to_string(), n), row);
        let Row { x, z, .. } = row;
        let frame = Frame { x, z };
        let Row { phase, x, z } = read_product(&frame.to_string(), n);
        assert_eq!((phase, Frame { x, z }), (0, frame));
    }
}

#[test]
fn words_of_rows() {
    let row = |phase, x: &[u8], z: &[u8]| {
        let (x, z) = (x.to_vec(), z.to_vec());
        Row { phase, x, z }.to_string()
    };
    assert_eq!(row(0, &[0], &[0]), "1");
    assert_eq!(row(1, &[0], &[0]), "ω");
    assert_eq!(row(30, &[0, 0], &[0, 0]), "ω^30");
    assert_eq!(row(0, &[1], &[1]), "X0 Z0");
    assert_eq!(row(2, &[1, 0], &[0, 2]), "ω^2 X0 Z1^2");
    assert_eq!(row(1, &[0, 12, 1], &[1, 30, 0]), "ω Z0 X1^12 Z1^30 X2");
    let mut last = [0; 64];
    last[63] = 1;
    assert_eq!(row(0, &last, &[0; 64]), "X63");
    // A row that is put together by hand may be of no tableau. No power is left out.
    assert_eq!(row(0, &[0, 2], &[1]), "Z0 X1^2");
    assert_eq!(row(0, &[], &[0, 1]), "Z1");
}

#[test]
fn words_of_frames_and_results() {
    let frame = |x: &[u8], z: &[u8]| {
        let (x, z) = (x.to_vec(), z.to_vec());
        Frame { x, z }.to_string()
    };
    assert_eq!(frame(&[0, 0], &[0, 0]), "1");
    assert_eq!(frame(&[0, 1], &[2, 3]), "Z0^2 X1 Z1^3");
    let outcome = |value, mark| {
        Outcome {
            qudit: 7,
            value,
            mark,
        }
        .to_string()
    };
    assert_eq!(outcome(2, Mark::Free), "free 2");
    assert_eq!(outcome(0, Mark::Certain), "certain 0");
    assert_eq!(
        [Mark::Free, Mark::Certain].map(|m| m.to_string()),
        ["free", "certain"]
    );
    assert_eq!(
        [Verdict::Clean, Verdict::Shifted].map(|v| v.to_string()),
        ["clean", "shifted"]
    );
    // In a table of results the words keep their columns.
    assert_eq!(format!("{:>10}|", Verdict::Clean), "     clean|");
    assert_eq!(format!("{:<8}|", Mark::Free), "free    |");
    let (x, z) = (vec![1], vec![0]);
    assert_eq!(
        format!(
            "{:>4}|",
            Frame {
                x: x.clone(),
                z: z.clone()
            }
        ),
        "  X0|"
    );
    assert_eq!(format!("{:>6}|", Row { phase: 1, x, z }), "  ω X0|");
    let outcome = Outcome {
        qudit: 0,
        value: 2,
        mark: Mark::Free,
    };
    assert_eq!(format!("{outcome:>8}|"), "  free 2|");
}

#[test]
#[should_panic(expected = "no destabilizer 2 in a tableau of 2 qudits")]
fn no_destabilizer_past_the_last() {
    Tableau::zero(3, 2).expect("a tableau").destabilizer(2);
}

#[test]
#[should_panic(expected = "no stabilizer 2 in a tableau of 2 qudits")]
fn no_stabilizer_past_the_last() {
    Tableau::zero(3, 2).expect("a tableau").stabilizer(2);
}

/// The rows stand one below the other, also where the last name is longer.
#[test]
fn rows_are_aligned() {
    let text = Tableau::zero(3, 11).expect("a tableau").to_string();
    let lines = Vec::from_iter(text.lines());
    let some = [lines[0], lines[10], lines[11], lines[21]];
    let expected = [
        "destabilizer 0   X0",
        "destabilizer 10  X10",
        "stabilizer 0     Z0",
        "stabilizer 10    Z10",
    ];
    assert_eq!(some, expected);
}

// ---- Refusals

/// A number of qudits that no tableau has, also one whose bytes could not be counted.
#[test]
fn no_tableau_of_too_many_qudits() {
    for n in [0, 65, 1 << 40, usize::MAX] {
        assert_eq!(Tableau::zero(3, n), Err(Refusal::QuditCount), "{n}");
    }
}

#[test]
fn zero_tableaus() {
    for (d, n) in DIMENSIONS
        .into_iter()
        .flat_map(|d| (1..=MAX_QUDITS).map(move |n| (d, n)))
    {
        let tableau = Tableau::zero(d.into(), n.into()).expect("a tableau");
        assert!(tableau.as_bytes() == zero_tableau(d, n), "d {d} n {n}");
    }
    let refused = |d, n| Tableau::zero(d, n).expect_err("no such tableau");
    for d in [0, 1, 2, 4, 9, 37, 256 + 3, usize::MAX] {
        assert_eq!(refused(d, 2), Refusal::Dimension);
        assert_eq!(refused(d, usize::MAX), Refusal::Dimension);
    }
    for n in [0, 65, 256 + 1, usize::MAX] {
        assert_eq!(refused(3, n), Refusal::QuditCount);
    }
}

/// Bytes become a tableau exactly if they pass the test. No byte behind the needed ones is kept.
#[test]
fn tableaus_of_bytes() {
    let mut rng = Rng(7);
    let (mut valid, mut refused) = (0, 0);
    for (d, n) in DIMENSIONS
        .into_iter()
        .flat_map(|d| [(d, 1), (d, 2), (d, 9)])
    {
        let bytes = draw_tableau(&mut rng, d, n);
        let tail = rng.bytes(5);
        let long = Tableau::from_bytes(&[&bytes[..], &tail].concat()).expect("valid");
        assert_eq!(long.as_bytes(), bytes);
        for _ in 0..40 {
            let place = rng.below(bytes.len());
            let mut damaged = with_byte(&bytes, place, rng.byte_below(d + 3));
            damaged.truncate(bytes.len() - usize::from(rng.once_in(8)));
            let taken = Tableau::from_bytes(&damaged);
            assert_eq!(
                taken.as_ref().err(),
                cagvost::test_tableau(&damaged).err().as_ref()
            );
            valid += usize::from(taken.is_ok());
            refused += usize::from(taken.is_err());
            if let Ok(tableau) = taken {
                let needed = plain::tableau_len(damaged[1].into());
                assert_eq!(tableau.as_bytes(), &damaged[..needed]);
            }
        }
    }
    assert!(valid.min(refused) > 100, "{valid} valid, {refused} refused");
}

#[test]
fn refused_tableaus() {
    let bytes = zero_tableau(3, 2);
    let refused = |bytes: &[u8]| Tableau::from_bytes(bytes).expect_err("no tableau");
    assert_eq!(refused(&[]), Refusal::ShortBuffer);
    assert_eq!(refused(&bytes[..21]), Refusal::ShortBuffer);
    assert_eq!(refused(&with_byte(&bytes, 0, 9)), Refusal::Dimension);
    assert_eq!(refused(&with_byte(&bytes, 1, 0)), Refusal::QuditCount);
    assert_eq!(
        refused(&with_byte(&bytes, ROWS, 2)),
        Refusal::InvalidTableau
    );
    assert_eq!(refused(&with_byte(&bytes, 21, 3)), Refusal::InvalidTableau);
}

/// A book with one fault for each number that a book can be refused by.
fn refused_books() -> Vec<(Book, Refusal)> {
    let operation = |operation| Book::new(3, 2).operation(operation).clone();
    vec![
        (Book::new(9, 2), Refusal::Dimension),
        (Book::new(3, 65), Refusal::QuditCount),
        (counted(4097, 0, 4097), Refusal::Contents { entry: 0 }),
        (counted(0, 2049, 0), Refusal::Contents { entry: 1 }),
        (
            operation(Operation::Swap { c: 1, t: 1 }),
            Refusal::Operation { index: 0 },
        ),
        (
            Book::new(3, 2).error(0, 1, 1).error(2, 1, 0).clone(),
            Refusal::ErrorEntry { index: 1 },
        ),
        (
            operation(Operation::Measure { q: 1 }),
            Refusal::Choice { index: 0 },
        ),
        (
            operation(Operation::Reset { q: 1 }),
            Refusal::Choice { index: 0 },
        ),
        (
            Book::new(3, 2)
                .reset(0, 1)
                .correct(1, 0)
                .measure(0, 1)
                .clone(),
            Refusal::Operation { index: 1 },
        ),
    ]
}

/// A refused book is refused with whatever tableau, by the same number and place.
#[test]
fn no_simulation_of_a_refused_book() {
    for (book, refusal) in refused_books() {
        let zero = Tableau::zero(3, 2).expect("a tableau");
        assert_eq!(Simulation::new(&book).expect_err("refused"), refusal);
        let from_zero = Simulation::starting_from(&book, zero);
        assert_eq!(from_zero.expect_err("refused"), refusal);
    }
}

/// The rows of the zero tableau are the same in every dimension; still its own is wanted.
#[test]
fn a_tableau_of_another_d_or_n_starts_no_run() {
    let book = Book::new(5, 2).measure(0, 1).clone();
    for (d, n) in [(3, 2), (7, 2), (5, 1), (5, 3), (3, 64)] {
        let other = Tableau::zero(d, n).expect("a tableau");
        let refused = Simulation::starting_from(&book, other);
        assert_eq!(refused.expect_err("refused"), Refusal::InvalidTableau);
    }
    let own = Tableau::zero(5, 2).expect("a tableau");
    assert!(Simulation::starting_from(&book, own).is_ok());
}

/// No measurements, no errors and no operations.
#[test]
fn an_empty_book() {
    let simulation = Simulation::new(&Book::new(31, 64)).expect("an accepted book");
    let zero = Tableau::zero(31, 64).expect("a tableau");
    let (direct, carried) = (simulation.direct(), simulation.frame());
    assert_eq!((direct.outcomes, direct.tableau), (vec![], zero.clone()));
    assert_eq!((carried.outcomes, carried.tableau), (vec![], zero));
    assert_eq!(
        (carried.shifts, carried.verdict),
        (vec![0; 128], Verdict::Clean)
    );
    assert_eq!(carried.frame.to_string(), "1");
}
