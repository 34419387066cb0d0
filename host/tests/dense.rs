//! Both runs against a state vector: rows fix the state, marks and outcomes are its own, a frame
//! leads from the state without errors to the one with errors, and the verdict says whether these
//! are the same. A reset brings its qudit to level 0 there, and a correction lowers its target by the
//! reported result. A circuit and then its mirror give back the state vector. Where a run halts, looks
//! tell what the state vector has there.

use crate::common;

use cagvost::book::{Book, DIMENSIONS, Operation, WeylError};
use cagvost::{Look, Verdict};
use common::dense::{State, levels};
use common::trays::{draw_circuit, draw_errors};
use common::{ROWS, Rng, Shape, UNWRITTEN, Verdicts, paper_book, with_raised_choices, with_times};
use common::{cz, draw_book, draw_error, every_factor, sum, times, zero_tableau};
use common::{every_gate, operations_of};
use std::slice::Iter;

/// Rounding in a run of some dozens of gates stays far below, 1/d and a root's step far above.
const CLOSE: f64 = 1e-9;

/// The largest state vector.
const LEVELS: usize = 1000;

/// How many measurements were seen free, certain with an outcome other than 0, and reported by a
/// frame run with another result than without errors; how many resets free and from a certain level
/// other than 0, and how many corrections by a result other than 0; and the verdicts of frame runs.
#[derive(Default)]
struct Seen {
    free: usize,
    certain: usize,
    moved: usize,
    free_resets: usize,
    certain_resets: usize,
    corrections: usize,
    verdicts: Verdicts,
}

/// What a direct run left, and the state vector after the same book.
struct Followed {
    tableau: Vec<u8>,
    results: Vec<u8>,
    state: State,
}

/// Runs a book from the zero tableau and follows it on the state vector.
fn follow(book: &Book, seen: &mut Seen) -> Followed {
    let mut tableau = zero_tableau(book.dimension(), book.qudits());
    let mut results = vec![UNWRITTEN; cagvost::results_len(book.measurements())];
    cagvost::direct_run(&book.to_bytes(), &mut tableau, &mut results).expect("an accepted book");
    let state = replay(book, &results, seen);
    check_rows(&tableau, &state, book);
    Followed {
        tableau,
        results,
        state,
    }
}

/// What a frame run left.
struct Carried {
    tableau: Vec<u8>,
    results: Vec<u8>,
    shifts: Vec<u8>,
    frame: Vec<u8>,
    verdict: Verdict,
}

/// Carries the book's errors from the zero tableau.
fn carry(book: &Book) -> Carried {
    let n = usize::from(book.qudits());
    let mut tableau = zero_tableau(book.dimension(), book.qudits());
    let mut results = vec![UNWRITTEN; cagvost::results_len(book.measurements())];
    let mut shifts = vec![UNWRITTEN; cagvost::shifts_len(n)];
    let mut frame = vec![UNWRITTEN; cagvost::frame_len(n)];
    let bytes = book.to_bytes();
    let run = cagvost::frame_run(&bytes, &mut tableau, &mut results, &mut shifts, &mut frame)
        .expect("an accepted book");
    Carried {
        tableau,
        results,
        shifts,
        frame,
        verdict: run.verdict,
    }
}

/// Carries the book's errors as a frame, and applies them to the state vector, where the choices are
/// raised: the reported results are those there, the shifted rows fix it, and the frame makes it of
/// the state without errors.
fn follow_frame(book: &Book, seen: &mut Seen) -> Carried {
    let carried = carry(book);
    let raised = with_raised_choices(book);
    let state = replay(&raised, &carried.results, &mut Seen::default());
    check_rows(&carried.tableau, &state, book);
    let clean = follow(&book.without_errors(), &mut Seen::default());
    check_shifts(&carried, &clean.tableau, book);
    let framed = check_frame(&carried, &clean, book);
    assert!(
        (framed.overlap(&state) - 1.0).abs() < CLOSE,
        "the frame of {book:?} leads to another state"
    );
    check_verdict(carried.verdict, clean.state.overlap(&state), book);
    let pairs = carried.results.iter().zip(&clean.results);
    seen.moved += pairs.filter(|(reported, clean)| reported != clean).count();
    let is_clean = carried.verdict == Verdict::Clean;
    seen.verdicts.count(is_clean, &carried.shifts);
    carried
}

/// Clean exactly if the state with errors is the one without. States whose stabilizers differ in
/// phases alone are the same or have the overlap 0.
fn check_verdict(verdict: Verdict, overlap: f64, book: &Book) {
    let expected = match verdict {
        Verdict::Clean => 1.0,
        Verdict::Shifted => 0.0,
    };
    assert!(
        (overlap - expected).abs() < CLOSE,
        "{verdict:?}, but the overlap is {overlap}: {book:?}"
    );
}

/// Destabilizers fix no state, but a row and then the frame must do the same as the frame and then
/// the shifted row. Returns what the frame makes of the state without errors.
fn check_frame(carried: &Carried, clean: &Followed, book: &Book) -> State {
    let n = usize::from(book.qudits());
    let frame = [&carried.frame[..], &[0]].concat();
    let framed = after(&clean.state, &frame);
    let shifted = carried.tableau[ROWS..].chunks(2 * n + 1);
    let rows = clean.tableau[ROWS..].chunks(2 * n + 1).zip(shifted);
    for (i, (row, shifted)) in rows.take(n).enumerate() {
        let moved = after(&after(&clean.state, row), &frame);
        assert!(
            moved.distance(&after(&framed, shifted)) < CLOSE,
            "the shift of destabilizer {i} of {book:?}"
        );
    }
    framed
}

/// The state after a row.
fn after(state: &State, row: &[u8]) -> State {
    let mut moved = state.clone();
    moved.apply_row(row);
    moved
}

/// The tableau is valid, and its stabilizers fix the state.
fn check_rows(tableau: &[u8], state: &State, book: &Book) {
    let n = usize::from(book.qudits());
    assert_eq!(cagvost::test_tableau(tableau), Ok(()), "{book:?}");
    for (i, row) in tableau[ROWS..].chunks(2 * n + 1).skip(n).enumerate() {
        assert!(
            after(state, row).distance(state) < CLOSE,
            "stabilizer {i} of {book:?} does not fix the state"
        );
    }
}

/// Each row is that of the run without errors, its phase raised by its shift; the verdict says
/// whether a stabilizer is shifted.
fn check_shifts(carried: &Carried, clean: &[u8], book: &Book) {
    let (d, n) = (book.dimension(), usize::from(book.qudits()));
    let below_d = |bytes: &[u8]| bytes.iter().all(|&x| x < d);
    assert!(below_d(&carried.shifts), "shifts of {book:?}");
    assert!(below_d(&carried.frame), "frame of {book:?}");
    let mut expected = clean.to_vec();
    let rows = expected[ROWS..].chunks_mut(2 * n + 1);
    for (row, shift) in rows.zip(&carried.shifts) {
        row[2 * n] = (row[2 * n] + shift) % d;
    }
    assert_eq!(carried.tableau, expected, "{book:?}");
    let shifted = carried.shifts[n..].iter().any(|&shift| shift != 0);
    assert_eq!(carried.verdict == Verdict::Shifted, shifted, "{book:?}");
}

/// The state after the book, each measurement checked with the result that the run gave.
fn replay(book: &Book, results: &[u8], seen: &mut Seen) -> State {
    let mut replay = Replay::new(book);
    for k in 0..=book.operations().len() {
        replay.stage(k, results, seen);
    }
    replay.state
}

/// A book on the state vector, as far as it has come.
struct Replay<'a> {
    book: &'a Book,
    state: State,
    choices: Iter<'a, u8>,
    measured: usize,
}

impl<'a> Replay<'a> {
    fn new(book: &'a Book) -> Replay<'a> {
        Replay {
            book,
            state: State::zero(book.dimension().into(), book.qudits().into()),
            choices: book.choices().iter(),
            measured: 0,
        }
    }

    /// The errors of place k, and operation k if there is one.
    fn stage(&mut self, k: usize, results: &[u8], seen: &mut Seen) {
        let errors = self.book.errors().iter();
        for &error in errors.filter(|e| usize::from(e.place) == k) {
            self.state.apply_error(error);
        }
        if let Some(&operation) = self.book.operations().get(k) {
            self.operation(operation, results, seen);
        }
    }

    /// A correction is by the result that the run gave, and a reset by the outcome that the state has.
    fn operation(&mut self, operation: Operation, results: &[u8], seen: &mut Seen) {
        match operation {
            Operation::Measure { q } => {
                let look = look(&self.state, q, self.book);
                let expected = look.unwrap_or([self.choice(), 1]);
                let result = &results[2 * self.measured..2 * self.measured + 2];
                assert_eq!(result, expected, "{:?}", self.book);
                seen.free += usize::from(result[1] == 1);
                seen.certain += usize::from(result[1] == 0 && result[0] != 0);
                self.state.collapse(q, result[0].into());
                self.measured += 1;
            }
            Operation::Reset { q } => {
                let look = look(&self.state, q, self.book);
                let [outcome, _] = look.unwrap_or([self.choice(), 1]);
                seen.free_resets += usize::from(look.is_none());
                seen.certain_resets += usize::from(look.is_some() && outcome != 0);
                self.state.reset(q, outcome);
            }
            Operation::Correct { t, m } => {
                let result = results[2 * usize::from(m)];
                seen.corrections += usize::from(result != 0);
                self.state.lower(t, result);
            }
            gate => self.state.gate(gate),
        }
    }

    /// The next choice. Each measurement and each reset takes one, also if it has no use for it.
    fn choice(&mut self) -> u8 {
        *self.choices.next().expect("a choice")
    }
}

/// The level that a measurement is certain of, with the mark for it, or nothing if it is free: then
/// all outcomes are alike.
fn look(state: &State, q: u8, book: &Book) -> Option<[u8; 2]> {
    let probabilities = state.probabilities(q);
    let near = |x: f64, y: f64| (x - y).abs() < CLOSE;
    let certain = probabilities.iter().position(|&p| near(p, 1.0));
    let each = 1.0 / probabilities.len() as f64;
    let alike = probabilities.iter().all(|&p| near(p, each));
    assert!(certain.is_some() || alike, "{book:?}");
    certain.map(|level| [level as u8, 0])
}

/// Every number of qudits whose state vector is small enough.
fn small_sizes(d: u8) -> impl Iterator<Item = u8> {
    (1..).take_while(move |&n| usize::from(d).pow(n.into()) <= LEVELS)
}

fn follow_drawn_circuits(d: u8) {
    let mut rng = Rng(u64::from(d));
    let mut seen = Seen::default();
    for n in small_sizes(d) {
        for _ in 0..600 {
            let shape = Shape {
                d,
                n,
                operations: rng.below(50),
                errors: rng.below(12),
                measure_one_in: 2 + rng.below(8),
            };
            let book = draw_book(&mut rng, shape);
            follow(&book, &mut seen);
            follow_frame(&book, &mut seen);
        }
    }
    let results = [seen.free, seen.certain, seen.moved];
    assert!(results.iter().all(|&count| count > 100), "{results:?}");
    let reused = [seen.free_resets, seen.certain_resets, seen.corrections];
    assert!(reused.iter().all(|&count| count > 100), "{reused:?}");
    seen.verdicts.are_enough(5);
}

/// How many looks were free, and certain of a level other than 0.
#[derive(Default)]
struct Told {
    free: usize,
    certain: usize,
}

/// A look at each qudit tells what the state has, and the stabilizers fix the state.
fn check_looks(tableau: &[u8], state: &State, book: &Book, told: &mut Told) {
    check_rows(tableau, state, book);
    for q in 0..book.qudits() {
        let expected = match look(state, q, book) {
            None => Look::Free,
            Some([level, _]) => Look::Certain(level),
        };
        let looked = cagvost::look(tableau, q.into());
        assert_eq!(looked, Ok(expected), "qudit {q} of {book:?}");
        told.free += usize::from(expected == Look::Free);
        told.certain += usize::from(!matches!(expected, Look::Free | Look::Certain(0)));
    }
}

/// Halts a direct run from the zero tableau at each number. The state vector has come as far: without
/// the errors before the next operation.
fn follow_halts(book: &Book, told: &mut Told) {
    let (bytes, mut replay) = (book.to_bytes(), Replay::new(book));
    let mut tableau = zero_tableau(book.dimension(), book.qudits());
    let mut results = vec![UNWRITTEN; cagvost::results_len(book.measurements())];
    check_looks(&tableau, &replay.state, book, told);
    for k in 0..=book.operations().len() {
        let run = cagvost::go_on(&bytes, &mut tableau, &mut results, k, 1);
        assert_eq!(run.map(|run| run.next), Ok(k + 1));
        replay.stage(k, &results, &mut Seen::default());
        check_looks(&tableau, &replay.state, book, told);
    }
}

#[test]
fn looks_at_every_halt() {
    let mut rng = Rng(9);
    let mut told = Told::default();
    for (d, n) in DIMENSIONS
        .into_iter()
        .flat_map(|d| small_sizes(d).map(move |n| (d, n)))
    {
        for _ in 0..20 {
            let shape = Shape {
                d,
                n,
                operations: rng.below(25),
                errors: rng.below(25),
                measure_one_in: 2 + rng.below(4),
            };
            follow_halts(&draw_book(&mut rng, shape), &mut told);
        }
    }
    let told = [told.free, told.certain];
    assert!(told.iter().all(|&count| count > 500), "{told:?}");
}

/// A test for each dimension, so that they run side by side.
macro_rules! drawn_circuits {
    ($($name:ident: $d:literal,)*) => {
        $(#[test] fn $name() { follow_drawn_circuits($d); })*
        #[test]
        fn every_dimension_is_followed() { assert_eq!(DIMENSIONS, [$($d),*]); }
    };
}

drawn_circuits! {
    drawn_circuits_3: 3,
    drawn_circuits_5: 5,
    drawn_circuits_7: 7,
    drawn_circuits_11: 11,
    drawn_circuits_13: 13,
    drawn_circuits_17: 17,
    drawn_circuits_19: 19,
    drawn_circuits_23: 23,
    drawn_circuits_29: 29,
    drawn_circuits_31: 31,
}

/// Each circuit of `length` entries, given the operations to put at each place; the choice of a
/// measurement or a reset is drawn. Circuits where a correction has no result are left out.
fn every_circuit(d: u8, n: u8, alphabet: &[Operation], length: u32) -> impl Iterator<Item = Book> {
    let mut rng = Rng(7);
    (0..alphabet.len().pow(length)).filter_map(move |code| {
        let mut book = Book::new(d, n);
        for i in 0..length {
            let operation = alphabet[code / alphabet.len().pow(i) % alphabet.len()];
            match operation {
                Operation::Measure { .. } | Operation::Reset { .. } => {
                    book.operation(operation).choice(rng.byte_below(d));
                }
                Operation::Correct { m, .. } if usize::from(m) >= book.measurements() => {
                    return None;
                }
                _ => _ = book.operation(operation),
            }
        }
        Some(book)
    })
}

/// Each circuit with one drawn error by both runs; without it, it is followed beside the frame run.
fn follow_every_circuit(d: u8, n: u8, alphabet: &[Operation], length: u32) {
    let mut rng = Rng(8);
    let mut seen = Seen::default();
    for mut book in every_circuit(d, n, alphabet, length) {
        let place = rng.below(book.operations().len() + 1);
        book.error_at(draw_error(&mut rng, d, n, place));
        follow(&book, &mut seen);
        follow_frame(&book, &mut seen);
    }
    seen.verdicts.are_enough(500);
}

/// Each circuit with every single error.
fn follow_every_error(d: u8, n: u8, alphabet: &[Operation], length: u32) {
    let mut seen = Seen::default();
    for book in every_circuit(d, n, alphabet, length) {
        for error in every_error(d, n, length as usize) {
            let mut noisy = book.clone();
            noisy.error_at(error);
            follow_frame(&noisy, &mut seen);
        }
    }
    seen.verdicts.are_enough(2000);
}

/// Every power on every qudit at every place of so many operations.
fn every_error(d: u8, n: u8, operations: usize) -> impl Iterator<Item = WeylError> {
    let (d, n) = (usize::from(d), usize::from(n));
    (0..(operations + 1) * n * d * d).map(move |code| WeylError {
        place: (code / (n * d * d)) as u16,
        qudit: (code / (d * d) % n) as u8,
        p: (code / d % d) as u8,
        s: (code % d) as u8,
    })
}

/// The longest kind of misstep, a phase lost in a gate, needs `F P F P F M` to show.
#[test]
fn every_short_circuit_on_one_qudit() {
    let alphabet = [
        Operation::Fourier { q: 0, times: 1 },
        Operation::PhaseGate { q: 0, times: 1 },
        Operation::Multiplier { q: 0, u: 2 },
        Operation::Measure { q: 0 },
    ];
    for d in [3, 5] {
        follow_every_circuit(d, 1, &alphabet, 6);
        follow_every_error(d, 1, &alphabet, 4);
    }
}

#[test]
fn every_short_circuit_on_two_qutrits() {
    let alphabet = [
        Operation::Fourier { q: 0, times: 1 },
        Operation::Fourier { q: 1, times: 1 },
        Operation::PhaseGate { q: 1, times: 1 },
        sum(0, 1),
        cz(1, 0),
        Operation::Swap { c: 0, t: 1 },
        Operation::Measure { q: 0 },
        Operation::Measure { q: 1 },
    ];
    follow_every_circuit(3, 2, &alphabet, 4);
    follow_every_error(3, 2, &alphabet, 3);
}

/// Resets and corrections among the gates that make them free and certain: of the first result, and
/// of the second, by which a slip in the counting shows.
#[test]
fn every_short_circuit_with_resets_and_corrections_on_one_qudit() {
    let alphabet = [
        Operation::Fourier { q: 0, times: 1 },
        Operation::PhaseGate { q: 0, times: 1 },
        Operation::Measure { q: 0 },
        Operation::Reset { q: 0 },
        Operation::Correct { t: 0, m: 0 },
        Operation::Correct { t: 0, m: 1 },
    ];
    for d in [3, 5] {
        follow_every_circuit(d, 1, &alphabet, 5);
        follow_every_error(d, 1, &alphabet, 4);
    }
}

/// A reset of one of two entangled qudits moves the other, and a result of one corrects the other.
#[test]
fn every_short_circuit_with_resets_and_corrections_on_two_qutrits() {
    let alphabet = [
        Operation::Fourier { q: 0, times: 1 },
        Operation::Fourier { q: 1, times: 1 },
        sum(0, 1),
        Operation::Measure { q: 0 },
        Operation::Measure { q: 1 },
        Operation::Reset { q: 0 },
        Operation::Reset { q: 1 },
        Operation::Correct { t: 0, m: 0 },
        Operation::Correct { t: 1, m: 0 },
    ];
    follow_every_circuit(3, 2, &alphabet, 4);
    follow_every_error(3, 2, &alphabet, 3);
}

/// Every error on an entangled pair, before, between and after the measurements.
#[test]
fn every_error_at_every_place() {
    let mut seen = Seen::default();
    for (d, error) in [3, 5]
        .into_iter()
        .flat_map(|d| every_error(d, 2, 6).map(move |error| (d, error)))
    {
        let mut book = Book::new(d, 2);
        book.operation(Operation::Fourier { q: 0, times: 1 })
            .operation(Operation::PhaseGate { q: 0, times: 1 })
            .operation(sum(0, 1))
            .measure(1, 1)
            .measure(0, 2)
            .measure(1, 0)
            .error_at(error);
        follow(&book, &mut seen);
        follow_frame(&book, &mut seen);
    }
    seen.verdicts.are_enough(50);
}

/// Multipliers among gates and measurements on one qudit, and after one another.
#[test]
fn every_short_circuit_with_every_multiplier() {
    for d in [3, 5, 7] {
        let mut alphabet = vec![
            Operation::Fourier { q: 0, times: 1 },
            Operation::PhaseGate { q: 0, times: 1 },
            Operation::Measure { q: 0 },
        ];
        alphabet.extend((1..d).map(|u| Operation::Multiplier { q: 0, u }));
        follow_every_circuit(d, 1, &alphabet, 5);
    }
}

#[test]
fn every_short_circuit_with_every_power() {
    let q = 0;
    for d in [3, 5] {
        let mut alphabet = vec![Operation::Measure { q }];
        alphabet.extend((1..4).map(|times| Operation::Fourier { q, times }));
        alphabet.extend((1..d).map(|times| Operation::PhaseGate { q, times }));
        follow_every_circuit(d, 1, &alphabet, 5);
    }
}

#[test]
fn every_short_circuit_of_powers_on_two_qutrits() {
    let alphabet = [
        Operation::Fourier { q: 0, times: 1 },
        Operation::Fourier { q: 0, times: 2 },
        Operation::Fourier { q: 1, times: 3 },
        Operation::PhaseGate { q: 1, times: 2 },
        with_times(sum(0, 1), 2),
        with_times(cz(1, 0), 2),
        Operation::Measure { q: 0 },
        Operation::Measure { q: 1 },
    ];
    follow_every_circuit(3, 2, &alphabet, 5);
}

/// Follows the book of every multiplier, which is on qudit 0. It has each single error in turn,
/// and above d = 7, where state vectors are long, one on qudit 0 before the multiplier.
fn follow_every_multiplier(book: impl Fn(u8, u8) -> Book) {
    let mut rng = Rng(9);
    let mut seen = Seen::default();
    for (d, u) in every_factor() {
        let book = book(d, u);
        let multiplier = Operation::Multiplier { q: 0, u };
        let place = book.operations().iter().position(|&o| o == multiplier);
        let before = WeylError {
            place: place.expect("a multiplier") as u16,
            qudit: 0,
            p: 1 + rng.byte_below(d - 1),
            s: 1 + rng.byte_below(d - 1),
        };
        let errors = every_error(d, book.qudits(), book.operations().len());
        for error in errors.filter(|&error| d <= 7 || error == before) {
            let mut noisy = book.clone();
            noisy.error_at(error);
            follow(&noisy, &mut seen);
            follow_frame(&noisy, &mut seen);
        }
    }
    seen.verdicts.are_enough(500);
}

/// A pair at the levels j and j, with phases, goes to u·j and j: where the first is measured as 1,
/// the second is certainly the inverse of u. The pivot of the first has the X power −u.
#[test]
fn every_multiplier_on_a_pair_of_like_levels() {
    follow_every_multiplier(|d, u| {
        let mut book = Book::new(d, 2);
        book.operation(Operation::Fourier { q: 0, times: 1 })
            .operation(Operation::PhaseGate { q: 0, times: 1 })
            .operation(sum(0, 1))
            .operation(Operation::Multiplier { q: 0, u })
            .measure(0, 1)
            .measure(1, 0);
        let results = follow(&book, &mut Seen::default()).results;
        assert_eq!([results[0], results[1], results[3]], [1, 1, 0]);
        assert_eq!(times(d, u, results[2]), 1);
        book
    });
}

/// After the multiplier, Fourier makes X powers of Z powers: that of the frame then moves the
/// result, and two stabilizers have 1/u and 2/u on the measured qudit, so that a power of the first
/// changes the second. The multiplier again sends the measured level m to u·m.
#[test]
fn every_multiplier_before_and_after_a_measurement() {
    follow_every_multiplier(|d, u| {
        let m = d - 1;
        let mut book = Book::new(d, 2);
        book.operation(Operation::Fourier { q: 0, times: 1 })
            .operation(Operation::Fourier { q: 1, times: 1 })
            .operation(Operation::PhaseGate { q: 0, times: 1 })
            .operation(cz(0, 1))
            .operation(cz(0, 1))
            .operation(Operation::Multiplier { q: 0, u })
            .operation(Operation::Fourier { q: 0, times: 1 })
            .measure(0, m)
            .operation(Operation::Multiplier { q: 0, u })
            .measure(0, 0);
        let results = follow(&book, &mut Seen::default()).results;
        assert_eq!(results, [m, 1, times(d, u, m), 0]);
        book
    });
}

// ---- Mirrors

/// The operations of a book and then those of its mirror as one book, with the errors of the first.
fn there_and_back(book: &Book) -> Book {
    let mut mirror = vec![UNWRITTEN; cagvost::mirror_len(book.operations().len())];
    let written = cagvost::mirror(&book.to_bytes(), &mut mirror);
    assert_eq!(written, Ok(mirror.len()), "{book:?}");
    let mut joined = book.clone();
    for operation in operations_of(&mirror) {
        joined.operation(operation);
    }
    joined
}

/// The gates of a circuit on a state.
fn apply_gates(book: &Book, mut state: State) -> State {
    book.operations().iter().for_each(|&gate| state.gate(gate));
    state
}

/// Every size with d 3 or 5.
fn mirrored_sizes() -> impl Iterator<Item = (u8, u8)> {
    [3, 5]
        .into_iter()
        .flat_map(|d| small_sizes(d).map(move |n| (d, n)))
}

/// The state has the same amplitudes, so that not even its phase is lost.
#[test]
fn a_circuit_and_its_mirror_give_back_the_state() {
    let mut rng = Rng(10);
    for (d, n) in mirrored_sizes().flat_map(|size| [size; 60]) {
        let (before, gates) = (draw_circuit(&mut rng, d, n, 30, 0), rng.below(50));
        let state = apply_gates(&before, State::zero(d.into(), n.into()));
        let book = draw_circuit(&mut rng, d, n, gates, 0);
        let back = apply_gates(&there_and_back(&book), state.clone());
        assert!(back.distance(&state) < CLOSE, "{book:?}");
    }
}

/// What is as it was on every level is as it was on every state.
#[test]
fn every_gate_and_its_mirror_give_back_every_level() {
    for (d, n) in [(3, 1), (5, 1), (3, 2), (5, 2)] {
        for gate in every_gate(d, &Vec::from_iter(0..n)) {
            let book = there_and_back(Book::new(d, n).operation(gate));
            for level in levels(d, n) {
                let back = apply_gates(&book, level.clone());
                assert!(back.distance(&level) < CLOSE, "d {d} n {n} {gate:?}");
            }
        }
    }
}

/// The frame of both circuits makes of the first state what the errors leave in the end.
#[test]
fn errors_before_the_mirror_come_out_as_one_frame() {
    let mut rng = Rng(11);
    let mut seen = Seen::default();
    for (d, n) in mirrored_sizes().flat_map(|size| [size; 40]) {
        let (gates, errors) = (rng.below(40), rng.below(8));
        let mut book = draw_circuit(&mut rng, d, n, gates, 0);
        for error in draw_errors(&mut rng, &book, errors) {
            book.error_at(error);
        }
        let book = there_and_back(&book);
        let carried = follow_frame(&book, &mut seen);
        let frame = [&carried.frame[..], &[0]].concat();
        let first = State::zero(d.into(), n.into());
        let last = replay(&book, &[], &mut Seen::default());
        let overlap = after(&first, &frame).overlap(&last);
        assert!((overlap - 1.0).abs() < CLOSE, "{book:?}");
    }
    seen.verdicts.are_enough(10);
}

// ---- Cases

/// The specification's cases without a star that a state vector can hold, by both runs: the listing
/// of the 45-byte book but for its words, and the book without operations and errors.
#[test]
fn cases_without_a_star() {
    let mut seen = Seen::default();
    let paper = paper_book();
    follow(&paper, &mut seen);
    let carried = follow_frame(&paper, &mut seen);
    assert_eq!(carried.results, [2, 1, 0, 0]);
    assert_eq!(carried.shifts, [0, 0, 0, 2]);
    assert_eq!(carried.verdict, Verdict::Shifted);
    for (d, n) in DIMENSIONS
        .into_iter()
        .flat_map(|d| small_sizes(d).map(move |n| (d, n)))
    {
        let empty = Book::new(d, n);
        assert_eq!(follow(&empty, &mut seen).tableau, zero_tableau(d, n));
        let carried = follow_frame(&empty, &mut seen);
        assert_eq!(carried.tableau, zero_tableau(d, n));
        assert_eq!(carried.shifts, vec![0; 2 * usize::from(n)]);
        assert_eq!(carried.verdict, Verdict::Clean);
    }
}
