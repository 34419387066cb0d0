//! The direct run that halts and goes on.
//!
//! `go_on_both` and `look_both` compare every number and byte with the plain reference, and what must
//! not be written with what was there before. What the numbers and bytes must be is said here once
//! more.

use crate::common;

use cagvost::Refusal;
use cagvost::book::{Book, DIMENSIONS, MAX_OPERATIONS, MAX_QUDITS, Operation};
use common::frames::{Buffers, carry_both};
use common::halts::{Halted, finish_in_calls, go_on_both, look_all, reached};
use common::{FULL, PAPER_BOOK, ROWS, Rng, Shape, UNWRITTEN, named, run_both, with_byte};
use common::{draw_book, draw_book_of, draw_error, draw_tableau, plain, with_raised_choices};
use common::{with_tail, zero_tableau};
use std::thread;

fn fourier(q: u8) -> Operation {
    Operation::Fourier { q, times: 1 }
}

/// A run from the zero tableau that has not begun. Its results are unwritten.
fn begin(book: &Book) -> Halted {
    let results = vec![UNWRITTEN; cagvost::results_len(book.measurements())];
    Halted::new(&zero_tableau(book.dimension(), book.qudits()), &results)
}

// ---- By hand

/// d = 5, one qudit that is struck before, between and after two measurements, by X, X^2 and X^4: it
/// goes from level 0 to 1, 3 and 7, that is 2. The phase of the stabilizer Z is minus the level.
fn struck_at_each_place() -> Book {
    let mut book = Book::new(5, 1);
    book.error(0, 1, 0)
        .measure(0, 4)
        .error(0, 2, 0)
        .measure(0, 4)
        .error(0, 4, 0);
    book
}

fn at_level(level: u8) -> Vec<u8> {
    named(5, 1, &[1, 0, 0, 0, 1, (5 - level) % 5])
}

/// What stands at each number: errors of the next place are not yet applied, and those of the last
/// place only in a finished run.
#[test]
fn each_number_by_hand() {
    let book = struck_at_each_place();
    let bytes = book.to_bytes();
    let expected: [(u8, &[u8]); 4] = [
        (0, &[255, 255, 255, 255]),
        (1, &[1, 0, 255, 255]),
        (3, &[1, 0, 3, 0]),
        (2, &[1, 0, 3, 0]),
    ];
    let mut singly = begin(&book);
    for (number, (level, results)) in expected.into_iter().enumerate() {
        let left = Halted {
            numbers: (0, 2, number),
            tableau: at_level(level),
            results: results.to_vec(),
        };
        let at_once = begin(&book).go_on(&bytes, number);
        assert_eq!(at_once, left, "in a single call to {number}");
        if number > 0 {
            singly = singly.go_on(&bytes, 1);
            assert_eq!(singly, left, "by single operations to {number}");
        }
    }
    // From the finish nothing is done, for whatever count.
    for count in [0, 1, 2, usize::MAX] {
        assert_eq!(singly.go_on(&bytes, count), singly);
    }
}

/// d = 5, four qudits in an even superposition, so that each outcome is free and is its choice. The
/// choices are counted over measurements and resets, the results over measurements alone.
#[test]
fn choices_and_results_by_hand() {
    let mut book = Book::new(5, 4);
    (0..4).for_each(|q| _ = book.operation(fourier(q)));
    book.reset(0, 1).measure(1, 2).reset(2, 3).measure(3, 4);
    let bytes = book.to_bytes();
    let expected = [
        (5, [255, 255, 255, 255]),
        (6, [2, 1, 255, 255]),
        (7, [2, 1, 255, 255]),
        (8, [2, 1, 4, 1]),
    ];
    let mut run = begin(&book).go_on(&bytes, 4);
    for (number, results) in expected {
        run = run.go_on(&bytes, 1);
        assert_eq!((run.next(), &run.results[..]), (number, &results[..]));
    }
    // What was given before is not given again, whatever is lent.
    let lent = begin(&book).go_on(&bytes, 7);
    let left = go_on_both(&bytes, &lent.tableau, &[9, 8, 7, 6], 7, 1);
    assert_eq!(left.results, [9, 8, 4, 1]);
    let left = go_on_both(&bytes, &lent.tableau, &[9, 8, 7, 6], 8, 1);
    assert_eq!(left.results, [9, 8, 7, 6]);
}

/// A qudit at level 0 is corrected by whatever stands in the buffer: minus that, modulo d. Neither the
/// mark nor the result of another measurement counts, and none of them is written.
#[test]
fn corrections_read_the_lent_results_modulo_d() {
    for d in DIMENSIONS {
        let mut book = Book::new(d, 2);
        book.measure(0, 0).measure(0, 0).correct(1, 1).measure(1, 0);
        let bytes = book.to_bytes();
        let halted = begin(&book).go_on(&bytes, 2);
        assert_eq!(halted.results, [0, 0, 0, 0, 255, 255]);
        for value in 0..=255 {
            let lent = [200, 1, value, 77, 255, 255];
            for (count, next) in [(2, 4), (usize::MAX, 5)] {
                let left = go_on_both(&bytes, &halted.tableau, &lent, 2, count);
                assert_eq!(left.numbers, (0, 3, next));
                let level = (d - value % d) % d;
                assert_eq!(left.results, [200, 1, value, 77, level, 0], "d {d}");
            }
        }
    }
}

/// The number of a measurement has two bytes: 299 and 43 have the same low one.
#[test]
fn corrections_by_late_results_after_a_halt() {
    for (m, expected) in [(299, 2), (43, 4), (0, 0)] {
        let mut book = Book::new(5, 2);
        (0..300).for_each(|_| _ = book.measure(0, 0));
        book.correct(1, m).measure(1, 0);
        let bytes = book.to_bytes();
        let mut halted = begin(&book).go_on(&bytes, 300);
        halted.results[2 * 299] = 253; // 3 modulo 5
        halted.results[2 * 43] = 31; // 1 modulo 5
        let left = halted.go_on(&bytes, 2);
        assert_eq!(left.results[600..], [expected, 0], "by {m}");
    }
}

#[test]
fn numbers_at_the_edges() {
    let mut book = Book::new(3, 1);
    book.operation(fourier(0)).measure(0, 2);
    let (bytes, start) = (book.to_bytes(), zero_tableau(3, 1));
    let numbers = |from, count| go_on_both(&bytes, &start, &[7; 2], from, count).numbers;
    let most = usize::MAX;
    for (from, count, next) in [
        (0, 0, 0),
        (0, 2, 2),
        (0, 3, 3),
        (0, most, 3),
        (1, most - 1, 3),
        (1, most, 3),
        (2, 0, 2),
        (2, 1, 3),
        (2, most - 1, 3),
        (2, most, 3),
        (3, 0, 3),
        (3, 1, 3),
        (3, most - 2, 3),
        (3, most, 3),
    ] {
        assert_eq!(numbers(from, count), (0, 1, next), "from {from}, {count}");
    }
    // Neither is cut to a byte, to two or to four.
    for from in [4, 5, 256, 257, 1 << 16, (1 << 32) + 1, most - 1, most] {
        for count in [0, 1, 2, most - from, most] {
            assert_eq!(numbers(from, count), (13, 0, 0), "from {from}, {count}");
        }
    }
    for count in [256, 1 << 16, 1 << 32] {
        assert_eq!(numbers(0, count), (0, 1, 3), "{count}");
    }
    let refused = cagvost::go_on(&bytes, &mut start.clone(), &mut [7; 2], 4, 0);
    assert_eq!(refused, Err(Refusal::PastTheFinish));
}

/// A book without operations has one place for errors: number 0 is before it, and 1 is the finish.
#[test]
fn a_book_without_operations() {
    let mut book = Book::new(5, 1);
    book.error(0, 3, 0);
    let bytes = book.to_bytes();
    for (from, count, next, level) in [(0, 0, 0, 0), (0, 1, 1, 3), (0, 9, 1, 3), (1, 1, 1, 0)] {
        let left = go_on_both(&bytes, &at_level(0), &[], from, count);
        assert_eq!(left.numbers, (0, 0, next));
        assert_eq!(left.tableau, at_level(level), "from {from}, {count}");
    }
    let left = go_on_both(&bytes, &at_level(0), &[], 2, 0);
    assert_eq!(left.numbers, (13, 0, 0));
}

/// As many operations as a book may have.
#[test]
fn the_numbers_of_a_full_book() {
    let bytes = draw_book(&mut Rng(1), FULL).to_bytes();
    let room = vec![UNWRITTEN; 2 * MAX_OPERATIONS];
    let start = zero_tableau(FULL.d, FULL.n);
    let numbers = |from, count| {
        let (mut tableau, mut results) = (start.clone(), room.clone());
        let run = cagvost::go_on(&bytes, &mut tableau, &mut results, from, count);
        run.map(|run| run.next)
    };
    assert_eq!(numbers(0, 4095), Ok(4095));
    assert_eq!(numbers(0, 4096), Ok(4096));
    assert_eq!(numbers(0, 4097), Ok(4097));
    assert_eq!(numbers(4096, 0), Ok(4096));
    assert_eq!(numbers(4096, 1), Ok(4097));
    assert_eq!(numbers(4097, 1), Ok(4097));
    assert_eq!(numbers(4098, 1), Err(Refusal::PastTheFinish));
}

// ---- Splits

/// A drawn book with an error or two at each place: before, between and after its operations.
fn struck(rng: &mut Rng, d: u8, n: u8, operations: usize) -> Book {
    let shape = Shape {
        d,
        n,
        operations,
        errors: 0,
        measure_one_in: 2,
    };
    let reuses = rng.once_in(2);
    let mut book = draw_book_of(rng, shape, reuses);
    for place in 0..=operations {
        for _ in 0..1 + rng.below(2) {
            book.error_at(draw_error(rng, d, n, place));
        }
    }
    book
}

/// All splits into two and into three calls, with looks between them: byte for byte what the single
/// call leaves that reaches the same number, and in the end what the whole run leaves.
fn every_split(rng: &mut Rng, book: &Book) {
    let (bytes, operations) = (book.to_bytes(), book.operations().len());
    let tableau = draw_tableau(rng, book.dimension(), book.qudits());
    let results = rng.bytes(2 * book.measurements());
    let begin = Halted::new(&with_tail(rng, tableau), &with_tail(rng, results));
    let whole = run_both(&bytes, &begin.tableau, &begin.results);
    let end = operations + 1;
    let whole = Halted {
        numbers: (whole.returned.0, whole.returned.1, end),
        tableau: whole.tableau,
        results: whole.results,
    };
    let single: Vec<Halted> = (0..=end).map(|count| begin.go_on(&bytes, count)).collect();
    assert_eq!(single[end], whole);
    for (one, first) in single.iter().enumerate() {
        assert_eq!(first.numbers, (0, book.measurements(), one));
        look_all(&first.tableau);
        for two in 0..=end + 1 {
            let second = first.go_on(&bytes, two);
            assert_eq!(
                second,
                single[end.min(one + two)],
                "{one} and {two}: {book}"
            );
            assert_eq!(
                second.go_on(&bytes, usize::MAX),
                whole,
                "{one}, {two}: {book}"
            );
        }
    }
}

#[test]
fn every_split_of_a_short_book_is_the_whole_run() {
    let mut rng = Rng(9);
    for (d, n) in [(3, 1), (3, 2), (5, 3), (31, 2)] {
        for operations in [0, 1, 2, 3, 5, 8] {
            for _ in 0..6 {
                let book = struck(&mut rng, d, n, operations);
                every_split(&mut rng, &book);
            }
        }
    }
}

/// One of each operation, in this order and in the other.
#[test]
fn every_split_with_resets_and_corrections() {
    let mut rng = Rng(10);
    for d in DIMENSIONS {
        let mut book = Book::new(d, 3);
        book.operation(fourier(0))
            .error(0, 1, 1)
            .operation(common::sum(0, 1))
            .reset(1, d - 1)
            .error(2, 2, 0)
            .measure(0, 1)
            .error(0, 1, 2)
            .correct(2, 0)
            .measure(2, 1)
            .correct(1, 1)
            .reset(0, 2)
            .operation(fourier(1))
            .measure(1, 2)
            .correct(0, 2)
            .error(1, 2, 1);
        every_split(&mut rng, &book);
    }
}

// ---- Drawn calls

fn draw_shape(rng: &mut Rng, d: u8, n: u8, most: usize) -> Shape {
    Shape {
        d,
        n,
        operations: rng.below(most),
        errors: rng.below(most),
        measure_one_in: 2 + rng.below(4),
    }
}

/// From each number for each count, also from tableaus and results that no run has left.
#[test]
fn any_number_from_any_buffers() {
    let mut rng = Rng(11);
    for d in DIMENSIONS {
        for _ in 0..8 {
            let n = 1 + rng.byte_below(3);
            let shape = draw_shape(&mut rng, d, n, 10);
            let book = draw_book(&mut rng, shape);
            let (bytes, end) = (book.to_bytes(), book.operations().len() + 1);
            for from in (0..=end + 1).chain([usize::MAX]) {
                for count in (0..=end + 1).chain([usize::MAX]) {
                    let tableau = draw_tableau(&mut rng, d, n);
                    let results = rng.bytes(2 * book.measurements());
                    let left = go_on_both(&bytes, &tableau, &results, from, count);
                    let expected = match from <= end {
                        true => (0, book.measurements(), end.min(from.saturating_add(count))),
                        false => (13, 0, 0),
                    };
                    assert_eq!(left.numbers, expected);
                }
            }
        }
    }
}

/// Results are written over between the calls, by bytes below d and from d on.
#[test]
fn results_written_over_between_calls() {
    let mut rng = Rng(12);
    let mut corrected = 0;
    for d in DIMENSIONS {
        for _ in 0..40 {
            let n = 1 + rng.byte_below(3);
            let shape = draw_shape(&mut rng, d, n, 25);
            let book = draw_book_of(&mut rng, shape, true);
            let (bytes, operations) = (book.to_bytes(), book.operations().len());
            let mut run = begin(&book);
            while run.next() <= operations {
                let next = book.operations().get(run.next());
                corrected += usize::from(matches!(next, Some(Operation::Correct { .. })));
                run.results = rng.bytes(run.results.len());
                run = run.go_on(&bytes, 1 + rng.below(3));
            }
        }
    }
    assert!(corrected > 100, "{corrected}");
}

/// Halts and looks on the way to what a whole run leaves, for few and many qudits.
#[test]
fn drawn_calls_reach_what_one_call_reaches() {
    let mut rng = Rng(13);
    for d in DIMENSIONS {
        for n in [1, 2, 5, 20, 64] {
            let shape = draw_shape(&mut rng, d, n, 60);
            let book = draw_book(&mut rng, shape);
            let tableau = draw_tableau(&mut rng, d, n);
            let results = rng.bytes(2 * book.measurements());
            let start = Halted::new(&with_tail(&mut rng, tableau), &with_tail(&mut rng, results));
            is_the_whole_run(&mut rng, &book.to_bytes(), &start, 20);
        }
    }
}

#[test]
fn full_books_in_drawn_calls() {
    let mut rng = Rng(14);
    for (d, n) in [(3, 64), (31, 64), (5, 2)] {
        let book = draw_book_of(&mut rng, Shape { d, n, ..FULL }, true);
        let results = vec![UNWRITTEN; 2 * book.measurements()];
        let start = Halted::new(&draw_tableau(&mut rng, d, n), &results);
        is_the_whole_run(&mut rng, &book.to_bytes(), &start, 1500);
    }
}

/// Bytes past the needed ones are kept.
fn is_the_whole_run(rng: &mut Rng, book: &[u8], start: &Halted, most: usize) {
    let whole = run_both(book, &start.tableau, &start.results);
    let left = finish_in_calls(rng, book, start, most);
    assert_eq!((left.numbers.0, left.numbers.1), whole.returned);
    assert!(left.tableau == whole.tableau && left.results == whole.results);
    let needed = plain::tableau_len(book[2].into());
    assert_eq!(left.tableau[needed..], start.tableau[needed..]);
    let needed = 2 * left.numbers.1;
    assert_eq!(left.results[needed..], start.results[needed..]);
}

/// A full book in 4,097 calls, by the library alone.
#[test]
fn a_full_book_by_single_operations() {
    let mut rng = Rng(15);
    let book = draw_book_of(&mut rng, FULL, true);
    let bytes = book.to_bytes();
    let mut run = begin(&book);
    for number in 1..=MAX_OPERATIONS + 1 {
        let (from, t, r) = (run.next(), &mut run.tableau, &mut run.results);
        run.numbers = reached(cagvost::go_on(&bytes, t, r, from, 1));
        assert_eq!(run.numbers, (0, book.measurements(), number));
    }
    let start = begin(&book);
    let whole = run_both(&bytes, &start.tableau, &start.results);
    assert!(run.tableau == whole.tableau && run.results == whole.results);
}

// ---- Demand 3

/// The frame run of a book, and the direct run of the raised book, which is halted and looked into.
fn framed_and_halted(rng: &mut Rng, shape: Shape, most: usize) {
    let book = draw_book(rng, shape);
    let tableau = draw_tableau(rng, shape.d, shape.n);
    let before = Buffers::drawn(rng, shape.n, book.measurements(), tableau);
    let (returned, framed) = carry_both(&book.to_bytes(), &before);
    let raised = with_raised_choices(&book).to_bytes();
    let start = Halted::new(&before.tableau, &before.results);
    let left = finish_in_calls(rng, &raised, &start, most);
    assert_eq!((returned.0, returned.1), (0, left.numbers.1));
    assert_eq!(left.next(), book.operations().len() + 1);
    assert!(left.results == framed.results, "results of {book}");
    assert!(left.tableau == framed.tableau, "tableau of {book}");
}

#[test]
fn carried_and_struck_with_halts_agree() {
    let mut rng = Rng(16);
    for d in DIMENSIONS {
        for _ in 0..60 {
            let n = 1 + rng.byte_below(5);
            let shape = draw_shape(&mut rng, d, n, 40);
            framed_and_halted(&mut rng, shape, 12);
        }
        let shape = draw_shape(&mut rng, d, MAX_QUDITS, 100);
        framed_and_halted(&mut rng, shape, 60);
    }
}

// ---- Refusals

/// Whatever is wrong with the book comes first, by the number and place of the direct run.
#[test]
fn every_single_byte_damage_of_the_paper_book() {
    let mut rng = Rng(45);
    for (place, byte) in (0..PAPER_BOOK.len()).flat_map(|i| (0..=255).map(move |x| (i, x))) {
        let book = with_byte(&PAPER_BOOK, place, byte);
        let results = rng.bytes(4);
        let direct = run_both(&book, &zero_tableau(3, 2), &results).returned;
        let refused = go_on_both(&book, &zero_tableau(3, 2), &results, usize::MAX, 1).numbers;
        match direct {
            (0, _) => assert_eq!(refused, (13, 0, 0), "{book:02x?}"),
            (number, place) => assert_eq!(refused, (number, place, 0), "{book:02x?}"),
        }
        go_on_both(&book, &zero_tableau(3, 2), &results, rng.below(6), 1);
    }
}

/// 8 asks for room for all results of the book, wherever the run stands. Then 9, and last 13.
#[test]
fn eight_then_nine_then_thirteen() {
    let book = struck_at_each_place().to_bytes();
    let good = at_level(0);
    let invalid = with_byte(&good, ROWS, 2);
    let another = [with_byte(&good, 0, 3), zero_tableau(5, 2)];
    let results = [7; 4];
    for (from, past) in [(0, 0), (1, 0), (2, 0), (3, 0), (4, 13), (usize::MAX, 13)] {
        for count in [0, 1, usize::MAX] {
            let number = |tableau: &[u8], results: &[u8]| {
                let (number, place, next) =
                    go_on_both(&book, tableau, results, from, count).numbers;
                assert!(number == 0 || (place, next) == (0, 0));
                number
            };
            for tableau in [&good, &invalid, &another[0], &another[1]] {
                (0..4).for_each(|room| assert_eq!(number(tableau, &results[..room]), 8));
                (0..8).for_each(|length| assert_eq!(number(&tableau[..length], &results), 8));
            }
            assert_eq!(number(&invalid, &results), 9);
            another
                .iter()
                .for_each(|t| assert_eq!(number(t, &results), 9));
            assert_eq!(number(&good, &results), past);
        }
    }
    // A refused book before all.
    for length in 0..book.len() {
        let refused = go_on_both(&book[..length], &invalid[..3], &[], 4, 0).numbers;
        assert_eq!(refused, if length < 22 { (1, 0, 0) } else { (4, 3, 0) });
    }
}

// ---- The stack

/// The largest book on a stack of 256 KiB. If a call needed more, the process would abort.
#[test]
fn a_small_stack_is_enough() {
    let mut rng = Rng(27);
    let (d, n) = (31, MAX_QUDITS);
    let book = draw_book_of(&mut rng, Shape { d, n, ..FULL }, true);
    let whole = begin(&book);
    let whole = run_both(&book.to_bytes(), &whole.tableau, &whole.results);
    let run = move || {
        let (bytes, mut run) = (book.to_bytes(), begin(&book));
        for count in [2000, 2096, 1] {
            let (from, t, r) = (run.next(), &mut run.tableau, &mut run.results);
            run.numbers = reached(cagvost::go_on(&bytes, t, r, from, count));
            let looks = (0..64).map(|q| cagvost::look(&run.tableau, q));
            assert!({ looks }.all(|look| look.is_ok()));
        }
        run
    };
    let small = thread::Builder::new().stack_size(256 * 1024);
    let thread = small.spawn(run).expect("a thread");
    let left = thread.join().expect("no panic");
    assert_eq!(left.next(), 4097);
    assert!(left.tableau == whole.tableau && left.results == whole.results);
}
