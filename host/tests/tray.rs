//! The tray run: the bytes of each shot are those of a separate frame run, each refusal comes
//! exactly when the list says, and nothing but the shots is written.
//!
//! `tray_both` compares every number and byte with the plain reference, each shot with a separate
//! frame run of the package, and what must not be written with what was there before.

use crate::common;

use cagvost::book::{Book, DIMENSIONS, MAX_ERRORS, MAX_OPERATIONS, Operation, WeylError};
use cagvost::{MAX_SHOTS, Refusal, Shots, Tray, TrayCounts, Verdict};
use common::trays::{Lent, Returned, draw_circuit, draw_errors, draw_tray, separate, tray_both};
use common::{PAPER_BOOK, ROWS, Rng, Shape, UNWRITTEN, draw_book, draw_error, paper_book, slices};
use common::{draw_gate, draw_tableau, sum, with_byte, zero_tableau};
use std::thread;

// ---- Cases

/// The circuit of the specification's book with four error lists, worked by hand. Without errors
/// qudit 0 is free and gets the choice 2, and qudit 1 is then certain to have 2 too.
#[test]
fn the_circuit_of_the_paper_book() {
    let error = |qudit, p, s| WeylError {
        place: 2,
        qudit,
        p,
        s,
    };
    let mut tray = Tray::new();
    tray.shot(&[])
        .shot(&[error(1, 1, 0)]) // the book's own error: X before both measurements
        .shot(&[error(0, 0, 2)]) // Z^2 on a level
        .shot(&[error(0, 2, 0), error(1, 2, 1)]);
    let (returned, out) = tray_both(&Lent::zero(&paper_book(), &tray));
    assert_eq!(returned, (0, 2, 2));
    #[rustfmt::skip]
    assert_eq!(out, [
        0, 2, 1, 2, 0,
        1, 2, 1, 0, 0,
        0, 2, 1, 2, 0,
        1, 1, 1, 1, 0,
    ]);
}

/// From the zero tableau an X error on a qudit shifts its stabilizer alone, a Z error its
/// destabilizer alone: each stabilizer is judged, and no destabilizer.
#[test]
fn each_row_alone() {
    for (d, n) in [(3, 1), (5, 2), (31, 64), (3, 64)] {
        for power in [1, d / 2, d - 1] {
            let mut tray = Tray::new();
            for q in 0..n {
                tray.body(&[0, 0, q, power, 0]).body(&[0, 0, q, 0, power]);
            }
            let (returned, out) = tray_both(&Lent::zero(&Book::new(d, n), &tray));
            assert_eq!(returned, (0, n.into(), n.into()));
            assert!(out.chunks(2).all(|verdicts| verdicts == [1, 0]));
        }
    }
}

/// A free measurement takes its choice in each shot, and the frame shifts it.
#[test]
fn choices_serve_every_shot() {
    for (d, choice) in [3, 5, 31].into_iter().flat_map(|d| [(d, 0), (d, d - 1)]) {
        let mut book = Book::new(d, 1);
        book.operation(Operation::Fourier { q: 0, times: 1 })
            .measure(0, choice)
            .measure(0, d - 1 - choice);
        let mut tray = Tray::new();
        (0..d).for_each(|p| _ = tray.body(&[1, 0, 0, p, 0]));
        let (returned, out) = tray_both(&Lent::zero(&book, &tray));
        assert_eq!(returned, (0, 1, usize::from(d) - 1));
        for (p, row) in (0..d).zip(out.chunks(5)) {
            let level = (choice + p) % d;
            assert_eq!(row, [u8::from(p > 0), level, 1, level, 0]);
        }
    }
}

/// The book's own errors are applied in no shot, not even one without errors.
#[test]
fn the_books_own_errors_are_not_used() {
    let mut rng = Rng(3);
    for d in DIMENSIONS {
        let shape = Shape {
            d,
            n: 3,
            operations: 40,
            errors: 30,
            measure_one_in: 4,
        };
        let book = draw_book(&mut rng, shape);
        let tray = draw_tray(&mut rng, &book, 20, 2);
        let with = Lent::drawn(&mut rng, &book, &tray);
        let mut without = with.clone();
        without.book = book.without_errors().to_bytes();
        assert!(with.book != without.book);
        assert!(tray_both(&with) == tray_both(&without));
    }
}

/// Z errors on level 0 are clean, though their frame is not 0: the bytes of a shot without errors.
/// The measurements come first, as a free one would show the frame.
#[test]
fn harmless_errors_end_as_none() {
    let mut rng = Rng(4);
    for (d, n) in DIMENSIONS.into_iter().flat_map(|d| [(d, 1), (d, 5)]) {
        let mut book = draw_circuit(&mut rng, d, n, 0, 10);
        (0..20).for_each(|_| _ = book.operation(draw_gate(&mut rng, d, n)));
        let mut tray = Tray::new();
        for i in 0..40 {
            let (place, count) = (rng.byte_below(11), i % 3);
            let z = |rng: &mut Rng| [place, 0, rng.byte_below(n), 0, 1 + rng.byte_below(d - 1)];
            let body: Vec<u8> = (0..count).flat_map(|_| z(&mut rng)).collect();
            tray.body(&body);
        }
        let (returned, out) = tray_both(&Lent::zero(&book, &tray));
        assert_eq!(returned, (0, 40, 0));
        let rows: Vec<&[u8]> = out.chunks(21).collect();
        assert!(rows.iter().all(|row| *row == rows[0]));
    }
}

// ---- Numbers of shots and of measurements

/// Runs a good tray from a drawn tableau. How many shots were clean, and how many shifted.
fn accept(rng: &mut Rng, book: &Book, tray: &Tray) -> [usize; 2] {
    let (number, clean, shifted) = tray_both(&Lent::drawn(rng, book, tray)).0;
    assert_eq!((number, clean + shifted), (0, tray.shots()));
    [clean, shifted]
}

/// Runs a small circuit with a tray whose shots have one to three errors where the pattern says so,
/// and else none.
fn run_pattern(rng: &mut Rng, noisy: impl IntoIterator<Item = bool>) {
    let d = DIMENSIONS[rng.below(DIMENSIONS.len())];
    let (n, measurements) = (1 + rng.byte_below(3), [1, 2, 3, 17][rng.below(4)]);
    let book = draw_circuit(rng, d, n, 8, measurements);
    let mut tray = Tray::new();
    for is_noisy in noisy {
        let count = if is_noisy { 1 + rng.below(3) } else { 0 };
        tray.shot(&draw_errors(rng, &book, count));
    }
    accept(rng, &book, &tray);
}

const SHOTS: [usize; 11] = [0, 1, 2, 254, 255, 256, 257, 511, 512, 513, MAX_SHOTS];

#[test]
fn numbers_of_shots_around_every_block() {
    let mut rng = Rng(256);
    for shots in SHOTS {
        run_pattern(&mut rng, vec![true; shots]);
    }
}

#[test]
fn shots_without_errors_alone() {
    let mut rng = Rng(257);
    for shots in SHOTS {
        run_pattern(&mut rng, vec![false; shots]);
    }
}

/// Only shots with errors take a lane. Blocks of them are filled here with shots without errors
/// before, after and between them.
#[test]
fn shots_without_errors_among_others() {
    let mut rng = Rng(258);
    for noisy in [1, 2, 255, 256, 257, 512, 513] {
        let (some, none) = (vec![true; noisy], vec![false; 300]);
        run_pattern(&mut rng, [&some[..], &[false]].concat());
        run_pattern(&mut rng, [&[false], &some[..]].concat());
        run_pattern(&mut rng, [&some[..], &none[..]].concat());
        run_pattern(&mut rng, [&none[..], &some[..]].concat());
        run_pattern(&mut rng, [&some[..], &none[..], &some[..]].concat());
        run_pattern(&mut rng, [&none[..], &some[..], &none[..]].concat());
        // One by one, with a shot without errors at first, at last or at neither end.
        run_pattern(&mut rng, (0..2 * noisy).map(|i| i % 2 == 0));
        run_pattern(&mut rng, (0..2 * noisy).map(|i| i % 2 == 1));
        run_pattern(&mut rng, (0..2 * noisy - 1).map(|i| i % 2 == 0));
        // In blocks of other lengths.
        run_pattern(&mut rng, (0..2 * noisy).map(|i| i / 100 % 2 == 0));
    }
}

/// 1 to 256 shots with errors and a few more than a block of them, spread over a full tray.
#[test]
fn few_shots_with_errors_in_a_full_tray() {
    let mut rng = Rng(260);
    for (one_in, at) in [
        (16, 0),
        (16, 15),
        (15, 7),
        (17, 16),
        (4096, 0),
        (4096, 4095),
    ] {
        run_pattern(&mut rng, (0..MAX_SHOTS).map(|i| i % one_in == at));
    }
}

#[test]
fn shots_without_errors_drawn_among_others() {
    let mut rng = Rng(259);
    for one_in in [2, 3, 10, 100] {
        let mut noisy: Vec<bool> = (0..1500).map(|_| rng.once_in(one_in)).collect();
        run_pattern(&mut rng, noisy.clone());
        noisy.iter_mut().for_each(|noisy| *noisy = !*noisy);
        run_pattern(&mut rng, noisy);
    }
}

/// The library turns results in tiles of 16 measurements.
#[test]
fn numbers_of_measurements_around_every_tile() {
    let mut rng = Rng(16);
    for measurements in [0, 1, 2, 15, 16, 17, 31, 32, 33, 47, 48, 49, 63, 64, 65] {
        for shots in [1, 16, 260] {
            let d = DIMENSIONS[rng.below(DIMENSIONS.len())];
            let book = draw_circuit(&mut rng, d, 2, 20, measurements);
            let tray = draw_tray(&mut rng, &book, shots, 4);
            accept(&mut rng, &book, &tray);
        }
    }
}

#[test]
fn as_many_measurements_as_a_book_can_have() {
    let mut rng = Rng(4096);
    for (measurements, n, shots) in [(4096, 1, 258), (4096, 7, 2), (4095, 2, 3), (1000, 2, 30)] {
        let gates = MAX_OPERATIONS - measurements;
        let book = draw_circuit(&mut rng, 5, n, gates, measurements);
        let tray = draw_tray(&mut rng, &book, shots, 6);
        accept(&mut rng, &book, &tray);
    }
}

/// The errors as a book has them.
fn bytes_of(errors: &[WeylError]) -> Vec<u8> {
    errors.iter().flat_map(|error| error.to_bytes()).collect()
}

/// The longest output: 4,096 shots of 4,096 measurements. Only a few lists of errors are different,
/// so that few separate runs tell what each shot must have.
#[test]
fn the_longest_output() {
    let mut rng = Rng(33);
    let book = draw_circuit(&mut rng, 7, 2, 0, MAX_OPERATIONS);
    let lists: Vec<Vec<u8>> = [0, 1, 2, 9, 0, 300, MAX_ERRORS]
        .iter()
        .map(|&count| bytes_of(&draw_errors(&mut rng, &book, count)))
        .collect();
    let mut tray = Tray::new();
    let of_shot: Vec<usize> = (0..MAX_SHOTS).map(|_| rng.below(lists.len())).collect();
    of_shot.iter().for_each(|&i| _ = tray.body(&lists[i]));
    let mut lent = Lent::zero(&book, &tray);
    let width = cagvost::shots_len(1, book.measurements());
    assert_eq!((width, lent.out.len()), (8193, 33_558_528));
    let last = lent.out.pop();
    assert_eq!(lent.by_library(), Err(Refusal::ShortBuffer));
    assert!(lent.out.iter().all(|&byte| byte == UNWRITTEN));
    lent.out.extend(last);
    let counts = lent.by_library().expect("an accepted tray");
    assert_eq!(counts.shots(), MAX_SHOTS);
    let bodies = book.bodies();
    let [operations, _, choices] = slices(&bodies);
    let rows: Vec<Vec<u8>> = lists
        .iter()
        .map(|body| separate([operations, body, choices], 7, 2, &lent.tableau))
        .collect();
    let shifted = of_shot.iter().filter(|&&i| rows[i][0] == 1).count();
    assert_eq!(counts.shifted, shifted);
    assert!((of_shot.iter().zip(lent.out.chunks(width))).all(|(&i, row)| row == rows[i]));
}

/// The longest tray: 4,096 shots of 2,048 errors.
#[test]
fn the_longest_tray() {
    let mut rng = Rng(42);
    let book = draw_circuit(&mut rng, 31, 1, 1, 1);
    let mut tray = Tray::new();
    for _ in 0..MAX_SHOTS {
        tray.shot(&draw_errors(&mut rng, &book, MAX_ERRORS));
    }
    assert_eq!(tray.to_bytes().len(), 41_951_234);
    accept(&mut rng, &book, &tray);
}

// ---- Places

/// A drawn circuit of one qudit or two, on which a slip of one place shows in most errors.
fn long_circuit(rng: &mut Rng, d: u8) -> Book {
    let n = 1 + rng.byte_below(2);
    draw_circuit(rng, d, n, 1200, 60)
}

/// Shots with errors at these places.
fn run_places(rng: &mut Rng, book: &Book, lists: &[Vec<usize>]) {
    let (d, n) = (book.dimension(), book.qudits());
    let mut tray = Tray::new();
    for places in lists {
        let errors = places.iter().map(|&place| draw_error(rng, d, n, place));
        tray.shot(&errors.collect::<Vec<_>>());
    }
    accept(rng, book, &tray);
}

/// The library lists errors up to 255 places ahead: gaps around that, from several places on.
#[test]
fn gaps_around_the_reach() {
    let mut rng = Rng(255);
    let gaps = [1, 2, 3, 127, 128, 129, 253, 254, 255, 256, 257, 258]
        .into_iter()
        .chain([509, 510, 511, 512, 513, 766, 767, 768, 1000, 1259]);
    for d in [3, 5, 31] {
        let book = long_circuit(&mut rng, d);
        let end = book.operations().len();
        let starts = [0, 1, 254, 255, 256, 257, end - 1];
        let lists: Vec<Vec<usize>> = starts
            .into_iter()
            .flat_map(|start| gaps.clone().map(move |gap| (start, gap)))
            .map(|(start, gap)| (start..=end).step_by(gap).collect())
            .collect();
        run_places(&mut rng, &book, &lists);
    }
}

/// Gaps of 254 to 257 places in drawn order, so that a slip would be carried on.
#[test]
fn gaps_of_254_to_257_in_drawn_order() {
    let mut rng = Rng(254);
    for d in DIMENSIONS {
        let book = long_circuit(&mut rng, d);
        let end = book.operations().len();
        let mut lists = Vec::new();
        for _ in 0..60 {
            let mut places = vec![rng.below(258)];
            while places[places.len() - 1] + 257 <= end {
                places.push(places[places.len() - 1] + 254 + rng.below(4));
            }
            lists.push(places);
        }
        run_places(&mut rng, &book, &lists);
    }
}

/// One error alone at each place, and two errors at each place and the end.
#[test]
fn every_place() {
    let mut rng = Rng(600);
    let book = draw_circuit(&mut rng, 5, 1, 480, 40);
    let end = book.operations().len();
    let alone: Vec<Vec<usize>> = (0..=end).map(|place| vec![place]).collect();
    run_places(&mut rng, &book, &alone);
    let and_last: Vec<Vec<usize>> = (0..=end).map(|place| vec![place, place, end]).collect();
    run_places(&mut rng, &book, &and_last);
}

/// As many errors as a shot can have at the first place, at the last and at one between, beside
/// shots with none and few.
#[test]
fn many_errors_at_one_place() {
    let mut rng = Rng(2048);
    for (d, n, operations) in [(3, 1, 5), (5, 3, 300), (31, 64, 9), (7, 2, 0)] {
        let book = draw_circuit(&mut rng, d, n, operations - operations / 4, operations / 4);
        let mut lists = Vec::new();
        for place in [0, operations / 2, operations] {
            lists.extend([vec![place; MAX_ERRORS], vec![], vec![place], vec![0]]);
            lists.push(vec![place; MAX_ERRORS - 1]);
        }
        run_places(&mut rng, &book, &lists);
        // All lanes at one place.
        run_places(&mut rng, &book, &vec![vec![operations / 2; 2]; 300]);
        run_places(&mut rng, &book, &vec![vec![operations]; 300]);
    }
}

#[test]
fn no_operations() {
    let mut rng = Rng(5);
    for (d, n) in DIMENSIONS.into_iter().flat_map(|d| [(d, 1), (d, 64)]) {
        let book = Book::new(d, n);
        let tray = draw_tray(&mut rng, &book, 20, 3);
        accept(&mut rng, &book, &tray);
    }
}

// ---- Drawn books and trays

/// A drawn book with errors of its own and a tray over it.
fn run_drawn(rng: &mut Rng, d: u8, n: u8, operations: usize, shots: usize) -> [usize; 2] {
    let shape = Shape {
        d,
        n,
        operations: rng.below(operations),
        errors: rng.below(operations / 3),
        measure_one_in: 2 + rng.below(8),
    };
    let book = draw_book(rng, shape);
    let (shots, most) = (rng.below(shots), rng.below(12));
    let tray = draw_tray(rng, &book, shots, most);
    accept(rng, &book, &tray)
}

fn run_many(trays: usize, least: u8, most: u8, operations: usize, shots: usize) -> [usize; 2] {
    let mut rng = Rng(least.into());
    let mut seen = [0, 0];
    for d in DIMENSIONS {
        for _ in 0..trays {
            let n = least + rng.byte_below(most - least + 1);
            let [clean, shifted] = run_drawn(&mut rng, d, n, operations, shots);
            seen = [seen[0] + clean, seen[1] + shifted];
        }
    }
    seen
}

#[test]
fn one_to_four_qudits() {
    let seen = run_many(60, 1, 4, 80, 40);
    assert!(seen.iter().all(|&count| count > 1000), "{seen:?}");
}

#[test]
fn more_than_a_block_on_few_qudits() {
    run_many(6, 1, 3, 30, 900);
}

#[test]
fn five_to_twenty_qudits() {
    run_many(8, 5, 20, 150, 12);
}

#[test]
fn sixty_four_qudits() {
    run_many(1, 64, 64, 100, 8);
    let mut rng = Rng(64);
    run_drawn(&mut rng, 31, 64, 30, 600);
}

#[test]
fn every_number_of_qudits() {
    let mut rng = Rng(65);
    for n in 1..=64 {
        let d = DIMENSIONS[usize::from(n) % DIMENSIONS.len()];
        let book = draw_circuit(&mut rng, d, n, 30, 3);
        let tray = draw_tray(&mut rng, &book, 12, 4);
        accept(&mut rng, &book, &tray);
    }
}

#[test]
fn full_books() {
    let mut rng = Rng(66);
    for (d, n, shots) in [(31, 64, 3), (3, 2, 40)] {
        let book = draw_circuit(&mut rng, d, n, MAX_OPERATIONS - 64, 64);
        let tray = draw_tray(&mut rng, &book, shots, MAX_ERRORS);
        accept(&mut rng, &book, &tray);
    }
}

// ---- Refusals

/// Four operations on two qudits of dimension 5, two of them measurements, with an error of its own.
fn small_book() -> Book {
    let mut book = Book::new(5, 2);
    book.operation(Operation::Fourier { q: 0, times: 1 })
        .error(1, 4, 4)
        .operation(sum(0, 1))
        .measure(0, 4)
        .measure(1, 0);
    book
}

const GOOD: WeylError = WeylError {
    place: 2,
    qudit: 1,
    p: 4,
    s: 4,
};

/// Five shots of the small book. Places fall from one shot to the next, and may.
fn small_tray() -> Tray {
    let last = WeylError { place: 4, ..GOOD };
    let mut tray = Tray::new();
    tray.shot(&[GOOD, last])
        .shot(&[])
        .shot(&[WeylError { place: 0, ..GOOD }])
        .shot(&[GOOD, GOOD, last])
        .shot(&[GOOD]);
    tray
}

fn small() -> Lent {
    Lent::zero(&small_book(), &small_tray())
}

/// What a run of the small book says to the tray, with room for every tray there is.
fn answer(tray: &[u8]) -> Returned {
    let lent = Lent {
        tray: tray.to_vec(),
        out: vec![UNWRITTEN; 5 * 70],
        ..small()
    };
    tray_both(&lent).0
}

#[test]
fn the_small_tray_is_good() {
    assert_eq!(answer(&small_tray().to_bytes()), (0, 1, 4));
    assert_eq!(answer(&[0, 0]), (0, 0, 0));
    assert_eq!(answer(&[1, 0, 0, 0]), (0, 1, 0));
}

#[test]
fn refusal_11_count() {
    let of = |shots: usize| {
        let mut tray = Tray::new();
        (0..shots).for_each(|_| _ = tray.body(&[]));
        Lent {
            out: vec![UNWRITTEN; 5 * shots],
            ..Lent::zero(&small_book(), &tray)
        }
    };
    assert_eq!(tray_both(&of(4096)).0, (0, 4096, 0));
    // The last ones do not fit two bytes; the builder must not cut them.
    for shots in [4097, 4098, 8192, 65_535, 65_536, 65_537, 65_541] {
        assert_eq!(tray_both(&of(shots)).0, (11, 0, 0), "{shots}");
    }
}

#[test]
fn refusal_11_lengths() {
    let body = |length: usize| [2, 0, 1, 4, 4].into_iter().cycle().take(length);
    let with = |lengths: &[usize]| {
        let mut tray = Tray::new();
        for &length in lengths {
            tray.body(&body(length).collect::<Vec<u8>>());
        }
        answer(&tray.to_bytes())
    };
    for good in [0, 5, 10, 10_240] {
        assert_eq!(with(&[good]).0, 0);
        assert_eq!(with(&[0, 5, good]).0, 0);
    }
    let not_whole = (1..5).chain(6..10).chain(10_236..10_240);
    let too_long = (10_241..10_246).chain([20_480, 65_535, 65_536, 65_540, 65_541, 75_776]);
    for bad in not_whole.chain(too_long) {
        for lengths in [
            &[bad][..],
            &[bad, 5, 0],
            &[5, bad, 5],
            &[0, 0, bad],
            &[bad, bad],
        ] {
            assert_eq!(with(lengths), (11, 0, 0), "{lengths:?}");
        }
    }
}

#[test]
fn refusal_11_end() {
    let tray = small_tray().to_bytes();
    for length in 0..tray.len() {
        assert_eq!(answer(&tray[..length]), (11, 0, 0), "{length}");
    }
    // The last two are cut off by a length in two bytes.
    for more in (1..12).chain([1 << 16, 3 << 16]) {
        let longer = [&tray[..], &vec![0; more]].concat();
        assert_eq!(answer(&longer), (11, 0, 0), "{more}");
    }
    // A whole and allowed but false length, and a false count.
    for shot in 0..5 {
        let at = 2 + 2 * shot;
        assert_eq!(answer(&with_byte(&tray, at, tray[at] + 5)), (11, 0, 0));
        assert_eq!(answer(&with_byte(&tray, at + 1, 5)), (11, 0, 0));
    }
    for count in [0, 1, 2, 3, 4, 6, 7, 255] {
        assert_eq!(answer(&with_byte(&tray, 0, count)), (11, 0, 0));
    }
    assert_eq!(answer(&with_byte(&tray, 1, 1)), (11, 0, 0));
    assert_eq!(answer(&with_byte(&tray, 1, 255)), (11, 0, 0));
}

/// Each way in which an error can be bad, in the small book.
fn bad_errors() -> [WeylError; 9] {
    [
        WeylError { place: 5, ..GOOD },
        WeylError { place: 258, ..GOOD }, // 2 when cut to a byte
        WeylError { place: 1, ..GOOD },   // it falls
        WeylError { qudit: 2, ..GOOD },
        WeylError { qudit: 65, ..GOOD },
        WeylError { p: 5, ..GOOD },
        WeylError { p: 255, ..GOOD },
        WeylError { s: 5, ..GOOD },
        WeylError { s: 255, ..GOOD },
    ]
}

#[test]
fn refusal_6_names_the_shot() {
    for (bad, shots) in bad_errors()
        .into_iter()
        .zip([1, 2, 3, 255, 256, 257].iter().cycle())
    {
        for (shot, before) in [0, shots / 2, shots - 1]
            .into_iter()
            .flat_map(|i| [(i, 1), (i, 4)])
        {
            let mut tray = Tray::new();
            for i in 0..*shots {
                let mut errors = vec![GOOD; before];
                errors.extend((i == shot).then_some(bad));
                errors.push(WeylError { place: 4, ..GOOD });
                tray.shot(&errors);
            }
            let lent = Lent::zero(&small_book(), &tray);
            assert_eq!(tray_both(&lent).0, (6, shot, 0), "{bad:?}");
        }
    }
}

/// The first bad shot is named, whatever comes after it, and the last of 4,096 too.
#[test]
fn refusal_6_names_the_first_shot() {
    let mut rng = Rng(6);
    for i in 0..100 {
        let shots = if i < 4 { MAX_SHOTS } else { 1 + rng.below(600) };
        let mut bad = [0, 1, 2].map(|_| rng.below(shots));
        if i == 0 {
            bad = [shots - 1; 3];
        }
        let mut tray = Tray::new();
        for i in 0..shots {
            let kinds = bad_errors();
            let kind = kinds[rng.below(kinds.len())];
            let errors = [GOOD, if bad.contains(&i) { kind } else { GOOD }];
            tray.shot(&errors[..if bad.contains(&i) { 2 } else { rng.below(3) }]);
        }
        let lent = Lent::zero(&small_book(), &tray);
        let first = bad.into_iter().min().expect("three");
        assert_eq!(tray_both(&lent).0, (6, first, 0));
    }
}

/// A first error has nothing to fall from, and each shot begins anew.
#[test]
fn places_fall_between_shots_only() {
    let at = |place| WeylError { place, ..GOOD };
    let of = |lists: &[&[u16]]| {
        let mut tray = Tray::new();
        for list in lists {
            let errors = list.iter().map(|&place| at(place));
            tray.shot(&errors.collect::<Vec<_>>());
        }
        answer(&tray.to_bytes())
    };
    assert_eq!(of(&[&[4], &[3], &[2], &[1], &[0]]).0, 0);
    assert_eq!(of(&[&[0, 4], &[0, 4], &[], &[0, 0, 1]]).0, 0);
    assert_eq!(of(&[&[4, 3], &[0]]), (6, 0, 0));
    assert_eq!(of(&[&[4], &[4, 3]]), (6, 1, 0));
    assert_eq!(of(&[&[4], &[], &[0, 1, 0]]), (6, 2, 0));
}

/// Number 6 is the book's as often as the tray's, and each is told apart with the other at fault too.
#[test]
fn refusal_6_of_the_book_and_of_the_tray() {
    let mut book = small_book();
    let mut bad_tray = small_tray();
    bad_tray.shot(&[GOOD, bad_errors()[0]]);
    let run = |book: &Book, tray: &Tray| {
        let lent = Lent::zero(book, tray);
        assert_eq!(tray_both(&lent).0.0, 6);
        lent.clone().by_library()
    };
    let tray_is_bad = Err(Refusal::TrayShot { shot: 5 });
    let book_is_bad = Err(Refusal::ErrorEntry { index: 1 });
    assert_eq!(run(&book, &bad_tray), tray_is_bad);
    book.error_at(bad_errors()[0]);
    assert_eq!(run(&book, &small_tray()), book_is_bad);
    assert_eq!(run(&book, &bad_tray), book_is_bad);
}

#[test]
fn refusal_8_short_buffers() {
    let lent = small();
    let (tableau, out) = (lent.tableau.len(), lent.out.len());
    assert_eq!((tableau, out), (22, 25));
    for length in 0..=tableau + 3 {
        let mut lent = lent.clone();
        lent.tableau.resize(length, 0);
        let returned = tray_both(&lent).0;
        assert_eq!(returned.0, if length < tableau { 8 } else { 0 });
    }
    for length in 0..=out + 3 {
        let mut lent = lent.clone();
        lent.out.resize(length, UNWRITTEN);
        let returned = tray_both(&lent).0;
        assert_eq!(returned.0, if length < out { 8 } else { 0 });
    }
    // Without shots nothing is written, and the tableau is still tested.
    let mut none = Lent::zero(&small_book(), &Tray::new());
    assert_eq!(tray_both(&none).0, (0, 0, 0));
    none.tableau[ROWS] = 2;
    assert_eq!(tray_both(&none).0, (9, 0, 0));
    none.tableau.pop();
    assert_eq!(tray_both(&none).0, (8, 0, 0));
}

/// Room for several shots more and a long tableau: what is past the needed bytes is not read and
/// kept.
#[test]
fn bytes_past_the_needed_ones_are_kept() {
    let mut rng = Rng(10);
    for shots in [0, 1, 3, 255, 256, 257] {
        for (most, measurements) in [(0, 3), (2, 0), (2, 3), (2, 16)] {
            let book = draw_circuit(&mut rng, 5, 2, 9, measurements);
            let tray = draw_tray(&mut rng, &book, shots, most);
            let mut lent = Lent::drawn(&mut rng, &book, &tray);
            lent.out.extend(rng.bytes(300));
            lent.tableau.extend(rng.bytes(300));
            assert_eq!(tray_both(&lent).0.0, 0);
        }
    }
}

#[test]
fn refusal_9_every_byte_of_the_tableau() {
    let mut rng = Rng(9);
    let mut lent = small();
    lent.tableau = draw_tableau(&mut rng, 5, 2);
    let places = (0..lent.tableau.len()).flat_map(|i| (0..8).map(move |x| (i, x)));
    for (place, byte) in places {
        let mut damaged = lent.clone();
        damaged.tableau[place] = byte;
        assert!([0, 9].contains(&tray_both(&damaged).0.0));
    }
}

// ---- Several faults

/// What refuses a fault, and how the fault is made.
type Fault = (Returned, fn(&mut Lent));

/// One fault of the small book and tray for each number, in the order in which they are tested.
const FAULTS: [Fault; 14] = [
    ((1, 0, 0), |lent| lent.book[0] = 80),
    ((2, 0, 0), |lent| lent.book[1] = 9),
    ((3, 0, 0), |lent| lent.book[2] = 65),
    ((4, 1, 0), |lent| lent.book[10] = 9),
    ((5, 1, 0), |lent| lent.book[26] = 9),
    ((6, 0, 0), |lent| lent.book[41] = 9),
    ((7, 1, 0), |lent| lent.book[44] = 9),
    ((11, 0, 0), |lent| lent.tray.push(0)),
    ((6, 3, 0), |lent| lent.tray[12 + 15 + 3] = 9),
    ((8, 0, 0), |lent| lent.tableau.truncate(21)),
    ((8, 0, 0), |lent| lent.out.truncate(24)),
    ((9, 0, 0), |lent| lent.tableau[0] = 3),
    ((9, 0, 0), |lent| lent.tableau[1] = 1),
    ((9, 0, 0), |lent| lent.tableau[ROWS] = 2),
];

#[test]
fn the_first_of_several_faults_is_returned() {
    for chosen in 0..1 << FAULTS.len() {
        let mut lent = small();
        let mut first = None;
        for (_, (expected, make)) in (0..).zip(FAULTS).filter(|(i, _)| chosen >> i & 1 == 1) {
            make(&mut lent);
            first = first.or(Some(expected));
        }
        assert_eq!(tray_both(&lent).0, first.unwrap_or((0, 1, 4)));
    }
}

/// Each way of 11 comes before a bad error, and each way of 6 before short buffers.
#[test]
fn every_way_of_11_comes_before_every_way_of_6() {
    for bad in bad_errors() {
        let mut tray = small_tray();
        let tray = tray.shot(&[GOOD, bad]).to_bytes();
        let lent = |tray: &[u8], tableau: &[u8]| {
            let lent = Lent {
                tray: tray.to_vec(),
                tableau: tableau.to_vec(),
                out: Vec::new(),
                ..small()
            };
            tray_both(&lent).0
        };
        let other = zero_tableau(3, 2);
        for tableau in [vec![], vec![4; 22], other, zero_tableau(5, 2)] {
            assert_eq!(lent(&tray, &tableau), (6, 5, 0));
            assert_eq!(lent(&tray[..tray.len() - 1], &tableau), (11, 0, 0));
            assert_eq!(lent(&with_byte(&tray, 1, 16), &tableau), (11, 0, 0));
            assert_eq!(lent(&with_byte(&tray, 2, 11), &tableau), (11, 0, 0));
            assert_eq!(lent(&with_byte(&tray, 13, 41), &tableau), (11, 0, 0));
        }
    }
}

// ---- Damage

#[test]
fn every_single_byte_damage_of_a_small_tray() {
    let tray = small_tray().to_bytes();
    let mut numbers = [0; 12];
    for (place, byte) in (0..tray.len()).flat_map(|i| (0..=255).map(move |x| (i, x))) {
        numbers[answer(&with_byte(&tray, place, byte)).0] += 1;
    }
    let reached = [0, 6, 11].map(|number| numbers[number]);
    assert!(reached.iter().all(|&count| count > 100), "{numbers:?}");
    assert_eq!(reached.iter().sum::<usize>(), 256 * tray.len());
}

#[test]
fn every_single_byte_damage_of_the_paper_book() {
    let lent = Lent::zero(
        &paper_book(),
        draw_tray(&mut Rng(45), &paper_book(), 3, 2).shot(&[]),
    );
    for (place, byte) in (0..PAPER_BOOK.len()).flat_map(|i| (0..=255).map(move |x| (i, x))) {
        let mut damaged = lent.clone();
        damaged.book[place] = byte;
        tray_both(&damaged);
    }
}

/// One small change of a tray: a byte replaced, put in or taken out, or the end moved.
fn damage(rng: &mut Rng, tray: &mut Vec<u8>) {
    let place = rng.below(tray.len() + 1);
    match rng.below(12) {
        0 => tray.insert(place, rng.byte_below(8)),
        1 => tray.truncate(place),
        2 => drop(tray.drain(place..(place + 5).min(tray.len()))),
        3 => tray.extend([0; 5]),
        _ if place < tray.len() => tray[place] = rng.byte_below(8),
        _ => tray.push(rng.byte()),
    }
}

#[test]
fn drawn_trays_damaged_a_few_times() {
    let mut rng = Rng(77);
    let mut numbers = [0; 12];
    for _ in 0..6000 {
        let shape = Shape::small(&mut rng);
        let book = draw_book(&mut rng, shape);
        let shots = rng.below(6);
        let tray = draw_tray(&mut rng, &book, shots, 3);
        let mut lent = Lent::drawn(&mut rng, &book, &tray);
        for _ in 0..rng.below(3) {
            damage(&mut rng, &mut lent.tray);
        }
        if rng.once_in(8) {
            lent.out.truncate(rng.below(9));
        }
        if rng.once_in(8) {
            lent.tableau[rng.below(ROWS + 1)] += 1;
        }
        numbers[tray_both(&lent).0.0] += 1;
    }
    let reached = [0, 6, 8, 9, 11].map(|number| numbers[number]);
    assert!(reached.iter().all(|&count| count > 100), "{numbers:?}");
}

#[test]
fn random_bytes_as_trays() {
    let mut rng = Rng(79);
    for i in 0..6000 {
        let length = rng.below(if i % 100 == 0 { 70_000 } else { 60 });
        let mut tray = rng.bytes(length);
        if i % 2 == 0 && length >= 2 {
            tray[..2].copy_from_slice(&[1 + rng.byte_below(5), 0]);
        }
        assert_eq!(answer(&tray), (11, 0, 0), "an unlikely tray: {tray:02x?}");
    }
}

/// A true table of contents, and small random bytes as entries: places rise, and one in eight falls.
#[test]
fn random_bytes_as_bodies() {
    let mut rng = Rng(80);
    let mut numbers = [0; 12];
    for _ in 0..6000 {
        let mut tray = Tray::new();
        let end = [2, 5, 6, 255][rng.below(4)];
        for _ in 0..rng.below(5) {
            let mut body = Vec::new();
            for rising in 0..rng.below(4) as u8 {
                let [q, p, s] = [0; 3].map(|_| rng.byte_below(end));
                let place = if rng.once_in(8) {
                    rng.byte_below(8)
                } else {
                    rising
                };
                body.extend([place, 0, q, p, s]);
            }
            tray.body(&body);
        }
        numbers[answer(&tray.to_bytes()).0] += 1;
    }
    assert!(numbers[0] > 1000 && numbers[6] > 1000, "{numbers:?}");
}

// ---- The builder and the view

#[test]
fn errors_and_their_bytes_make_the_same_tray() {
    let mut rng = Rng(81);
    let book = small_book();
    let (mut shots, mut bodies) = (Tray::new(), Tray::new());
    for i in 0..50 {
        let errors = draw_errors(&mut rng, &book, i % 7);
        shots.shot(&errors);
        bodies.body(&bytes_of(&errors));
    }
    assert_eq!(shots, bodies);
    assert_eq!((shots.shots(), Tray::new().to_bytes()), (50, vec![0, 0]));
}

/// Numbers that do not fit two bytes are written as the largest that does, which is refused.
#[test]
fn the_builder_cuts_no_number() {
    let mut long = Tray::new();
    long.body(&[0; 65_541]).body(&[0; 65_535]).body(&[0; 5]);
    assert_eq!(long.to_bytes()[..8], [3, 0, 255, 255, 255, 255, 5, 0]);
    assert_eq!(long.to_bytes().len(), 8 + 65_541 + 65_535 + 5);
    let mut many = Tray::new();
    (0..65_537).for_each(|_| _ = many.body(&[]));
    assert_eq!((many.shots(), many.to_bytes().len()), (65_537, 2 + 131_074));
    assert_eq!(many.to_bytes()[..2], [255, 255]);
}

#[test]
fn the_view_reads_what_was_filled() {
    let mut rng = Rng(82);
    for measurements in [0, 1, 3] {
        let book = draw_circuit(&mut rng, 3, 2, 9, measurements);
        let tray = draw_tray(&mut rng, &book, 30, 2);
        let mut lent = Lent::drawn(&mut rng, &book, &tray);
        // A tail of whole rows is no shot.
        lent.out.extend([UNWRITTEN; 70]);
        let counts = lent.by_library().expect("an accepted tray");
        let shots = Shots::new(&lent.out, counts.shots(), measurements);
        assert_eq!(
            (shots.len(), shots.is_empty(), shots.iter().len()),
            (30, false, 30)
        );
        let clean = shots.iter().filter(|shot| shot.verdict == Verdict::Clean);
        assert_eq!(clean.count(), counts.clean);
        for (i, shot) in shots.iter().enumerate() {
            assert_eq!(shot, shots.shot(i));
            let row = &lent.out[i * (1 + 2 * measurements)..][..1 + 2 * measurements];
            assert_eq!(row[0], u8::from(shot.verdict == Verdict::Shifted));
            assert_eq!(row[1..], *shot.results);
        }
    }
    assert!(Shots::new(&[7], 0, 3).is_empty());
}

#[test]
#[should_panic(expected = "its verdict is 255")]
fn the_view_of_bytes_that_no_run_filled() {
    Shots::new(&[0, 1, 1, 255, 1, 1], 2, 1).shot(1);
}

#[test]
#[should_panic(expected = "range")]
fn the_view_of_a_shot_that_is_not_there() {
    Shots::new(&[0, 1, 1, 0, 1, 1], 1, 1).shot(1);
}

#[test]
#[should_panic(expected = "range")]
fn the_view_of_a_buffer_that_is_too_short() {
    Shots::new(&[0, 1, 1, 0, 1], 2, 1);
}

// ---- The stack

/// The largest sizes on a stack of 256 KiB. If the run needed more, the process would abort. There is
/// no heap that it could use instead: the library refers to no allocator.
#[test]
fn a_small_stack_is_enough() {
    let mut rng = Rng(31);
    let book = draw_circuit(&mut rng, 31, 64, MAX_OPERATIONS - 64, 64);
    let tray = draw_tray(&mut rng, &book, MAX_SHOTS, 8);
    let lent = Lent::drawn(&mut rng, &book, &tray);
    let run = |mut lent: Lent| (lent.by_library(), lent.out);
    let on_small = {
        let lent = lent.clone();
        let small = thread::Builder::new().stack_size(256 * 1024);
        let thread = small.spawn(move || run(lent)).expect("a thread");
        thread.join().expect("no panic")
    };
    assert_eq!(on_small.0.map(TrayCounts::shots), Ok(MAX_SHOTS));
    assert!(on_small == run(lent));
}
