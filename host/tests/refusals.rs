//! Each refusal comes exactly when the list says, in the listed order, and leaves every byte.
//!
//! `run_both`, `carry_both`, `layer_both` and `test_both` compare number, place and every lent byte
//! with the plain reference, and every byte with what it was before a refusal.

use crate::common;

use cagvost::book::{Book, DIMENSIONS, MAX_CHOICES, MAX_ERRORS, MAX_OPERATIONS};
use cagvost::book::{Operation, WeylError};
use common::frames::{Buffers, carry_both};
use common::plain::{Returned, is_valid, read};
use common::{BODIES, FULL, PAPER_BOOK, ROWS, Rng, Shape, UNWRITTEN};
use common::{counted, cz, damage, draw_book, draw_tableau, layer_both, named, run_both, sum};
use common::{test_both, with_byte, with_tail, with_times, zero_tableau};

/// What a run with good buffers says to the book.
fn answer(book: &[u8]) -> Returned {
    let [d, n] = [1, 2].map(|i| book.get(i).copied().unwrap_or(1));
    let n = if (1..=64).contains(&n) { n } else { 1 };
    let results = vec![UNWRITTEN; 2 * MAX_CHOICES];
    run_both(book, &zero_tableau(d, n), &results).returned
}

/// A book with one operation, as bytes.
fn one_operation(d: u8, n: u8, entry: [u8; 4]) -> Vec<u8> {
    let mut book = Book::new(d, n);
    book.operation(Operation::Fourier { q: 0, times: 1 });
    let mut bytes = book.to_bytes();
    bytes[BODIES..BODIES + 4].copy_from_slice(&entry);
    bytes
}

/// A book of a few operations of every kind, two of them powers, errors and choices.
fn mixed_book() -> Book {
    let mut book = Book::new(5, 3);
    book.error(2, 4, 1)
        .operation(Operation::Fourier { q: 0, times: 3 })
        .operation(Operation::PhaseGate { q: 1, times: 1 })
        .error(0, 1, 0)
        .error(1, 0, 3)
        .operation(sum(0, 2))
        .measure(2, 3)
        .operation(with_times(cz(2, 1), 4))
        .operation(Operation::Swap { c: 1, t: 0 })
        .operation(Operation::Multiplier { q: 1, u: 3 })
        .reset(1, 2)
        .measure(0, 4)
        .error(1, 3, 0)
        .correct(2, 1)
        .error(2, 2, 2);
    book
}

// ---- The book

#[test]
fn refusal_1_header() {
    for length in 0..BODIES {
        assert_eq!(answer(&PAPER_BOOK[..length]), (1, 0));
    }
    for byte in 0..=255 {
        assert_eq!(answer(&with_byte(&PAPER_BOOK, 0, byte)).0 == 1, byte != 81);
        assert_eq!(answer(&with_byte(&PAPER_BOOK, 3, byte)).0 == 1, byte != 3);
    }
}

#[test]
fn refusals_2_and_3_sizes() {
    let mut rng = Rng(23);
    for d in 0..=255 {
        for n in [0, 1, 2, 64, 65, 255] {
            let returned = answer(&Book::new(d, n).to_bytes());
            let expected = match (DIMENSIONS.contains(&d), (1..=64).contains(&n)) {
                (false, _) => (2, 0),
                (true, false) => (3, 0),
                (true, true) => (0, 0),
            };
            assert_eq!(returned, expected, "d {d} n {n}");
            let junk = rng.bytes(40);
            layer_both(&junk, d.into(), n.into());
            test_both(&named(d, n, &junk));
        }
    }
}

#[test]
fn refusal_4_contents() {
    let book = mixed_book().to_bytes();
    for entry in 0..3 {
        let at = 4 + 6 * entry;
        for (field, byte) in [(0, 0), (0, 4), (1, 1), (2, 0), (3, 1), (5, 255)] {
            assert_eq!(answer(&with_byte(&book, at + field, byte)), (4, entry));
        }
    }
    // A whole and allowed but false length shows as the next entry's offset, or as a wrong end.
    assert_eq!(answer(&with_byte(&book, 8, book[8] - 4)), (4, 1));
    assert_eq!(answer(&with_byte(&book, 14, book[14] + 5)), (4, 2));
    assert_eq!(answer(&with_byte(&book, 20, book[20] + 1)), (4, 3));
    // Not whole entries.
    assert_eq!(answer(&with_byte(&book, 8, book[8] + 1)), (4, 0));
    assert_eq!(answer(&with_byte(&book, 14, book[14] - 1)), (4, 1));
    // Only the end is wrong.
    for length in BODIES..book.len() {
        assert_eq!(answer(&book[..length]), (4, 3));
    }
    assert_eq!(answer(&[book, vec![0]].concat()), (4, 3));
}

#[test]
fn the_longest_book_passes_and_longer_ones_are_refused_by_4() {
    let (o, e, c) = (MAX_OPERATIONS, MAX_ERRORS, MAX_CHOICES);
    let counted = |o, e, c| counted(o, e, c).to_bytes();
    let longest = counted(o, e, c);
    assert_eq!(longest.len(), 30_742);
    assert_eq!(answer(&longest), (0, c));
    assert_eq!(answer(&longest[..longest.len() - 1]), (4, 3));
    assert_eq!(answer(&[longest, vec![2]].concat()), (4, 3));
    assert_eq!(answer(&counted(o + 1, e, c)), (4, 0));
    assert_eq!(answer(&counted(o, e + 1, c)), (4, 1));
    assert_eq!(answer(&counted(o, e, c + 1)), (4, 2));
    // Lengths that do not fit two bytes; the builder must not cut them.
    assert_eq!(answer(&counted(16_384, 0, 0)), (4, 0));
    assert_eq!(answer(&counted(0, 13_108, 0)), (4, 1));
    assert_eq!(answer(&counted(0, 0, 65_536)), (4, 2));
}

#[test]
fn refusal_5_every_operation_entry() {
    let edges = |d: u8, n: u8| [0, 1, 2, d - 1, d, n - 1, n, 64, 255];
    for (d, n) in [(3, 1), (3, 2), (5, 3), (31, 64)] {
        for code in (0..=10).chain([64, 128, 255]) {
            for (x, y, z) in triples(&edges(d, n)) {
                let returned = answer(&one_operation(d, n, [code, x, y, z]));
                // A lone measurement or reset lacks its choice, and a lone correction its result.
                assert!([(0, 0), (5, 0), (7, 0)].contains(&returned));
            }
        }
    }
}

fn triples(of: &[u8]) -> impl Iterator<Item = (u8, u8, u8)> {
    let pairs = of.iter().flat_map(|&x| of.iter().map(move |&y| (x, y)));
    pairs.flat_map(|(x, y)| of.iter().map(move |&z| (x, y, z)))
}

/// Numbers from 1 to d − 1 alone are factors of a multiplier: 0 and every number from d up are
/// refused, by both runs.
#[test]
fn refusal_5_every_factor() {
    let mut rng = Rng(55);
    for (d, u) in DIMENSIONS
        .into_iter()
        .flat_map(|d| (0..=255).map(move |u| (d, u)))
    {
        let (n, index) = (1 + rng.byte_below(3), rng.below(4));
        let mut book = Book::new(d, n);
        book.error(0, 1, 1);
        for i in 0..4 {
            let q = rng.byte_below(n);
            let good = 1 + rng.byte_below(d - 1);
            let u = if i == index { u } else { good };
            book.operation(Operation::Multiplier { q, u });
        }
        let book = book.measure(0, d - 1).to_bytes();
        let tableau = draw_tableau(&mut rng, d, n);
        let before = Buffers::drawn(&mut rng, n, 1, tableau);
        let is_factor = (1..d).contains(&u);
        let expected = if is_factor { (0, 1) } else { (5, index) };
        let direct = run_both(&book, &before.tableau, &before.results);
        let (framed, _) = carry_both(&book, &before);
        assert_eq!(direct.returned, expected, "d {d} u {u}");
        assert_eq!((framed.0, framed.1), expected, "d {d} u {u}");
    }
}

#[test]
fn refusal_5_names_the_first_bad_operation() {
    let mut rng = Rng(5);
    for _ in 0..200 {
        let mut book = Book::new(3, 2);
        let count = 1 + rng.below(MAX_OPERATIONS);
        for _ in 0..count {
            book.operation(cz(1, 0));
        }
        let mut bytes = book.to_bytes();
        let bad = [0, 1, 2].map(|_| rng.below(count));
        for index in bad {
            bytes[BODIES + 4 * index + rng.below(4)] = 9;
        }
        assert_eq!(answer(&bytes), (5, *bad.iter().min().unwrap()));
    }
}

#[test]
fn refusal_6_errors() {
    let good = WeylError {
        place: 1,
        qudit: 1,
        p: 4,
        s: 4,
    };
    let bad = [
        WeylError { place: 3, ..good },
        WeylError {
            place: 258, // 2 when cut to a byte
            ..good
        },
        WeylError { place: 0, ..good },
        WeylError { qudit: 2, ..good },
        WeylError { p: 5, ..good },
        WeylError { s: 5, ..good },
        WeylError { s: 255, ..good },
    ];
    let book = |errors: &[WeylError]| {
        let mut book = Book::new(5, 2);
        book.operation(Operation::Fourier { q: 0, times: 1 })
            .operation(sum(1, 0));
        errors.iter().for_each(|&e| _ = book.error_at(e));
        book.to_bytes()
    };
    assert_eq!(answer(&book(&[good, good])), (0, 0));
    for error in bad {
        assert_eq!(answer(&book(&[good, error])), (6, 1), "{error:?}");
        assert_eq!(answer(&book(&[good, good, error, error])), (6, 2));
    }
    // The first error has nothing to fall from; without operations only place 0 is good.
    assert_eq!(answer(&book(&[WeylError { place: 0, ..good }])), (0, 0));
    let mut empty = Book::new(5, 2);
    empty.error_at(WeylError { place: 0, ..good });
    assert_eq!(answer(&empty.to_bytes()), (0, 0));
    empty.error_at(good);
    assert_eq!(answer(&empty.to_bytes()), (6, 1));
}

#[test]
fn refusal_7_choices() {
    let book = |measurements: usize, choices: &[u8]| {
        let mut book = Book::new(3, 1);
        for _ in 0..measurements {
            book.operation(Operation::Fourier { q: 0, times: 1 })
                .operation(Operation::Measure { q: 0 });
        }
        choices.iter().for_each(|&c| _ = book.choice(c));
        book.to_bytes()
    };
    assert_eq!(answer(&book(0, &[])), (0, 0));
    assert_eq!(answer(&book(3, &[2, 1, 0])), (0, 3));
    assert_eq!(answer(&book(3, &[2, 3, 255])), (7, 1));
    assert_eq!(answer(&book(3, &[])), (7, 0));
    assert_eq!(answer(&book(0, &[0])), (7, 0));
    // Unequal counts win over a bad choice at a lower index.
    assert_eq!(answer(&book(3, &[9, 1])), (7, 2));
    assert_eq!(answer(&book(3, &[9, 1, 1, 1, 1])), (7, 3));
    assert_eq!(answer(&book(1, &vec![0; MAX_CHOICES])), (7, 1));
}

#[test]
fn earlier_numbers_win_over_later_ones() {
    // One fault for each number from 7 down to 1, made one upon the other.
    let mut book = mixed_book().to_bytes();
    let [errors, choices] = [BODIES + 10 * 4, book.len() - 3];
    let faults = [
        (choices + 1, 5, (7, 1)),
        (errors + 3, 5, (6, 0)),
        (errors - 2, 2, (5, 9)), // there are measurements 0 and 1
        (BODIES, 9, (5, 0)),
        (16, 9, (4, 2)),
        (10, 9, (4, 1)),
        (4, 9, (4, 0)),
        (2, 65, (3, 0)),
        (1, 9, (2, 0)),
        (3, 4, (1, 0)),
    ];
    let mut rng = Rng(8);
    let valid = zero_tableau(5, 3);
    let invalid = with_byte(&valid, ROWS, 2);
    let other = zero_tableau(3, 3);
    let results = [UNWRITTEN; 4];
    assert_eq!(run_both(&book, &[], &[]).returned, (8, 0));
    for (place, byte, expected) in faults {
        book[place] = byte;
        // A bad book beats short buffers, an invalid tableau and one of another dimension.
        assert_eq!(run_both(&book, &valid, &results).returned, expected);
        assert_eq!(run_both(&book, &[], &[]).returned, expected);
        assert_eq!(run_both(&book, &invalid, &results).returned, expected);
        assert_eq!(run_both(&book, &other, &results).returned, expected);
        let junk = rng.bytes(50);
        assert_eq!(run_both(&book, &junk, &junk).returned, expected);
    }
}

// ---- Buffers and tableaus

#[test]
fn refusal_8_short_buffers() {
    let mut rng = Rng(8);
    for n in [1, 2, 3, 7, 64] {
        let mut book = Book::new(7, n);
        (0..n).for_each(|q| _ = book.measure(q, 1));
        let (book, tableau) = (book.to_bytes(), draw_tableau(&mut rng, 7, n));
        let (needed, results) = (tableau.len(), vec![UNWRITTEN; 2 * usize::from(n)]);
        assert_eq!(run_both(&book, &tableau, &results).returned, (0, n.into()));
        for length in [0, 1, 2, needed / 2, needed - 2, needed - 1] {
            let short = &tableau[..length];
            assert_eq!(run_both(&book, short, &results).returned, (8, 0));
            assert_eq!(layer_both(short, 7, n.into()).0, (8, 0));
            assert_eq!(test_both(short), (8, 0));
        }
        for length in [0, 1, results.len() - 1] {
            let short = &results[..length];
            assert_eq!(run_both(&book, &tableau, short).returned, (8, 0));
            // A short buffer beats an invalid tableau.
            let invalid = with_byte(&tableau, needed - 1, 7);
            assert_eq!(run_both(&book, &invalid, short).returned, (8, 0));
            assert_eq!(run_both(&book, &invalid, &results).returned, (9, 0));
        }
    }
}

#[test]
fn sizes_are_tested_before_buffers() {
    for (d, n, expected) in [
        (9, 0, (2, 0)),
        (37, 65, (2, 0)),
        (259, 257, (2, 0)),
        (31, 0, (3, 0)),
        (31, 65, (3, 0)),
        (3, 257, (3, 0)),
        (3, usize::MAX, (3, 0)),
        (3, 64, (8, 0)),
    ] {
        for buffer in [vec![], vec![255; 5]] {
            assert_eq!(layer_both(&buffer, d, n).0, expected);
            // The test reads both from the buffer, where they are bytes.
            if let (Ok(d), Ok(n)) = (u8::try_from(d), u8::try_from(n)) {
                assert_eq!(test_both(&named(d, n, &buffer)), expected);
            }
        }
    }
}

#[test]
fn refusal_9_every_byte_of_a_small_tableau() {
    let mut rng = Rng(9);
    let mut book = Book::new(3, 2);
    book.measure(0, 1).measure(1, 1);
    let book = book.to_bytes();
    for _ in 0..4 {
        let tableau = draw_tableau(&mut rng, 3, 2);
        for (place, byte) in (ROWS..tableau.len()).flat_map(|i| (0..=255).map(move |x| (i, x))) {
            let damaged = with_byte(&tableau, place, byte);
            let returned = test_both(&damaged);
            assert!(returned == (0, 0) || returned == (9, 0));
            assert_eq!(
                run_both(&book, &damaged, &[UNWRITTEN; 4]).returned.0,
                returned.0
            );
        }
    }
}

#[test]
fn refusal_9_damaged_tableaus_of_every_size() {
    let mut rng = Rng(99);
    for _ in 0..1500 {
        let d = DIMENSIONS[rng.below(DIMENSIONS.len())];
        let most = if rng.once_in(20) { 64 } else { 6 };
        let n = 1 + rng.byte_below(most);
        let width = 2 * usize::from(n) + 1;
        let mut tableau = draw_tableau(&mut rng, d, n);
        assert_eq!(test_both(&tableau), (0, 0));
        let place = ROWS + rng.below(tableau.len() - ROWS);
        tableau[place] = match rng.below(3) {
            0 => d + rng.byte_below(255 - d),
            _ => (tableau[place] + 1 + rng.byte_below(d - 1)) % d,
        };
        let returned = test_both(&tableau);
        if tableau[place] >= d {
            assert_eq!(returned, (9, 0), "a byte not below d");
        } else if (place - ROWS) % width == width - 1 {
            assert_eq!(returned, (0, 0), "another phase is as good");
        }
        run_both(&Book::new(d, n).to_bytes(), &tableau, &[]);
    }
}

#[test]
fn refusal_9_rows_in_the_wrong_place() {
    let mut rng = Rng(19);
    for d in DIMENSIONS {
        for n in [1, 2, 5, 64] {
            let width = 2 * usize::from(n) + 1;
            let rows = draw_tableau(&mut rng, d, n).split_off(ROWS);
            // Destabilizers and stabilizers exchanged: partners pair to −1.
            let (first, second) = rows.split_at(rows.len() / 2);
            let exchanged = [second, first].concat();
            assert_eq!(test_both(&named(d, n, &exchanged)), (9, 0));
            // Two rows of one half exchanged.
            if n > 1 {
                let mut moved = rows.clone();
                let (head, tail) = moved.split_at_mut(width);
                head.swap_with_slice(&mut tail[..width]);
                assert_eq!(test_both(&named(d, n, &moved)), (9, 0));
            }
            // No rows at all.
            let nothing = vec![0; rows.len()];
            assert_eq!(test_both(&named(d, n, &nothing)), (9, 0));
        }
    }
}

#[test]
fn bytes_past_the_needed_ones_are_kept() {
    let mut rng = Rng(10);
    for _ in 0..300 {
        let (d, n) = (
            DIMENSIONS[rng.below(DIMENSIONS.len())],
            1 + rng.byte_below(6),
        );
        let (operations, errors) = (rng.below(30), rng.below(5));
        let book = draw_book(
            &mut rng,
            Shape {
                d,
                n,
                operations,
                errors,
                measure_one_in: 3,
            },
        );
        let valid = draw_tableau(&mut rng, d, n);
        let tableau = with_tail(&mut rng, valid);
        let room = rng.bytes(2 * book.measurements());
        let results = with_tail(&mut rng, room);
        let run = run_both(&book.to_bytes(), &tableau, &results);
        assert_eq!(run.returned, (0, book.measurements()));
        let (needed, filled) = (cagvost::tableau_len(n.into()), 2 * book.measurements());
        assert_eq!(run.tableau[needed..], tableau[needed..]);
        assert_eq!(run.results[filled..], results[filled..]);
        let junk = rng.bytes(needed + 5);
        let (returned, laid) = layer_both(&junk, d.into(), n.into());
        assert_eq!((returned, &laid[needed..]), ((0, 0), &junk[needed..]));
    }
}

// ---- Damage

/// Every value of every byte.
fn damage_every_byte(book: &[u8]) {
    assert_eq!(answer(book).0, 0);
    for (place, byte) in (0..book.len()).flat_map(|i| (0..=255).map(move |x| (i, x))) {
        answer(&with_byte(book, place, byte));
    }
}

#[test]
fn every_single_byte_damage_of_the_paper_book() {
    damage_every_byte(&PAPER_BOOK);
}

#[test]
fn every_single_byte_damage_of_a_mixed_book() {
    damage_every_byte(&mixed_book().to_bytes());
}

#[test]
fn drawn_books_damaged_a_few_times() {
    let mut rng = Rng(77);
    let mut numbers = [0; 11];
    for _ in 0..24_000 {
        let shape = Shape::small(&mut rng);
        let mut book = draw_book(&mut rng, shape).to_bytes();
        for _ in 0..1 + rng.below(3) {
            damage(&mut rng, &mut book);
        }
        numbers[answer(&book).0] += 1;
    }
    // The damage reached every refusal of a book, and some of it was harmless.
    assert!(numbers[..8].iter().all(|&count| count > 100), "{numbers:?}");
}

#[test]
fn long_books_damaged_once() {
    let mut rng = Rng(78);
    let book = draw_book(&mut rng, FULL).to_bytes();
    for _ in 0..300 {
        let place = rng.below(book.len());
        answer(&with_byte(&book, place, rng.byte_below(10)));
    }
}

#[test]
fn random_bytes_as_books() {
    let mut rng = Rng(79);
    for i in 0..20_000 {
        let length = rng.below(if i % 100 == 0 { 70_000 } else { 120 });
        let mut book = rng.bytes(length);
        if i % 2 == 0 && length >= 4 {
            book[..4].copy_from_slice(&[81, 3, 2, 3]);
        }
        let (tableau, results) = (rng.bytes(40), rng.bytes(10));
        let returned = run_both(&book, &tableau, &results).returned;
        assert_ne!(returned.0, 0, "an unlikely book: {book:02x?}");
    }
}

#[test]
fn random_bytes_as_bodies_and_tableaus() {
    let mut rng = Rng(80);
    for _ in 0..20_000 {
        let (operations, errors, choices) = (rng.below(4), rng.below(3), rng.below(3));
        let mut book = counted(operations, errors, choices).to_bytes();
        book[2] = 1 + rng.byte_below(3);
        let end = 2 + rng.byte_below(9);
        book[BODIES..]
            .iter_mut()
            .for_each(|x| *x = rng.byte_below(end));
        let rows: Vec<u8> = (0..42).map(|_| rng.byte_below(3)).collect();
        // Two in three have the book's n, and three in four its d.
        let n = [1 + rng.byte_below(3), book[2]][rng.below(2)];
        let tableau = named([3, 3, 3, 5][rng.below(4)], n, &rows);
        let returned = run_both(&book, &tableau, &[UNWRITTEN; 16]).returned;
        let is_named = tableau[..ROWS] == book[1..3];
        let is_good = read(&book).is_ok_and(|book| is_valid(book.d, book.n, &rows));
        assert_eq!(returned.0 == 0, is_named && is_good);
    }
}
