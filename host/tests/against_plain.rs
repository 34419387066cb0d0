//! Drawn books from drawn tableaus: every byte as the plain reference has it.

use crate::common;

use cagvost::book::{Book, DIMENSIONS, MAX_ERRORS, MAX_OPERATIONS, Operation};
use common::plain::{self, Row};
use common::with_raised_choices;
use common::{ROWS, Rng, Run, Shape, UNWRITTEN, Verdicts, run_both};
use common::{draw_book, draw_gate, draw_tableau, with_tail, zero_tableau};

/// How often each kind of measurement was seen.
#[derive(Default)]
struct Seen {
    free: usize,
    certain: usize,
    certain_not_0: usize,
}

impl Seen {
    fn count(&mut self, run: &Run, measurements: usize) {
        for result in run.results[..2 * measurements].chunks(2) {
            self.free += usize::from(result[1] == 1);
            self.certain += usize::from(result[1] == 0);
            self.certain_not_0 += usize::from(result[1] == 0 && result[0] != 0);
        }
    }

    fn is_enough(&self, of_each: usize) {
        let Seen {
            free,
            certain,
            certain_not_0,
        } = self;
        assert!(
            [free, certain, certain_not_0].iter().all(|&&c| c > of_each),
            "free {free} certain {certain} of them not 0 {certain_not_0}"
        );
    }
}

/// Runs a drawn book of the shape from a drawn tableau, by both.
fn compare(rng: &mut Rng, shape: Shape, seen: &mut Seen) {
    let book = draw_book(rng, shape);
    let tableau = draw_tableau(rng, shape.d, shape.n);
    let tableau = with_tail(rng, tableau);
    let results = rng.bytes(2 * book.measurements() + 3);
    let run = run_both(&book.to_bytes(), &tableau, &results);
    assert_eq!(run.returned, (0, book.measurements()));
    seen.count(&run, book.measurements());
}

/// So many books for each dimension, with qudits from `least` to `most`.
fn compare_many(books: usize, least: u8, most: u8, operations: usize) {
    let mut rng = Rng(least.into());
    let mut seen = Seen::default();
    for d in DIMENSIONS {
        for _ in 0..books {
            let shape = Shape {
                d,
                n: least + rng.byte_below(most - least + 1),
                operations: rng.below(operations),
                errors: rng.below(operations / 3),
                measure_one_in: 2 + rng.below(8),
            };
            compare(&mut rng, shape, &mut seen);
        }
    }
    seen.is_enough(10 * books);
}

#[test]
fn one_qudit() {
    compare_many(700, 1, 1, 60);
}

#[test]
fn two_to_four_qudits() {
    compare_many(700, 2, 4, 80);
}

#[test]
fn five_to_twelve_qudits() {
    compare_many(160, 5, 12, 150);
}

#[test]
fn thirteen_to_32_qudits() {
    compare_many(30, 13, 32, 300);
}

#[test]
fn thirty_three_to_64_qudits() {
    compare_many(9, 33, 64, 400);
}

/// Every number of qudits at least once, in every dimension by turns.
#[test]
fn every_number_of_qudits() {
    let mut rng = Rng(64);
    let mut seen = Seen::default();
    for n in 1..=64 {
        let shape = Shape {
            d: DIMENSIONS[usize::from(n) % DIMENSIONS.len()],
            n,
            operations: 150,
            errors: 50,
            measure_one_in: 3,
        };
        compare(&mut rng, shape, &mut seen);
    }
    seen.is_enough(50);
}

/// The largest books there are, on few qudits and on all 64.
#[test]
fn full_books() {
    let mut rng = Rng(4096);
    let mut seen = Seen::default();
    for (d, n) in [(3, 64), (31, 64), (5, 60), (13, 3), (3, 1), (29, 9)] {
        let shape = Shape {
            d,
            n,
            operations: MAX_OPERATIONS,
            errors: MAX_ERRORS,
            measure_one_in: 8,
        };
        compare(&mut rng, shape, &mut seen);
    }
    seen.is_enough(200);
}

#[test]
fn full_books_of_measurements_alone() {
    let mut rng = Rng(4097);
    for (d, n) in [(7, 64), (3, 2)] {
        let shape = Shape {
            d,
            n,
            operations: MAX_OPERATIONS,
            errors: MAX_ERRORS,
            measure_one_in: 1,
        };
        compare(&mut rng, shape, &mut Seen::default());
    }
}

// ---- Certain measurements, whose product the reference holds to be Z

/// A gate that sends levels to levels, with what it does to them.
fn draw_level_gate(rng: &mut Rng, d: u8, levels: &mut [u8]) -> Operation {
    loop {
        let gate = draw_gate(rng, d, levels.len() as u8);
        let at = |q: u8| usize::from(q);
        let modulo = |x: usize| (x % at(d)) as u8;
        match gate {
            Operation::PhaseGate { .. } | Operation::Cz { .. } => {}
            Operation::Sum { c, t, times } => {
                levels[at(t)] = modulo(at(levels[at(t)]) + at(times) * at(levels[at(c)]));
            }
            Operation::Swap { c, t } => levels.swap(at(c), at(t)),
            Operation::Multiplier { q, u } => levels[at(q)] = modulo(at(levels[at(q)]) * at(u)),
            _ => continue,
        }
        return gate;
    }
}

/// Measures every qudit of a drawn tableau, so that each has a level; sends the levels to others by
/// gates and X errors, and measures again: each outcome is certain, and the level that it must be.
/// The products of those measurements can run over many stabilizers.
fn measure_levels(rng: &mut Rng, d: u8, n: u8) {
    let count = usize::from(n);
    let tableau = draw_tableau(rng, d, n);
    let mut book = Book::new(d, n);
    for q in 0..n {
        book.measure(q, rng.byte_below(d));
    }
    let room = vec![UNWRITTEN; 2 * count];
    let first = run_both(&book.to_bytes(), &tableau, &room);
    let mut levels: Vec<u8> = first.results.chunks(2).map(|result| result[0]).collect();
    let mut book = Book::new(d, n);
    for _ in 0..4 * count {
        let gate = draw_level_gate(rng, d, &mut levels);
        let (q, p, s) = (rng.byte_below(n), rng.byte_below(d), rng.byte_below(d));
        book.operation(gate).error(q, p, s);
        let level = &mut levels[usize::from(q)];
        *level = ((u16::from(*level) + u16::from(p)) % u16::from(d)) as u8;
    }
    for q in 0..n {
        book.measure(q, rng.byte_below(d));
    }
    let run = run_both(&book.to_bytes(), &first.tableau, &room);
    let expected: Vec<u8> = levels.iter().flat_map(|&level| [level, 0]).collect();
    assert_eq!(run.results, expected, "d {d} n {n}");
}

/// Levels are a reference of another make that reaches all 64 qudits.
#[test]
fn certain_outcomes_are_the_levels() {
    let mut rng = Rng(10);
    for n in 1..=64 {
        for d in [3, DIMENSIONS[usize::from(n) % DIMENSIONS.len()]] {
            measure_levels(&mut rng, d, n);
        }
    }
}

// ---- The lowest pivot, which neither results nor stabilizer sets show

/// The row's bytes in a tableau.
fn row(tableau: &[u8], n: usize, i: usize) -> &[u8] {
    &tableau[ROWS + i * (2 * n + 1)..][..2 * n + 1]
}

/// Measures one qudit of a drawn tableau where several stabilizers could be the pivot, and looks
/// for the lowest in the bytes.
fn measure_with_two_pivots(rng: &mut Rng, d: u8, n: u8) -> bool {
    let (count, q, m) = (usize::from(n), rng.byte_below(n), rng.byte_below(d));
    let tableau = draw_tableau(rng, d, n);
    let able: Vec<usize> = (0..count)
        .filter(|&k| row(&tableau, count, count + k)[usize::from(q)] != 0)
        .collect();
    let [k, next, ..] = able[..] else {
        return false;
    };
    let book = Book::new(d, n).measure(q, m).to_bytes();
    let run = run_both(&book, &tableau, &[UNWRITTEN; 2]);
    assert_eq!(run.results, [m, 1]);
    let measured = plain::z_on(count, q.into(), i64::from((d - m) % d));
    let bytes = plain::bytes_of(&[measured]);
    assert_eq!(row(&run.tableau, count, count + k), bytes);
    assert_ne!(row(&run.tableau, count, count + next), bytes);
    true
}

#[test]
fn the_lowest_pivot_is_taken() {
    let mut rng = Rng(11);
    for d in DIMENSIONS {
        for n in [2, 3, 5, 17, 64] {
            let tries = (0..40).filter(|_| measure_with_two_pivots(&mut rng, d, n));
            assert!(tries.take(3).count() == 3, "d {d} n {n}");
        }
    }
}

/// Worked by hand from the specification's measuring rules, with d = 5, qudit 2 and choice 1.
///
/// Stabilizers 0 and 1 have an X power on qudit 2. The pivot P is the lower one, stabilizer 0, with
/// e = 2: 1/e is 3, for 2·3 = 6, and e in its stead would show. P has phase 3 and Σ a·b = 2·2 = 4,
/// so P^h has phase 3h + 4·h(h−1)/2:
/// - P^1 is (2,0,2, 0,0,2) with phase 3;
/// - P^2 is (4,0,4, 0,0,4) with phase 6 + 4 = 10, that is 0;
/// - P^3 is (1,0,1, 0,0,1) with phase 9 + 12 = 21, that is 1.
#[test]
fn the_lowest_pivot_by_hand() {
    #[rustfmt::skip]
    let before = [
        5, 3,
        0, 0, 0, 2, 0, 0, 4,
        0, 0, 0, 0, 3, 0, 2,
        0, 0, 1, 0, 0, 1, 0,
        2, 0, 2, 0, 0, 2, 3,
        0, 3, 3, 0, 0, 3, 3,
        0, 0, 0, 4, 4, 1, 4,
    ];
    let book = Book::new(5, 3).measure(2, 1).to_bytes();
    let run = run_both(&book, &before, &[UNWRITTEN; 2]);
    assert_eq!(run.results, [1, 1]);
    #[rustfmt::skip]
    assert_eq!(run.tableau, [
        5, 3,
        1, 0, 1, 0, 0, 1, 1, // P^(1/e) = P^3
        0, 0, 0, 0, 3, 0, 2, // f = 0: times P^0
        4, 0, 0, 0, 0, 0, 4, // f = 1: times P^(−1·3) = P^2; phase 0 + 0 + 1·4
        0, 0, 0, 0, 0, 1, 4, // Z on 2, phase −1
        2, 3, 0, 0, 0, 0, 2, // f = 3: times P^(−3·3) = P^1; phase 3 + 3 + 3·2 = 12
        0, 0, 0, 4, 4, 1, 4, // f = 0: times P^0
    ]);
}

// ---- Demand 3 and the verdict on the plain reference, which frame.rs holds the library against

/// A frame run against a direct run with raised choices, and its verdict against the stabilizer
/// sets that it and the run without errors leave.
fn framed_and_direct(rng: &mut Rng, d: u8, n: u8, seen: &mut Verdicts) {
    let shape = Shape {
        d,
        n,
        operations: rng.below(60),
        errors: rng.below(20),
        measure_one_in: 3,
    };
    let book = draw_book(rng, shape);
    let tableau = draw_tableau(rng, d, n);
    let room = vec![UNWRITTEN; 2 * book.measurements()];
    let run = |book: &Book| run_both(&book.to_bytes(), &tableau, &room);
    let direct = run(&with_raised_choices(&book));
    let clean = run(&book.without_errors());
    let (mut framed, mut results) = (tableau.clone(), room.clone());
    let mut shifts = vec![UNWRITTEN; 2 * usize::from(n)];
    let mut frame = shifts.clone();
    let first = book.to_bytes();
    let returned = plain::frame_run(&first, &mut framed, &mut results, &mut shifts, &mut frame);
    assert_eq!((returned.0, returned.1), direct.returned);
    assert_eq!(results, direct.results);
    assert!(framed == direct.tableau);
    assert_eq!(framed[..ROWS], [d, n]);
    let [carried, unstruck] = [&framed[ROWS..], &clean.tableau[ROWS..]];
    let same = plain::same_set(d.into(), n.into(), carried, unstruck);
    assert_eq!(returned.2, usize::from(!same), "verdict of {first:02x?}");
    seen.count(returned.2 == 0, &shifts);
}

#[test]
fn errors_carried_by_the_reference_are_errors_applied() {
    let mut rng = Rng(3);
    let mut seen = Verdicts::default();
    for d in DIMENSIONS {
        for _ in 0..300 {
            let n = 1 + rng.byte_below(6);
            framed_and_direct(&mut rng, d, n, &mut seen);
        }
    }
    seen.are_enough(50);
}

/// A product of powers does not depend on how it is taken apart: the row laws the reference rests
/// on, where a slip would be shared by a library that copied it.
#[test]
fn powers_of_the_reference_are_repeated_products() {
    let mut rng = Rng(12);
    for d in DIMENSIONS.map(i64::from) {
        for _ in 0..20 {
            let mut draw = || rng.below(d as usize) as i64;
            let v = Row {
                a: vec![draw(), draw(), draw()],
                b: vec![draw(), draw(), draw()],
                r: draw(),
            };
            let mut repeated = plain::identity(3);
            for h in 0..2 * d {
                assert_eq!(plain::power(d, &v, h), repeated);
                repeated = plain::product(d, &repeated, &v);
            }
        }
    }
}

// ---- Stabilizer sets of the reference, which judge the verdict

/// Membership is that in the list of all d^n products, for every row there is.
#[test]
fn members_of_the_reference_are_all_products() {
    let mut rng = Rng(13);
    for (d, n) in [(3, 1), (5, 1), (31, 1), (3, 2), (5, 2)] {
        let (modulus, count) = (i64::from(d), usize::from(n));
        let rows = plain::rows_of(count, &draw_tableau(&mut rng, d, n)[ROWS..]);
        let mut listed = vec![plain::identity(count)];
        for row in &rows[count..] {
            let powers = (0..modulus).map(|h| plain::power(modulus, row, h));
            listed = powers
                .flat_map(|w| listed.iter().map(move |v| plain::product(modulus, v, &w)))
                .collect();
        }
        for code in 0..modulus.pow(2 * u32::from(n) + 1) {
            let digit = |i: usize| code / modulus.pow(i as u32) % modulus;
            let v = Row {
                a: (0..count).map(digit).collect(),
                b: (count..2 * count).map(digit).collect(),
                r: digit(2 * count),
            };
            let member = plain::stabilizes(modulus, count, &rows, &v);
            assert_eq!(member, listed.contains(&v), "{v:?} in {rows:?}");
        }
    }
}

/// Gates that send levels to levels keep the set of the zero tableau and change its rows; after the
/// same gates on both, the sets are still the same. With another phase of a stabilizer they are
/// not, with another phase of a destabilizer they are.
fn sets_by_other_rows(rng: &mut Rng, d: u8, n: u8) {
    let count = usize::from(n);
    let (mut first, mut then) = (Book::new(d, n), Book::new(d, n));
    let mut levels = vec![0; count];
    for _ in 0..8 * count {
        first.operation(draw_level_gate(rng, d, &mut levels));
        then.operation(draw_gate(rng, d, n));
    }
    let after = |book: &Book, tableau: &[u8]| run_both(&book.to_bytes(), tableau, &[]).tableau;
    let zero = zero_tableau(d, n);
    let (t, mut u) = (after(&then, &zero), after(&then, &after(&first, &zero)));
    let same = |u: &[u8]| plain::same_set(d.into(), count, &t[ROWS..], &u[ROWS..]);
    assert!(t != u && same(&u), "d {d} n {n}");
    for i in 0..2 * count {
        let phase = ROWS + i * (2 * count + 1) + 2 * count;
        let before = u[phase];
        u[phase] = (before + 1 + rng.byte_below(d - 1)) % d;
        assert_eq!(same(&u), i < count, "d {d} n {n} row {i}");
        u[phase] = before;
    }
}

#[test]
fn sets_of_the_reference_are_the_same_by_other_rows() {
    let mut rng = Rng(14);
    for d in DIMENSIONS {
        for n in [1, 2, 3, 5, 12] {
            sets_by_other_rows(&mut rng, d, n);
        }
    }
}
