//! Runs that own their buffers: each number, outcome, look and byte as the calls on bytes have it.

use crate::common;

use cagvost::book::{Book, DIMENSIONS, Operation};
use cagvost::{Look, Outcome, Refusal, Run, Simulation, Tableau};
use common::halts::{Halted, go_on_both};
use common::{Rng, Shape, draw_book, draw_tableau, paper_book};

fn simulation(book: &Book) -> Simulation {
    Simulation::new(book).expect("an accepted book")
}

fn said(outcomes: &[Outcome]) -> Vec<String> {
    outcomes.iter().map(Outcome::to_string).collect()
}

fn draw(rng: &mut Rng) -> Book {
    let shape = Shape {
        d: DIMENSIONS[rng.below(DIMENSIONS.len())],
        n: 1 + rng.byte_below(4),
        operations: rng.below(30),
        errors: rng.below(12),
        measure_one_in: 2 + rng.below(4),
    };
    draw_book(rng, shape)
}

/// How many measurements come before the operation of this number.
fn made(book: &Book, number: usize) -> usize {
    let earlier = book.operations().iter().take(number);
    earlier
        .filter(|o| matches!(o, Operation::Measure { .. }))
        .count()
}

/// The run stands where the call on bytes has left its buffers.
fn stands(run: &Run, at: &Halted, book: &Book) {
    let (number, operations) = (at.next(), book.operations().len());
    assert_eq!(run.number(), number);
    assert_eq!(run.is_finished(), number == operations + 1);
    assert!(run.tableau().as_bytes() == at.tableau, "{number} of {book}");
    let outcomes = run.outcomes();
    assert_eq!(outcomes.len(), made(book, number), "{number} of {book}");
    for (outcome, result) in outcomes.iter().zip(at.results.chunks(2)) {
        let kind = ["certain", "free"][usize::from(result[1])];
        assert_eq!(outcome.to_string(), format!("{kind} {}", result[0]));
    }
    for q in (0..=usize::from(book.qudits())).chain([256, usize::MAX]) {
        assert_eq!(run.look(q), cagvost::look(&at.tableau, q));
    }
}

#[test]
fn runs_advance_as_the_calls_on_bytes_do() {
    let mut rng = Rng(31);
    for _ in 0..300 {
        let book = draw(&mut rng);
        let start = draw_tableau(&mut rng, book.dimension(), book.qudits());
        let tableau = Tableau::from_bytes(&start).expect("a valid tableau");
        let simulation = Simulation::starting_from(&book, tableau).expect("of the same d and n");
        let mut run = simulation.start();
        let (bytes, results) = (book.to_bytes(), vec![0; 2 * book.measurements()]);
        let mut at = go_on_both(&bytes, &start, &results, 0, 0);
        stands(&run, &at, &book);
        while !run.is_finished() {
            let count = [rng.below(5), rng.below(5), usize::MAX][rng.below(3)];
            run.advance(count);
            at = at.go_on(&bytes, count);
            stands(&run, &at, &book);
        }
        assert_eq!(run.finish(), simulation.direct(), "{book}");
    }
}

/// From every number, after looks, a run finishes with what the whole run ends with; and neither it nor
/// a clone of it changes anything for another run.
#[test]
fn every_halt_leads_to_the_same_end() {
    let mut rng = Rng(32);
    for _ in 0..60 {
        let book = draw(&mut rng);
        let simulation = simulation(&book);
        let (direct, frame) = (simulation.direct(), simulation.frame());
        let mut run = simulation.start();
        while !run.is_finished() {
            let (number, tableau) = (run.number(), run.tableau().clone());
            (0..book.qudits()).for_each(|q| _ = run.look(q.into()).expect("a qudit"));
            assert_eq!(run.clone().finish(), direct, "from {number} of {book}");
            assert_eq!((run.number(), run.tableau()), (number, &tableau));
            run.advance(1);
            assert_eq!(run.number(), number + 1);
        }
        run.advance(7);
        assert_eq!(run.number(), book.operations().len() + 1);
        assert_eq!(run.finish(), direct, "{book}");
        assert_eq!((simulation.direct(), simulation.frame()), (direct, frame));
    }
}

/// The book of the specification: an X error strikes the second qudit before operation 2.
#[test]
fn the_book_of_the_specification_by_halts() {
    let mut run = simulation(&paper_book()).start();
    assert_eq!((run.number(), run.outcomes()), (0, vec![]));
    assert_eq!([run.look(0), run.look(1)], [Ok(Look::Certain(0)); 2]);
    run.advance(2);
    let rows = run.tableau().stabilizers().map(|row| row.to_string());
    assert_eq!(Vec::from_iter(rows), ["X0^2 X1^2", "Z0^2 Z1"]);
    assert_eq!([run.look(0), run.look(1)], [Ok(Look::Free); 2]);
    run.advance(1);
    assert_eq!(said(&run.outcomes()), ["free 2"]);
    assert_eq!(run.look(0), Ok(Look::Certain(2)));
    assert_eq!(run.look(1), Ok(Look::Certain(0)));
    run.advance(1);
    assert_eq!((run.number(), run.is_finished()), (4, false));
    assert_eq!(said(&run.outcomes()), ["free 2", "certain 0"]);
    assert_eq!(run.look(2), Err(Refusal::NoSuchQudit));
    let end = run.finish();
    assert_eq!(end.tableau.stabilizer(1).to_string(), "ω^2 Z0^2 Z1");
}

/// The temporary simulation is gone, and its run goes on.
#[test]
fn a_run_outlives_its_simulation() {
    let mut run = simulation(&paper_book()).start();
    run.advance(3);
    assert_eq!(run.finish(), simulation(&paper_book()).direct());
}

/// A tableau is looked into without a run, too.
#[test]
fn tableaus_are_looked_into() {
    let mut rng = Rng(33);
    for d in DIMENSIONS {
        let bytes = draw_tableau(&mut rng, d, 5);
        let tableau = Tableau::from_bytes(&bytes).expect("a valid tableau");
        for q in [0, 1, 2, 3, 4, 5, 300] {
            assert_eq!(tableau.look(q), cagvost::look(&bytes, q));
        }
    }
}
