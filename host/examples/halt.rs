//! A circuit seen from inside: `cargo run --release --example halt`.
//!
//! A qutrit is teleported: by an entangled pair, two measurements and two corrections its state comes
//! from the first of three qutrits to the third. The program halts before each operation and prints
//! what a measurement of each qutrit would be there.

use cagvost::{Book, Run, Simulation};
use std::error::Error;

/// An X error takes the first qutrit to level 2.
const CIRCUIT: &str = "
    qudits 3 dimension 3
    error 0 x^2
    fourier 1
    sum 1 2
    sum 0 1 ^2          # level 1 less level 0
    fourier 0
    measure 0 choose 1
    measure 1 choose 2
    correct 2 by 1
    fourier 2 ^3        # with the next two: Z to the minus first result
    correct 2 by 0
    fourier 2
";

fn main() -> Result<(), Box<dyn Error>> {
    seen()?.iter().for_each(|line| println!("{line}"));
    Ok(())
}

/// A line for each number that the run has, from 0 to that of the finished run.
fn seen() -> Result<Vec<String>, Box<dyn Error>> {
    let book: Book = CIRCUIT.parse()?;
    let mut run = Simulation::new(&book)?.start();
    let mut lines = Vec::new();
    while !run.is_finished() {
        let place = match book.operations().get(run.number()) {
            Some(operation) => format!("before {operation}"),
            None => "after all of them".to_string(),
        };
        lines.push(format!("{place:<22}{}", looks(&run)?));
        run.advance(1);
    }
    lines.push(format!("{:<22}{}", "finished", looks(&run)?));
    Ok(lines)
}

/// What a measurement of each qutrit would be.
fn looks(run: &Run) -> Result<String, Box<dyn Error>> {
    let mut words = Vec::new();
    for q in 0..run.tableau().qudits() {
        words.push(format!("{:<11}", run.look(q.into())?));
    }
    Ok(words.concat().trim_end().to_string())
}

#[test]
fn the_level_of_the_first_qutrit_ends_on_the_third() {
    let lines = seen().expect("no refusal");
    main().expect("no refusal");
    let said = |line: &str| line.split_whitespace().collect::<Vec<_>>().join(" ");
    assert_eq!(lines.len(), 12);
    assert_eq!(said(&lines[1]), "before sum 1 2 certain 2 free certain 0");
    assert_eq!(said(&lines[11]), "finished certain 1 certain 2 certain 2");
}
