//! The listing of a run.

use crate::arguments::Arguments;
use crate::{Done, Failure, files};
use cagvost::book::Book;
use cagvost::{Outcome, Run, Simulation, Tableau};
use std::fmt::Write;
use std::num::ParseIntError;
use std::str::FromStr;

/// The program's listing for the frame run of a circuit; its first lines for the direct run, and what
/// is seen where a direct run is halted or looked into.
pub fn run(arguments: &Arguments) -> Done {
    let asked = Asked::read(arguments)?;
    let name = arguments.only_name("a circuit")?;
    let book = circuit(name)?;
    let simulation = Simulation::new(&book).expect("what was read is accepted");
    let mut listing = String::new();
    let tableau = if let Some(asked) = asked {
        let mut run = simulation.start();
        run.advance(asked.halt);
        let listed = asked.list(&mut listing, &book, &run);
        listed.map_err(|why| files::refused(name, &why))?;
        run.tableau().clone()
    } else if arguments.has("--direct") {
        let end = simulation.direct();
        head(&mut listing, &book, &end.outcomes);
        end.tableau
    } else {
        let end = simulation.frame();
        head(&mut listing, &book, &end.outcomes);
        let shifts: Vec<String> = end.shifts.iter().map(u8::to_string).collect();
        line(&mut listing, format_args!("shift {}", shifts.join(" ")));
        line(&mut listing, format_args!("verdict {}", end.verdict));
        end.tableau
    };
    if arguments.has("--state") {
        state(&mut listing, &tableau);
    }
    files::print(listing.as_bytes())
}

/// Reads a circuit. One that a run would refuse is listed as the program lists it.
fn circuit(name: &str) -> Result<Book, Failure> {
    let bad = match files::read_circuit(name)? {
        Ok(book) => return Ok(book),
        Err(bad) => bad,
    };
    if let Some(refusal) = bad.refusal() {
        let (number, place) = (refusal.number(), refusal.place());
        files::print(format!("refused {number} at {place}\n").as_bytes())?;
    }
    Err(bad.failure(name))
}

/// Where a direct run is to halt, and what is looked at there.
struct Asked {
    /// After so many operations. More than there are finish the run.
    halt: usize,
    looks: Looks,
}

enum Looks {
    All,
    At(Vec<usize>),
}

impl Asked {
    /// What is asked for, if a halt or a look is.
    fn read(arguments: &Arguments) -> Result<Option<Asked>, String> {
        let halt = arguments.parsed("--halt", "a number of operations")?;
        let looks = arguments.parsed("--look", "numbers of qudits, as in '0,3', or 'all'")?;
        if halt.is_none() && looks.is_none() {
            return Ok(None);
        }
        Ok(Some(Asked {
            halt: halt.unwrap_or(usize::MAX),
            looks: looks.unwrap_or(Looks::At(Vec::new())),
        }))
    }

    /// What was measured so far, where the run stands and what is seen there; or which look is
    /// refused.
    fn list(&self, listing: &mut String, book: &Book, run: &Run) -> Result<(), String> {
        head(listing, book, &run.outcomes());
        stands(listing, book, run);
        let qudits = match &self.looks {
            Looks::All => (0..book.qudits().into()).collect(),
            Looks::At(qudits) => qudits.clone(),
        };
        for q in qudits {
            let look = run.look(q).map_err(|why| format!("qudit {q}: {why}"))?;
            line(listing, format_args!("look qudit {q} {look}"));
        }
        Ok(())
    }
}

impl FromStr for Looks {
    type Err = ParseIntError;

    fn from_str(value: &str) -> Result<Looks, ParseIntError> {
        if value == "all" {
            return Ok(Looks::All);
        }
        let qudits: Result<_, _> = value.split(',').map(str::parse).collect();
        qudits.map(Looks::At)
    }
}

fn line(listing: &mut String, words: std::fmt::Arguments) {
    writeln!(listing, "{words}").expect("a string takes every line");
}

/// What all runs print: the counts of the book, and the outcomes.
fn head(listing: &mut String, book: &Book, outcomes: &[Outcome]) {
    let (d, n) = (book.dimension(), book.qudits());
    let (operations, errors) = (book.operations().len(), book.errors().len());
    line(
        listing,
        format_args!("d {d} n {n} operations {operations} errors {errors}"),
    );
    for (i, outcome) in outcomes.iter().enumerate() {
        let qudit = outcome.qudit;
        line(listing, format_args!("m {i} qudit {qudit} {outcome}"));
    }
}

/// Where a run stands: what comes next, and how many errors strike before that.
fn stands(listing: &mut String, book: &Book, run: &Run) {
    if run.is_finished() {
        return line(listing, format_args!("finished"));
    }
    let (next, count) = (run.number(), book.operations().len());
    let place = match book.operations().get(next) {
        Some(operation) => format!("before operation {next} of {count}: {operation}"),
        None => format!("after all {count} operations"),
    };
    let errors = book.errors().iter();
    let pending = errors.filter(|e| usize::from(e.place) == next).count();
    line(
        listing,
        format_args!("halted {place}; errors there not yet applied: {pending}"),
    );
}

/// The stabilizers that are left.
fn state(listing: &mut String, tableau: &Tableau) {
    for (i, row) in tableau.stabilizers().enumerate() {
        line(listing, format_args!("stabilizer {i} {row}"));
    }
}
