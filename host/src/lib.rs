//! Noisy Clifford circuits on qudits of odd prime dimension.
//!
//! This package is the host side of Cagvost, a simulator written and proved in Rattle. It keeps a
//! full tableau with phases, for 1 to 64 qudits whose dimension is one of [`book::DIMENSIONS`], the
//! odd primes up to 31.
//!
//! # A first program
//!
//! ```
//! use cagvost::{Book, Simulation};
//!
//! // Two qutrits are entangled; an X error strikes the second before both are measured.
//! let book: Book = "
//!     qudits 2 dimension 3
//!     fourier 0
//!     sum 0 1
//!     error 1 x
//!     measure 0 choose 2
//!     measure 1
//! "
//! .parse()?;
//! print!("{}", book.drawing());
//!
//! let end = Simulation::new(&book)?.direct();
//! for (i, outcome) in end.outcomes.iter().enumerate() {
//!     println!("M{i}: {outcome}");
//! }
//! for stabilizer in end.tableau.stabilizers() {
//!     println!("{stabilizer}");
//! }
//! # let outcomes = end.outcomes.iter().enumerate().map(|(i, o)| format!("M{i}: {o}\n"));
//! # let rows = end.tableau.stabilizers().map(|row| format!("{row}\n"));
//! # assert_eq!(
//! #     book.drawing().to_string() + &outcomes.chain(rows).collect::<String>(),
//! #     "q0 ─F─●─M0────\n\
//! #      q1 ───⊕─!X─M1─\n\
//! #      M0: free 2\n\
//! #      M1: certain 0\n\
//! #      ω Z0\n\
//! #      ω^2 Z0^2 Z1\n"
//! # );
//! # Ok::<(), Box<dyn std::error::Error>>(())
//! ```
//!
//! It prints the circuit, what the measurements gave and the stabilizers of the final state:
//!
//! ```text
//! q0 ─F─●─M0────
//! q1 ───⊕─!X─M1─
//! M0: free 2
//! M1: certain 0
//! ω Z0
//! ω^2 Z0^2 Z1
//! ```
//!
//! The first outcome was free: every level was as likely as any other. Nothing is drawn at random
//! here, and the circuit says which one is taken, level 2. Then the second was certain. Without the
//! error it would have been 2 as well.
//!
//! - [`text`] has the lines of a circuit. [`Book`] also builds one out of Rust values.
//! - [`operations`] has, for each operation, what it does to levels, to X and Z and to rows.
//! - [`drawing`] explains the symbols of a drawing.
//! - [`Simulation`] runs a circuit from level 0 or from any [`Tableau`], with its errors applied where
//!   they strike or carried to the end as one [`Frame`]. A [`Run`] is halted on the way and looked
//!   into.
//! - [`tray_run`] runs one circuit with many lists of errors.
//!
//! # Carrying the errors
//!
//! [`Simulation::frame`], and [`frame_run`] on bytes, runs the same book without touching the rows by
//! errors: it carries them as one frame, and shifts the results and, at the end, the rows' phases by
//! it. It ends with the bytes of a direct run whose choices are raised by the frame's X power on the
//! measured or reset qudit.
//!
//! Its [`Verdict`] says whether the errors changed the final state: it is clean exactly if the run
//! without errors ends with the same stabilizer set. It says nothing of the results, which an error
//! may have changed on the way. Destabilizer shifts are written but not judged.
//!
//! # Looking in
//!
//! A direct run can be halted after any operation, looked into and continued, and none of that
//! changes it. A [`Look`] tells what a measurement of a qudit would be, without making it.
//! [`Simulation::start`] gives such a [`Run`]; on bytes [`go_on`] and [`look()`] do the same.
//!
//! ```
//! use cagvost::{Book, Look, Simulation};
//!
//! let book: Book = "
//!     qudits 2 dimension 3
//!     fourier 0
//!     sum 0 1
//!     error 1 x
//!     measure 0 choose 2
//!     measure 1
//! "
//! .parse()?;
//! let simulation = Simulation::new(&book)?;
//!
//! let mut run = simulation.start();
//! run.advance(2); // Fourier and SUM
//! assert_eq!(run.look(1)?, Look::Free);
//! run.advance(1); // the error, and the first measurement
//! assert_eq!(run.outcomes()[0].value, 2);
//! assert_eq!(run.look(1)?, Look::Certain(0));
//! assert_eq!(run.finish(), simulation.direct());
//! # Ok::<(), Box<dyn std::error::Error>>(())
//! ```
//!
//! An error is placed before an operation and strikes with it: where a run has halted, the errors
//! before its next operation are not yet applied. `examples/halt.rs` in this package looks at each
//! qudit after each operation.
//!
//! # Resets and corrections
//!
//! Two operations let a circuit use qudits again and act on what it has found. A *reset* brings a
//! qudit to level 0: it measures it, which takes a choice and gives no result, and applies X to the
//! minus outcome. A *correction* applies X to the minus result of an earlier measurement, which it
//! names by its number. Measurements are counted from 0; resets are not.
//!
//! ```
//! use cagvost::{Book, Simulation, Verdict};
//!
//! // Qudit 1 finds an X error on qudit 0, which is undone. Then it is brought back to level 0.
//! let book: Book = "
//!     qudits 2 dimension 3
//!     error 0 x^2
//!     sum 0 1
//!     measure 1
//!     correct 0 by 0
//!     reset 1
//! "
//! .parse()?;
//! let end = Simulation::new(&book)?.frame();
//! assert_eq!(end.outcomes[0].to_string(), "certain 2");
//! assert_eq!(end.verdict, Verdict::Clean);
//! assert_eq!(
//!     book.drawing().to_string(),
//!     "q0 ─!X^2─●────X^-M0─\n\
//!      q1 ──────⊕─M0─R─────\n"
//! );
//! # Ok::<(), Box<dyn std::error::Error>>(())
//! ```
//!
//! `examples/memory.circuit` in the repository keeps a qutrit in this way.
//!
//! # Powers of a gate
//!
//! Fourier, phase gate, SUM and CZ may be applied several times by one entry of a book: Fourier up
//! to 3 times, the others up to d − 1 times. A run leaves every byte as if the applications were
//! written singly. No error can strike between them: its place is before or after the whole entry.
//!
//! ```
//! use cagvost::Simulation;
//!
//! // Two qudits of dimension 31: an X error takes the first to level 1, and SUM adds this to the
//! // second, thirty times.
//! let run = |sums: &str| {
//!     let text = format!("qudits 2 dimension 31\nerror 0 x\n{sums}measure 1");
//!     Ok::<_, Box<dyn std::error::Error>>(Simulation::new(&text.parse()?)?.direct())
//! };
//! let power = run("sum 0 1 ^30\n")?;
//! let singly = run(&"sum 0 1\n".repeat(30))?;
//! assert_eq!(power.outcomes[0].to_string(), "certain 30");
//! assert_eq!(power, singly);
//! # Ok::<(), Box<dyn std::error::Error>>(())
//! ```
//!
//! In the bytes of an entry the last one is the number of applications. 0 means once, and 1 is
//! refused, so that each power is written in one way; [`book::Operation::to_bytes`] has the table.
//!
//! # Mirror circuits
//!
//! A circuit and then its reverse bring every state back, so that what does not come back shows the
//! errors on the way. [`mirror()`] makes the *mirror* of a book: its operations in reversed order,
//! each turned into its inverse, without errors and choices. Fourier applied k times becomes Fourier
//! applied 4 − k times, phase gate, SUM and CZ applied k times become the same applied d − k times,
//! a swap stays, and a multiplier gets the inverse factor. A measurement, a reset and a correction
//! have no inverse: a book that has one of these is refused, by [`Refusal::Measurement`].
//!
//! A run of a book without errors and then one of its mirror leave every byte of a valid tableau as
//! it was. If errors strike in the first run, the phase of each row is shifted in the end by the
//! pairing of one frame with that row, and nothing else is changed: it is the frame of the book's
//! [`frame_run`], carried on through the mirror's operations.
//!
//! # A whole tray of shots
//!
//! A *tray* holds the error lists of up to 4,096 shots; [`Tray`] builds one. [`tray_run`] runs the
//! circuit of one book with each of them, always from the same start, and gives for each shot the
//! verdict and the results that a separate [`frame_run`] would end with, and the number of clean and
//! of shifted shots. It runs the circuit once and carries the errors of many shots side by side: a
//! full tray on many qudits is done hundreds of times faster than by separate runs.
//!
//! ```
//! use cagvost::book::{Book, WeylError};
//! use cagvost::{Shots, Tray};
//!
//! // One qutrit at level 0 is measured, in one shot for each power of X that strikes it before.
//! let mut book = Book::new(3, 1);
//! book.measure(0, 0);
//! let mut tray = Tray::new();
//! for p in 0..3 {
//!     tray.shot(&[WeylError { place: 0, qudit: 0, p, s: 0 }]);
//! }
//! let mut tableau = [0; cagvost::tableau_len(1)];
//! let mut out = [0; cagvost::shots_len(3, 1)];
//!
//! cagvost::layer(&mut tableau, 3, 1)?;
//! let counts = cagvost::tray_run(&book.to_bytes(), &tray.to_bytes(), &tableau, &mut out)?;
//! assert_eq!((counts.clean, counts.shifted), (1, 2));
//! let shots = Shots::new(&out, counts.shots(), book.measurements());
//! assert!(shots.iter().map(|shot| shot.results[0]).eq(0..3));
//! # Ok::<(), cagvost::Refusal>(())
//! ```
//!
//! The bytes of a tray are a table of contents, which is the number of shots and for each the number
//! of bytes of its errors, all in two bytes with the low one first, and then the errors of all shots
//! in order, as a book has them. `examples/tray.rs` in this package is a whole program.
//!
//! # The share of unharmed shots
//!
//! [`share`] draws the errors of many shots by an error model, runs them in trays on as many threads
//! as are asked for, and gives the share of unharmed shots with its confidence interval. Drawing is
//! no part of what is proved: what was drawn is run by [`tray_run`].
//!
//! # Bytes
//!
//! All of this rests on calls that take bytes, and software that has them needs nothing else. Each
//! takes whatever it is handed: it does its work, or it returns a [`Refusal`] and leaves every buffer
//! as it was. No check is owed before a call, and after a run that does not refuse the tableau passes
//! the test.
//!
//! A *shot book* holds a circuit, the errors that strike it and one choice for each measurement and
//! each reset. A run starts from a tableau that you lend, usually the zero tableau (all qudits at
//! level 0) laid by [`layer`], and leaves the final one in its place.
//!
//! ```
//! // Two qutrits: Fourier on 0, SUM from 0 to 1, an X error on 1, then both are measured.
//! let book = [
//!     0x51, 0x03, 0x02, 0x03, // mark, dimension 3, two qudits, three bodies
//!     0x01, 0x00, 0x16, 0x00, 0x10, 0x00, // operations: at 22, 16 bytes
//!     0x02, 0x00, 0x26, 0x00, 0x05, 0x00, // errors: at 38, 5 bytes
//!     0x03, 0x00, 0x2B, 0x00, 0x02, 0x00, // choices: at 43, 2 bytes
//!     0x00, 0x00, 0x00, 0x00, // Fourier on qudit 0
//!     0x02, 0x00, 0x01, 0x00, // SUM from qudit 0 to qudit 1
//!     0x06, 0x00, 0x00, 0x00, // measure qudit 0
//!     0x06, 0x01, 0x00, 0x00, // measure qudit 1
//!     0x02, 0x00, 0x01, 0x01, 0x00, // before operation 2, on qudit 1: X
//!     0x02, 0x00, // the choices
//! ];
//! let mut tableau = [0; cagvost::tableau_len(2)];
//! let mut results = [0; cagvost::results_len(2)];
//!
//! cagvost::layer(&mut tableau, 3, 2)?;
//! let run = cagvost::direct_run(&book, &mut tableau, &mut results)?;
//!
//! assert_eq!((run.measurements, run.next), (2, 5)); // finished: past all four operations
//! assert_eq!(results, [2, 1, 0, 0]); // qudit 0 free: the choice, 2; qudit 1 certain: 0
//! assert_eq!(
//!     tableau,
//!     [
//!         3, 2, // dimension 3, two qudits
//!         1, 1, 0, 0, 0, // destabilizer 0
//!         0, 1, 0, 0, 0, // destabilizer 1
//!         0, 0, 1, 0, 1, // stabilizer 0: ω Z on qudit 0
//!         0, 0, 2, 1, 2, // stabilizer 1
//!     ]
//! );
//! # Ok::<(), cagvost::Refusal>(())
//! ```
//!
//! # Writing a book
//!
//! Software that holds operations, errors and choices as bytes has [`write_book`] lay the table of
//! contents: it takes these three bodies with d and n, and writes the only book that a run accepts
//! for them. What a run would refuse in that book it refuses itself, with the same number and place,
//! so that a book that it wrote is never refused by 1 to 7.
//!
//! # Buffers
//!
//! - The *tableau* has d in byte 0 and n in byte 1. From byte 2 on it has 2n rows of 2n + 1 bytes:
//!   n X powers, n Z powers and a phase. Destabilizers come first, then stabilizers;
//!   [`tableau_len`] is its size. [`layer`] writes the first two bytes, and a run leaves them as they
//!   are. So a stored tableau says what it is: [`test_tableau`] has to be told nothing, and a run
//!   refuses one whose d or n is not the book's, even where its rows would be good for the book.
//! - The *results* have 2 bytes for each measurement: the outcome, then 0 if it was certain or 1 if
//!   it was free; [`results_len`] is their size. Resets have none.
//! - The *shifts* of a frame run have a byte for each row, and its *frame* n X powers and n Z
//!   powers; [`shifts_len`] and [`frame_len`] are their sizes.
//! - The *shots* that a tray run fills have, for each shot, a byte for the verdict, 0 for clean or 1
//!   for shifted, and then its results; [`shots_len`] is their size, and [`Shots`] reads them.
//! - The *book* that the writer fills has 22 bytes and then the three bodies; [`book_len`] is its
//!   size.
//! - The *mirror* that is made of a book has 22 bytes and then four for each operation;
//!   [`mirror_len`] is its size.
//!
//! A buffer may be longer than needed: bytes past the needed ones are kept.
//!
//! # Building
//!
//! The build script has `rt` prove the crates and build the library (`rt lib` in crates/cagvost), once
//! no other build of the same clone is under way. To link one that was built before, let the environment
//! variable `CAGVOST_LIB` name the folder that has `libcagvost.a`; that it has none is an error.

#![deny(missing_docs)]
#![deny(unsafe_code)]

pub mod book;
mod direct;
pub mod drawing;
mod frame;
#[allow(unsafe_code)]
mod library;
mod look;
mod mirror;
#[doc = include_str!("../../docs/OPERATIONS.md")]
pub mod operations {}
mod refusal;
mod run;
pub mod share;
pub mod simulation;
mod tableau;
pub mod text;
mod tray;
mod words;
mod write;

pub use book::{Book, Operation, WeylError};
pub use direct::{DirectRun, direct_run, go_on};
pub use drawing::Drawing;
pub use frame::{FrameRun, Verdict, frame_len, frame_run, shifts_len};
pub use look::{Look, look};
pub use mirror::{mirror, mirror_len};
pub use refusal::Refusal;
pub use run::Run;
pub use simulation::{DirectEnd, FrameEnd, Mark, Outcome, Simulation};
pub use tableau::{Frame, Row, Tableau};
pub use tray::{MAX_SHOTS, Shot, Shots, Tray, TrayCounts, shots_len, tray_run};
pub use words::TextError;
pub use write::{book_len, write_book};

use library::Answer;

/// The bytes that the tableau of `n` qudits needs: two for d and n, and its rows.
pub const fn tableau_len(n: usize) -> usize {
    2 * n * (2 * n + 1) + 2
}

/// The bytes that the results of so many measurements need.
pub const fn results_len(measurements: usize) -> usize {
    2 * measurements
}

/// Lays the zero tableau of `n` qudits of dimension `d`: every qudit at level 0. Its first two bytes
/// are `d` and `n`.
///
/// # Errors
///
/// [`Refusal::Dimension`], [`Refusal::QuditCount`], [`Refusal::ShortBuffer`], tested in this order.
pub fn layer(tableau: &mut [u8], d: usize, n: usize) -> Result<(), Refusal> {
    counted(library::layer(tableau, d, n)).map(drop)
}

/// Tests whether the buffer holds a valid tableau: its first two bytes are a dimension and a number
/// of qudits, every byte of its rows is below that dimension, and the rows pair as they must.
///
/// ```
/// use cagvost::Refusal;
/// use cagvost::book::Book;
///
/// let mut stored = [0; cagvost::tableau_len(2)];
/// cagvost::layer(&mut stored, 5, 2)?;
/// cagvost::test_tableau(&stored)?;
/// assert_eq!(stored[..2], [5, 2]); // what it is
///
/// // The rows of the zero tableau are the same in every dimension. The first byte tells which it is.
/// let book = Book::new(3, 2).to_bytes();
/// let refused = cagvost::direct_run(&book, &mut stored, &mut []);
/// assert_eq!(refused, Err(Refusal::InvalidTableau));
/// # Ok::<(), Refusal>(())
/// ```
///
/// # Errors
///
/// [`Refusal::ShortBuffer`] if there are not even two bytes, then [`Refusal::Dimension`],
/// [`Refusal::QuditCount`], [`Refusal::ShortBuffer`] if there are fewer bytes than the tableau's own
/// n needs ([`tableau_len`]), and [`Refusal::InvalidTableau`], tested in this order.
pub fn test_tableau(tableau: &[u8]) -> Result<(), Refusal> {
    counted(library::test(tableau)).map(drop)
}

/// The count of a success, or the refusal.
fn counted(answer: Answer) -> Result<usize, Refusal> {
    match answer.number {
        0 => Ok(answer.place),
        number => Err(Refusal::listed(number, answer.place)),
    }
}
