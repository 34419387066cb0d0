//! Runs of a circuit without buffers: a [`Simulation`] is laid from a [`Book`] and owns its bytes.
//!
//! ```
//! use cagvost::{Book, Simulation};
//!
//! // Two qutrits are entangled; an X error strikes the second before both are measured.
//! let book: Book = "
//!     qudits 2 dimension 3
//!     fourier 0
//!     sum 0 1
//!     error 1 x
//!     measure 0 choose 2
//!     measure 1
//! "
//! .parse()?;
//! let simulation = Simulation::new(&book)?;
//!
//! let end = simulation.direct();
//! for outcome in &end.outcomes {
//!     println!("qudit {}: {outcome}", outcome.qudit);
//! }
//! for stabilizer in end.tableau.stabilizers() {
//!     println!("{stabilizer}");
//! }
//! # let outcomes = end.outcomes.iter().map(|o| format!("qudit {}: {o}\n", o.qudit));
//! # let rows = end.tableau.stabilizers().map(|row| format!("{row}\n"));
//! # let printed: String = outcomes.chain(rows).collect();
//! # assert_eq!(printed, "qudit 0: free 2\nqudit 1: certain 0\nω Z0\nω^2 Z0^2 Z1\n");
//!
//! // The same book with its errors carried to the end as one frame.
//! let end = simulation.frame();
//! println!("{}, by the frame {}", end.verdict, end.frame);
//! # assert_eq!(format!("{}, by the frame {}", end.verdict, end.frame), "shifted, by the frame X1");
//! # Ok::<(), Box<dyn std::error::Error>>(())
//! ```
//!
//! This prints
//!
//! ```text
//! qudit 0: free 2
//! qudit 1: certain 0
//! ω Z0
//! ω^2 Z0^2 Z1
//! shifted, by the frame X1
//! ```

use crate::book::{Book, Operation};
use crate::{Frame, FrameRun, Refusal, Run, Tableau, Verdict};
use crate::{direct_run, frame_len, frame_run, results_len, shifts_len};
use std::fmt;

/// A book and the tableau that its runs start from.
///
/// Runs start anew from that tableau, any number of times, and none changes anything for another.
///
/// They cannot refuse. By its contract a run refuses only what the reader refuses in the book, a
/// buffer that is too short, a tableau that is not valid or of another d or n, and a number to go on
/// from that no run has reached. Here the book was written by the proved writer, whose books the
/// reader is proved to accept. The tableau is valid, as each [`Tableau`] is, its d and n are the
/// book's, and the buffers have the needed lengths. A [`Run`] goes on from the number that it has
/// reached.
#[derive(Clone, Debug)]
pub struct Simulation {
    book: Written,
    start: Tableau,
}

/// A book that was written by the proved writer, and what its runs have to know of it.
#[derive(Clone, Debug)]
pub(crate) struct Written {
    pub(crate) bytes: Vec<u8>,
    pub(crate) operations: usize,
    /// In the book's order.
    measurements: Vec<Measurement>,
}

/// Where a book measures: the operation and its qudit.
#[derive(Clone, Copy, Debug)]
struct Measurement {
    operation: usize,
    qudit: u8,
}

impl Simulation {
    /// A simulation of this book that starts from the zero tableau: every qudit at level 0.
    ///
    /// # Errors
    ///
    /// What a run refuses in the book, as [`Book::write`] has it.
    pub fn new(book: &Book) -> Result<Simulation, Refusal> {
        let written = Written::new(book)?;
        let start = Tableau::zero(book.dimension().into(), book.qudits().into())?;
        Ok(Simulation {
            book: written,
            start,
        })
    }

    /// A simulation of this book that starts from another tableau.
    ///
    /// ```
    /// use cagvost::{Book, Simulation};
    ///
    /// // X Z is made of X by the phase gate, and sent to ω^2 X^2 Z by the Fourier gate.
    /// let [phase, fourier] = ["phase 0", "fourier 0"]
    ///     .map(|gate| format!("qudits 1 dimension 3\n{gate}").parse::<Book>());
    /// let first = Simulation::new(&phase?)?.direct().tableau;
    /// assert_eq!(first.destabilizer(0).to_string(), "X0 Z0");
    /// let second = Simulation::starting_from(&fourier?, first)?.direct().tableau;
    /// assert_eq!(second.destabilizer(0).to_string(), "ω^2 X0^2 Z0");
    /// # Ok::<(), Box<dyn std::error::Error>>(())
    /// ```
    ///
    /// # Errors
    ///
    /// What a run refuses in the book, as [`Book::write`] has it, and then
    /// [`Refusal::InvalidTableau`] if the tableau is of another d or n than the book.
    pub fn starting_from(book: &Book, start: Tableau) -> Result<Simulation, Refusal> {
        let sizes = (book.dimension(), book.qudits());
        let book = Written::new(book)?;
        match (start.dimension(), start.qudits()) == sizes {
            true => Ok(Simulation { book, start }),
            false => Err(Refusal::InvalidTableau),
        }
    }

    /// A [`direct_run`]: each error is applied to the rows where it strikes.
    ///
    /// # Panics
    ///
    /// Only if this package was linked with a library of another version.
    pub fn direct(&self) -> DirectEnd {
        let (mut tableau, mut results) = (self.start.clone(), self.book.room());
        let run = direct_run(&self.book.bytes, tableau.lend(), &mut results);
        let run = run.unwrap_or_else(refused);
        DirectEnd {
            outcomes: self.book.outcomes(&results, run.next),
            tableau,
        }
    }

    /// A direct run that can be halted, looked into and continued. It stands before operation 0.
    ///
    /// ```
    /// use cagvost::{Book, Look, Simulation};
    ///
    /// let book: Book = "qudits 2 dimension 3\nfourier 0\nsum 0 1\nmeasure 1".parse()?;
    /// let mut run = Simulation::new(&book)?.start();
    /// run.advance(1);
    /// assert_eq!([run.look(0)?, run.look(1)?], [Look::Free, Look::Certain(0)]);
    /// run.advance(1);
    /// assert_eq!([run.look(0)?, run.look(1)?], [Look::Free, Look::Free]);
    /// println!("{}", run.finish().tableau);
    /// # Ok::<(), Box<dyn std::error::Error>>(())
    /// ```
    pub fn start(&self) -> Run {
        Run::new(self.book.clone(), self.start.clone())
    }

    /// A [`frame_run`]: all errors are carried to the end as one frame.
    ///
    /// # Panics
    ///
    /// Only if this package was linked with a library of another version.
    pub fn frame(&self) -> FrameEnd {
        let n = self.start.qudits().into();
        let (mut tableau, mut results) = (self.start.clone(), self.book.room());
        let (mut shifts, mut frame) = (vec![0; shifts_len(n)], vec![0; frame_len(n)]);
        let run = frame_run(
            &self.book.bytes,
            tableau.lend(),
            &mut results,
            &mut shifts,
            &mut frame,
        );
        let FrameRun { verdict, .. } = run.unwrap_or_else(refused);
        let z = frame.split_off(n);
        FrameEnd {
            outcomes: self.book.outcomes(&results, self.book.operations),
            tableau,
            shifts,
            frame: Frame { x: frame, z },
            verdict,
        }
    }
}

impl Written {
    fn new(book: &Book) -> Result<Written, Refusal> {
        let measurement = |(operation, o): (usize, &Operation)| match *o {
            Operation::Measure { q: qudit } => Some(Measurement { operation, qudit }),
            _ => None,
        };
        let operations = book.operations();
        Ok(Written {
            bytes: book.write()?,
            operations: operations.len(),
            measurements: operations
                .iter()
                .enumerate()
                .filter_map(measurement)
                .collect(),
        })
    }

    /// Room for the results of a run.
    pub(crate) fn room(&self) -> Vec<u8> {
        vec![0; results_len(self.measurements.len())]
    }

    /// The outcomes of the measurements before the operation of this number.
    pub(crate) fn outcomes(&self, results: &[u8], next: usize) -> Vec<Outcome> {
        let (pairs, _) = results.as_chunks();
        let made = self.measurements.iter().zip(pairs);
        let made = made.take_while(|(measurement, _)| measurement.operation < next);
        let outcome = |(measurement, &[value, mark]): (&Measurement, &[u8; 2])| Outcome {
            qudit: measurement.qudit,
            value,
            mark: Mark::listed(mark),
        };
        made.map(outcome).collect()
    }
}

/// A run that was laid by a `Simulation` is proved not to refuse, as with an unlisted number.
pub(crate) fn refused<T>(refusal: Refusal) -> T {
    panic!("the linked library is of another version: a tested book and tableau were {refusal}")
}

/// What a direct run ends with.
#[derive(Clone, Debug, PartialEq, Eq)]
pub struct DirectEnd {
    /// The outcome of each measurement, in the book's order.
    pub outcomes: Vec<Outcome>,
    /// The final tableau.
    pub tableau: Tableau,
}

/// What a frame run ends with.
#[derive(Clone, Debug, PartialEq, Eq)]
pub struct FrameEnd {
    /// The reported outcome of each measurement, in the book's order: that of the run without errors
    /// plus the frame's X power on the measured qudit.
    pub outcomes: Vec<Outcome>,
    /// The final tableau. Its phases have been shifted.
    pub tableau: Tableau,
    /// The shift of each row's phase, destabilizers first. It is the pairing of the frame with that
    /// row.
    pub shifts: Vec<u8>,
    /// The final frame.
    pub frame: Frame,
    /// Whether the errors changed the final state.
    pub verdict: Verdict,
}

/// What a measurement gave.
///
/// It is written as the program has it.
///
/// ```
/// use cagvost::{Mark, Outcome};
///
/// let outcome = Outcome { qudit: 0, value: 2, mark: Mark::Free };
/// assert_eq!(outcome.to_string(), "free 2");
/// ```
#[derive(Clone, Copy, Debug, PartialEq, Eq, Hash)]
pub struct Outcome {
    /// The measured qudit.
    pub qudit: u8,
    /// The level that was found, from 0 to d − 1.
    pub value: u8,
    /// Whether the state or the choice has settled it.
    pub mark: Mark,
}

impl fmt::Display for Outcome {
    fn fmt(&self, f: &mut fmt::Formatter<'_>) -> fmt::Result {
        f.pad(&format!("{} {}", self.mark, self.value))
    }
}

/// Whether a measurement's outcome was settled before it.
#[derive(Clone, Copy, Debug, PartialEq, Eq, Hash)]
pub enum Mark {
    /// The state settled it, and the choice was not used.
    Certain,
    /// Every level was as likely as any other, and the choice settled it.
    Free,
}

impl Mark {
    /// The mark that the library writes as this byte.
    fn listed(byte: u8) -> Mark {
        match byte {
            0 => Mark::Certain,
            1 => Mark::Free,
            // Another mark is proved not to come, as with an unlisted number.
            _ => panic!("the linked library is of another version: it marked a result by {byte}"),
        }
    }
}

impl fmt::Display for Mark {
    fn fmt(&self, f: &mut fmt::Formatter<'_>) -> fmt::Result {
        f.pad(match self {
            Mark::Certain => "certain",
            Mark::Free => "free",
        })
    }
}

#[cfg(test)]
mod tests {
    use super::*;

    #[test]
    #[should_panic(expected = "another version: a tested book and tableau were refused 9 at 0")]
    fn a_laid_run_that_refuses_is_of_another_library() {
        refused::<usize>(Refusal::InvalidTableau);
    }

    #[test]
    #[should_panic(expected = "another version: it marked a result by 2")]
    fn an_unlisted_mark_is_none() {
        Mark::listed(2);
    }
}
