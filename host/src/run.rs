//! A direct run that owns its buffers and can be halted.

use crate::simulation::{DirectEnd, Outcome, Written, refused};
use crate::{Look, Refusal, Tableau, go_on};

/// A direct run that is under way: it can be halted after any operation, looked into and continued.
///
/// [`Simulation::start`](crate::Simulation::start) makes one, which stands before operation 0. It owns
/// all that it needs, and a clone of it goes on by itself. Looks and halts change nothing: however it
/// is advanced, it ends with what [`Simulation::direct`](crate::Simulation::direct) ends with.
///
/// An error is placed before an operation and strikes with it. So where a run stands, the errors
/// before its next operation are not yet applied, and a measurement which comes next may differ from
/// what a look has told.
///
/// ```
/// use cagvost::{Book, Look, Simulation};
///
/// let book: Book = "
///     qudits 2 dimension 5
///     fourier 0
///     sum 0 1
///     measure 0 choose 3
///     error 1 x
///     measure 1
/// "
/// .parse()?;
/// let mut run = Simulation::new(&book)?.start();
///
/// run.advance(3);
/// assert_eq!(run.number(), 3); // the second measurement comes next
/// assert_eq!(run.outcomes()[0].to_string(), "free 3");
/// assert_eq!(run.look(1)?, Look::Certain(3));
///
/// // X strikes between the look and the measurement.
/// let end = run.finish();
/// assert_eq!(end.outcomes[1].to_string(), "certain 4");
/// # Ok::<(), Box<dyn std::error::Error>>(())
/// ```
#[derive(Clone, Debug)]
pub struct Run {
    book: Written,
    tableau: Tableau,
    results: Vec<u8>,
    next: usize,
}

impl Run {
    /// A run of this book that starts from this tableau, which has the book's d and n.
    pub(crate) fn new(book: Written, tableau: Tableau) -> Run {
        Run {
            results: book.room(),
            book,
            tableau,
            next: 0,
        }
    }

    /// Goes on for so many operations, each with the errors before it.
    ///
    /// A count larger than the operations that are left finishes the run, and the errors after all
    /// operations are applied too. One that is just as large halts before these. If the run is
    /// finished, nothing is done.
    ///
    /// ```
    /// use cagvost::{Book, Look, Simulation};
    ///
    /// let book: Book = "qudits 1 dimension 3\nmeasure 0\nerror 0 x^2".parse()?;
    /// let mut run = Simulation::new(&book)?.start();
    /// run.advance(1);
    /// assert_eq!((run.look(0)?, run.is_finished()), (Look::Certain(0), false));
    /// run.advance(1);
    /// assert_eq!((run.look(0)?, run.is_finished()), (Look::Certain(2), true));
    /// # Ok::<(), Box<dyn std::error::Error>>(())
    /// ```
    ///
    /// # Panics
    ///
    /// Only if this package was linked with a library of another version: it cannot refuse, as the
    /// runs of a [`Simulation`](crate::Simulation) cannot.
    pub fn advance(&mut self, count: usize) {
        let (book, tableau) = (&self.book.bytes, self.tableau.lend());
        let run = go_on(book, tableau, &mut self.results, self.next, count);
        self.next = run.unwrap_or_else(refused).next;
    }

    /// The number of the next operation, counted from 0. It is the number of operations if all are
    /// done and the errors after them are not yet applied, and one more if the run is finished.
    ///
    /// ```
    /// use cagvost::{Book, Simulation};
    ///
    /// let book: Book = "qudits 1 dimension 3\nfourier 0\nphase 0".parse()?;
    /// let mut run = Simulation::new(&book)?.start();
    /// let mut numbers = Vec::new();
    /// while !run.is_finished() {
    ///     numbers.push(run.number());
    ///     run.advance(1);
    /// }
    /// assert_eq!(numbers, [0, 1, 2]);
    /// assert_eq!(run.number(), 3);
    /// # Ok::<(), Box<dyn std::error::Error>>(())
    /// ```
    pub fn number(&self) -> usize {
        self.next
    }

    /// Whether all operations are done and all errors applied, those after the last operation too.
    pub fn is_finished(&self) -> bool {
        self.next > self.book.operations
    }

    /// The outcomes of the measurements that were made so far, in the book's order.
    ///
    /// ```
    /// use cagvost::{Book, Simulation};
    ///
    /// let book: Book = "qudits 1 dimension 3\nmeasure 0\nfourier 0\nmeasure 0 choose 2".parse()?;
    /// let mut run = Simulation::new(&book)?.start();
    /// run.advance(2);
    /// assert_eq!(run.outcomes().len(), 1);
    /// run.advance(1);
    /// assert_eq!(run.outcomes()[1].to_string(), "free 2");
    /// # Ok::<(), Box<dyn std::error::Error>>(())
    /// ```
    pub fn outcomes(&self) -> Vec<Outcome> {
        self.book.outcomes(&self.results, self.next)
    }

    /// The tableau where the run stands. Errors before the next operation are not yet in it.
    ///
    /// ```
    /// use cagvost::{Book, Simulation};
    ///
    /// let book: Book = "qudits 1 dimension 3\nfourier 0\nerror 0 z\nfourier 0".parse()?;
    /// let mut run = Simulation::new(&book)?.start();
    /// let mut stabilizers = vec![run.tableau().stabilizer(0).to_string()];
    /// while !run.is_finished() {
    ///     run.advance(1);
    ///     stabilizers.push(run.tableau().stabilizer(0).to_string());
    /// }
    /// assert_eq!(stabilizers, ["Z0", "X0^2", "ω^2 Z0^2", "ω^2 Z0^2"]);
    /// # Ok::<(), Box<dyn std::error::Error>>(())
    /// ```
    pub fn tableau(&self) -> &Tableau {
        &self.tableau
    }

    /// Looks at a qudit, counted from 0: what a measurement there would be if it were made now, before
    /// the errors that are placed before the next operation.
    ///
    /// ```
    /// use cagvost::{Book, Look, Refusal, Simulation};
    ///
    /// let book: Book = "qudits 2 dimension 3\nfourier 0\nmeasure 0 choose 1".parse()?;
    /// let mut run = Simulation::new(&book)?.start();
    /// run.advance(1);
    /// assert_eq!(run.look(0)?, Look::Free);
    /// run.advance(1);
    /// assert_eq!(run.look(0)?, Look::Certain(1));
    /// assert_eq!(run.look(2), Err(Refusal::NoSuchQudit));
    /// # Ok::<(), Box<dyn std::error::Error>>(())
    /// ```
    ///
    /// # Errors
    ///
    /// [`Refusal::NoSuchQudit`] if the circuit has none of this number.
    pub fn look(&self, qudit: usize) -> Result<Look, Refusal> {
        self.tableau.look(qudit)
    }

    /// Runs what is left, and gives what the whole run ends with.
    ///
    /// ```
    /// use cagvost::{Book, Simulation};
    ///
    /// let book: Book = "qudits 1 dimension 3\nfourier 0\nmeasure 0 choose 2".parse()?;
    /// let simulation = Simulation::new(&book)?;
    /// let mut run = simulation.start();
    /// run.advance(1);
    /// assert_eq!(run.finish(), simulation.direct());
    /// # Ok::<(), Box<dyn std::error::Error>>(())
    /// ```
    ///
    /// # Panics
    ///
    /// Only if this package was linked with a library of another version.
    pub fn finish(mut self) -> DirectEnd {
        self.advance(usize::MAX);
        DirectEnd {
            outcomes: self.outcomes(),
            tableau: self.tableau,
        }
    }
}
