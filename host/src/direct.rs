//! The direct run: errors applied where they strike, at once or with halts on the way.

use crate::library::{self, Answer, DirectAnswer};
use crate::{Refusal, counted};

/// What a direct run returns beside the buffers that it fills: where it stands.
#[derive(Clone, Copy, Debug, PartialEq, Eq, Hash)]
pub struct DirectRun {
    /// The number of measurements in the whole book, wherever the run stands.
    pub measurements: usize,
    /// The number of the next operation, which [`go_on`] takes. Errors placed before that operation
    /// are not yet applied. Where all operations are done and the errors after them are not, it is the
    /// number of operations; a finished run's is one more.
    pub next: usize,
}

/// Runs a book from the lent tableau, applying each error to the rows where it strikes.
///
/// The outcomes and marks of the measurements are in `results`, the final rows in `tableau`, behind
/// the same two bytes. The run is finished: [`DirectRun::next`] is the number of operations plus one.
/// [`go_on`] makes the same run with halts on the way.
///
/// # Errors
///
/// What is wrong with the book comes first ([`Refusal::BookHeader`] to [`Refusal::Choice`], in the
/// order of their numbers), then [`Refusal::ShortBuffer`], where the tableau needs what the book's n
/// says, then [`Refusal::InvalidTableau`], also where a tableau is of another d or n than the book.
pub fn direct_run(
    book: &[u8],
    tableau: &mut [u8],
    results: &mut [u8],
) -> Result<DirectRun, Refusal> {
    reached(library::direct_run(book, tableau, results))
}

/// Goes on with a direct run from the operation of this number, and halts after so many operations.
///
/// A run begins with a call from 0. Each later call takes [`DirectRun::next`] of the one before it,
/// the same book, and the tableau and the results as they were left: the number alone tells which
/// errors and choices are spent. Where a run has halted, errors placed before the next operation are
/// not yet applied. A count larger than the operations that are left finishes the run, and then the
/// errors after all operations are applied too; one that is just as large does not. From a finished
/// run, and with a count of 0, nothing is done.
///
/// However a run is cut into calls, with looks between them ([`look`](crate::look)), it leaves what
/// the single call leaves that reaches its number. Finished, it leaves what [`direct_run`] leaves.
///
/// ```
/// use cagvost::{Book, DirectRun, Look};
///
/// // A qutrit is turned by the Fourier gate, struck, and measured.
/// let book: Book = "
///     qudits 1 dimension 3
///     fourier 0
///     error 0 z
///     measure 0 choose 2
///     error 0 x
/// "
/// .parse()?;
/// let book = book.write()?;
/// let mut tableau = [0; cagvost::tableau_len(1)];
/// let mut results = [0; cagvost::results_len(1)];
/// cagvost::layer(&mut tableau, 3, 1)?;
///
/// // After one operation: the Z error is not yet applied.
/// let run = cagvost::go_on(&book, &mut tableau, &mut results, 0, 1)?;
/// assert_eq!(run, DirectRun { measurements: 1, next: 1 });
/// assert_eq!(cagvost::look(&tableau, 0)?, Look::Free);
///
/// // After both: the X error is not yet applied.
/// let run = cagvost::go_on(&book, &mut tableau, &mut results, run.next, 1)?;
/// assert_eq!((run.next, results), (2, [2, 1]));
/// assert_eq!(cagvost::look(&tableau, 0)?, Look::Certain(2));
///
/// // A larger count than is left finishes the run.
/// let run = cagvost::go_on(&book, &mut tableau, &mut results, run.next, 1)?;
/// assert_eq!(run.next, 3);
/// assert_eq!(cagvost::look(&tableau, 0)?, Look::Certain(0));
/// # Ok::<(), Box<dyn std::error::Error>>(())
/// ```
///
/// A correction reads the result that it names from `results`, as it then stands there, modulo the
/// dimension: also if it was written between two calls. Results of earlier measurements are not
/// written again.
///
/// # Errors
///
/// As [`direct_run`] has them, where `results` needs room for all measurements of the book, and last
/// [`Refusal::PastTheFinish`] if the number to go on from is more than a finished run's.
pub fn go_on(
    book: &[u8],
    tableau: &mut [u8],
    results: &mut [u8],
    from: usize,
    count: usize,
) -> Result<DirectRun, Refusal> {
    let answer = library::go_on(book, tableau, results, from, count);
    match (answer.number, answer.place) {
        (13, 0) => Err(Refusal::PastTheFinish),
        _ => reached(answer),
    }
}

/// Where a run stands, or the refusal.
fn reached(answer: DirectAnswer) -> Result<DirectRun, Refusal> {
    let DirectAnswer {
        number,
        place,
        next,
    } = answer;
    let measurements = counted(Answer { number, place })?;
    Ok(DirectRun { measurements, next })
}

#[cfg(test)]
mod tests {
    use super::*;

    /// Only going on can pass the finish.
    #[test]
    #[should_panic(expected = "another version: it refused 13 at 0")]
    fn a_whole_run_is_not_refused_by_13() {
        _ = reached(DirectAnswer {
            number: 13,
            place: 0,
            next: 0,
        });
    }
}
