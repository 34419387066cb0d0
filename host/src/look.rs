//! The look: what a measurement would be, told without making it.

use crate::Refusal;
use crate::library::{self, LookAnswer};
use std::fmt;

/// What a measurement of a qudit would be.
///
/// ```
/// use cagvost::Look;
///
/// assert_eq!(Look::Free.to_string(), "free");
/// assert_eq!(Look::Certain(2).to_string(), "certain 2");
/// ```
#[derive(Clone, Copy, Debug, PartialEq, Eq, Hash)]
pub enum Look {
    /// Free: every level is as likely as any other.
    Free,
    /// Certain, with this level as its outcome.
    Certain(u8),
}

impl Look {
    /// The look that the library tells by these two numbers, if they tell one.
    fn listed(free: usize, outcome: usize) -> Option<Look> {
        match (free, u8::try_from(outcome)) {
            (1, Ok(0)) => Some(Look::Free),
            (0, Ok(outcome)) => Some(Look::Certain(outcome)),
            _ => None,
        }
    }
}

/// Writes the program's word, with the outcome if there is one: `free`, `certain 2`.
impl fmt::Display for Look {
    fn fmt(&self, f: &mut fmt::Formatter<'_>) -> fmt::Result {
        match self {
            Look::Free => f.pad("free"),
            Look::Certain(outcome) => f.pad(&format!("certain {outcome}")),
        }
    }
}

/// Looks at a qudit of the lent tableau, whose first two bytes say what it is: whether a measurement
/// there would be free, or certain and with which outcome. No byte is changed.
///
/// It tells of the tableau as it is. Where a run has halted, errors placed before the next operation
/// are not yet applied, so that a measurement which comes next may differ from what a look has told.
///
/// ```
/// use cagvost::{Book, Look};
///
/// // Both qutrits are at level 0 until an X error strikes the second, before the measurement.
/// let book: Book = "qudits 2 dimension 3\nfourier 0\nerror 1 x\nmeasure 1".parse()?;
/// let book = book.write()?;
/// let mut tableau = [0; cagvost::tableau_len(2)];
/// let mut results = [0; cagvost::results_len(1)];
/// cagvost::layer(&mut tableau, 3, 2)?;
/// let run = cagvost::go_on(&book, &mut tableau, &mut results, 0, 1)?;
/// assert_eq!(cagvost::look(&tableau, 0)?, Look::Free);
/// assert_eq!(cagvost::look(&tableau, 1)?, Look::Certain(0));
///
/// // The measurement is the next operation. The error comes before it.
/// cagvost::go_on(&book, &mut tableau, &mut results, run.next, 1)?;
/// assert_eq!(results, [1, 0]);
/// # Ok::<(), Box<dyn std::error::Error>>(())
/// ```
///
/// # Errors
///
/// As [`test_tableau`](crate::test_tableau) has them, and last [`Refusal::NoSuchQudit`] if the tableau
/// does not have this qudit.
pub fn look(tableau: &[u8], qudit: usize) -> Result<Look, Refusal> {
    told(library::look(tableau, qudit))
}

/// What was told, or the refusal, which has no place.
fn told(answer: LookAnswer) -> Result<Look, Refusal> {
    match (answer.number, answer.free, answer.outcome) {
        (0, free, outcome) => Ok(Look::listed(free, outcome).unwrap_or_else(|| {
            // Other numbers are proved not to come, as with an unlisted refusal.
            panic!("the linked library is of another version: it told {free} and {outcome}")
        })),
        (13, 0, 0) => Err(Refusal::NoSuchQudit),
        (number, place, _) => Err(Refusal::listed(number, place)),
    }
}

#[cfg(test)]
mod tests {
    use super::*;

    fn numbers(number: usize, free: usize, outcome: usize) -> Result<Look, Refusal> {
        told(LookAnswer {
            number,
            free,
            outcome,
        })
    }

    #[test]
    fn each_listed_look() {
        assert_eq!(numbers(0, 1, 0), Ok(Look::Free));
        assert_eq!(numbers(0, 0, 0), Ok(Look::Certain(0)));
        assert_eq!(numbers(0, 0, 30), Ok(Look::Certain(30)));
        assert_eq!(numbers(9, 0, 0), Err(Refusal::InvalidTableau));
        assert_eq!(numbers(13, 0, 0), Err(Refusal::NoSuchQudit));
    }

    #[test]
    #[should_panic(expected = "another version: it told 1 and 2")]
    fn a_free_look_has_no_outcome() {
        _ = numbers(0, 1, 2);
    }

    #[test]
    #[should_panic(expected = "another version: it told 0 and 256")]
    fn an_outcome_is_a_level() {
        _ = numbers(0, 0, 256);
    }

    #[test]
    #[should_panic(expected = "another version: it refused 9 at 1")]
    fn a_refused_look_has_no_place() {
        _ = numbers(9, 1, 0);
    }
}
