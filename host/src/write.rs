//! The writer: a book out of its three bodies.

use crate::library;
use crate::{Refusal, counted};

/// The bytes that the book of these three bodies needs: 22 and the bodies.
pub const fn book_len(operations: &[u8], errors: &[u8], choices: &[u8]) -> usize {
    22 + operations.len() + errors.len() + choices.len()
}

/// Writes the book of `n` qudits of dimension `d` that has these operations, errors and choices.
///
/// It is the only book that a run accepts for them, so the bodies of an accepted book, written
/// again, give that book byte for byte. Returns the number of bytes written, which is
/// [`book_len`]: a run wants just these, without what a longer buffer holds behind them. A refusal
/// leaves the buffer as it was.
///
/// The bodies are bytes as a book has them: four for each operation, of which
/// [`Operation::to_bytes`](crate::book::Operation::to_bytes) has the table, five for each error, one
/// for each choice, of which each measurement and each reset has one.
/// [`Book::bodies`](crate::book::Book::bodies) makes them of Rust values.
///
/// ```
/// use cagvost::Refusal;
///
/// // Two qutrits: Fourier on 0, SUM from 0 to 1, an X error on 1, then both are measured.
/// let operations = [
///     0, 0, 0, 0, // Fourier on qudit 0
///     2, 0, 1, 0, // SUM from qudit 0 to qudit 1
///     6, 0, 0, 0, // measure qudit 0
///     6, 1, 0, 0, // measure qudit 1
/// ];
/// let errors = [2, 0, 1, 1, 0]; // before operation 2, on qudit 1: X
/// let choices = [2, 0];
///
/// let mut book = vec![0; cagvost::book_len(&operations, &errors, &choices)];
/// let written = cagvost::write_book(3, 2, &operations, &errors, &choices, &mut book)?;
/// assert_eq!((written, book.len()), (45, 45));
///
/// let mut tableau = [0; cagvost::tableau_len(2)];
/// let mut results = [0; cagvost::results_len(2)];
/// cagvost::layer(&mut tableau, 3, 2)?;
/// cagvost::direct_run(&book, &mut tableau, &mut results)?;
/// assert_eq!(results, [2, 1, 0, 0]);
///
/// // The second measurement has no choice. The buffer keeps the book.
/// let refused = cagvost::write_book(3, 2, &operations, &errors, &[2], &mut book);
/// assert_eq!(refused, Err(Refusal::Choice { index: 1 }));
/// # Ok::<(), Refusal>(())
/// ```
///
/// # Errors
///
/// [`Refusal::Dimension`], [`Refusal::QuditCount`], [`Refusal::Contents`] with the first body (0
/// operations, 1 errors, 2 choices) that is not of whole entries or has too many,
/// [`Refusal::Operation`], [`Refusal::ErrorEntry`], [`Refusal::Choice`], and last
/// [`Refusal::ShortBuffer`], tested in this order.
pub fn write_book(
    d: usize,
    n: usize,
    operations: &[u8],
    errors: &[u8],
    choices: &[u8],
    out: &mut [u8],
) -> Result<usize, Refusal> {
    counted(library::write(out, operations, errors, choices, d, n))
}
