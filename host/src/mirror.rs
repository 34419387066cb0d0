//! The mirror: the book that undoes a circuit.

use crate::library;
use crate::{Refusal, counted};

/// The bytes that the mirror of a book with so many operations needs: 22 and four for each.
pub const fn mirror_len(operations: usize) -> usize {
    22 + 4 * operations
}

/// Writes the mirror of a book: the book whose run undoes the operations of this one, the last one
/// first.
///
/// It has the same d and n and as many operations, no errors and no choices. The errors of `book` are
/// checked and then dropped, so that it may be the very book that a noisy run was made of. Returns
/// the number of bytes written, which is [`mirror_len`]: a run wants just these, without what a
/// longer buffer holds behind them. A refusal leaves the buffer as it was.
///
/// After a run of a book without errors, a run of its mirror brings back every byte of the tableau.
/// With errors it brings it back but for the phases: each is shifted by the pairing of one frame with
/// its row. The mirror of the mirror is the book without its errors.
///
/// ```
/// use cagvost::Refusal;
/// use cagvost::book::{Book, Operation};
///
/// // Two qudits of dimension 5: Fourier on 0, SUM from 0 to 1 three times, a multiplier on 1.
/// let mut circuit = Book::new(5, 2);
/// circuit
///     .operation(Operation::Fourier { q: 0, times: 1 })
///     .operation(Operation::Sum { c: 0, t: 1, times: 3 })
///     .operation(Operation::Multiplier { q: 1, u: 2 });
///
/// let mut mirror = vec![0; cagvost::mirror_len(circuit.operations().len())];
/// let written = cagvost::mirror(&circuit.to_bytes(), &mut mirror)?;
/// assert_eq!((written, mirror.len()), (34, 34));
/// assert_eq!(
///     mirror[22..],
///     [
///         5, 1, 0, 3, // the multiplier by 3, as 2·3 leaves 1
///         2, 0, 1, 2, // SUM twice: with the three before they are five, which do nothing
///         0, 0, 0, 3, // Fourier three times: with the one before they are four
///     ]
/// );
///
/// // There and back.
/// let mut zero = [0; cagvost::tableau_len(2)];
/// cagvost::layer(&mut zero, 5, 2)?;
/// let mut tableau = zero;
/// cagvost::direct_run(&circuit.to_bytes(), &mut tableau, &mut [])?;
/// assert_ne!(tableau, zero);
/// cagvost::direct_run(&mirror, &mut tableau, &mut [])?;
/// assert_eq!(tableau, zero);
///
/// // With an X error after the circuit, qudit 1 comes back at level 3: the multiplier by 3 makes X³
/// // of X, and SUM from qudit 0 does not change this.
/// circuit.error(1, 1, 0);
/// cagvost::direct_run(&circuit.to_bytes(), &mut tableau, &mut [])?;
/// cagvost::direct_run(&mirror, &mut tableau, &mut [])?;
/// let mut results = [0; cagvost::results_len(2)];
/// let measured = Book::new(5, 2).measure(0, 0).measure(1, 0).to_bytes();
/// cagvost::direct_run(&measured, &mut tableau, &mut results)?;
/// assert_eq!(results, [0, 0, 3, 0]); // both certain
///
/// // A reset cannot be undone, nor can a measurement or a correction. The buffer keeps the mirror.
/// circuit.reset(0, 4).measure(0, 0).correct(1, 0);
/// let refused = cagvost::mirror(&circuit.to_bytes(), &mut mirror);
/// assert_eq!(refused, Err(Refusal::Measurement { index: 3 }));
/// # Ok::<(), Refusal>(())
/// ```
///
/// # Errors
///
/// What is wrong with the book comes first ([`Refusal::BookHeader`] to [`Refusal::Choice`], as a run
/// has them), then [`Refusal::Measurement`] with the first operation that is a measurement, a reset or
/// a correction, and last [`Refusal::ShortBuffer`], tested in this order.
pub fn mirror(book: &[u8], out: &mut [u8]) -> Result<usize, Refusal> {
    counted(library::mirror(book, out))
}
