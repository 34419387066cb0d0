//! The frame run: errors carried to the end as one frame.

use crate::library::{self, Answer, FrameAnswer};
use crate::{Refusal, counted};
use std::fmt;

/// Whether the errors changed the final state.
///
/// It is clean exactly if a [`direct_run`](crate::direct_run) of the same book, choices and start
/// tableau with the errors taken out ends with the same stabilizer set, which means in the same
/// state. The n stabilizer shifts show it; destabilizer shifts are written but not judged.
///
/// The results are not judged either: an X error that is undone after a measurement of its qudit
/// has changed that result, and is clean.
///
/// ```
/// use cagvost::Verdict;
/// use cagvost::book::Book;
///
/// // One qutrit at level 0 with an error X^p Z^s.
/// let noisy = |p, s| {
///     let book = Book::new(3, 1).error(0, p, s).to_bytes();
///     let mut tableau = [0; cagvost::tableau_len(1)];
///     let mut shifts = [0; cagvost::shifts_len(1)];
///     let mut frame = [0; cagvost::frame_len(1)];
///     cagvost::layer(&mut tableau, 3, 1)?;
///     let run = cagvost::frame_run(&book, &mut tableau, &mut [], &mut shifts, &mut frame)?;
///     Ok::<_, cagvost::Refusal>((run.verdict, shifts))
/// };
/// assert_eq!(noisy(0, 1)?, (Verdict::Clean, [1, 0])); // Z shifts the destabilizer
/// assert_eq!(noisy(1, 0)?, (Verdict::Shifted, [0, 2])); // X shifts the stabilizer
/// # Ok::<(), cagvost::Refusal>(())
/// ```
#[derive(Clone, Copy, Debug, PartialEq, Eq, Hash)]
pub enum Verdict {
    /// The final state is that of the run without errors: the n stabilizer shifts are 0.
    Clean,
    /// The final state is another one: some stabilizer shift is not 0.
    Shifted,
}

impl Verdict {
    /// The verdict that the library writes as this number, if it is one.
    pub(crate) fn listed(number: usize) -> Option<Verdict> {
        match number {
            0 => Some(Verdict::Clean),
            1 => Some(Verdict::Shifted),
            _ => None,
        }
    }
}

/// Writes the program's word, `clean` or `shifted`.
impl fmt::Display for Verdict {
    fn fmt(&self, f: &mut fmt::Formatter<'_>) -> fmt::Result {
        f.pad(match self {
            Verdict::Clean => "clean",
            Verdict::Shifted => "shifted",
        })
    }
}

/// What a frame run returns beside the buffers that it fills.
#[derive(Clone, Copy, Debug, PartialEq, Eq, Hash)]
pub struct FrameRun {
    /// The number of measurements.
    pub measurements: usize,
    /// Whether the errors changed the final state.
    pub verdict: Verdict,
}

/// The bytes that the shifts of `n` qudits need: one for each row.
pub const fn shifts_len(n: usize) -> usize {
    2 * n
}

/// The bytes that the frame of `n` qudits needs: X powers, then Z powers.
pub const fn frame_len(n: usize) -> usize {
    2 * n
}

/// Runs a book from the lent tableau, carrying all its errors as one frame to the end.
///
/// The choices are those of the run without errors. What is written into `results` are the reported
/// results: the clean ones plus the frame's X power on the measured qudit, which is the shift of that
/// result. A reset makes the frame's X power on its qudit 0. A correction changes the rows by the
/// clean result that it names, and takes the shift of that result out of the frame's X power.
///
/// At the end each row's phase is shifted by the pairing of the frame with that row; `shifts` has
/// these shifts in row order, and `frame` the final frame. What both buffers held before does not
/// matter.
///
/// The verdict is clean exactly if the last n shifts, those of the stabilizers, are 0: then the
/// errors have not changed the final state, though they may have changed results.
///
/// ```
/// use cagvost::Verdict;
/// use cagvost::book::{Book, Operation};
///
/// let mut book = Book::new(3, 2);
/// book.operation(Operation::Fourier { q: 0, times: 1 })
///     .operation(Operation::Sum { c: 0, t: 1, times: 1 })
///     .error(1, 1, 0)
///     .measure(0, 2)
///     .measure(1, 0);
/// let mut tableau = [0; cagvost::tableau_len(2)];
/// let mut results = [0; cagvost::results_len(2)];
/// let mut shifts = [0; cagvost::shifts_len(2)];
/// let mut frame = [0; cagvost::frame_len(2)];
///
/// cagvost::layer(&mut tableau, 3, 2)?;
/// let run = cagvost::frame_run(
///     &book.to_bytes(),
///     &mut tableau,
///     &mut results,
///     &mut shifts,
///     &mut frame,
/// )?;
/// assert_eq!((run.measurements, run.verdict), (2, Verdict::Shifted));
/// assert_eq!(results, [2, 1, 0, 0]);
/// assert_eq!(shifts, [0, 0, 0, 2]);
/// assert_eq!(frame, [0, 1, 0, 0]);
/// # Ok::<(), cagvost::Refusal>(())
/// ```
///
/// # Errors
///
/// As [`direct_run`](crate::direct_run) has them.
pub fn frame_run(
    book: &[u8],
    tableau: &mut [u8],
    results: &mut [u8],
    shifts: &mut [u8],
    frame: &mut [u8],
) -> Result<FrameRun, Refusal> {
    let FrameAnswer {
        number,
        place,
        verdict,
    } = library::frame_run(book, tableau, results, shifts, frame);
    let measurements = counted(Answer { number, place })?;
    // Another verdict is proved not to come, as with an unlisted number.
    let verdict = Verdict::listed(verdict).unwrap_or_else(|| {
        panic!("the linked library is of another version: its verdict is {verdict}")
    });
    Ok(FrameRun {
        measurements,
        verdict,
    })
}
