//! Frame runs by the library and by the plain reference.

use super::{Rng, UNWRITTEN, is_still_valid, plain, with_tail, zero_tableau};
use cagvost::{FrameRun, Verdict};

/// The four buffers of a frame run.
#[derive(Clone, Debug, PartialEq, Eq)]
pub struct Buffers {
    pub tableau: Vec<u8>,
    pub results: Vec<u8>,
    pub shifts: Vec<u8>,
    pub frame: Vec<u8>,
}

impl Buffers {
    /// Room for a book, filled with bytes that a run must not read, and tails that it must keep.
    pub fn drawn(rng: &mut Rng, n: u8, measurements: usize, tableau: Vec<u8>) -> Buffers {
        let [results, shifts, frame] = [2 * measurements, 2 * usize::from(n), 2 * usize::from(n)]
            .map(|length| {
                let bytes = rng.bytes(length);
                with_tail(rng, bytes)
            });
        Buffers {
            tableau: with_tail(rng, tableau),
            results,
            shifts,
            frame,
        }
    }

    /// Exactly the room that a book needs, with the zero tableau.
    pub fn zero(d: u8, n: u8, measurements: usize) -> Buffers {
        Buffers {
            tableau: zero_tableau(d, n),
            results: vec![UNWRITTEN; 2 * measurements],
            shifts: vec![UNWRITTEN; 2 * usize::from(n)],
            frame: vec![UNWRITTEN; 2 * usize::from(n)],
        }
    }

    /// A frame run: its number, its place or measurements, and the verdict.
    pub fn by_library(&mut self, book: &[u8]) -> (usize, usize, usize) {
        let returned = cagvost::frame_run(
            book,
            &mut self.tableau,
            &mut self.results,
            &mut self.shifts,
            &mut self.frame,
        );
        match returned {
            Ok(FrameRun {
                measurements,
                verdict,
            }) => (0, measurements, usize::from(verdict == Verdict::Shifted)),
            Err(refusal) => (refusal.number(), refusal.place(), 0),
        }
    }

    /// The same call to the plain reference.
    pub fn by_plain(&mut self, book: &[u8]) -> (usize, usize, usize) {
        plain::frame_run(
            book,
            &mut self.tableau,
            &mut self.results,
            &mut self.shifts,
            &mut self.frame,
        )
    }
}

/// A frame run by both, which must agree in each number and byte. A refusal must leave every byte,
/// and what a run leaves must name the book's d and n and pass the test.
pub fn carry_both(book: &[u8], before: &Buffers) -> ((usize, usize, usize), Buffers) {
    let lent = book.to_vec();
    let (mut left, mut expected) = (before.clone(), before.clone());
    let returned = left.by_library(&lent);
    assert_eq!(returned, expected.by_plain(book), "numbers of {book:02x?}");
    assert!(left == expected, "bytes of {book:02x?}");
    assert!(lent == book, "the book was written: {book:02x?}");
    if returned.0 != 0 {
        assert!(left == *before, "{returned:?} changed a buffer");
    } else {
        is_still_valid(book, &left.tableau);
    }
    (returned, left)
}
