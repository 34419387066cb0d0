//! The tray run: many error lists over one circuit.

use crate::book::{WeylError, accepted, narrow};
use crate::library::{self, TrayAnswer};
use crate::{Refusal, Verdict};

/// The largest number of shots in a tray.
pub const MAX_SHOTS: usize = 4096;

/// A tray under construction: the error lists of many shots.
///
/// This is plain convenience, as [`Book`](crate::book::Book) is. It refuses nothing: whatever is put
/// into it comes out of [`Tray::to_bytes`], and [`tray_run`] says what is wrong with it.
///
/// ```
/// use cagvost::Tray;
/// use cagvost::book::WeylError;
///
/// let x = WeylError { place: 0, qudit: 0, p: 1, s: 0 };
/// let z = WeylError { place: 2, qudit: 1, p: 0, s: 1 };
/// let mut tray = Tray::new();
/// tray.shot(&[x, z]).shot(&[]).body(&[2, 0, 1, 0, 1]);
/// assert_eq!(tray.shots(), 3);
/// assert_eq!(
///     tray.to_bytes(),
///     [
///         3, 0, // three shots
///         10, 0, 0, 0, 5, 0, // the bytes of each: two errors, none, one
///         0, 0, 0, 1, 0, 2, 0, 1, 0, 1, // X on qudit 0, Z on qudit 1
///         2, 0, 1, 0, 1, // Z on qudit 1
///     ]
/// );
/// ```
#[derive(Clone, Debug, Default, PartialEq, Eq)]
pub struct Tray {
    /// The bytes of each shot's errors.
    lengths: Vec<usize>,
    /// The errors of all shots, one after the other.
    bodies: Vec<u8>,
}

impl Tray {
    /// A tray without shots.
    pub fn new() -> Tray {
        Tray::default()
    }

    /// Adds a shot with these errors. The reader wants places that never fall.
    pub fn shot(&mut self, errors: &[WeylError]) -> &mut Tray {
        let bytes = errors.iter().flat_map(|error| error.to_bytes());
        self.body(&bytes.collect::<Vec<u8>>())
    }

    /// Adds a shot whose errors are bytes as a book has them, five for each.
    pub fn body(&mut self, body: &[u8]) -> &mut Tray {
        self.append(|bodies| bodies.extend_from_slice(body));
        self
    }

    /// Adds a shot whose bytes the function appends, and returns how many these are.
    pub(crate) fn append(&mut self, append: impl FnOnce(&mut Vec<u8>)) -> usize {
        let start = self.bodies.len();
        append(&mut self.bodies);
        let length = self.bodies.len() - start;
        self.lengths.push(length);
        length
    }

    /// Takes out all shots, and keeps their room for others.
    pub fn clear(&mut self) {
        self.lengths.clear();
        self.bodies.clear();
    }

    /// How many shots there are.
    pub fn shots(&self) -> usize {
        self.lengths.len()
    }

    /// The bytes of the tray, unchecked.
    ///
    /// A number of shots, or of bytes in one of them, that is too large for its two bytes is written
    /// as 65,535, which no reader accepts, rather than cut to two bytes.
    pub fn to_bytes(&self) -> Vec<u8> {
        let mut bytes = Vec::new();
        self.write_to(&mut bytes);
        bytes
    }

    /// Writes these bytes in place of what a buffer holds.
    pub(crate) fn write_to(&self, bytes: &mut Vec<u8>) {
        let table = 2 + 2 * self.lengths.len();
        bytes.clear();
        bytes.reserve(table + self.bodies.len());
        bytes.extend(narrow(self.lengths.len()).to_le_bytes());
        for &length in &self.lengths {
            bytes.extend(narrow(length).to_le_bytes());
        }
        bytes.extend_from_slice(&self.bodies);
    }
}

/// How the shots of a tray ended.
#[derive(Clone, Copy, Debug, PartialEq, Eq, Hash)]
pub struct TrayCounts {
    /// How many ended in the state of the run without errors.
    pub clean: usize,
    /// How many ended in another state.
    pub shifted: usize,
}

impl TrayCounts {
    /// All shots of the tray.
    pub fn shots(self) -> usize {
        self.clean + self.shifted
    }
}

/// The bytes that so many shots of a circuit with so many measurements need: for each a verdict, and
/// 2 for each measurement.
pub const fn shots_len(shots: usize, measurements: usize) -> usize {
    shots * (1 + 2 * measurements)
}

/// Runs the circuit of a book with the error list of each shot in turn, each from the lent tableau.
///
/// For each shot, `out` gets the verdict and the results that a separate [`frame_run`] would end
/// with: one of the book that has the same operations and choices and this shot's errors. [`Shots`]
/// reads them. The book's own errors are checked and not used. The tableau is lent for reading: no
/// shot begins where another ended.
///
/// ```
/// use cagvost::book::{Book, Operation, WeylError};
/// use cagvost::{Shots, Tray, Verdict};
///
/// // Two qutrits: Fourier on 0, SUM from 0 to 1, then both are measured.
/// let mut book = Book::new(3, 2);
/// book.operation(Operation::Fourier { q: 0, times: 1 })
///     .operation(Operation::Sum { c: 0, t: 1, times: 1 })
///     .measure(0, 2)
///     .measure(1, 0);
/// let error = |qudit, p, s| WeylError { place: 2, qudit, p, s };
/// let mut tray = Tray::new();
/// tray.shot(&[]) // no error
///     .shot(&[error(1, 1, 0)]) // X on qudit 1 before the measurements
///     .shot(&[error(0, 0, 1)]); // Z on qudit 0, which a measured level does not show
///
/// let mut tableau = [0; cagvost::tableau_len(2)];
/// cagvost::layer(&mut tableau, 3, 2)?;
/// let mut out = vec![0; cagvost::shots_len(tray.shots(), book.measurements())];
/// let counts = cagvost::tray_run(&book.to_bytes(), &tray.to_bytes(), &tableau, &mut out)?;
/// assert_eq!((counts.clean, counts.shifted), (2, 1));
///
/// let shots = Shots::new(&out, counts.shots(), book.measurements());
/// assert_eq!(shots.shot(0).results, [2, 1, 2, 0]);
/// assert_eq!(shots.shot(1).results, [2, 1, 0, 0]);
/// assert_eq!(shots.shot(1).verdict, Verdict::Shifted);
/// assert_eq!(shots.shot(2), shots.shot(0));
/// # Ok::<(), cagvost::Refusal>(())
/// ```
///
/// # Errors
///
/// What is wrong with the book comes first ([`Refusal::BookHeader`] to [`Refusal::Choice`], as a run
/// has them), then [`Refusal::Tray`], then [`Refusal::TrayShot`] with the first shot that has a bad
/// error, then [`Refusal::ShortBuffer`], then [`Refusal::InvalidTableau`], again as a run has them.
///
/// [`frame_run`]: crate::frame_run
pub fn tray_run(
    book: &[u8],
    tray: &[u8],
    tableau: &[u8],
    out: &mut [u8],
) -> Result<TrayCounts, Refusal> {
    let TrayAnswer {
        number,
        place,
        shifted,
    } = library::tray(book, tray, tableau, out);
    match number {
        0 => Ok(TrayCounts {
            clean: place,
            shifted,
        }),
        // Both runs read the book first, by one reader: of an accepted one it is the tray's 6.
        6 if accepted(book).is_ok() => Err(Refusal::TrayShot { shot: place }),
        _ => Err(Refusal::listed(number, place)),
    }
}

/// What a tray run has filled, shot by shot.
///
/// ```
/// use cagvost::{Shots, Verdict};
///
/// // Two shots of a circuit with one measurement.
/// let shots = Shots::new(&[0, 2, 1, 1, 0, 1], 2, 1);
/// let levels: Vec<u8> = shots.iter().map(|shot| shot.results[0]).collect();
/// assert_eq!(levels, [2, 0]);
/// assert_eq!(shots.shot(1).verdict, Verdict::Shifted);
/// ```
#[derive(Clone, Copy, Debug, PartialEq, Eq)]
pub struct Shots<'a> {
    bytes: &'a [u8],
    measurements: usize,
}

/// What one shot ended with.
#[derive(Clone, Copy, Debug, PartialEq, Eq)]
pub struct Shot<'a> {
    /// Whether the shot's errors changed the final state.
    pub verdict: Verdict,
    /// Two bytes for each measurement, as a run's results have them: the outcome, then 0 if it was
    /// certain or 1 if it was free.
    pub results: &'a [u8],
}

impl<'a> Shots<'a> {
    /// The first so many shots of the buffer that a tray run filled. The number of measurements is
    /// the book's.
    ///
    /// # Panics
    ///
    /// If the buffer is shorter than [`shots_len`].
    pub fn new(out: &'a [u8], shots: usize, measurements: usize) -> Shots<'a> {
        Shots {
            bytes: &out[..shots_len(shots, measurements)],
            measurements,
        }
    }

    /// How many shots there are.
    pub fn len(&self) -> usize {
        self.bytes.len() / self.width()
    }

    /// Whether there are none.
    pub fn is_empty(&self) -> bool {
        self.bytes.is_empty()
    }

    /// Shot i, counted from 0.
    ///
    /// # Panics
    ///
    /// If there is no such shot, or if the bytes are none of a tray run with so many measurements,
    /// where this shows: its verdict is neither 0 nor 1.
    pub fn shot(&self, i: usize) -> Shot<'a> {
        let start = i * self.width();
        Shot::read(&self.bytes[start..start + self.width()])
    }

    /// All shots, in order.
    ///
    /// # Panics
    ///
    /// At a shot whose verdict is neither 0 nor 1, as [`Shots::shot`] does.
    pub fn iter(&self) -> impl ExactSizeIterator<Item = Shot<'a>> + use<'a> {
        self.bytes.chunks_exact(self.width()).map(Shot::read)
    }

    fn width(&self) -> usize {
        shots_len(1, self.measurements)
    }
}

impl<'a> Shot<'a> {
    fn read(bytes: &'a [u8]) -> Shot<'a> {
        let (&first, results) = bytes.split_first().expect("at least a verdict");
        let verdict = Verdict::listed(first.into()).unwrap_or_else(|| {
            panic!("no tray run with so many measurements filled this: its verdict is {first}")
        });
        Shot { verdict, results }
    }
}
