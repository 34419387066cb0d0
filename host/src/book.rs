//! Shot books: operations, errors and choices as Rust values, and their bytes.
//!
//! A [`Book`] under construction refuses nothing: whatever is put into it comes out of
//! [`Book::to_bytes`], and the run that reads those bytes says what is wrong with them.
//! [`Book::write`] has the proved writer check it before, [`Book::from_bytes`] takes bytes that a run
//! accepts, and a book's [text form](crate::text) is read by `parse` and written by `to_string`.

use crate::library;
use crate::{Refusal, book_len, write_book};

/// The dimensions that a book may have.
pub const DIMENSIONS: [u8; 10] = [3, 5, 7, 11, 13, 17, 19, 23, 29, 31];

/// The largest number of qudits.
pub const MAX_QUDITS: u8 = 64;

/// The largest number of operations in a book.
pub const MAX_OPERATIONS: usize = 4096;

/// The largest number of errors in a book.
pub const MAX_ERRORS: usize = 2048;

/// The largest number of choices in a book.
pub const MAX_CHOICES: usize = 4096;

/// One of the nine operations. Qudits are numbered from 0.
///
/// Four of the gates have powers: one entry of a book applies them `times` times, and leaves what as
/// many entries with one application leave. Their numbers end before the power that is the identity:
/// the fourth of Fourier, the d-th of the others. So each of these gates has its inverse as a power.
///
/// ```
/// use cagvost::book::Operation;
///
/// let thrice = Operation::Sum { c: 0, t: 1, times: 3 };
/// assert_eq!(thrice.to_bytes(), [2, 0, 1, 3]);
/// let once = Operation::Sum { c: 0, t: 1, times: 1 };
/// assert_eq!(once.to_bytes(), [2, 0, 1, 0]); // once is written as 0
/// ```
#[derive(Clone, Copy, Debug, PartialEq, Eq, Hash)]
pub enum Operation {
    /// The Fourier gate.
    Fourier {
        /// The qudit.
        q: u8,
        /// How often it is applied: 1, 2 or 3.
        times: u8,
    },
    /// The phase gate: level j gains the phase ω^(j(j−1)/2).
    PhaseGate {
        /// The qudit.
        q: u8,
        /// How often it is applied, from 1 to d − 1.
        times: u8,
    },
    /// Adds the level of `c` to that of `t`.
    Sum {
        /// The control.
        c: u8,
        /// The target.
        t: u8,
        /// How often it is applied, from 1 to d − 1.
        times: u8,
    },
    /// Multiplies by ω to the product of the two levels.
    Cz {
        /// One qudit.
        c: u8,
        /// The other.
        t: u8,
        /// How often it is applied, from 1 to d − 1.
        times: u8,
    },
    /// Exchanges two qudits.
    Swap {
        /// One qudit.
        c: u8,
        /// The other.
        t: u8,
    },
    /// Sends level j to u·j.
    Multiplier {
        /// The qudit.
        q: u8,
        /// The factor, from 1 to d − 1.
        u: u8,
    },
    /// Measures the level of a qudit. It takes the next choice and gives a result.
    Measure {
        /// The qudit.
        q: u8,
    },
    /// Brings a qudit to level 0: measures it, which takes the next choice and gives no result, and
    /// applies X to the minus outcome.
    Reset {
        /// The qudit.
        q: u8,
    },
    /// Applies X to the minus result of an earlier measurement.
    Correct {
        /// The qudit that is corrected.
        t: u8,
        /// The measurement, counted from 0 over the operations [`Measure`](Operation::Measure) alone.
        m: u16,
    },
}

impl Operation {
    /// The four bytes of the operation in a book.
    ///
    /// | operation | bytes | the last byte |
    /// |---|---|---|
    /// | Fourier | 0, q, 0, k | 0 for once, 2 or 3 |
    /// | phase gate | 1, q, 0, k | 0 for once, 2 to d − 1 |
    /// | SUM | 2, c, t, k | 0 for once, 2 to d − 1 |
    /// | CZ | 3, c, t, k | 0 for once, 2 to d − 1 |
    /// | swap | 4, c, t, 0 | 0 |
    /// | multiplier | 5, q, 0, u | 1 to d − 1 |
    /// | measure | 6, q, 0, 0 | 0 |
    /// | reset | 7, q, 0, 0 | 0 |
    /// | correct | 8, t, m (low byte first) | the high byte of m |
    ///
    /// A gate applied no times is none of these: its last byte comes out as 1, which a run refuses
    /// ([`Refusal::Operation`]).
    ///
    /// [`Refusal::Operation`]: crate::Refusal::Operation
    pub fn to_bytes(self) -> [u8; 4] {
        match self {
            Operation::Fourier { q, times } => [0, q, 0, times_byte(times)],
            Operation::PhaseGate { q, times } => [1, q, 0, times_byte(times)],
            Operation::Sum { c, t, times } => [2, c, t, times_byte(times)],
            Operation::Cz { c, t, times } => [3, c, t, times_byte(times)],
            Operation::Swap { c, t } => [4, c, t, 0],
            Operation::Multiplier { q, u } => [5, q, 0, u],
            Operation::Measure { q } => [6, q, 0, 0],
            Operation::Reset { q } => [7, q, 0, 0],
            Operation::Correct { t, m } => {
                let [low, high] = m.to_le_bytes();
                [8, t, low, high]
            }
        }
    }

    /// The operation that has these four bytes, if there is one. Whether a book may have it is not
    /// tested.
    pub fn from_bytes(bytes: [u8; 4]) -> Option<Operation> {
        Some(match bytes {
            [0, q, 0, k] => Operation::Fourier {
                q,
                times: times_of(k),
            },
            [1, q, 0, k] => Operation::PhaseGate {
                q,
                times: times_of(k),
            },
            [2, c, t, k] => Operation::Sum {
                c,
                t,
                times: times_of(k),
            },
            [3, c, t, k] => Operation::Cz {
                c,
                t,
                times: times_of(k),
            },
            [4, c, t, 0] => Operation::Swap { c, t },
            [5, q, 0, u] => Operation::Multiplier { q, u },
            [6, q, 0, 0] => Operation::Measure { q },
            [7, q, 0, 0] => Operation::Reset { q },
            [8, t, low, high] => Operation::Correct {
                t,
                m: u16::from_le_bytes([low, high]),
            },
            _ => return None,
        })
    }

    /// The one or two qudits that it acts on, in the order of its bytes.
    pub fn qudits(self) -> impl Iterator<Item = u8> {
        let (first, second) = match self {
            Operation::Fourier { q, .. }
            | Operation::PhaseGate { q, .. }
            | Operation::Multiplier { q, .. }
            | Operation::Measure { q }
            | Operation::Reset { q } => (q, None),
            Operation::Correct { t, .. } => (t, None),
            Operation::Sum { c, t, .. } | Operation::Cz { c, t, .. } | Operation::Swap { c, t } => {
                (c, Some(t))
            }
        };
        [first].into_iter().chain(second)
    }
}

/// How a number of applications is written. 0 would be read as once, so that none is written as 1,
/// which stands for no number.
fn times_byte(times: u8) -> u8 {
    match times {
        0 => 1,
        1 => 0,
        more => more,
    }
}

/// The number of applications that is written so.
fn times_of(byte: u8) -> u8 {
    times_byte(byte) // it exchanges 0 and 1, and so undoes itself
}

/// The Weyl error X^p Z^s on one qudit.
#[derive(Clone, Copy, Debug, PartialEq, Eq, Hash)]
pub struct WeylError {
    /// The index of the operation before which it strikes; the number of operations means after
    /// all of them.
    pub place: u16,
    /// The qudit that it strikes.
    pub qudit: u8,
    /// The power of X.
    pub p: u8,
    /// The power of Z.
    pub s: u8,
}

impl WeylError {
    /// The five bytes of the error in a book.
    pub fn to_bytes(self) -> [u8; 5] {
        let [low, high] = self.place.to_le_bytes();
        [low, high, self.qudit, self.p, self.s]
    }

    /// The error that has these five bytes. Whether a book may have it is not tested.
    pub fn from_bytes([low, high, qudit, p, s]: [u8; 5]) -> WeylError {
        let place = u16::from_le_bytes([low, high]);
        WeylError { place, qudit, p, s }
    }
}

/// A shot book under construction.
///
/// ```
/// use cagvost::book::{Book, Operation};
///
/// let mut book = Book::new(3, 2);
/// book.operation(Operation::Fourier { q: 0, times: 1 })
///     .operation(Operation::Sum { c: 0, t: 1, times: 1 })
///     .error(1, 1, 0)
///     .measure(0, 2)
///     .measure(1, 0);
/// let bytes = book.to_bytes();
///
/// let mut tableau = vec![0; cagvost::tableau_len(2)];
/// let mut results = vec![0; cagvost::results_len(book.measurements())];
/// cagvost::layer(&mut tableau, 3, 2)?;
/// cagvost::direct_run(&bytes, &mut tableau, &mut results)?;
/// assert_eq!(results, [2, 1, 0, 0]);
/// # Ok::<(), cagvost::Refusal>(())
/// ```
#[derive(Clone, Debug, PartialEq, Eq)]
pub struct Book {
    d: u8,
    n: u8,
    operations: Vec<Operation>,
    errors: Vec<WeylError>,
    choices: Vec<u8>,
}

impl Book {
    /// An empty book for `n` qudits of dimension `d`.
    pub fn new(d: u8, n: u8) -> Book {
        Book {
            d,
            n,
            operations: Vec::new(),
            errors: Vec::new(),
            choices: Vec::new(),
        }
    }

    /// The book that has these bytes, if a run accepts them.
    ///
    /// The proved reader tests the bytes, and the proved writer has to make them of what was read.
    ///
    /// ```
    /// use cagvost::book::{Book, Operation};
    ///
    /// let mut book = Book::new(3, 2);
    /// book.operation(Operation::Fourier { q: 1, times: 3 }).error(1, 2, 0).measure(1, 2);
    /// let bytes = book.to_bytes();
    /// assert_eq!(Book::from_bytes(&bytes)?, book);
    /// let refusal = Book::from_bytes(&bytes[1..]).unwrap_err();
    /// assert_eq!(refusal.number(), 1);
    /// # Ok::<(), cagvost::Refusal>(())
    /// ```
    ///
    /// # Errors
    ///
    /// [`Refusal::BookHeader`] to [`Refusal::Choice`], as a run has them.
    pub fn from_bytes(bytes: &[u8]) -> Result<Book, Refusal> {
        accepted(bytes)?;
        let book = decoded(bytes);
        // No two books have the same bodies, so this shows that nothing was read wrongly.
        assert!(book.write().as_deref() == Ok(bytes), "read as {book:?}");
        Ok(book)
    }

    /// Adds an operation. A measurement or a reset added in this way still needs its choice.
    pub fn operation(&mut self, operation: Operation) -> &mut Book {
        self.operations.push(operation);
        self
    }

    /// Adds a measurement together with its choice.
    pub fn measure(&mut self, q: u8, choice: u8) -> &mut Book {
        self.operation(Operation::Measure { q }).choice(choice)
    }

    /// Adds a reset together with its choice.
    pub fn reset(&mut self, q: u8, choice: u8) -> &mut Book {
        self.operation(Operation::Reset { q }).choice(choice)
    }

    /// Adds a correction of qudit `t` by the result of measurement `m`, which must come earlier.
    pub fn correct(&mut self, t: u8, m: u16) -> &mut Book {
        self.operation(Operation::Correct { t, m })
    }

    /// Adds a choice.
    pub fn choice(&mut self, choice: u8) -> &mut Book {
        self.choices.push(choice);
        self
    }

    /// Adds an error X^p Z^s at this place: after the operations added so far and before the next.
    pub fn error(&mut self, qudit: u8, p: u8, s: u8) -> &mut Book {
        let place = narrow(self.operations.len());
        self.error_at(WeylError { place, qudit, p, s })
    }

    /// Adds an error with a place of its own. The reader wants places that never fall.
    pub fn error_at(&mut self, error: WeylError) -> &mut Book {
        self.errors.push(error);
        self
    }

    /// The same operations and choices, without errors.
    pub fn without_errors(&self) -> Book {
        Book {
            errors: Vec::new(),
            ..self.clone()
        }
    }

    /// The dimension.
    pub fn dimension(&self) -> u8 {
        self.d
    }

    /// The number of qudits.
    pub fn qudits(&self) -> u8 {
        self.n
    }

    /// The operations, in order.
    pub fn operations(&self) -> &[Operation] {
        &self.operations
    }

    /// The errors, in the order of their entries.
    pub fn errors(&self) -> &[WeylError] {
        &self.errors
    }

    /// The choices, one for each measurement and each reset, in the order of the operations.
    pub fn choices(&self) -> &[u8] {
        &self.choices
    }

    /// The choices, to be changed in place.
    pub fn choices_mut(&mut self) -> &mut [u8] {
        &mut self.choices
    }

    /// How many of the operations are measurements, which give a result each. A reset is none of them.
    pub fn measurements(&self) -> usize {
        let measures = |o: &&Operation| matches!(o, Operation::Measure { .. });
        self.operations.iter().filter(measures).count()
    }

    /// The bytes of the three bodies: operations, errors and choices.
    ///
    /// ```
    /// use cagvost::book::{Book, Operation};
    ///
    /// let mut book = Book::new(3, 2);
    /// book.operation(Operation::Fourier { q: 1, times: 1 }).error(1, 2, 0).measure(1, 2);
    /// let [operations, errors, choices] = book.bodies();
    /// assert_eq!(operations, [0, 1, 0, 0, 6, 1, 0, 0]);
    /// assert_eq!(errors, [1, 0, 1, 2, 0]);
    /// assert_eq!(choices, [2]);
    ///
    /// let mut bytes = vec![0; cagvost::book_len(&operations, &errors, &choices)];
    /// cagvost::write_book(3, 2, &operations, &errors, &choices, &mut bytes)?;
    /// assert_eq!(bytes, book.to_bytes());
    /// # Ok::<(), cagvost::Refusal>(())
    /// ```
    pub fn bodies(&self) -> [Vec<u8>; 3] {
        [
            self.operations.iter().flat_map(|o| o.to_bytes()).collect(),
            self.errors.iter().flat_map(|e| e.to_bytes()).collect(),
            self.choices.clone(),
        ]
    }

    /// The bytes of the book by the proved writer: those of [`Book::to_bytes`], if a run accepts them.
    ///
    /// ```
    /// use cagvost::Refusal;
    /// use cagvost::book::Book;
    ///
    /// let mut book = Book::new(3, 2);
    /// assert_eq!(book.measure(1, 2).write()?, book.to_bytes());
    /// assert_eq!(book.measure(2, 0).write(), Err(Refusal::Operation { index: 1 }));
    /// # Ok::<(), Refusal>(())
    /// ```
    ///
    /// # Errors
    ///
    /// As [`write_book`] has them, but for [`Refusal::ShortBuffer`].
    pub fn write(&self) -> Result<Vec<u8>, Refusal> {
        let (d, n) = (self.d.into(), self.n.into());
        let [operations, errors, choices] = &self.bodies();
        let mut bytes = vec![0; book_len(operations, errors, choices)];
        write_book(d, n, operations, errors, choices, &mut bytes)?;
        Ok(bytes)
    }

    /// The bytes of the book, unchecked. [`Book::write`] gives the same bytes, and only where a run
    /// accepts them.
    ///
    /// A body that is too long for the two bytes of its length is written with the length 65,535,
    /// which no reader accepts, rather than with one cut to two bytes.
    pub fn to_bytes(&self) -> Vec<u8> {
        let bodies = self.bodies();
        let mut bytes = vec![81, self.d, self.n, 3];
        let mut offset = 22;
        for (kind, body) in (1..).zip(&bodies) {
            bytes.extend([kind, 0]);
            bytes.extend(narrow(offset).to_le_bytes());
            bytes.extend(narrow(body.len()).to_le_bytes());
            offset += body.len();
        }
        bytes.extend(bodies.concat());
        bytes
    }
}

/// Whether a run accepts this book, by the proved reader.
///
/// A run reads its book first and then comes to its buffers. These are empty and too short for every
/// n, so that it says 8 of an accepted book, and there is nothing that it could write.
pub(crate) fn accepted(book: &[u8]) -> Result<(), Refusal> {
    let answer = library::direct_run(book, &mut [], &mut []);
    match Refusal::listed(answer.number, answer.place) {
        Refusal::ShortBuffer => Ok(()),
        refusal => Err(refusal),
    }
}

/// What the bytes of an accepted book say.
fn decoded(bytes: &[u8]) -> Book {
    let number = |i: usize| usize::from(u16::from_le_bytes([bytes[i], bytes[i + 1]]));
    let body = |i: usize| {
        let (start, length) = (number(6 * i + 6), number(6 * i + 8));
        &bytes[start..start + length]
    };
    let (operations, errors) = (body(0).as_chunks().0, body(1).as_chunks().0);
    let operation = |&entry| Operation::from_bytes(entry).expect("an entry of an accepted book");
    Book {
        d: bytes[1],
        n: bytes[2],
        operations: operations.iter().map(operation).collect(),
        errors: errors.iter().copied().map(WeylError::from_bytes).collect(),
        choices: body(2).to_vec(),
    }
}

/// The number in two bytes, or the largest that fits.
pub(crate) fn narrow(number: usize) -> u16 {
    u16::try_from(number).unwrap_or(u16::MAX)
}
