//! Circuits as text: [`Book`] from a text and as one.
//!
//! ```text
//! # Two qutrits are entangled; an X error strikes the second before both are measured.
//! qudits 2 dimension 3
//! fourier 0
//! sum 0 1
//! error 1 x
//! measure 0 choose 2
//! measure 1
//! ```
//!
//! The first line names the number of qudits, which are counted from 0, and their dimension. Then
//! comes one operation a line, and each error before the operation that it strikes or after the last
//! one. These are the lines, with C, T and Q for the numbers of qudits:
//!
//! ```text
#![doc = include_str!("lines.txt")]
//! ```
//!
//! Words may be in small or large letters, and a power of 1 need not be written.
//!
//! A correction names a measurement by its number, as the listing of a run and a drawing number them:
//! 0 is the first line `measure`, and resets are not counted. It must stand before the correction.
//!
//! What can be read is checked by the proved writer, so that a text is refused exactly if a run
//! would refuse its bytes, by the same number.

use crate::Refusal;
use crate::book::{Book, MAX_CHOICES, MAX_ERRORS, MAX_OPERATIONS, Operation, WeylError};
use crate::tableau::Power;
use crate::words::{self, Line, TextError};
use std::fmt;
use std::str::FromStr;

const HEADER: &str = "'qudits N dimension D'";
const OPERATION: &str =
    "fourier, phase, sum, cz, swap, multiplier, measure, reset, correct or error";

/// Reads a circuit in [its text form](crate::text).
impl FromStr for Book {
    type Err = TextError;

    fn from_str(text: &str) -> Result<Book, TextError> {
        let mut lines = words::lines(text);
        let mut header = lines.next().ok_or_else(|| words::ended(text, HEADER))?;
        let mut circuit = Circuit::new(read_header(&mut header)?);
        for mut line in lines {
            circuit.read(&mut line)?;
            line.end("the end of the line")?;
            circuit.origins.push(line);
        }
        match circuit.book.write() {
            Ok(_) => Ok(circuit.book),
            Err(refusal) => Err(circuit.refused(refusal, &header)),
        }
    }
}

fn read_header(line: &mut Line) -> Result<Book, TextError> {
    if !line.take("qudits") {
        return Err(line.unexpected(HEADER));
    }
    let n = byte(line, "the number of qudits")?;
    line.expect("dimension")?;
    let d = byte(line, "the dimension")?;
    line.end("the end of the line")?;
    Ok(Book::new(d, n))
}

/// A number that is too large for a byte comes as 255. That is too large for every use as well, so
/// that the same refusal follows.
fn byte(line: &mut Line, expected: &str) -> Result<u8, TextError> {
    let number = line.number(expected)?;
    Ok(u8::try_from(number).unwrap_or(u8::MAX))
}

/// A number that is too large for two bytes comes as 65,535. No circuit has so many measurements, so
/// that the same refusal follows.
fn measurement(line: &mut Line) -> Result<u16, TextError> {
    let number = line.number("the measurement's number")?;
    Ok(u16::try_from(number).unwrap_or(u16::MAX))
}

/// A circuit while it is read, with the lines that its entries come from.
struct Circuit<'a> {
    book: Book,
    origins: Vec<Line<'a>>,
    /// The indices among these of the lines of operations, errors and choices.
    operations: Vec<usize>,
    errors: Vec<usize>,
    choices: Vec<usize>,
}

impl<'a> Circuit<'a> {
    fn new(book: Book) -> Circuit<'a> {
        Circuit {
            book,
            origins: Vec::new(),
            operations: Vec::new(),
            errors: Vec::new(),
            choices: Vec::new(),
        }
    }

    fn read(&mut self, line: &mut Line<'a>) -> Result<(), TextError> {
        let index = self.origins.len();
        if line.take("error") {
            let (qudit, p, s) = error(line)?;
            self.errors.push(index);
            self.book.error(qudit, p, s);
            return Ok(());
        }
        self.operations.push(index);
        if line.take("measure") {
            let (q, choice) = chosen(line)?;
            self.choices.push(index);
            self.book.measure(q, choice);
        } else if line.take("reset") {
            let (q, choice) = chosen(line)?;
            self.choices.push(index);
            self.book.reset(q, choice);
        } else if line.take("correct") {
            let t = byte(line, "the qudit's number")?;
            line.expect("by")?;
            self.book.correct(t, measurement(line)?);
        } else {
            self.book.operation(gate(line)?);
        }
        Ok(())
    }

    /// The refusal, with the line that it is about and what is wrong there.
    fn refused(&self, refusal: Refusal, header: &Line) -> TextError {
        let line = self.origin(refusal).unwrap_or(header);
        let meaning = not_earlier(&self.book, refusal);
        line.refused(
            refusal,
            meaning.unwrap_or_else(|| refusal.meaning().to_string()),
        )
    }

    /// The line that a refusal is about, if it is not the header.
    fn origin(&self, refusal: Refusal) -> Option<&Line<'a>> {
        let index = match refusal {
            Refusal::Contents { entry: 0 } => self.operations.get(MAX_OPERATIONS),
            Refusal::Contents { entry: 1 } => self.errors.get(MAX_ERRORS),
            Refusal::Contents { .. } => self.choices.get(MAX_CHOICES),
            Refusal::Operation { index } => self.operations.get(index),
            Refusal::ErrorEntry { index } => self.errors.get(index),
            Refusal::Choice { index } => self.choices.get(index),
            _ => None,
        };
        index.map(|&index| &self.origins[index])
    }
}

/// What is wrong with a refused operation, if it is a correction that names no earlier measurement.
fn not_earlier(book: &Book, refusal: Refusal) -> Option<String> {
    let Refusal::Operation { index } = refusal else {
        return None;
    };
    let (before, rest) = book.operations().split_at_checked(index)?;
    let Some(&Operation::Correct { m, .. }) = rest.first() else {
        return None;
    };
    let measures = |o: &&Operation| matches!(o, Operation::Measure { .. });
    let earlier = before.iter().filter(measures).count();
    // A larger number was read as this one.
    let or_later = if m == u16::MAX { " or later" } else { "" };
    let come = match earlier {
        0 => "no measurement comes".to_string(),
        1 => "1 measurement comes".to_string(),
        more => format!("{more} measurements come"),
    };
    let words = format!(
        "it names measurement {m}{or_later}, and {come} before it (they are counted from 0, without \
         resets)"
    );
    (usize::from(m) >= earlier).then_some(words)
}

fn gate(line: &mut Line) -> Result<Operation, TextError> {
    if line.take("fourier") {
        let q = byte(line, "the qudit's number")?;
        let times = power(line)?;
        return Ok(Operation::Fourier { q, times });
    }
    if line.take("phase") {
        let q = byte(line, "the qudit's number")?;
        let times = power(line)?;
        return Ok(Operation::PhaseGate { q, times });
    }
    if line.take("sum") {
        let (c, t) = pair(line, "the control's number", "the target's number")?;
        let times = power(line)?;
        return Ok(Operation::Sum { c, t, times });
    }
    if line.take("cz") {
        let (c, t) = pair(line, "the qudit's number", "the other qudit's number")?;
        let times = power(line)?;
        return Ok(Operation::Cz { c, t, times });
    }
    if line.take("swap") {
        let (c, t) = pair(line, "the qudit's number", "the other qudit's number")?;
        return Ok(Operation::Swap { c, t });
    }
    if line.take("multiplier") {
        let q = byte(line, "the qudit's number")?;
        line.expect("by")?;
        let u = byte(line, "the factor")?;
        return Ok(Operation::Multiplier { q, u });
    }
    Err(line.unexpected(OPERATION))
}

fn pair(line: &mut Line, first: &str, second: &str) -> Result<(u8, u8), TextError> {
    Ok((byte(line, first)?, byte(line, second)?))
}

/// `^K`, or nothing for once.
fn power(line: &mut Line) -> Result<u8, TextError> {
    match line.take("^") {
        true => byte(line, "the power"),
        false => Ok(1),
    }
}

/// A qudit and its choice: `choose M`, or nothing for 0.
fn chosen(line: &mut Line) -> Result<(u8, u8), TextError> {
    let q = byte(line, "the qudit's number")?;
    match line.take("choose") {
        true => Ok((q, byte(line, "the choice")?)),
        false => Ok((q, 0)),
    }
}

/// The qudit and the powers of X and Z.
fn error(line: &mut Line) -> Result<(u8, u8, u8), TextError> {
    let qudit = byte(line, "the qudit's number")?;
    if line.take("i") {
        return Ok((qudit, 0, 0));
    }
    let has_x = line.take("x");
    let p = if has_x { power(line)? } else { 0 };
    let has_z = line.take("z");
    let s = if has_z { power(line)? } else { 0 };
    if !has_x && !has_z {
        return Err(line.unexpected("x, z or i"));
    }
    line.end("the end of the line (x stands before z)")?;
    Ok((qudit, p, s))
}

/// Writes [the text form](crate::text). Of an accepted book it is read back as the same book.
///
/// A book under construction may have what no text says: errors in another order than that of their
/// places or placed after the end, choices without a measurement or a reset or missing ones. These
/// come in words that are not read back, so that no such book is taken for another one.
impl fmt::Display for Book {
    fn fmt(&self, f: &mut fmt::Formatter<'_>) -> fmt::Result {
        writeln!(f, "qudits {} dimension {}", self.qudits(), self.dimension())?;
        let mut errors = self.errors().iter().peekable();
        let mut choices = self.choices().iter();
        for (k, operation) in self.operations().iter().enumerate() {
            while let Some(error) = errors.next_if(|error| usize::from(error.place) == k) {
                writeln!(f, "{error}")?;
            }
            write!(f, "{operation}")?;
            if let Operation::Measure { .. } | Operation::Reset { .. } = operation {
                match choices.next() {
                    Some(0) => {}
                    Some(choice) => write!(f, " choose {choice}")?,
                    None => write!(f, " without a choice")?,
                }
            }
            writeln!(f)?;
        }
        let end = self.operations().len();
        for error in errors {
            match usize::from(error.place) == end {
                true => writeln!(f, "{error}")?,
                false => writeln!(f, "{error} at place {}", error.place)?,
            }
        }
        choices
            .try_for_each(|choice| writeln!(f, "choice {choice} without a measurement or a reset"))
    }
}

/// Writes the line of a circuit's text, a measurement or a reset without its choice.
///
/// ```
/// use cagvost::book::Operation;
///
/// assert_eq!(Operation::PhaseGate { q: 2, times: 3 }.to_string(), "phase 2 ^3");
/// assert_eq!(Operation::Sum { c: 0, t: 1, times: 1 }.to_string(), "sum 0 1");
/// assert_eq!(Operation::Multiplier { q: 1, u: 2 }.to_string(), "multiplier 1 by 2");
/// assert_eq!(Operation::Correct { t: 1, m: 0 }.to_string(), "correct 1 by 0");
/// ```
impl fmt::Display for Operation {
    fn fmt(&self, f: &mut fmt::Formatter<'_>) -> fmt::Result {
        let times = match *self {
            Operation::Fourier { q, times } => {
                write!(f, "fourier {q}")?;
                times
            }
            Operation::PhaseGate { q, times } => {
                write!(f, "phase {q}")?;
                times
            }
            Operation::Sum { c, t, times } => {
                write!(f, "sum {c} {t}")?;
                times
            }
            Operation::Cz { c, t, times } => {
                write!(f, "cz {c} {t}")?;
                times
            }
            Operation::Swap { c, t } => return write!(f, "swap {c} {t}"),
            Operation::Multiplier { q, u } => return write!(f, "multiplier {q} by {u}"),
            Operation::Measure { q } => return write!(f, "measure {q}"),
            Operation::Reset { q } => return write!(f, "reset {q}"),
            Operation::Correct { t, m } => return write!(f, "correct {t} by {m}"),
        };
        match times {
            1 => Ok(()),
            k => write!(f, " ^{k}"),
        }
    }
}

/// Writes the line of a circuit's text, which has its place by where it stands.
///
/// ```
/// use cagvost::book::WeylError;
///
/// let error = |p, s| WeylError { place: 4, qudit: 1, p, s }.to_string();
/// assert_eq!(error(2, 1), "error 1 x^2 z");
/// assert_eq!(error(0, 3), "error 1 z^3");
/// assert_eq!(error(0, 0), "error 1 i");
/// ```
impl fmt::Display for WeylError {
    fn fmt(&self, f: &mut fmt::Formatter<'_>) -> fmt::Result {
        write!(f, "error {}", self.qudit)?;
        if (self.p, self.s) == (0, 0) {
            return write!(f, " i");
        }
        let powers = [Power('x', self.p), Power('z', self.s)];
        let mut written = powers.iter().filter(|Power(_, power)| *power != 0);
        written.try_for_each(|power| write!(f, " {power}"))
    }
}
