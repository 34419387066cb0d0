//! Circuits drawn in the terminal, one line for each qudit.
//!
//! ```
//! use cagvost::Book;
//!
//! let book: Book = "
//!     qudits 3 dimension 5
//!     fourier 0
//!     sum 0 2 ^3
//!     error 2 x^2 z
//!     multiplier 1 by 2
//!     cz 1 2
//!     measure 0
//!     measure 2
//! "
//! .parse()?;
//! assert_eq!(
//!     book.drawing().to_string(),
//!     "q0 ─F──●───M0─────────\n\
//!      q1 ─*2─│─────────●────\n\
//!      q2 ────⊕^3─!X^2Z─●─M1─\n"
//! );
//! # Ok::<(), cagvost::TextError>(())
//! ```
//!
//! Time goes from left to right: on each line the operations on a qudit stand in the order of the
//! circuit, and an error stands where it strikes. Each is put into the leftmost column that is free on
//! its line, for a gate on two qudits on both their lines and all between them. Two such gates in one
//! column never touch, so that one sees which two symbols belong together. A correction stands behind
//! the measurement that it names.
//!
//! # Symbols
//!
//! [`LEGEND`] has this text:
//!
//! ```text
#![doc = include_str!("legend.txt")]
//! ```
//!
//! The choice of a measurement or a reset is not drawn: it is no part of the circuit, and where the
//! outcome is certain it has no use. The [text form](crate::text) has it.
//!
//! # Books that a run refuses
//!
//! These are drawn as well as they can be. An operation or an error on a qudit that does not exist is
//! listed below the lines, and so is a gate on one qudit twice. An error stands before the operation
//! that it is placed before, also where the order of entries is another, and at the end if there is
//! no such operation. A correction that names no earlier measurement stands where it can. The last
//! line is the refusal.

use crate::book::{Book, Operation};
use crate::tableau::Power;
use std::fmt;

/// What the symbols of a drawing mean, one a line.
pub const LEGEND: &str = include_str!("legend.txt");

const WIRE: char = '─';
const CROSSING: char = '│';

impl Book {
    /// The circuit as a drawing for the terminal; [`drawing`](crate::drawing) explains it.
    pub fn drawing(&self) -> Drawing {
        let mut layout = Layout::of_lines(self.qudits().into());
        let mut errors = self.errors().to_vec();
        errors.sort_by_key(|error| error.place); // those of an accepted book are in order
        let mut errors = errors.into_iter().peekable();
        // The columns behind the measurements so far.
        let mut measured = Vec::new();
        let end = self.operations().len();
        for k in 0..=end {
            while let Some(error) = errors.next_if(|e| k == end || usize::from(e.place) <= k) {
                layout.put(&[(error.qudit, Symbol::Error(error.p, error.s))], 0, &error);
            }
            if let Some(&operation) = self.operations().get(k) {
                let from = earliest(operation, &measured);
                let behind = layout.put(&symbols(operation, measured.len()), from, &operation);
                if let Operation::Measure { .. } = operation {
                    measured.push(behind);
                }
            }
        }
        let refusal = self.write().err();
        layout.notes.extend(refusal.map(|r| r.to_string()));
        Drawing { layout, limit: 0 }
    }
}

/// A drawn circuit; [`drawing`](crate::drawing) explains it.
///
/// Each of its lines ends with a line break.
///
/// ```
/// let circuit = cagvost::Book::new(3, 2).measure(1, 0).clone();
/// print!("{}", circuit.drawing());
/// assert_eq!(circuit.drawing().to_string(), "q0 ────\nq1 ─M0─\n");
/// ```
#[derive(Clone, Debug)]
pub struct Drawing {
    layout: Layout,
    /// How wide a block may be; 0 for any width.
    limit: usize,
}

impl Drawing {
    /// The same drawing in blocks that are at most so many characters wide, or in one block if this is
    /// 0. Each block has all lines, and an empty line parts it from the next.
    ///
    /// A block has at least one column of symbols: it is wider where that alone is too wide.
    ///
    /// ```
    /// let book: cagvost::Book = "qudits 1 dimension 3\nfourier 0\nphase 0\nmeasure 0".parse()?;
    /// assert_eq!(book.drawing().to_string(), "q0 ─F─S─M0─\n");
    /// assert_eq!(book.drawing().width(10).to_string(), "q0 ─F─S─\n\nq0 ─M0─\n");
    /// # Ok::<(), cagvost::TextError>(())
    /// ```
    pub fn width(mut self, columns: usize) -> Drawing {
        self.limit = columns;
        self
    }

    /// The columns of each block.
    fn blocks(&self) -> Vec<&[Column]> {
        let columns = &self.layout.columns;
        let names = self.layout.name(0).chars().count();
        let (mut blocks, mut start, mut width) = (Vec::new(), 0, names);
        for (i, column) in columns.iter().enumerate() {
            let is_full = self.limit > 0 && width + column.width + 1 > self.limit;
            if is_full && start < i {
                blocks.push(&columns[start..i]);
                (start, width) = (i, names);
            }
            width += column.width + 1;
        }
        blocks.push(&columns[start..]);
        blocks
    }
}

impl fmt::Display for Drawing {
    fn fmt(&self, f: &mut fmt::Formatter<'_>) -> fmt::Result {
        for (i, block) in self.blocks().into_iter().enumerate() {
            if i > 0 {
                writeln!(f)?;
            }
            for line in 0..self.layout.lines() {
                let mut text = self.layout.name(line);
                block
                    .iter()
                    .for_each(|column| column.write(line, &mut text));
                writeln!(f, "{text}")?;
            }
        }
        if !self.layout.notes.is_empty() {
            writeln!(f)?;
        }
        let mut notes = self.layout.notes.iter();
        notes.try_for_each(|note| writeln!(f, "{note}"))
    }
}

/// Where each symbol stands.
#[derive(Clone, Debug)]
struct Layout {
    columns: Vec<Column>,
    /// For each line, the first column behind all operations and errors on it.
    behind: Vec<usize>,
    /// What is said below the lines.
    notes: Vec<String>,
}

impl Layout {
    fn of_lines(lines: usize) -> Layout {
        Layout {
            columns: Vec::new(),
            behind: vec![0; lines],
            notes: Vec::new(),
        }
    }

    fn lines(&self) -> usize {
        self.behind.len()
    }

    /// The name of a line with the begin of its wire, as wide as every other.
    fn name(&self, line: usize) -> String {
        let width = self.lines().saturating_sub(1).to_string().len();
        format!("q{line:<width$} {WIRE}")
    }

    /// Puts the symbols of an operation or an error into one column, this one or a later one, if their
    /// qudits are there and are different. Returns the next column, or the given one if they are not.
    fn put(&mut self, symbols: &[(u8, Symbol)], from: usize, entry: &dyn fmt::Display) -> usize {
        let lines = || symbols.iter().map(|&(qudit, _)| usize::from(qudit));
        let (first, last) = (lines().min().unwrap_or(0), lines().max().unwrap_or(0));
        let twice = symbols.len() == 2 && first == last;
        if twice || last >= self.lines() {
            self.notes.push(format!("not drawn: {entry}"));
            return from;
        }
        let place = self.place(first, last, from);
        if place == self.columns.len() {
            self.columns.push(Column::of_lines(self.lines()));
        }
        let column = &mut self.columns[place];
        column.symbols[first..=last].fill(Symbol::Crossing);
        for (line, &(_, symbol)) in lines().zip(symbols) {
            column.symbols[line] = symbol;
            column.width = column.width.max(symbol.to_string().chars().count());
            self.behind[line] = place + 1;
        }
        place + 1
    }

    /// The leftmost column, from this one on, for an operation on the first and the last of these
    /// lines.
    fn place(&self, first: usize, last: usize, from: usize) -> usize {
        let behind = self.behind[first].max(self.behind[last]).max(from);
        let mut places = behind..self.columns.len();
        places
            .find(|&place| self.columns[place].has_room(first, last))
            .unwrap_or(self.columns.len())
    }
}

/// What stands one above the other.
#[derive(Clone, Debug)]
struct Column {
    /// One for each line.
    symbols: Vec<Symbol>,
    /// That of the widest.
    width: usize,
}

impl Column {
    fn of_lines(lines: usize) -> Column {
        Column {
            symbols: vec![Symbol::Wire; lines],
            width: 0,
        }
    }

    /// Whether nothing stands on these lines. A gate on two qudits is not to touch another one either:
    /// of four partners in a row, nobody sees at once which are the pairs.
    fn has_room(&self, first: usize, last: usize) -> bool {
        let is_free = |symbol: &Symbol| matches!(symbol, Symbol::Wire);
        let is_paired = |symbol: &Symbol| matches!(symbol, Symbol::Partner(..) | Symbol::Crossing);
        let above = self.symbols[..first].last();
        let below = self.symbols.get(last + 1);
        let touches = first < last && [above, below].into_iter().flatten().any(is_paired);
        !touches && self.symbols[first..=last].iter().all(is_free)
    }

    /// Writes what stands on a line, and its wire up to the next column.
    fn write(&self, line: usize, text: &mut String) {
        let begin = text.len();
        match self.symbols[line] {
            // The most common ones, and formatting them would take most of the time.
            Symbol::Wire => {}
            Symbol::Crossing => text.push(CROSSING),
            symbol => text.push_str(&symbol.to_string()),
        }
        let width = text[begin..].chars().count();
        (width..=self.width).for_each(|_| text.push(WIRE));
    }
}

#[derive(Clone, Copy, Debug)]
enum Symbol {
    Wire,
    Gate(char, u8),
    /// One of the two qudits of a gate.
    Partner(char, u8),
    /// A qudit between them.
    Crossing,
    Multiplier(u8),
    Measurement(usize),
    Reset,
    /// By the measurement of this number.
    Correction(u16),
    Error(u8, u8),
}

impl fmt::Display for Symbol {
    fn fmt(&self, f: &mut fmt::Formatter<'_>) -> fmt::Result {
        match *self {
            Symbol::Wire => write!(f, "{WIRE}"),
            Symbol::Gate(letter, times) | Symbol::Partner(letter, times) => {
                write!(f, "{}", Power(letter, times))
            }
            Symbol::Crossing => write!(f, "{CROSSING}"),
            Symbol::Multiplier(u) => write!(f, "*{u}"),
            Symbol::Measurement(number) => write!(f, "M{number}"),
            Symbol::Reset => write!(f, "R"),
            Symbol::Correction(number) => write!(f, "X^-M{number}"),
            Symbol::Error(0, 0) => write!(f, "!I"),
            Symbol::Error(p, 0) => write!(f, "!{}", Power('X', p)),
            Symbol::Error(0, s) => write!(f, "!{}", Power('Z', s)),
            Symbol::Error(p, s) => write!(f, "!{}{}", Power('X', p), Power('Z', s)),
        }
    }
}

/// The symbols of an operation with their qudits. A measurement is numbered by those before it.
fn symbols(operation: Operation, measured: usize) -> Vec<(u8, Symbol)> {
    let pair = |c, control, t, target, times| {
        let [control, target] = [Symbol::Partner(control, 1), Symbol::Partner(target, times)];
        vec![(c, control), (t, target)]
    };
    match operation {
        Operation::Fourier { q, times } => vec![(q, Symbol::Gate('F', times))],
        Operation::PhaseGate { q, times } => vec![(q, Symbol::Gate('S', times))],
        Operation::Sum { c, t, times } => pair(c, '●', t, '⊕', times),
        Operation::Cz { c, t, times } => pair(c, '●', t, '●', times),
        Operation::Swap { c, t } => pair(c, '×', t, '×', 1),
        Operation::Multiplier { q, u } => vec![(q, Symbol::Multiplier(u))],
        Operation::Measure { q } => vec![(q, Symbol::Measurement(measured))],
        Operation::Reset { q } => vec![(q, Symbol::Reset)],
        Operation::Correct { t, m } => vec![(t, Symbol::Correction(m))],
    }
}

/// The first column in which an operation may stand, by those behind the measurements before it.
fn earliest(operation: Operation, measured: &[usize]) -> usize {
    match operation {
        Operation::Correct { m, .. } => measured.get(usize::from(m)).copied().unwrap_or(0),
        _ => 0,
    }
}
