//! The kinds of operations.

use crate::book::Operation;
use std::fmt;

/// A kind of operation.
///
/// ```
/// use cagvost::book::Operation;
/// use cagvost::share::Kind;
///
/// let kind = Kind::of(Operation::Sum { c: 0, t: 1, times: 2 });
/// assert_eq!(kind, Kind::Sum);
/// assert_eq!(kind.to_string(), "sum");
/// ```
#[derive(Clone, Copy, Debug, PartialEq, Eq, Hash)]
pub enum Kind {
    /// The Fourier gate.
    Fourier,
    /// The phase gate.
    Phase,
    /// SUM.
    Sum,
    /// CZ.
    Cz,
    /// The exchange of two qudits.
    Swap,
    /// The multiplier.
    Multiplier,
    /// A measurement.
    Measure,
    /// A reset.
    Reset,
    /// A correction by an earlier result.
    Correct,
}

impl Kind {
    /// All kinds, in the order in which they are declared.
    pub const ALL: [Kind; 9] = [
        Kind::Fourier,
        Kind::Phase,
        Kind::Sum,
        Kind::Cz,
        Kind::Swap,
        Kind::Multiplier,
        Kind::Measure,
        Kind::Reset,
        Kind::Correct,
    ];

    /// The kind of an operation, however often it applies its gate.
    pub fn of(operation: Operation) -> Kind {
        match operation {
            Operation::Fourier { .. } => Kind::Fourier,
            Operation::PhaseGate { .. } => Kind::Phase,
            Operation::Sum { .. } => Kind::Sum,
            Operation::Cz { .. } => Kind::Cz,
            Operation::Swap { .. } => Kind::Swap,
            Operation::Multiplier { .. } => Kind::Multiplier,
            Operation::Measure { .. } => Kind::Measure,
            Operation::Reset { .. } => Kind::Reset,
            Operation::Correct { .. } => Kind::Correct,
        }
    }

    /// Its name in [the text of a circuit](crate::text) and in that of a model.
    pub fn name(self) -> &'static str {
        match self {
            Kind::Fourier => "fourier",
            Kind::Phase => "phase",
            Kind::Sum => "sum",
            Kind::Cz => "cz",
            Kind::Swap => "swap",
            Kind::Multiplier => "multiplier",
            Kind::Measure => "measure",
            Kind::Reset => "reset",
            Kind::Correct => "correct",
        }
    }
}

impl fmt::Display for Kind {
    fn fmt(&self, f: &mut fmt::Formatter<'_>) -> fmt::Result {
        f.pad(self.name())
    }
}
