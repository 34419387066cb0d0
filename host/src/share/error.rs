//! What can be wrong with a share.

use super::kind::Kind;
use crate::Refusal;
use crate::book::MAX_ERRORS;
use std::error::Error;
use std::fmt;

/// Why shots could not be drawn or counted.
#[derive(Clone, Copy, Debug, PartialEq, Eq)]
#[non_exhaustive]
pub enum ShareError {
    /// A run would refuse the circuit.
    Refused(Refusal),
    /// The circuit has operations of this kind, and the model has no rates for it.
    NoRate(Kind),
    /// A shot has more errors than a book or a tray can have.
    TooManyErrors {
        /// The first such shot.
        shot: u64,
        /// How many errors it has.
        errors: usize,
    },
}

impl fmt::Display for ShareError {
    fn fmt(&self, f: &mut fmt::Formatter<'_>) -> fmt::Result {
        match self {
            ShareError::Refused(refusal) => refusal.fmt(f),
            ShareError::NoRate(kind) => write!(
                f,
                "the circuit has a '{kind}', and the error model has no line for '{kind}' and none \
                 for 'others'"
            ),
            ShareError::TooManyErrors { shot, errors } => write!(
                f,
                "shot {shot} has {errors} errors, and at most {MAX_ERRORS} can be run: the error \
                 rates are too high for a circuit of this length"
            ),
        }
    }
}

impl Error for ShareError {}
