//! Probabilities, and the rates of errors that have them.

use super::value::{Decimal, ValueError};
use std::fmt;
use std::str::FromStr;

/// A number from 0 to 1.
///
/// ```
/// use cagvost::share::Probability;
///
/// let p: Probability = "1e-3".parse()?;
/// assert_eq!((p.get(), p.to_string()), (0.001, "0.001".to_string()));
/// assert_eq!(Probability::new(1.5), None);
/// # Ok::<(), cagvost::share::ValueError>(())
/// ```
#[derive(Clone, Copy, Debug, PartialEq, PartialOrd)]
pub struct Probability(f64);

pub(super) const PROBABILITY: &str = "a probability from 0 to 1";

impl Probability {
    /// What never happens.
    pub const ZERO: Probability = Probability(0.0);

    /// What always happens.
    pub const ONE: Probability = Probability(1.0);

    /// The number, if it is one from 0 to 1.
    pub fn new(number: f64) -> Option<Probability> {
        // Minus zero becomes zero, which is written without a sign.
        (0.0..=1.0)
            .contains(&number)
            .then_some(Probability(number + 0.0))
    }

    /// The number.
    pub fn get(self) -> f64 {
        self.0
    }
}

impl FromStr for Probability {
    type Err = ValueError;

    fn from_str(word: &str) -> Result<Probability, ValueError> {
        let number = word.parse().ok();
        number
            .and_then(Probability::new)
            .ok_or_else(|| ValueError::new(PROBABILITY, word))
    }
}

/// Writes the shortest decimal that is read back as the same number.
impl fmt::Display for Probability {
    fn fmt(&self, f: &mut fmt::Formatter<'_>) -> fmt::Result {
        Decimal(self.0).fmt(f)
    }
}

/// How often a qudit is struck where an operation acts on it, and by what.
///
/// ```
/// use cagvost::share::{Probability, Rates};
///
/// let p = Probability::new(0.01).unwrap();
/// assert_eq!(Rates::Uniform(p).to_string(), "uniform 0.01");
/// let rates = Rates::Separate { x: p, z: Probability::ZERO };
/// assert_eq!(rates.to_string(), "x 0.01 z 0");
/// ```
#[derive(Clone, Copy, Debug, PartialEq)]
pub enum Rates {
    /// With this probability by one of the d² − 1 Weyl errors that are not the identity, each as
    /// likely as another.
    Uniform(Probability),
    /// By a power of X and by a power of Z, each independently of the other. All powers from 1 to
    /// d − 1 are equally likely.
    Separate {
        /// The probability of a power of X.
        x: Probability,
        /// The probability of a power of Z.
        z: Probability,
    },
}

impl Rates {
    /// The rates with each probability changed by the function, if it has a value for each.
    pub(super) fn map<E>(
        self,
        change: impl Fn(Probability) -> Result<Probability, E>,
    ) -> Result<Rates, E> {
        Ok(match self {
            Rates::Uniform(p) => Rates::Uniform(change(p)?),
            Rates::Separate { x, z } => Rates::Separate {
                x: change(x)?,
                z: change(z)?,
            },
        })
    }
}

impl fmt::Display for Rates {
    fn fmt(&self, f: &mut fmt::Formatter<'_>) -> fmt::Result {
        match self {
            Rates::Uniform(p) => write!(f, "uniform {p}"),
            Rates::Separate { x, z } => write!(f, "x {x} z {z}"),
        }
    }
}
