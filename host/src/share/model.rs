//! Error models: how often each kind of operation is struck, and by what.

use super::kind::Kind;
use super::rates::{PROBABILITY, Probability, Rates};
use crate::book::Book;
use crate::words::{self, Line, TextError};
use std::error::Error;
use std::fmt;
use std::str::FromStr;

/// An error model: the rates of each kind of operation.
///
/// Its text has one line for each kind:
///
/// ```text
/// # from last week's calibration
/// fourier     0.001
/// sum         uniform 0.01
/// cz          x 0.004 z 0.01
/// measure     x 0.02
/// reset       x 0.005
/// others      0
/// ```
///
/// A probability alone means `uniform`; of `x` and `z` one may be missing, and is 0 then. `others`
/// stands for every kind that has no line. `#` begins a comment.
///
/// Each qudit that an operation acts on is struck for itself: before a measurement, whose result then
/// shows it, and after every other operation. So a power of X at a reset means that the qudit is left
/// at another level than 0. An entry that applies its gate several times is one operation.
///
/// ```
/// use cagvost::share::{ErrorModel, Kind, Probability, Rates};
///
/// let model: ErrorModel = "cz x 0.25\nothers 0.125".parse()?;
/// let [eighth, quarter] = [0.125, 0.25].map(|p| Probability::new(p).unwrap());
/// assert_eq!(model.rates(Kind::Swap), Some(Rates::Uniform(eighth)));
/// let z = Probability::ZERO;
/// assert_eq!(model.rates(Kind::Cz), Some(Rates::Separate { x: quarter, z }));
/// assert_eq!(model.to_string().parse(), Ok(model));
/// # Ok::<(), cagvost::TextError>(())
/// ```
#[derive(Clone, Debug, PartialEq)]
pub struct ErrorModel {
    /// In the order of [`Kind::ALL`].
    rates: [Option<Rates>; Kind::ALL.len()],
}

impl ErrorModel {
    /// Every kind is struck with this probability, by each Weyl error equally likely.
    pub fn uniform(p: Probability) -> ErrorModel {
        ErrorModel {
            rates: [Some(Rates::Uniform(p)); Kind::ALL.len()],
        }
    }

    /// The rates of a kind, if the model has them.
    pub fn rates(&self, kind: Kind) -> Option<Rates> {
        self.rates[kind as usize]
    }

    /// The model with each probability multiplied by the factor.
    ///
    /// ```
    /// use cagvost::share::{ErrorModel, Probability};
    ///
    /// let [eighth, half] = [0.125, 0.5].map(|p| ErrorModel::uniform(Probability::new(p).unwrap()));
    /// assert_eq!(eighth.scaled(4.0)?, half);
    /// let error = half.scaled(4.0).unwrap_err();
    /// assert_eq!(error.to_string(), "4 times the probability 0.5 of fourier is above 1");
    /// # Ok::<(), cagvost::share::ScaleError>(())
    /// ```
    ///
    /// # Errors
    ///
    /// [`ScaleError`] if the factor is negative or not a finite number, or if a probability would
    /// pass 1.
    pub fn scaled(&self, factor: f64) -> Result<ErrorModel, ScaleError> {
        if !factor.is_finite() || factor < 0.0 {
            return Err(ScaleError::Factor(factor));
        }
        let mut scaled = self.clone();
        for kind in Kind::ALL {
            let times = |p: Probability| {
                let error = ScaleError::Above1 { kind, p, factor };
                Probability::new(p.get() * factor).ok_or(error)
            };
            let rates = self.rates(kind).map(|rates| rates.map(times));
            scaled.rates[kind as usize] = rates.transpose()?;
        }
        Ok(scaled)
    }
}

impl ErrorModel {
    /// The model by which parts of a share are told apart: without rates for resets or corrections, if
    /// the circuit has none.
    ///
    /// There were models before there were these two kinds, and `others` means them too since. A seed
    /// still gives the same errors, so that parts from before and after add up.
    pub(super) fn told_apart(&self, book: &Book) -> ErrorModel {
        let mut model = self.clone();
        for kind in [Kind::Reset, Kind::Correct] {
            if book.operations().iter().all(|&o| Kind::of(o) != kind) {
                model.rates[kind as usize] = None;
            }
        }
        model
    }
}

/// Why a model cannot be scaled.
#[derive(Clone, Copy, Debug, PartialEq)]
#[non_exhaustive]
pub enum ScaleError {
    /// The factor is negative or not a finite number.
    Factor(f64),
    /// A probability would pass 1.
    Above1 {
        /// The kind of operation that has it.
        kind: Kind,
        /// The probability.
        p: Probability,
        /// The factor.
        factor: f64,
    },
}

impl fmt::Display for ScaleError {
    fn fmt(&self, f: &mut fmt::Formatter<'_>) -> fmt::Result {
        match self {
            ScaleError::Factor(factor) => {
                write!(
                    f,
                    "a model is scaled by a number from 0 on, not by {factor}"
                )
            }
            ScaleError::Above1 { kind, p, factor } => {
                write!(f, "{factor} times the probability {p} of {kind} is above 1")
            }
        }
    }
}

impl Error for ScaleError {}

const KINDS: &str = "fourier, phase, sum, cz, swap, multiplier, measure, reset, correct or others";

/// Where the rates of all other kinds stand while a model is read.
const OTHERS: usize = Kind::ALL.len();

/// Reads the text of a model.
impl FromStr for ErrorModel {
    type Err = TextError;

    fn from_str(text: &str) -> Result<ErrorModel, TextError> {
        let mut read = [None; OTHERS + 1];
        for mut line in words::lines(text) {
            if line
                .peek()
                .and_then(index)
                .is_some_and(|i| read[i].is_some())
            {
                return Err(line.unexpected("a kind that has no line above"));
            }
            let index = line.value(KINDS, index)?;
            read[index] = Some(read_rates(&mut line)?);
            line.end("the end of the line")?;
        }
        if read.iter().all(Option::is_none) {
            return Err(words::ended(text, KINDS));
        }
        let rates = Kind::ALL.map(|kind| read[kind as usize].or(read[OTHERS]));
        Ok(ErrorModel { rates })
    }
}

/// Where the rates of the kind of this name stand, in small or large letters.
fn index(name: &str) -> Option<usize> {
    let mut names = Kind::ALL.map(Kind::name).into_iter().chain(["others"]);
    names.position(|known| known.eq_ignore_ascii_case(name))
}

fn read_rates(line: &mut Line) -> Result<Rates, TextError> {
    let named = line.take("uniform");
    let has_x = !named && line.take("x");
    let x = if has_x {
        probability(line)?
    } else {
        Probability::ZERO
    };
    let has_z = !named && line.take("z");
    let z = if has_z {
        probability(line)?
    } else {
        Probability::ZERO
    };
    match has_x || has_z {
        true => Ok(Rates::Separate { x, z }),
        false => Ok(Rates::Uniform(probability(line)?)),
    }
}

fn probability(line: &mut Line) -> Result<Probability, TextError> {
    line.value(PROBABILITY, |word| word.parse().ok())
}

/// Writes the text of the model: a line for each kind that has rates, and none for the others.
impl fmt::Display for ErrorModel {
    fn fmt(&self, f: &mut fmt::Formatter<'_>) -> fmt::Result {
        for kind in Kind::ALL {
            if let Some(rates) = self.rates(kind) {
                writeln!(f, "{kind:<11} {rates}")?;
            }
        }
        Ok(())
    }
}

#[cfg(test)]
mod tests {
    use super::*;

    fn p(number: f64) -> Probability {
        Probability::new(number).expect("a probability")
    }

    fn read(text: &str) -> ErrorModel {
        text.parse().unwrap_or_else(|e| panic!("{e}"))
    }

    /// What is said of a damaged text.
    fn refused(text: &str, said: &str) {
        let error = text.parse::<ErrorModel>().expect_err(text);
        assert_eq!(error.to_string(), said, "{text}");
    }

    #[test]
    fn kinds_are_in_the_order_of_their_numbers() {
        for (i, kind) in Kind::ALL.into_iter().enumerate() {
            assert_eq!(kind as usize, i);
            assert_eq!(index(kind.name()), Some(i));
        }
    }

    #[test]
    fn the_text_of_the_documents() {
        let model = read(
            "# a comment\nfourier 0.001\n\n  SUM uniform 0.01\ncz x 0.004 z 0.01 # both\n\
             measure x 0.02\nreset x 0.005\nothers 0\n",
        );
        let separate = |x, z| Rates::Separate { x: p(x), z: p(z) };
        for (kind, rates) in [
            (Kind::Fourier, Rates::Uniform(p(0.001))),
            (Kind::Phase, Rates::Uniform(p(0.0))),
            (Kind::Sum, Rates::Uniform(p(0.01))),
            (Kind::Cz, separate(0.004, 0.01)),
            (Kind::Swap, Rates::Uniform(p(0.0))),
            (Kind::Multiplier, Rates::Uniform(p(0.0))),
            (Kind::Measure, separate(0.02, 0.0)),
            (Kind::Reset, separate(0.005, 0.0)),
            (Kind::Correct, Rates::Uniform(p(0.0))),
        ] {
            assert_eq!(model.rates(kind), Some(rates), "{kind}");
        }
        let text = model.to_string();
        assert!(text.starts_with("fourier     uniform 0.001\nphase       uniform 0\n"));
        assert_eq!(read(&text), model);
    }

    #[test]
    fn kinds_without_a_line_have_no_rates() {
        let model = read("phase z 1");
        let phase = Rates::Separate {
            x: p(0.0),
            z: p(1.0),
        };
        assert_eq!(model.rates(Kind::Phase), Some(phase));
        assert_eq!(model.rates(Kind::Sum), None);
        assert_eq!(model.to_string(), "phase       x 0 z 1\n");
        assert_eq!(read(&model.to_string()), model);
    }

    /// Models that mean the same are equal, however they are written.
    #[test]
    fn others_are_all_kinds_without_a_line() {
        assert_eq!(read("others 0.5"), ErrorModel::uniform(p(0.5)));
        assert_eq!(read("others .5\nswap 5e-1"), read("others uniform 0.50"));
        assert_ne!(read("others 0.5\nswap 0.25"), read("others 0.5"));
    }

    #[test]
    fn probabilities_of_every_size_are_read_back() {
        for number in [0.0, 1e-300, 1e-12, 3.3e-5, 0.1, 1.0 / 3.0, 0.999, 1.0] {
            let model = ErrorModel::uniform(p(number));
            assert_eq!(read(&model.to_string()), model);
        }
        assert_eq!(p(-0.0).to_string(), "0");
    }

    #[test]
    fn damaged_texts_are_refused() {
        let end = "the end of the line";
        let probability = "a probability from 0 to 1";
        for (text, line, column, expected, found) in [
            ("", 1, 1, KINDS, "the end of the text"),
            ("# nothing\n\n", 3, 1, KINDS, "the end of the text"),
            ("error 0.1", 1, 1, KINDS, "'error'"),
            ("swap 0\n  fourrier 0.1", 2, 3, KINDS, "'fourrier'"),
            ("swap", 1, 5, probability, end),
            ("swap uniform", 1, 13, probability, end),
            ("swap uniform x 0.1", 1, 14, probability, "'x'"),
            ("swap x", 1, 7, probability, end),
            ("swap x 0.1 z", 1, 13, probability, end),
            ("swap -0.1", 1, 6, probability, "'-0.1'"),
            ("swap 1.0000001", 1, 6, probability, "'1.0000001'"),
            ("swap nan", 1, 6, probability, "'nan'"),
            ("swap x inf", 1, 8, probability, "'inf'"),
            ("swap 0,1", 1, 6, probability, "'0,1'"),
            ("swap 1 %", 1, 8, end, "'%'"),
            ("swap z 0.1 x 0.1", 1, 12, end, "'x'"),
            ("swap x 0.1 0.1", 1, 12, end, "'0.1'"),
        ] {
            refused(
                text,
                &format!("line {line}, column {column}: expected {expected}, found {found}"),
            );
        }
    }

    #[test]
    fn a_kind_may_have_one_line() {
        let said = |line, column, kind: &str| {
            format!(
                "line {line}, column {column}: expected a kind that has no line above, found '{kind}'"
            )
        };
        refused("cz 0\nswap 0\n cz 0", &said(3, 2, "cz"));
        refused("others 0\nOthers 0", &said(2, 1, "Others"));
    }

    #[test]
    fn scaling_multiplies_each_probability() {
        let model = read("cz x 0.25 z 0.5\nmeasure 0.125");
        let doubled = read("cz x 0.5 z 1\nmeasure 0.25");
        assert_eq!(model.scaled(2.0), Ok(doubled));
        assert_eq!(model.scaled(1.0), Ok(model.clone()));
        assert_eq!(model.scaled(0.0), Ok(read("cz x 0 z 0\nmeasure 0")));
        let above = ScaleError::Above1 {
            kind: Kind::Cz,
            p: p(0.5),
            factor: 3.0,
        };
        assert_eq!(model.scaled(3.0), Err(above));
        for factor in [-1.0, f64::INFINITY, f64::NAN] {
            let error = model.scaled(factor).expect_err("no factor");
            assert!(error.to_string().ends_with(&format!("not by {factor}")));
        }
    }
}
