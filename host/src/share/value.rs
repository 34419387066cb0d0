//! Values of one word: what is wrong with one, and how a number is written.

use std::error::Error;
use std::fmt;
use std::str::FromStr;

/// Why a word is not the value that it should be.
///
/// ```
/// use cagvost::share::Probability;
///
/// let error = "1.5".parse::<Probability>().unwrap_err();
/// assert_eq!(error.to_string(), "expected a probability from 0 to 1, found '1.5'");
/// ```
#[derive(Clone, Debug, PartialEq, Eq)]
pub struct ValueError {
    expected: String,
    found: String,
}

impl ValueError {
    pub(super) fn new(expected: &str, found: &str) -> ValueError {
        ValueError {
            expected: expected.to_string(),
            found: found.to_string(),
        }
    }
}

impl fmt::Display for ValueError {
    fn fmt(&self, f: &mut fmt::Formatter<'_>) -> fmt::Result {
        write!(f, "expected {}, found '{}'", self.expected, self.found)
    }
}

impl Error for ValueError {}

/// The number that these digits are. A sign is no digit.
pub(super) fn digits<T: FromStr>(word: &str) -> Option<T> {
    let number = word.parse().ok();
    number.filter(|_| word.bytes().all(|byte| byte.is_ascii_digit()))
}

/// A number that is not negative, with as few digits as are read back as the same number.
pub(super) struct Decimal(pub(super) f64);

impl fmt::Display for Decimal {
    fn fmt(&self, f: &mut fmt::Formatter<'_>) -> fmt::Result {
        let Decimal(number) = *self;
        let short = number == 0.0 || (1e-4..1e6).contains(&number);
        f.pad(&match short {
            true => format!("{number}"),
            false => format!("{number:e}"),
        })
    }
}

#[cfg(test)]
mod tests {
    use super::*;

    #[test]
    fn decimals_are_short_and_read_back() {
        for (number, text) in [
            (0.0, "0"),
            (1.0, "1"),
            (0.1 + 0.2, "0.30000000000000004"),
            (0.0001, "0.0001"),
            (0.00009, "9e-5"),
            (1e-12, "1e-12"),
            (2.5e7, "2.5e7"),
        ] {
            assert_eq!(Decimal(number).to_string(), text);
            assert_eq!(text.parse(), Ok(number));
        }
        assert_eq!(
            format!("{:>6}|{:<4}|", Decimal(0.5), Decimal(2.0)),
            "   0.5|2   |"
        );
    }
}
