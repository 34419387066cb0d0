//! Shards: the parts into which the shots of a job are cut.

use super::value::{ValueError, digits};
use std::fmt;
use std::ops::Range;
use std::str::FromStr;

/// One of several parts into which the shots of a job are cut, counted from 1.
///
/// ```
/// use cagvost::share::Shard;
///
/// let shard: Shard = "2/3".parse()?;
/// assert_eq!((shard.index(), shard.of()), (2, 3));
/// assert_eq!(shard.range(1000), 333..666);
/// let error = "0/3".parse::<Shard>().unwrap_err();
/// assert!(error.to_string().ends_with("found '0/3'"));
/// # Ok::<(), cagvost::share::ValueError>(())
/// ```
#[derive(Clone, Copy, Debug, PartialEq, Eq, Hash)]
pub struct Shard {
    index: u32,
    of: u32,
}

pub(super) const SHARD: &str = "a shard I/N, where I is from 1 to N, such as 1/8";

impl Shard {
    /// All shots in one part.
    pub const WHOLE: Shard = Shard { index: 1, of: 1 };

    /// This part of so many, if it is from 1 to that number.
    pub fn new(index: u32, of: u32) -> Option<Shard> {
        (1..=of).contains(&index).then_some(Shard { index, of })
    }

    /// Which part it is, from 1 on.
    pub fn index(self) -> u32 {
        self.index
    }

    /// How many parts there are.
    pub fn of(self) -> u32 {
        self.of
    }

    /// The numbers of its shots, of a job that has so many. All parts together have each shot once,
    /// and their sizes differ by at most 1.
    pub fn range(self, shots: u64) -> Range<u64> {
        // The product may need more than 64 bits; the quotient is at most `shots`.
        let end = |index: u32| (u128::from(index) * u128::from(shots) / u128::from(self.of)) as u64;
        end(self.index - 1)..end(self.index)
    }
}

impl FromStr for Shard {
    type Err = ValueError;

    fn from_str(word: &str) -> Result<Shard, ValueError> {
        let parts = word.split_once('/');
        let numbers = parts.and_then(|(index, of)| Some((digits(index)?, digits(of)?)));
        numbers
            .and_then(|(index, of)| Shard::new(index, of))
            .ok_or_else(|| ValueError::new(SHARD, word))
    }
}

impl fmt::Display for Shard {
    fn fmt(&self, f: &mut fmt::Formatter<'_>) -> fmt::Result {
        write!(f, "{}/{}", self.index, self.of)
    }
}

#[cfg(test)]
mod tests {
    use super::*;

    #[test]
    fn shards_have_each_shot_once() {
        for shots in [0, 1, 2, 10, 1000, 12_345, u64::MAX] {
            for of in [1, 2, 3, 7, 1000, u32::MAX] {
                let shard = |index| Shard::new(index, of).expect("a shard").range(shots);
                assert_eq!((shard(1).start, shard(of).end), (0, shots));
                let sizes = (1..=of.min(2000)).map(|index| shard(index).end - shard(index).start);
                let least = shots / u64::from(of);
                assert!(
                    sizes
                        .into_iter()
                        .all(|size| size == least || size == least + 1)
                );
                assert!((1..of.min(2000)).all(|i| shard(i).end == shard(i + 1).start));
            }
        }
    }

    #[test]
    fn damaged_shards_are_refused() {
        for word in [
            "",
            "1",
            "/",
            "1/",
            "/1",
            "0/1",
            "2/1",
            "0/0",
            "-1/2",
            "+1/2",
            "1/2/3",
            "1 /2",
            "a/b",
            "1/4294967296",
        ] {
            let error = word.parse::<Shard>().expect_err(word);
            assert_eq!(
                error.to_string(),
                format!("expected {SHARD}, found '{word}'")
            );
        }
        assert_eq!(
            "4294967295/4294967295".parse(),
            Ok(Shard {
                index: u32::MAX,
                of: u32::MAX
            })
        );
        assert_eq!("1/1".parse(), Ok(Shard::WHOLE));
    }
}
