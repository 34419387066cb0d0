//! The sum of the parts of a job.

use super::figure::Figure;
use super::part::Part;
use super::shard::Shard;
use std::error::Error;
use std::fmt;
use std::ops::RangeInclusive;

impl Part {
    /// Adds the counts of all parts of a job, in any order.
    ///
    /// # Errors
    ///
    /// [`SumError`] if there is no part, if two are of different jobs or of the same shard, or if
    /// shards are missing.
    pub fn sum(parts: &[Part]) -> Result<Figure, SumError> {
        let first = parts.first().ok_or(SumError::NoPart)?;
        for (i, part) in parts.iter().enumerate() {
            if let Some(field) = first.differs(part) {
                return Err(SumError::Different {
                    field,
                    parts: (0, i),
                });
            }
        }
        let mut order: Vec<usize> = (0..parts.len()).collect();
        order.sort_by_key(|&i| (parts[i].shard.index(), i));
        let twice = order
            .windows(2)
            .find(|pair| parts[pair[0]].shard == parts[pair[1]].shard);
        if let Some(&[one, other]) = twice {
            let shard = parts[one].shard;
            return Err(SumError::Twice {
                shard,
                parts: (one, other),
            });
        }
        let found = order.into_iter().map(|i| parts[i].shard.index());
        let missing = gaps(found, first.shard.of());
        match missing.is_empty() {
            true => Ok(first.job.figure(parts.iter().map(|part| part.counts).sum())),
            false => Err(SumError::Missing {
                shards: missing,
                of: first.shard.of(),
            }),
        }
    }

    /// The first field in which the other part is of another job.
    fn differs(&self, other: &Part) -> Option<&'static str> {
        let fields = self.job.fields().into_iter().zip(other.job.fields());
        let job = fields
            .filter(|(one, other)| one != other)
            .map(|(one, _)| one.0);
        let number = (self.shard.of() != other.shard.of()).then_some("number of shards");
        job.chain(number).next()
    }
}

/// The ranges of numbers from 1 to the last that are not among these, which rise.
fn gaps(found: impl Iterator<Item = u32>, last: u32) -> Vec<RangeInclusive<u32>> {
    let mut gaps = Vec::new();
    let mut before = 0;
    for index in found {
        gaps.extend((before + 1 < index).then(|| before + 1..=index - 1));
        before = index;
    }
    gaps.extend((before < last).then(|| before + 1..=last));
    gaps
}

/// Why parts cannot be added. Parts are named by their places in the list, from 0 on.
#[derive(Clone, Debug, PartialEq, Eq)]
#[non_exhaustive]
pub enum SumError {
    /// There is no part.
    NoPart,
    /// Two parts are of different jobs.
    Different {
        /// The name of the first line in which they differ.
        field: &'static str,
        /// The two parts.
        parts: (usize, usize),
    },
    /// Two parts are of the same shard.
    Twice {
        /// The shard.
        shard: Shard,
        /// The two parts.
        parts: (usize, usize),
    },
    /// Shards are missing.
    Missing {
        /// Which, as ranges that rise.
        shards: Vec<RangeInclusive<u32>>,
        /// How many shards there are in all.
        of: u32,
    },
}

/// Counts parts from 1.
impl fmt::Display for SumError {
    fn fmt(&self, f: &mut fmt::Formatter<'_>) -> fmt::Result {
        match self {
            SumError::NoPart => write!(f, "there is no part to be added"),
            SumError::Different {
                field,
                parts: (one, other),
            } => write!(
                f,
                "parts {} and {} are of different jobs: the {field} differs",
                one + 1,
                other + 1
            ),
            SumError::Twice {
                shard,
                parts: (one, other),
            } => write!(
                f,
                "parts {} and {} are both shard {shard}",
                one + 1,
                other + 1
            ),
            SumError::Missing { shards, of } => {
                write!(f, "of {of} shards these are missing: {}", listed(shards))
            }
        }
    }
}

impl Error for SumError {}

/// So many ranges of missing shards are named.
const MOST_NAMED: usize = 10;

/// The ranges in words, the first of them if there are many.
fn listed(shards: &[RangeInclusive<u32>]) -> String {
    let one = |range: &RangeInclusive<u32>| match (range.start(), range.end()) {
        (start, end) if start == end => start.to_string(),
        (start, end) => format!("{start} to {end}"),
    };
    let mut named: Vec<String> = shards.iter().take(MOST_NAMED).map(one).collect();
    named.extend((shards.len() > MOST_NAMED).then(|| "and more".to_string()));
    named.join(", ")
}

#[cfg(test)]
mod tests {
    use super::*;

    fn missing(found: &[u32], last: u32) -> String {
        listed(&gaps(found.iter().copied(), last))
    }

    #[test]
    fn missing_shards_are_named() {
        assert_eq!(missing(&[1, 2, 3], 3), "");
        assert_eq!(missing(&[2, 3, 7], 9), "1, 4 to 6, 8 to 9");
        assert_eq!(missing(&[u32::MAX], u32::MAX), "1 to 4294967294");
        let odd: Vec<u32> = (0..50).map(|i| 2 * i + 1).collect();
        assert_eq!(
            missing(&odd, 99),
            "2, 4, 6, 8, 10, 12, 14, 16, 18, 20, and more"
        );
    }
}
