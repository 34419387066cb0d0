//! Counts of unharmed shots.

use std::iter::Sum;
use std::ops::Add;

/// How many shots there were, and how many of them were unharmed.
///
/// ```
/// use cagvost::share::Counts;
///
/// let counts = Counts { shots: 10, unharmed: 7, results_unharmed: 8 };
/// assert_eq!(counts + Counts::default(), counts);
/// assert_eq!([counts, counts].into_iter().sum::<Counts>().unharmed, 14);
/// ```
#[derive(Clone, Copy, Debug, Default, PartialEq, Eq, Hash)]
pub struct Counts {
    /// All shots.
    pub shots: u64,
    /// Those that ended in the state of the run without errors.
    pub unharmed: u64,
    /// Those in which every measurement had the result of the run without errors.
    pub results_unharmed: u64,
}

impl Add for Counts {
    type Output = Counts;

    fn add(self, other: Counts) -> Counts {
        Counts {
            shots: self.shots + other.shots,
            unharmed: self.unharmed + other.unharmed,
            results_unharmed: self.results_unharmed + other.results_unharmed,
        }
    }
}

impl Sum for Counts {
    fn sum<I: Iterator<Item = Counts>>(counts: I) -> Counts {
        counts.fold(Counts::default(), Add::add)
    }
}
