//! Drawing the errors of a shot.

use super::error::ShareError;
use super::generator::Generator;
use super::kind::Kind;
use super::logarithm::{hazard, minus_ln};
use super::model::ErrorModel;
use super::rates::{Probability, Rates};
use crate::book::{Book, WeylError, narrow};

/// The errors of a circuit's shots, by an error model.
///
/// For each operation and each qudit that it acts on, the model has one *site*, or two where it has
/// rates for X and for Z apart. Each site is struck independently of all others, with just its
/// probability P. The sites are laid end to end on a line, in the order of their places, each as long
/// as its hazard −ln(1 − P). On this line fall the points of a Poisson process of rate 1, whose
/// distances are exponential numbers, and a site is struck if at least one of them falls on it: that
/// has the probability 1 − e^(−hazard) = P. A table leads from a point to its site, so that the work
/// grows with the errors of a shot and not with the operations of the circuit.
///
/// The line is kept in floating-point numbers. Their rounding changes the probability of a site by
/// about 2^−53 of the length of the line before it: by some 10^−14 where a shot has 100 errors, each
/// of a small probability, and by some 5·10^−13 behind 100 that are certain, whose sites are 45 long.
///
/// ```
/// use cagvost::book::{Book, Operation};
/// use cagvost::share::Sampler;
///
/// let mut book = Book::new(3, 2);
/// book.operation(Operation::Sum { c: 0, t: 1, times: 1 }).measure(1, 0);
/// let model = "sum z 0\nmeasure x 1".parse().expect("a model");
/// let sampler = Sampler::new(&book, &model)?;
/// let errors = sampler.errors(1, 0); // shot 0 of seed 1
/// assert_eq!((errors.len(), sampler.mean_errors()), (1, 1.0));
/// assert_eq!((errors[0].place, errors[0].qudit, errors[0].s), (1, 1, 0));
/// assert!(errors[0].p == 1 || errors[0].p == 2);
/// # Ok::<(), cagvost::share::ShareError>(())
/// ```
#[derive(Clone, Debug)]
pub struct Sampler {
    sites: Vec<Site>,
    /// Where each site ends on the line. It begins where the one before it ends.
    ends: Vec<f64>,
    /// For each bucket of the line, the first site that does not end before it.
    guide: Vec<u16>,
    /// Buckets for each unit of the line.
    density: f64,
    /// A shot whose first number is below this has its first point behind the line.
    spared: u64,
    /// The powers of X and Z that errors can have, channel by channel.
    powers: Vec<[u8; 2]>,
    mean_errors: f64,
}

/// What all errors of a site have in common.
#[derive(Clone, Copy, Debug)]
struct Site {
    place: u16,
    qudit: u8,
    channel: Channel,
}

/// What a site is struck by: some of the powers, all equally likely.
#[derive(Clone, Copy, Debug)]
struct Channel {
    first: u16,
    count: u16,
}

/// The length of a site that is always struck. From a point before it the next one is less than
/// 44.4 away, so that none jumps over it.
const ALWAYS: f64 = 45.0;

/// The buckets for each site. More of them shorten the search for a point's site.
const BUCKETS: usize = 2;

impl Sampler {
    /// The sites of this circuit under this model. The book's own errors are not drawn.
    ///
    /// # Errors
    ///
    /// [`ShareError::Refused`] if a run would refuse the book, [`ShareError::NoRate`] if it has an
    /// operation of a kind for which the model has no rates.
    pub fn new(book: &Book, model: &ErrorModel) -> Result<Sampler, ShareError> {
        book.write().map_err(ShareError::Refused)?;
        let [any, of_x, of_z] = channels(book.dimension());
        let mut line = Line::default();
        for (k, &operation) in book.operations().iter().enumerate() {
            let kind = Kind::of(operation);
            let rates = model.rates(kind).ok_or(ShareError::NoRate(kind))?;
            // Before a measurement and after all else: so places never fall from site to site.
            let place = narrow(k + usize::from(kind != Kind::Measure));
            for qudit in operation.qudits() {
                let mut add = |p, channel| {
                    line.add(
                        p,
                        Site {
                            place,
                            qudit,
                            channel,
                        },
                    );
                };
                match rates {
                    Rates::Uniform(p) => add(p, any),
                    Rates::Separate { x, z } => {
                        add(x, of_x);
                        add(z, of_z);
                    }
                }
            }
        }
        Ok(line.sampler(powers(book.dimension())))
    }

    /// How many errors a shot has in the mean: the sum of the probabilities of all sites.
    pub fn mean_errors(&self) -> f64 {
        self.mean_errors
    }

    /// The errors of a shot, in the order of their places.
    ///
    /// They depend on nothing but the circuit, the model, the seed and the shot's number.
    pub fn errors(&self, seed: u64, shot: u64) -> Vec<WeylError> {
        let mut errors = Vec::new();
        self.strike(seed, shot, |error| errors.push(error));
        errors
    }

    /// Appends the bytes of the shot's errors, five for each, as a book or a tray has them.
    ///
    /// ```
    /// # use cagvost::book::Book;
    /// # use cagvost::share::Sampler;
    /// # let mut book = Book::new(5, 1);
    /// # (0..100).for_each(|_| _ = book.measure(0, 0));
    /// # let sampler = Sampler::new(&book, &"measure 0.1".parse().unwrap())?;
    /// let mut bytes = Vec::new();
    /// sampler.draw(1, 0, &mut bytes);
    /// let errors = sampler.errors(1, 0);
    /// assert!(bytes.into_iter().eq(errors.into_iter().flat_map(|error| error.to_bytes())));
    /// # Ok::<(), cagvost::share::ShareError>(())
    /// ```
    pub fn draw(&self, seed: u64, shot: u64, bytes: &mut Vec<u8>) {
        self.strike(seed, shot, |error| {
            bytes.extend_from_slice(&error.to_bytes());
        });
    }

    /// Hands on the errors of a shot, one after the other.
    #[inline]
    fn strike(&self, seed: u64, shot: u64, mut hand_on: impl FnMut(WeylError)) {
        let length = self.ends.last().copied().unwrap_or(0.0);
        let mut generator = Generator::of_shot(seed, shot);
        let bits = generator.next_bits();
        // Most shots of a small circuit are over here, without a logarithm.
        if bits < self.spared {
            return;
        }
        let mut point = minus_ln(bits);
        let mut struck = usize::MAX;
        while point < length {
            let i = self.site_at(point);
            if i == struck {
                // A second point on the same site says nothing new. What comes after the site does
                // not depend on it, so that the walk may go on from there. It could do so from the
                // end of every struck site; but then each point would wait for the search before it.
                point = self.ends[i];
            } else {
                struck = i;
                hand_on(self.error(self.sites[i], &mut generator));
            }
            point += generator.exponential();
        }
    }

    /// An error on this site.
    #[inline]
    fn error(&self, site: Site, generator: &mut Generator) -> WeylError {
        let Site {
            place,
            qudit,
            channel,
        } = site;
        let power = generator.below(channel.count.into()) as usize;
        let [p, s] = self.powers[usize::from(channel.first) + power];
        WeylError { place, qudit, p, s }
    }

    /// The site on which a point of the line falls: the first that ends after it.
    #[inline]
    fn site_at(&self, point: f64) -> usize {
        let bucket = bucket(point, self.density).min(self.guide.len() - 1);
        let mut i = usize::from(self.guide[bucket]);
        // Most buckets have one end or none. Whether the point is behind it cannot be foreseen, so
        // that a sum takes less time than a branch.
        i += usize::from(self.ends[i] <= point);
        while self.ends[i] <= point {
            i += 1;
        }
        i
    }
}

/// The bucket of a point. It never falls where the point rises, also after rounding.
#[inline]
fn bucket(point: f64, density: f64) -> usize {
    (point * density) as u32 as usize
}

/// The least number whose exponential is below this length; where it is 0, none is at least so long.
fn spared(length: f64) -> u64 {
    let mut least = 0;
    // The exponential falls where the number rises, so that its bits are found from the highest on.
    for bit in (0..64).rev() {
        let next = least | 1 << bit;
        if minus_ln(next - 1) >= length {
            least = next;
        }
    }
    least
}

/// All powers of X and Z but those of the identity: first those of X alone, then those of Z alone.
fn powers(d: u8) -> Vec<[u8; 2]> {
    let x = (1..d).map(|p| [p, 0]);
    let z = (1..d).map(|s| [0, s]);
    let both = (1..d).flat_map(|p| (1..d).map(move |s| [p, s]));
    x.chain(z).chain(both).collect()
}

/// Every power, those of X alone and those of Z alone.
fn channels(d: u8) -> [Channel; 3] {
    let d = u16::from(d);
    [(0, d * d - 1), (0, d - 1), (d - 1, d - 1)].map(|(first, count)| Channel { first, count })
}

/// Sites while they are laid end to end.
#[derive(Default)]
struct Line {
    sites: Vec<Site>,
    ends: Vec<f64>,
    /// The sum of their probabilities.
    mean_errors: f64,
}

impl Line {
    /// Adds a site. What is never struck has none.
    fn add(&mut self, p: Probability, site: Site) {
        let length = match p {
            Probability::ZERO => return,
            Probability::ONE => ALWAYS,
            p => hazard(p.get()),
        };
        self.ends.push(self.length() + length);
        self.sites.push(site);
        self.mean_errors += p.get();
    }

    fn length(&self) -> f64 {
        self.ends.last().copied().unwrap_or(0.0)
    }

    /// The sites with the table that leads to them.
    fn sampler(self, powers: Vec<[u8; 2]>) -> Sampler {
        let buckets = BUCKETS * self.sites.len();
        let density = buckets as f64 / self.length();
        let mut i = 0;
        let first_site = |b: usize| {
            while i + 1 < self.ends.len() && bucket(self.ends[i], density) < b {
                i += 1;
            }
            narrow(i)
        };
        Sampler {
            guide: (0..buckets).map(first_site).collect(),
            spared: spared(self.length()),
            sites: self.sites,
            ends: self.ends,
            density,
            powers,
            mean_errors: self.mean_errors,
        }
    }
}

#[cfg(test)]
mod tests {
    use super::*;

    fn laid(probabilities: &[f64]) -> Sampler {
        let mut line = Line::default();
        let [channel, ..] = channels(3);
        for (place, &p) in (0..).zip(probabilities) {
            let p = Probability::new(p).expect("a probability");
            let qudit = 0;
            line.add(
                p,
                Site {
                    place,
                    qudit,
                    channel,
                },
            );
        }
        line.sampler(powers(3))
    }

    /// The guide leads to the site that a search from the first one finds: in the middle of each
    /// site, at its begin and just before its end.
    #[test]
    fn the_guide_leads_to_each_site() {
        for probabilities in [
            vec![0.5],
            vec![1.0, 1e-12, 1.0],
            vec![1e-300; 5],
            vec![5e-324, 1e-320],
            (0..3000).map(|i| 1.0 / f64::from(i + 1)).collect(),
            (0..3000).map(|i| [1e-6, 1e-2][i % 100 / 99]).collect(),
            (0..16384).map(|i| f64::from(i % 2)).collect(),
        ] {
            let sampler = laid(&probabilities);
            let mut begin = 0.0;
            for &end in &sampler.ends {
                for point in [begin, f64::midpoint(begin, end), end.next_down()] {
                    if (begin..end).contains(&point) {
                        let by_search = sampler.ends.iter().position(|&end| end > point);
                        assert_eq!(Some(sampler.site_at(point)), by_search, "{point}");
                    }
                }
                begin = end;
            }
        }
    }

    #[test]
    fn channels_have_the_powers_that_they_should() {
        for d in crate::book::DIMENSIONS {
            let powers = powers(d);
            let [any, x, z] = channels(d).map(|Channel { first, count }| {
                let (first, count) = (usize::from(first), usize::from(count));
                powers[first..first + count].to_vec()
            });
            assert!(x.into_iter().eq((1..d).map(|p| [p, 0])));
            assert!(z.into_iter().eq((1..d).map(|s| [0, s])));
            let mut any = any;
            any.sort_unstable();
            let all = (0..d).flat_map(|p| (0..d).map(move |s| [p, s]));
            assert!(any.into_iter().eq(all.skip(1)));
        }
    }

    /// Shots are spared exactly if their first point is behind the line. The largest number is left to
    /// the walk, since there is none above it.
    #[test]
    fn spared_shots_have_their_first_point_behind_the_line() {
        let longest = minus_ln(0);
        for length in [
            0.0, 1e-300, 1e-19, 1e-9, 0.1, 1.0, 3.7, 44.0, longest, 45.0, 1e6,
        ] {
            let spared = spared(length);
            assert_eq!(spared == 0, longest < length, "{length}");
            if let Some(last) = spared.checked_sub(1) {
                assert!(minus_ln(last) >= length, "{length}");
            }
            for near in [0, 1, 2, 3, 1 << 20] {
                let number = spared.saturating_add(near);
                let is_before = minus_ln(number) < length;
                assert!(is_before || number == u64::MAX, "{length}");
            }
        }
    }

    /// The line is as long as the hazards of its sites are together.
    #[test]
    fn the_line_has_the_lengths_of_its_sites() {
        for p in [1e-12, 1e-6, 0.3, 0.9999, 0.99995, 1.0 - 1e-15] {
            let sampler = laid(&[p; 1000]);
            let end = sampler.ends[999];
            let sum = 1000.0 * hazard(p);
            assert!((end - sum).abs() <= 1e-13 * sum, "{p}: {end} and {sum}");
        }
        assert_eq!(laid(&[1.0, 1.0]).ends, [ALWAYS, 2.0 * ALWAYS]);
    }

    /// From any point before it, the longest step does not pass a site that is always struck.
    #[test]
    fn no_step_passes_a_site_that_is_always_struck() {
        let longest = minus_ln(0);
        for begin in [0.0, 1e-300, 1.0, 1e3, 16384.0 * ALWAYS] {
            assert!(begin + longest < begin + ALWAYS);
        }
    }
}
