//! The generators that errors are drawn by: small, published, and the same on every machine.

use super::logarithm::minus_ln;

/// SplitMix64 (Steele, Lea and Flood, 2014): the mixed numbers of a counter with large steps.
///
/// ```
/// use cagvost::share::SplitMix64;
///
/// let mut numbers = SplitMix64::new(1234567);
/// assert_eq!(numbers.next_bits(), 6457827717110365317);
/// assert_eq!(numbers.next_bits(), 3203168211198807973);
/// ```
#[derive(Clone, Debug, PartialEq, Eq)]
pub struct SplitMix64 {
    counter: u64,
}

/// The steps of the counter: odd, so that it takes every value.
const GAMMA: u64 = 0x9E37_79B9_7F4A_7C15;

impl SplitMix64 {
    /// A counter that stands here.
    pub fn new(counter: u64) -> SplitMix64 {
        SplitMix64 { counter }
    }

    /// The next 64 bits.
    #[inline]
    pub fn next_bits(&mut self) -> u64 {
        self.counter = self.counter.wrapping_add(GAMMA);
        mix(self.counter)
    }
}

/// The mixing of SplitMix64. No two numbers are mixed to the same.
#[inline]
fn mix(mut z: u64) -> u64 {
    z = (z ^ (z >> 30)).wrapping_mul(0xBF58_476D_1CE4_E5B9);
    z = (z ^ (z >> 27)).wrapping_mul(0x94D0_49BB_1331_11EB);
    z ^ (z >> 31)
}

/// xoshiro256++ (Blackman and Vigna, 2019), one for each shot of each seed.
///
/// Shot i has the same numbers whatever shots are drawn before it, by whichever thread.
///
/// ```
/// use cagvost::share::Generator;
///
/// let mut generator = Generator::of_shot(1, 1_000_000);
/// assert!(generator.below(8) < 8);
/// assert_ne!(generator, Generator::of_shot(1, 1_000_001));
/// ```
#[derive(Clone, Debug, PartialEq, Eq)]
pub struct Generator {
    state: [u64; 4],
}

impl Generator {
    /// The generator of a shot, by its seed and its number.
    ///
    /// A [`SplitMix64`] that starts at the mixed seed gives a sequence of numbers, and shot i takes
    /// the four from number 4i on for its state. They are four different numbers, so that the state
    /// is never all 0, which xoshiro256++ could not leave. The seed is mixed so that the sequences
    /// of two seeds, which are parts of one cycle of 2^64 numbers, begin far apart: for seeds of some
    /// millions of shots they meet with a chance of about one in 10^12. A seed has 2^62 shots; the
    /// next one would be the first again.
    #[inline]
    pub fn of_shot(seed: u64, shot: u64) -> Generator {
        let start = mix(seed).wrapping_add(GAMMA.wrapping_mul(4).wrapping_mul(shot));
        let mut numbers = SplitMix64::new(start);
        Generator {
            state: [(); 4].map(|()| numbers.next_bits()),
        }
    }

    /// The next 64 bits.
    #[inline]
    pub fn next_bits(&mut self) -> u64 {
        let s = &mut self.state;
        let bits = s[0].wrapping_add(s[3]).rotate_left(23).wrapping_add(s[0]);
        let shifted = s[1] << 17;
        s[2] ^= s[0];
        s[3] ^= s[1];
        s[1] ^= s[2];
        s[0] ^= s[3];
        s[2] ^= shifted;
        s[3] = s[3].rotate_left(45);
        bits
    }

    /// A whole number below `end`: the high half of the product of `end` and the next 64 bits.
    ///
    /// The chances of two numbers differ by at most 2^−64, that is by `end`/2^64 of themselves: less
    /// than 10^−16 for the numbers of Weyl errors.
    #[inline]
    pub fn below(&mut self, end: u64) -> u64 {
        let product = u128::from(self.next_bits()) * u128::from(end);
        (product >> 64) as u64
    }

    /// A number of the standard exponential distribution: −ln U, where U is one of the 2^63 odd
    /// multiples of 2^−64 below 1.
    ///
    /// It is above 0 and at most 64 ln 2, which is below 44.4. Only additions, multiplications and
    /// divisions are used, so that every machine has the same number.
    #[inline]
    pub fn exponential(&mut self) -> f64 {
        minus_ln(self.next_bits())
    }
}

#[cfg(test)]
mod tests {
    use super::*;

    #[test]
    fn splitmix64_gives_its_known_numbers() {
        let mut numbers = SplitMix64::new(1234567);
        for known in [
            6457827717110365317,
            3203168211198807973,
            9817491932198370423,
            4593380528125082431,
            16408922859458223821,
        ] {
            assert_eq!(numbers.next_bits(), known);
        }
    }

    #[test]
    fn xoshiro256_plus_plus_gives_its_known_numbers() {
        let mut generator = Generator {
            state: [1, 2, 3, 4],
        };
        for known in [
            41943041,
            58720359,
            3588806011781223,
            3591011842654386,
            9228616714210784205,
            9973669472204895162,
            14011001112246962877,
            12406186145184390807,
            15849039046786891736,
            10450023813501588000,
        ] {
            assert_eq!(generator.next_bits(), known);
        }
    }

    /// The states of all shots of a seed are the numbers of one SplitMix64, four by four.
    #[test]
    fn shots_take_four_numbers_each() {
        for seed in [0, 1, u64::MAX] {
            let mut numbers = SplitMix64::new(mix(seed));
            for shot in 0..1000 {
                let state = [(); 4].map(|()| numbers.next_bits());
                assert_eq!(Generator::of_shot(seed, shot).state, state);
            }
        }
    }

    /// The last shot that has numbers of its own, and the one after it, which has those of shot 0.
    #[test]
    fn a_seed_has_two_to_the_62_shots() {
        let of = |shot| Generator::of_shot(7, shot);
        assert_eq!(of(1 << 62), of(0));
        assert_ne!(of((1 << 62) - 1), of(0));
        assert_eq!(of(u64::MAX), of((1 << 62) - 1));
    }

    #[test]
    fn below_has_each_number_about_as_often() {
        let mut generator = Generator::of_shot(3, 0);
        for end in [1, 2, 8, 960] {
            let mut counts = vec![0f64; end];
            let draws = 500 * end;
            (0..draws).for_each(|_| counts[generator.below(end as u64) as usize] += 1.0);
            let square: f64 = counts.iter().map(|c| (c - 500.0).powi(2) / 500.0).sum();
            // Its mean is end − 1 and its variance twice that.
            let bound = end as f64 + 6.0 * (2.0 * end as f64).sqrt();
            assert!(square < bound, "{square} of {end}");
        }
    }

    /// Mean, variance and the share above each whole number, of 200,000 draws.
    #[test]
    fn exponential_numbers_are_exponential() {
        let mut generator = Generator::of_shot(5, 0);
        let draws: Vec<f64> = (0..200_000).map(|_| generator.exponential()).collect();
        let count = draws.len() as f64;
        let mean = draws.iter().sum::<f64>() / count;
        let variance = draws.iter().map(|x| (x - mean).powi(2)).sum::<f64>() / count;
        assert!((mean - 1.0).abs() < 5.0 / count.sqrt(), "{mean}");
        assert!(
            (variance - 1.0).abs() < 5.0 * (8.0 / count).sqrt(),
            "{variance}"
        );
        for least in [0.01, 0.1, 0.5, 1.0, 2.0, 5.0, 8.0] {
            let share = draws.iter().filter(|&&x| x > least).count() as f64 / count;
            let expected = (-least).exp();
            let deviation = (expected * (1.0 - expected) / count).sqrt();
            assert!((share - expected).abs() < 5.0 * deviation, "above {least}");
        }
    }
}
