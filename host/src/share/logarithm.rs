//! Natural logarithms by additions, multiplications and divisions alone.
//!
//! These are exact up to one rounding that IEEE 754 fixes, so that every machine draws the same
//! errors. A logarithm from a system's library may differ from another one's in its last bit.

/// ln 2.
pub(super) const LN_2: f64 = log_ratio(1.0 / 3.0);

/// The terms of a series that count where its argument is at most 1/3.
const TERMS: usize = 18;

/// ln((1 + z)/(1 − z)), for z from 0 to 1/3, by the series 2·(z + z³/3 + z⁵/5 + …).
const fn log_ratio(z: f64) -> f64 {
    let square = z * z;
    let mut sum = 0.0;
    let mut k = TERMS;
    while k > 0 {
        k -= 1;
        sum = sum * square + 1.0 / (2 * k + 1) as f64;
    }
    2.0 * z * sum
}

/// −ln(1 − p), for p from 0 to below 1.
pub(super) fn hazard(p: f64) -> f64 {
    if p <= 0.5 {
        return log_ratio(p / (2.0 - p));
    }
    let mut rest = 1.0 - p; // exact for these p
    let mut halvings = 0.0;
    while rest < 0.5 {
        rest *= 2.0;
        halvings += 1.0;
    }
    halvings * LN_2 + log_ratio((1.0 - rest) / (1.0 + rest))
}

/// The numbers from 1/2 to 1 are cut into so many cells of the same length.
const CELLS: usize = 256;

/// So many low bits of a number, whose highest bit is 1, say where it is in its cell.
const LOW: u32 = 55;

/// The upper end of a cell, for which −ln is known.
#[derive(Clone, Copy)]
struct Cell {
    /// −ln of the upper end.
    minus_ln: f64,
    /// 1 over the upper end, in units of 2^−64.
    inverse: f64,
}

static TABLE: [Cell; CELLS] = table();

const fn table() -> [Cell; CELLS] {
    let mut cells = [Cell {
        minus_ln: 0.0,
        inverse: 0.0,
    }; CELLS];
    let ones = 2.0 * CELLS as f64;
    let mut i = 0;
    while i < CELLS {
        let end = (CELLS + i + 1) as f64; // of as many ones
        cells[i] = Cell {
            minus_ln: log_ratio((ones - end) / (ones + end)),
            inverse: 1.0 / (end * (1u64 << LOW) as f64),
        };
        i += 1;
    }
    cells
}

/// −ln(j/2^64), where j is the number with its last bit set to 1: above 0 and at most 64 ln 2.
///
/// j/2^64 is 2^−zeros times a number from 1/2 to 1, which is 1 − r times the upper end of its cell. The
/// three parts of the sum are never negative, so that no digits are lost: it is right up to some
/// 4·10^−16 of itself.
#[inline]
pub(super) fn minus_ln(bits: u64) -> f64 {
    let odd = bits | 1;
    let zeros = odd.leading_zeros();
    let number = odd << zeros;
    let cell = TABLE[(number >> LOW) as usize % CELLS];
    let below = (1 << LOW) - (number & ((1 << LOW) - 1));
    let r = below as i64 as f64 * cell.inverse;
    f64::from(zeros) * LN_2 + (cell.minus_ln + minus_ln_1_minus(r))
}

/// −ln(1 − r), for r from 0 to 1/257, by the series r + r²/2 + r³/3 + … up to r⁷/7. Its terms are
/// paired, so that a processor can work on several at once.
#[inline]
fn minus_ln_1_minus(r: f64) -> f64 {
    let square = r * r;
    let low = (1.0 + r * (1. / 2.)) + square * (1. / 3. + r * (1. / 4.));
    let high = (1. / 5. + r * (1. / 6.)) + square * (1. / 7.);
    r * (low + square * square * high)
}

#[cfg(test)]
mod tests {
    use super::*;
    use crate::share::generator::SplitMix64;

    fn is_near(ours: f64, theirs: f64) {
        let difference = (ours - theirs).abs();
        assert!(difference <= 1e-15 * theirs, "{ours:e} and {theirs:e}");
    }

    /// −ln by the system's library, from whichever side of the number keeps its digits.
    fn by_library(odd: u64) -> f64 {
        let unit = 2f64.powi(-64);
        if odd > 3 << 62 {
            -(-(odd.wrapping_neg() as f64 * unit)).ln_1p()
        } else {
            -(odd as f64 * unit).ln()
        }
    }

    #[test]
    fn ln_2_is_the_known_one() {
        is_near(LN_2, std::f64::consts::LN_2);
    }

    #[test]
    fn minus_ln_of_drawn_numbers_of_every_size() {
        let mut numbers = SplitMix64::new(1);
        for shift in (0..64).cycle().take(200_000) {
            let bits = numbers.next_bits() >> shift;
            for bits in [bits, !bits] {
                is_near(minus_ln(bits), by_library(bits | 1));
            }
        }
    }

    /// Where cells and powers of two meet, and at both ends.
    #[test]
    fn minus_ln_of_numbers_at_the_edges() {
        for top in 0..64 {
            for cell in 0..=256 {
                let edge = (256 + cell) << 55 >> top;
                for bits in (edge - 3u128)..=edge + 3 {
                    let bits = bits.min(u64::MAX.into()) as u64;
                    is_near(minus_ln(bits), by_library(bits | 1));
                }
            }
        }
        assert_eq!(minus_ln(u64::MAX), 2f64.powi(-64));
        assert_eq!(minus_ln(0), 64.0 * LN_2);
        assert_eq!(minus_ln(0), minus_ln(1));
    }

    /// It never rises where the number does, across cells too.
    #[test]
    fn minus_ln_falls() {
        let step = (1 << 47) + 12345;
        let numbers = (0..1 << 16).map(|i| (1 << 63) + i * step);
        let values: Vec<f64> = numbers.map(minus_ln).collect();
        assert!(values.is_sorted_by(|x, y| x > y));
    }

    #[test]
    fn hazards_of_every_size() {
        for exponent in 1..=300 {
            for digits in [1.0, 1.7, 3.3, 4.9, 9.6] {
                let p = digits * 10f64.powi(-exponent);
                is_near(hazard(p), -(-p).ln_1p());
                // 1 − p is rounded here, so it is taken as it is.
                let q = 1.0 - p;
                if q < 1.0 {
                    is_near(hazard(q), -(1.0 - q).ln());
                }
            }
        }
        assert_eq!(hazard(0.0), 0.0);
        is_near(hazard(0.5), LN_2);
        is_near(hazard(1.0 - f64::EPSILON / 2.0), 53.0 * LN_2);
    }
}
