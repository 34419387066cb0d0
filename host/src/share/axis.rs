//! The axes of a chart: their range, their ticks and where a value lies.

use super::sweep::three_digits;
use super::value::Decimal;

/// An axis between two places of the drawing.
pub(super) struct Axis {
    /// The values at its two ends.
    range: [f64; 2],
    is_log: bool,
    /// Where its two ends are.
    places: [f64; 2],
    /// Its ticks, with their labels.
    pub(super) ticks: Vec<(f64, String)>,
}

/// So much of the axis of rates is left free before the first rate and after the last.
const MARGIN: f64 = 0.04;

/// If rates differ by this factor, their axis is logarithmic.
const WIDE: f64 = 10.0;

/// The most ticks of an axis.
const MOST_TICKS: usize = 8;

impl Axis {
    /// The axis of these rates, which rise.
    pub(super) fn of_rates(rates: &[f64], places: [f64; 2]) -> Axis {
        let (first, last) = match (rates.first(), rates.last()) {
            (Some(&first), Some(&last)) if first < last => (first, last),
            (Some(&one), _) if one > 0.0 => (0.5 * one, 1.5 * one),
            _ => (0.0, 1.0),
        };
        if first > 0.0 && last >= WIDE * first {
            let margin = (last / first).powf(MARGIN);
            let range = [first / margin, last * margin];
            return Axis {
                range,
                is_log: true,
                places,
                ticks: log_ticks(range),
            };
        }
        let margin = MARGIN * (last - first);
        let range = [first - margin, last + margin];
        let step = round_step((range[1] - range[0]) / MOST_TICKS as f64);
        Axis {
            range,
            is_log: false,
            places,
            ticks: ticks([range[0].max(0.0), range[1]], step),
        }
    }

    /// The axis of shares between these two: all from 0 to 1, unless the shares are close together.
    pub(super) fn of_shares(low: f64, high: f64, places: [f64; 2]) -> Axis {
        let step = match high - low {
            near if near < 0.4 => round_step(near.max(1e-6) / 4.0),
            _ => 0.2,
        };
        let range = match step {
            0.2 => [0.0, 1.0],
            _ => [(low / step).floor() * step, (high / step).ceil() * step],
        };
        let range = range.map(|end| end.clamp(0.0, 1.0));
        Axis {
            range,
            is_log: false,
            places,
            ticks: ticks(range, step),
        }
    }

    /// Where a value lies.
    pub(super) fn place(&self, value: f64) -> f64 {
        let of = |value: f64| if self.is_log { value.ln() } else { value };
        let [first, last] = self.range.map(of);
        let [from, to] = self.places;
        from + (of(value) - first) / (last - first) * (to - from)
    }

    /// The value at its begin.
    pub(super) fn first(&self) -> f64 {
        self.range[0]
    }
}

/// The least of 1, 2 and 5 times a power of ten that is not below the number.
fn round_step(least: f64) -> f64 {
    let power = least.log10().floor() as i32;
    let steps = [1.0, 2.0, 5.0, 10.0].map(|digit| digit * 10f64.powi(power));
    // A number that is such a step up to rounding is taken as it.
    let is_enough = |step: &f64| *step >= least * (1.0 - 1e-9);
    steps.into_iter().find(is_enough).unwrap_or(steps[3])
}

/// The multiples of the step in a range, with as many decimals as the step needs.
fn ticks([from, to]: [f64; 2], step: f64) -> Vec<(f64, String)> {
    let decimals = (-(step * 1.000001).log10().floor()).max(0.0) as usize;
    let first = (from / step - 1e-6).ceil() as i64;
    let last = (to / step + 1e-6).floor() as i64;
    let label = |value: f64| match decimals {
        // Long numbers are written with their power of ten, rounded as the step is.
        _ if step >= 1e6 || decimals > 9 => format!("{}", Decimal(three_digits(value))),
        _ => format!("{value:.decimals$}"),
    };
    let tick = |i| (i as f64 * step, label(i as f64 * step));
    (first..=last).map(tick).collect()
}

/// Powers of ten in a range: with 2 and 5 times these if they are few, only some of them if they are
/// many.
fn log_ticks([from, to]: [f64; 2]) -> Vec<(f64, String)> {
    let powers = from.log10().floor() as i32..=to.log10().ceil() as i32;
    let of_digits = |digits: &[u8]| -> Vec<f64> {
        let all = powers
            .clone()
            .flat_map(|power| digits.iter().map(move |digit| (digit, power)));
        // A decimal that is read has no rounding beyond its own.
        let values = all.filter_map(|(digit, power)| format!("{digit}e{power}").parse().ok());
        values.filter(|value| (from..=to).contains(value)).collect()
    };
    let mut values = of_digits(&[1, 2, 5]);
    if values.len() > MOST_TICKS {
        values = of_digits(&[1]);
    }
    let every = values.len().div_ceil(MOST_TICKS).max(1);
    let values = values.into_iter().step_by(every);
    values
        .map(|value| (value, Decimal(value).to_string()))
        .collect()
}

#[cfg(test)]
mod tests {
    use super::*;

    fn labels(axis: &Axis) -> Vec<&str> {
        axis.ticks.iter().map(|(_, label)| label.as_str()).collect()
    }

    fn rates(rates: &[f64]) -> Axis {
        Axis::of_rates(rates, [0.0, 100.0])
    }

    #[test]
    fn rates_far_apart_have_a_logarithmic_axis() {
        let axis = rates(&[0.001, 0.003, 0.01]);
        assert_eq!(labels(&axis), ["0.001", "0.002", "0.005", "0.01"]);
        assert!((axis.place(0.001) - 100.0 * MARGIN / (1.0 + 2.0 * MARGIN)).abs() < 1e-9);
        assert!((axis.place(0.001) + axis.place(0.01) - 100.0).abs() < 1e-9);
        let axis = rates(&[1e-6, 0.5]);
        assert_eq!(
            labels(&axis),
            ["1e-6", "1e-5", "0.0001", "0.001", "0.01", "0.1"]
        );
        assert!(rates(&[1e-200, 1.0]).ticks.len() <= MOST_TICKS);
    }

    /// The least and the largest rates of a sweep.
    #[test]
    fn extreme_rates_have_few_and_short_ticks() {
        for extreme in [
            [1e-100; 2],
            [1e100; 2],
            [1e-100, 2e-100],
            [1e-100, 1e100],
            [0.0, 1e100],
        ] {
            let axis = rates(&extreme);
            let ticks = axis.ticks.len();
            assert!(
                (1..=2 * MOST_TICKS).contains(&ticks),
                "{extreme:?}: {ticks}"
            );
            assert!(
                labels(&axis).iter().all(|label| label.len() < 12),
                "{extreme:?}"
            );
            assert!(
                extreme.iter().all(|&rate| axis.place(rate).is_finite()),
                "{extreme:?}"
            );
        }
    }

    #[test]
    fn other_rates_have_a_linear_axis() {
        let tenths = ["0.0", "0.2", "0.4", "0.6", "0.8", "1.0"];
        assert_eq!(labels(&rates(&[0.0, 0.5, 1.0])), tenths);
        assert_eq!(labels(&rates(&[0.0])), tenths);
        let axis = rates(&[0.01, 0.02]);
        assert_eq!(
            labels(&axis),
            ["0.010", "0.012", "0.014", "0.016", "0.018", "0.020"]
        );
        assert_eq!(
            labels(&rates(&[0.01])),
            ["0.006", "0.008", "0.010", "0.012", "0.014"]
        );
        assert!(!rates(&[]).ticks.is_empty());
        // Rates that are all the same are as one.
        assert_eq!(labels(&rates(&[0.01; 3])), labels(&rates(&[0.01])));
        assert_eq!(labels(&rates(&[0.0; 3])), tenths);
    }

    #[test]
    fn shares_close_together_are_spread() {
        let axis = |low, high| Axis::of_shares(low, high, [100.0, 0.0]);
        let wide = axis(0.1, 0.9);
        assert_eq!(labels(&wide), ["0.0", "0.2", "0.4", "0.6", "0.8", "1.0"]);
        let near = axis(0.951, 0.994);
        assert_eq!(labels(&near), ["0.94", "0.96", "0.98", "1.00"]);
        assert!((near.place(0.98) - 100.0 / 3.0).abs() < 1e-6);
        assert!((near.first() - 0.94).abs() < 1e-9);
        let all = axis(0.9996, 1.0);
        assert_eq!(labels(&all).last(), Some(&"1.0000"));
        assert!(axis(0.0, 0.003).first() == 0.0);
    }
}
