//! From a sample to the interval of its voltages, in units of 2^-48 of nominal.

use crate::configuration::Config;

const TEN_TO_24: i128 = 1_000_000_000_000_000_000_000_000;

/// A quotient, rounded down, and the rest over the divisor.
#[derive(Clone, Copy)]
pub(crate) struct Parts {
    pub quotient: i128,
    pub rest: i128,
}

/// The scale of a channel: products of samples with one quotient, and what they are added to.
pub struct Scale {
    pub(crate) divisor: i128,
    pub(crate) step: Parts,
    share: u64,
    pub(crate) low: Parts,
    pub(crate) high: Parts,
    pub(crate) within: (i64, i64),
    pub(crate) negative: (i64, i64),
}

/// What a configuration lacks for a measurement: the kind and two numbers.
pub type Unmatched = (u8, String, String);

// `2^48 * v / divisor`.
fn scaled(v: i128, divisor: i128) -> Parts {
    let mut parts = Parts { quotient: v.div_euclid(divisor), rest: v.rem_euclid(divisor) };
    for _ in 0..2 {
        let shifted = parts.rest << 24;
        parts = Parts { quotient: (parts.quotient << 24) + shifted / divisor, rest: shifted % divisor };
    }
    parts
}

fn floor_div(v: i128, divisor: i128) -> i128 {
    v.div_euclid(divisor) - i128::from(divisor < 0 && v.rem_euclid(divisor) != 0)
}

// The samples x for which `a * x + b` is from `low` to `high`.
fn samples_between(a: i128, b: i128, low: i128, high: i128) -> (i64, i64) {
    let clamp = |x: i128| x.clamp(i64::MIN.into(), i64::MAX.into()) as i64;
    match a.signum() {
        1 => (clamp(-floor_div(b - low, a)), clamp(floor_div(high - b, a))),
        -1 => (clamp(-floor_div(high - b, -a)), clamp(floor_div(b - low, -a))),
        _ if low <= b && b <= high => (i64::MIN, i64::MAX),
        _ => (0, -1),
    }
}

impl Scale {
    /// The scale of a channel, from 0. The unit is `V` or `kV`, and multiplier and offset are at most 10000 in size.
    pub fn new(config: &Config, channel: usize, nominal_mv: i128, uncertainty_uv: i128) -> Result<Scale, Unmatched> {
        let name = (channel + 1).to_string();
        let Some((texts, values, _)) = config.analog.get(channel) else {
            return Err((1, name, config.analog.len().to_string()));
        };
        let microvolts = match texts[3].to_ascii_lowercase().as_slice() {
            b"v" => 1_000_000,
            b"kv" => 1_000_000_000,
            _ => return Err((2, name, "0".to_string())),
        };
        let (a, b) = (values[0], values[1]);
        if a.abs() > 10_000 * TEN_TO_24 || b.abs() > 10_000 * TEN_TO_24 {
            return Err((3, name, "0".to_string()));
        }
        let divisor = 1000 * nominal_mv * (TEN_TO_24 / microvolts);
        let reach = uncertainty_uv * (TEN_TO_24 / microvolts);
        let step = scaled(a, divisor);
        let high = step.rest << 32;
        let share = ((high / divisor) << 32) + ((high % divisor) << 32) / divisor;
        Ok(Scale {
            divisor,
            step,
            share: share as u64,
            low: scaled(b - (a << 31) - reach, divisor),
            high: scaled(b - (a << 31) + reach, divisor),
            within: samples_between(a, b, -4 * divisor, 4 * divisor),
            negative: samples_between(a, b, -(1 << 125), -1),
        })
    }

    /// The quotient of a sample, where that of the least one is known.
    pub(crate) fn at(&self, x: i32, least: Parts) -> Parts {
        let index = i128::from(x) + (1 << 31);
        let rest = least.rest + index * self.step.rest;
        let quotient = least.quotient + index * self.step.quotient + rest / self.divisor;
        Parts { quotient, rest: rest % self.divisor }
    }

    /// Whether the voltage is negative, and its interval; None where it is over range.
    pub fn voltage(&self, x: i32) -> Option<(bool, i64, i64)> {
        let wide = i64::from(x);
        if wide < self.within.0 || self.within.1 < wide {
            return None;
        }
        let index = (wide + (1 << 31)) as u64;
        let carried = (u128::from(index) * u128::from(self.share)) >> 64;
        let quotient = i128::from(index) * self.step.quotient + carried as i128;
        let rest = i128::from(index) * self.step.rest - carried as i128 * self.divisor;
        let below = rest + self.low.rest;
        let down = i128::from(below >= self.divisor) + i128::from(below >= 2 * self.divisor);
        let above = rest + self.high.rest;
        let up = i128::from(above > 0) + i128::from(above > self.divisor) + i128::from(above > 2 * self.divisor);
        let negative = self.negative.0 <= wide && wide <= self.negative.1;
        Some((negative, (quotient + self.low.quotient + down) as i64, (quotient + self.high.quotient + up) as i64))
    }
}
