//! From samples to the squares of their voltages' intervals.

use super::halves::Halves;
use crate::scale::{Parts, Scale};

/// The samples are from -2^17 to 2^17 - 1: 1024 parts of 256.
const LEAST: i32 = -(1 << 17);

/// A quotient, and its rest over the divisor in units of 2^-64, rounded down.
#[derive(Clone, Copy)]
struct Short {
    quotient: i64,
    rest: u64,
}

/// The quotients of both ends of the interval.
#[derive(Clone, Copy)]
struct Ends {
    low: Short,
    high: Short,
}

/// The scale of a channel in tables. A sample is `LEAST + 256 h + l`: what it scales to is a part of h and one of l, and the rests of the
/// parts carry where they reach the divisor together.
pub struct Voltage {
    divisor: i128,
    upper: Box<[Ends; 1024]>,
    lower: Box<[Short; 256]>,
    upper_rests: Box<[(i128, i128); 1024]>,
    lower_rests: Box<[i128; 256]>,
    within: (i32, i32),
    negative: (i32, i32),
}

fn short(parts: Parts, divisor: i128) -> Short {
    let high = parts.rest << 32;
    let rest = ((high / divisor) << 32) + ((high % divisor) << 32) / divisor;
    Short { quotient: parts.quotient as i64, rest: rest as u64 }
}

/// The parts with one step more, and the carry of their rests.
fn plus(parts: Parts, step: Parts, divisor: i128) -> Parts {
    let (quotient, rest) = (parts.quotient.wrapping_add(step.quotient), parts.rest + step.rest);
    let carry = rest >= divisor;
    Parts { quotient: quotient + i128::from(carry), rest: if carry { rest - divisor } else { rest } }
}

fn boxed<T, const N: usize>(entries: impl Iterator<Item = T>) -> Box<[T; N]> {
    entries.collect::<Vec<T>>().try_into().ok().unwrap()
}

fn table(first: Parts, step: Parts, divisor: i128, count: usize) -> Vec<Parts> {
    std::iter::successors(Some(first), |parts| Some(plus(*parts, step, divisor))).take(count).collect()
}

fn narrow((first, last): (i64, i64)) -> (i32, i32) {
    if first > last { (0, -1) } else { (first.clamp(-(1 << 20), 1 << 20) as i32, last.clamp(-(1 << 20), 1 << 20) as i32) }
}

impl Voltage {
    pub fn new(scale: &Scale) -> Voltage {
        let divisor = scale.divisor;
        let (low, high) = (scale.at(LEAST, scale.low), scale.at(LEAST, scale.high));
        // `ceil(p / q)` is `floor((p + q - 1) / q)`.
        let high = plus(high, Parts { quotient: 0, rest: divisor - 1 }, divisor);
        let zero = Parts { quotient: 0, rest: 0 };
        let lower = table(zero, scale.step, divisor, 257);
        let step = lower[256];
        let (lows, highs) = (table(low, step, divisor, 1024), table(high, step, divisor, 1024));
        let ends = lows.iter().zip(&highs);
        Voltage {
            divisor,
            upper: boxed(ends.clone().map(|(low, high)| Ends { low: short(*low, divisor), high: short(*high, divisor) })),
            lower: boxed(lower[..256].iter().map(|parts| short(*parts, divisor))),
            upper_rests: boxed(ends.map(|(low, high)| (low.rest, high.rest))),
            lower_rests: boxed(lower[..256].iter().map(|parts| parts.rest)),
            within: narrow(scale.within),
            negative: narrow(scale.negative),
        }
    }

    /// How many samples come before the first one over range.
    pub fn in_range(&self, samples: &[i32]) -> usize {
        let (least, most) = samples.iter().fold((i32::MAX, i32::MIN), |(low, high), x| (low.min(*x), high.max(*x)));
        let within = self.within.0..=self.within.1;
        if within.contains(&least) && within.contains(&most) {
            return samples.len();
        }
        samples.iter().position(|x| !within.contains(x)).unwrap_or(samples.len())
    }

    /// The quotient of two parts together. Their rests are less than two units of 2^-64 above the shortened ones: so these decide whether
    /// the divisor is reached, unless their sum is one unit below it; then the rests themselves do.
    #[inline(always)]
    fn quotient(&self, upper: Short, lower: Short, rests: impl Fn() -> i128) -> i64 {
        let (sum, carry) = upper.rest.overflowing_add(lower.rest);
        let carry = if sum == u64::MAX { rests() >= self.divisor } else { carry };
        upper.quotient.wrapping_add(lower.quotient).wrapping_add(i64::from(carry))
    }

    /// The interval of a sample in range, in units of 2^-48 of nominal.
    #[inline(always)]
    fn interval(&self, x: i32) -> (i64, i64) {
        let index = (x - LEAST) as usize;
        let (h, l) = (index >> 8 & 1023, index & 255);
        let (upper, lower) = (&self.upper[h], self.lower[l]);
        let low = self.quotient(upper.low, lower, || self.upper_rests[h].0 + self.lower_rests[l]);
        let high = self.quotient(upper.high, lower, || self.upper_rests[h].1 + self.lower_rests[l]);
        (low, high)
    }

    /// Writes down the least squares of samples rounded down and the greatest rounded up, in units of 2^-48, and answers the sums of both.
    /// Of all numbers from low to high the least size is the greatest of low, -high and 0, and the greatest size that of high and -low.
    #[inline(always)]
    fn sums(&self, samples: &[i32], least: &mut [u64], greatest: &mut [u64]) -> (u128, u128) {
        let mut sums = (0, 0);
        for ((x, least), greatest) in samples.iter().zip(least).zip(greatest) {
            let (low, high) = self.interval(*x);
            let (near, far) = (low.max(-high).max(0) as u64, high.max(-low) as u64);
            let (near, far) = (u128::from(near) * u128::from(near), u128::from(far) * u128::from(far));
            sums = (sums.0 + near, sums.1 + far);
            *least = (near >> 48) as u64;
            *greatest = ((far + ((1 << 48) - 1)) >> 48) as u64;
        }
        sums
    }

    /// Writes down the squares of samples in range, and hands their sums over to the half-periods.
    pub fn squares(&self, samples: &[i32], halves: &mut Halves, least: &mut [u64], greatest: &mut [u64]) {
        let mut at = 0;
        while at < samples.len() {
            let to = at + halves.room(&samples[at..], self.negative);
            halves.add(to - at, self.sums(&samples[at..to], &mut least[at..to], &mut greatest[at..to]));
            at = to;
        }
    }
}
