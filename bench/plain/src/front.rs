//! The adaptor and the squaring.

use crate::cutter::squares;

const QUARTER: u128 = 1 << 62;

pub struct Front {
    exponent: u32,
    low: u128,
    high: u128,
}

// `dividend / divisor`, rounded up: a division of 64 bits that is checked by a product, where the quotient is small.
fn small_quotient(dividend: u128, divisor: u128) -> u128 {
    if dividend >> 96 == 0 {
        let guess = u128::from((dividend >> 32) as u64 / (divisor >> 32) as u64);
        let below = guess * divisor;
        if below < dividend && dividend <= below + divisor {
            return guess + 1;
        }
    }
    dividend.div_ceil(divisor)
}

fn part_up(x: u128, exponent: u32) -> u128 {
    (x + ((1 << exponent) - 1)) >> exponent
}

impl Front {
    /// At 2400 or 4800 samples a second.
    pub fn new(rate: u32) -> Front {
        Front { exponent: if rate == 4800 { 17 } else { 16 }, low: 1 << 64, high: 1 << 64 }
    }

    /// Takes the interval of the next voltage, and answers the mid and the radius of its output.
    pub fn push(&mut self, lo: i64, hi: i64) -> (u64, u64) {
        let (first, last) = squares(lo, hi);
        let (low, high) = (first >> 48, last.div_ceil(1 << 48));
        let from = (low << 64) / self.high.max(QUARTER);
        let least = self.low.max(QUARTER);
        let to = from + small_quotient((high << 64) - from * least, least);
        self.low = self.low - part_up(self.low, self.exponent) + (low >> (self.exponent - 16));
        self.high = self.high - (self.high >> self.exponent) + part_up(high, self.exponent - 16);
        let mid = (from + to) >> 1;
        (mid as u64, (to - mid) as u64)
    }
}
