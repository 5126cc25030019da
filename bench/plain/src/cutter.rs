//! Half-periods and their values, in billionths of nominal.

const FIVE_TO_18: u128 = 3_814_697_265_625;

/// The half-periods of so many samples in half a nominal period.
pub struct Cutter {
    half: usize,
    since: usize,
    negative: bool,
    least: u128,
    greatest: u128,
}

/// The least and the greatest square of a number from `lo` to `hi`.
pub fn squares(lo: i64, hi: i64) -> (u128, u128) {
    let first = u128::from(lo.unsigned_abs()) * u128::from(lo.unsigned_abs());
    let last = u128::from(hi.unsigned_abs()) * u128::from(hi.unsigned_abs());
    if lo > 0 {
        (first, last)
    } else if hi < 0 {
        (last, first)
    } else {
        (0, first.max(last))
    }
}

impl Cutter {
    pub fn new(half: usize) -> Cutter {
        Cutter { half, since: 0, negative: false, least: 0, greatest: 0 }
    }

    fn value(&self, sum: u128) -> u64 {
        let high = (sum >> 64) * FIVE_TO_18;
        let low = (sum & u128::from(u64::MAX)) * FIVE_TO_18;
        let quotient = ((high + (low >> 64)) >> 14) / self.half as u128;
        match u64::try_from(quotient) {
            Ok(small) => small.isqrt(),
            Err(_) => quotient.isqrt() as u64,
        }
    }

    /// Takes the next sample: whether its voltage is negative, and the voltage's interval in units of 2^-48 of nominal. Answers the
    /// interval of the half-period that ended before it.
    pub fn push(&mut self, negative: bool, lo: i64, hi: i64) -> Option<(u64, u64)> {
        let mut ended = None;
        let square = squares(lo, hi);
        if self.since == 2 * self.half || (self.half <= 2 * self.since && negative != self.negative) {
            ended = Some((self.value(self.least), self.value(self.greatest)));
            (self.since, self.least, self.greatest) = (0, 0, 0);
        }
        self.since += 1;
        self.negative = negative;
        self.least += square.0;
        self.greatest += square.1;
        ended
    }
}
