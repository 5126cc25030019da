//! Half-periods and their values, in billionths of nominal.

use crate::changes::Interval;

const FIVE_TO_18: u128 = 3_814_697_265_625;

/// The half-periods of so many samples in half a nominal period.
pub struct Halves {
    half: usize,
    since: usize,
    negative: bool,
    least: u128,
    greatest: u128,
    pub values: Vec<Interval>,
}

/// Whether `w^2 * half` is at most a limit.
fn fits(w: u64, half: usize, limit: u128) -> bool {
    u128::from(w) * u128::from(w) * half as u128 <= limit
}

/// The greatest w with `w^2 * half * 2^78 <= 5^18 * sum`. As `w^2 * half` is whole, it is compared with the quotient by 2^78, rounded down.
/// The root of a double is a guess, which the two comparisons correct whatever it is.
fn value(sum: u128, half: usize) -> i64 {
    let (high, low) = ((sum >> 64) * FIVE_TO_18, u128::from(sum as u64) * FIVE_TO_18);
    let limit = (high + (low >> 64)) >> 14;
    let size = (limit >> 32) as u64 as f64 * 4_294_967_296.0 + f64::from(limit as u32);
    let mut w = (size / half as f64).sqrt() as u64;
    while !fits(w, half, limit) {
        w -= 1;
    }
    while fits(w + 1, half, limit) {
        w += 1;
    }
    w as i64
}

impl Halves {
    pub fn new(half: usize) -> Halves {
        Halves { half, since: 0, negative: false, least: 0, greatest: 0, values: Vec::new() }
    }

    fn end(&mut self) {
        self.values.push(Interval { lo: value(self.least, self.half), hi: value(self.greatest, self.half) });
        (self.since, self.least, self.greatest) = (0, 0, 0);
    }

    /// How many of the next samples, at least one, belong to the half-period of the first of them. Those from `first` to `last` have
    /// negative voltages. Where the first of them begins a half-period, the one before ends.
    pub fn room(&mut self, samples: &[i32], (first, last): (i32, i32)) -> usize {
        let negative = |place: usize| first <= samples[place] && samples[place] <= last;
        let changes = self.half <= 2 * self.since && negative(0) != self.negative;
        if self.since == 2 * self.half || changes {
            self.end();
        }
        let most = samples.len().min(2 * self.half - self.since);
        let from = (self.half.div_ceil(2).saturating_sub(self.since)).max(1);
        let room = (from..most).find(|place| negative(*place) != negative(place - 1)).unwrap_or(most);
        self.negative = negative(room - 1);
        room
    }

    /// Adds the sums of the least and of the greatest squares of so many samples.
    pub fn add(&mut self, count: usize, (least, greatest): (u128, u128)) {
        self.since += count;
        self.least += least;
        self.greatest += greatest;
    }
}
