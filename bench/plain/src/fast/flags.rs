//! The flags of all windows of half-periods.

use crate::changes::{Flag, Interval, STEADY_LIMIT};

/// The extremes of some half-periods: of their low and of their high ends.
#[derive(Clone, Copy)]
struct Extremes {
    least_low: i64,
    greatest_low: i64,
    least_high: i64,
    greatest_high: i64,
}

const NONE: Extremes = Extremes { least_low: i64::MAX, greatest_low: i64::MIN, least_high: i64::MAX, greatest_high: i64::MIN };

impl Extremes {
    fn with(self, other: Extremes) -> Extremes {
        Extremes {
            least_low: self.least_low.min(other.least_low),
            greatest_low: self.greatest_low.max(other.greatest_low),
            least_high: self.least_high.min(other.least_high),
            greatest_high: self.greatest_high.max(other.greatest_high),
        }
    }

    fn of(half: &Interval) -> Extremes {
        Extremes { least_low: half.lo, greatest_low: half.lo, least_high: half.hi, greatest_high: half.hi }
    }

    fn flag(self) -> Flag {
        if self.greatest_high - self.least_low <= STEADY_LIMIT {
            Flag::Sure
        } else if self.greatest_low - self.least_high > STEADY_LIMIT {
            Flag::Not
        } else {
            Flag::Doubtful
        }
    }
}

/// The flags of the windows that end with each half-period. Blocks have as many half-periods as a window: so a window is the end of one block
/// and the beginning of the next, and its extremes are those of both, which are kept for each end and each beginning.
pub fn flags_of(halves: &[Interval], window: usize) -> Vec<Flag> {
    let mut flags = Vec::with_capacity(halves.len());
    let mut ends = vec![NONE; window + 1];
    for (i, block) in halves.chunks(window).enumerate() {
        let mut beginning = NONE;
        for (j, half) in block.iter().enumerate() {
            beginning = beginning.with(Extremes::of(half));
            let early = i == 0 && j + 1 < window;
            flags.push(if early { Flag::Early } else { beginning.with(ends[j + 1]).flag() });
        }
        let mut end = NONE;
        for (to, half) in ends.iter_mut().zip(block).rev() {
            end = end.with(Extremes::of(half));
            *to = end;
        }
    }
    flags
}
