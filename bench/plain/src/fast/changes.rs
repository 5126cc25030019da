//! dc, dmax and Tmax of half-periods with flags.

use crate::changes::{joined, wide, Flag, Interval, Outcome, NOMINAL, NOTHING, ZERO};

/// The half-periods, the flags of their windows, and the sums of the first ones.
struct Halves<'a> {
    values: &'a [Interval],
    flags: &'a [Flag],
    sums: Vec<Interval>,
    window: usize,
}

impl Halves<'_> {
    /// The level of the steady window that ends with a half-period.
    fn level(&self, last: usize) -> Interval {
        let (from, to) = (self.sums[last + 1 - self.window], self.sums[last + 1]);
        Interval { lo: (to.lo - from.lo) / self.window as i64, hi: (to.hi - from.hi) / self.window as i64 }
    }

    /// One pass, in which the lowest digit of `choices` says whether the next doubtful window is steady. Between steady windows that follow
    /// one another nothing changes but the level: only the first and the last of such a run are looked at.
    fn outcome(&self, mut choices: u32) -> Outcome {
        let mut outcome = NOTHING;
        let (mut last, mut before, mut was_steady) = (0, NOMINAL, false);
        for (i, flag) in self.flags.iter().enumerate() {
            let mut steady = *flag == Flag::Sure;
            if *flag == Flag::Doubtful {
                steady = choices % 2 == 1;
                choices /= 2;
            }
            if steady == was_steady {
                continue;
            }
            was_steady = steady;
            if !steady {
                (last, before) = (i, self.level(i - 1));
            } else if last != 0 {
                let part = self.values.get(last..i + 1 - self.window).unwrap_or(&[]);
                outcome = outcome.with_change(self.level(i).distance(before), part, before);
            }
        }
        if was_steady {
            (last, before) = (self.values.len(), self.level(self.values.len() - 1));
        }
        outcome.with_change(ZERO, &self.values[last..], before)
    }
}

/// The changes of half-periods with the flags of their windows, and how many flags are Doubtful.
pub fn changes(values: &[Interval], flags: &[Flag], window: usize) -> (Outcome, usize) {
    let doubtful = flags.iter().filter(|flag| **flag == Flag::Doubtful).count();
    if doubtful > 6 {
        return (wide(values), doubtful);
    }
    let mut sums = Vec::with_capacity(values.len() + 1);
    sums.push(ZERO);
    let mut sum = ZERO;
    for value in values {
        sum = Interval { lo: sum.lo + value.lo, hi: sum.hi + value.hi };
        sums.push(sum);
    }
    let halves = Halves { values, flags, sums, window };
    (joined((0..1 << doubtful).map(|choices| halves.outcome(choices))), doubtful)
}
