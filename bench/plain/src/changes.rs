//! Steady windows, and dc, dmax and Tmax.

pub(crate) const STEADY_LIMIT: i64 = 4_000_000;
const EXCESS_LIMIT: i64 = 33_000_000;
pub(crate) const ZERO: Interval = Interval { lo: 0, hi: 0 };
pub(crate) const NOMINAL: Interval = Interval { lo: 1_000_000_000, hi: 1_000_000_000 };

#[derive(Clone, Copy)]
pub struct Interval {
    pub lo: i64,
    pub hi: i64,
}

impl Interval {
    pub(crate) fn distance(self, other: Interval) -> Interval {
        Interval {
            lo: 0.max((self.lo - other.hi).max(other.lo - self.hi)),
            hi: (self.hi - other.lo).max(other.hi - self.lo),
        }
    }

    fn greater(self, other: Interval) -> Interval {
        Interval { lo: self.lo.max(other.lo), hi: self.hi.max(other.hi) }
    }

    fn hull(self, other: Interval) -> Interval {
        Interval { lo: self.lo.min(other.lo), hi: self.hi.max(other.hi) }
    }
}

#[derive(Clone, Copy, PartialEq, Eq)]
pub enum Flag {
    Early,
    Sure,
    Not,
    Doubtful,
}

#[derive(Clone, Copy)]
pub struct Outcome {
    pub dc: Interval,
    pub dmax: Interval,
    pub t: Interval,
}

pub(crate) const NOTHING: Outcome = Outcome { dc: ZERO, dmax: ZERO, t: ZERO };

impl Outcome {
    pub(crate) fn with_change(self, step: Interval, halves: &[Interval], level: Interval) -> Outcome {
        let (mut furthest, mut over) = (ZERO, ZERO);
        for half in halves {
            let away = half.distance(level);
            furthest = furthest.greater(away);
            over.lo += i64::from(EXCESS_LIMIT < away.lo);
            over.hi += i64::from(EXCESS_LIMIT < away.hi);
        }
        Outcome {
            dc: self.dc.greater(step),
            dmax: self.dmax.greater(step).greater(furthest),
            t: self.t.greater(over),
        }
    }
}

/// The flag of the window that ends with the last of some half-periods.
pub fn flag_of(halves: &[Interval], window: usize) -> Flag {
    if halves.len() < window {
        return Flag::Early;
    }
    let values = &halves[halves.len() - window..];
    let ends = |end: fn(&Interval) -> i64| {
        let ends = values.iter().map(end);
        (ends.clone().min().unwrap(), ends.max().unwrap())
    };
    let ((least_low, greatest_low), (least_high, greatest_high)) = (ends(|v| v.lo), ends(|v| v.hi));
    if greatest_high - least_low <= STEADY_LIMIT {
        Flag::Sure
    } else if greatest_low - least_high > STEADY_LIMIT {
        Flag::Not
    } else {
        Flag::Doubtful
    }
}

// One pass, in which the lowest digit of `choices` says whether the next doubtful window is steady.
fn outcome_of(halves: &[Interval], flags: &[Flag], window: usize, mut choices: u32) -> Outcome {
    let mut outcome = NOTHING;
    let (mut last, mut before) = (0, NOMINAL);
    let (mut low, mut high) = (0, 0);
    for (i, (half, flag)) in halves.iter().zip(flags).enumerate() {
        low += half.lo;
        high += half.hi;
        if i >= window {
            low -= halves[i - window].lo;
            high -= halves[i - window].hi;
        }
        let steady = match flag {
            Flag::Early | Flag::Not => false,
            Flag::Sure => true,
            Flag::Doubtful => {
                let chosen = choices % 2 == 1;
                choices /= 2;
                chosen
            }
        };
        if steady {
            let level = Interval {
                lo: (low as u64 / window as u64) as i64,
                hi: (high as u64 / window as u64) as i64,
            };
            if last != 0 && i > last {
                let part = halves.get(last..i + 1 - window).unwrap_or(&[]);
                outcome = outcome.with_change(level.distance(before), part, before);
            }
            (last, before) = (i + 1, level);
        }
    }
    outcome.with_change(ZERO, &halves[last..], before)
}

pub(crate) fn wide(halves: &[Interval]) -> Outcome {
    let all = halves.iter().fold(halves[0], |all, half| all.hull(*half));
    let width = all.hi - all.lo;
    Outcome {
        dc: Interval { lo: 0, hi: width },
        dmax: Interval { lo: 0, hi: width.max(all.distance(NOMINAL).hi) },
        t: Interval { lo: 0, hi: halves.len() as i64 },
    }
}

/// What holds each of some outcomes.
pub(crate) fn joined(all: impl Iterator<Item = Outcome>) -> Outcome {
    all.reduce(|p, q| Outcome { dc: p.dc.hull(q.dc), dmax: p.dmax.hull(q.dmax), t: p.t.hull(q.t) }).unwrap()
}

/// The changes of half-periods with the flags of their windows, and how many flags are Doubtful.
pub fn changes(halves: &[Interval], flags: &[Flag], window: usize) -> (Outcome, usize) {
    let doubtful = flags.iter().filter(|flag| **flag == Flag::Doubtful).count();
    if doubtful > 6 {
        return (wide(halves), doubtful);
    }
    (joined((0..1 << doubtful).map(|choices| outcome_of(halves, flags, window, choices))), doubtful)
}
