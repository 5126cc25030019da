//! The short-term and the long-term severity, in billionths.

pub(crate) const SHARES: [(usize, u128); 15] = [
    (1, 942),
    (7, 525),
    (10, 525),
    (15, 525),
    (22, 657),
    (30, 657),
    (40, 657),
    (60, 1680),
    (80, 1680),
    (100, 1680),
    (130, 1680),
    (170, 1680),
    (300, 800),
    (500, 800),
    (800, 800),
];

const CAP: u64 = 1_000_000_000_000;

pub(crate) fn rank(tenths: usize, n: usize) -> usize {
    (tenths * n).div_ceil(1000)
}

// The least whole number of billionths whose square reaches the weighted sum.
pub(crate) fn capped_root(sum: u128) -> u64 {
    // Then the root is above the cap, and the product might not fit.
    if sum >> 94 != 0 {
        return CAP;
    }
    // `10^18 / (30000 * 2^48)` is `5^14 / (3 * 2^34)`.
    let wanted = (sum * 6_103_515_625).div_ceil(51_539_607_552);
    let root = wanted.isqrt();
    (if root * root < wanted { root + 1 } else { root }).min(u128::from(CAP)) as u64
}

/// The ends of the levels of one interval: those below 2^64, and the others.
pub struct Ends {
    pub(crate) narrow: Vec<u64>,
    pub(crate) wide: Vec<i128>,
}

impl Ends {
    /// Room for so many ends.
    pub fn with_capacity(n: usize) -> Ends {
        Ends {
            narrow: Vec::with_capacity(n),
            wide: Vec::new(),
        }
    }

    /// How many there are.
    pub fn len(&self) -> usize {
        self.narrow.len() + self.wide.len()
    }

    /// Whether there are none.
    pub fn is_empty(&self) -> bool {
        self.len() == 0
    }

    pub fn push(&mut self, end: i128) {
        match u64::try_from(end) {
            Ok(narrow) => self.narrow.push(narrow),
            Err(_) => self.wide.push(end),
        }
    }

    // The weighted sum where all are sorted.
    fn sorted_sum(&mut self) -> u128 {
        self.narrow.sort_unstable();
        self.wide.sort_unstable();
        let (m, n) = (self.narrow.len(), self.narrow.len() + self.wide.len());
        let level = |place: usize| if place < m { u128::from(self.narrow[place]) } else { self.wide[place - m] as u128 };
        SHARES.iter().map(|(tenths, weight)| weight * level(n - rank(*tenths, n))).sum()
    }

    // The weighted sum of at least 1000, all of them below 2^64: the percentiles are selected one after the other, each among the ends
    // above the last one.
    fn selected_sum(&mut self) -> u128 {
        let n = self.narrow.len();
        let (mut above, mut sum) = (self.narrow.as_mut_slice(), 0);
        for (tenths, weight) in SHARES.iter().rev() {
            let place = above.len() - rank(*tenths, n);
            let (_, level, rest) = above.select_nth_unstable(place);
            sum += weight * u128::from(*level);
            above = rest;
        }
        sum
    }

    /// Their severity. They are let go.
    pub fn severity(&mut self) -> u64 {
        let selects = self.wide.is_empty() && self.narrow.len() >= 1000;
        let sum = if selects { self.selected_sum() } else { self.sorted_sum() };
        self.narrow.clear();
        self.wide.clear();
        capped_root(sum)
    }
}

/// The long-term severity of twelve short-term ones.
pub fn long_term(values: impl Iterator<Item = u64>) -> u64 {
    let cube = |v: u64| u128::from(v) * u128::from(v) * u128::from(v);
    let wanted = values.map(cube).sum::<u128>().div_ceil(12);
    let (mut low, mut high) = (0, CAP);
    while low < high {
        let middle = (low + high) / 2;
        if cube(middle) < wanted {
            low = middle + 1;
        } else {
            high = middle;
        }
    }
    high
}
