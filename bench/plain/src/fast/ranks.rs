//! The short-term severity of the ends of levels, from their counts.

use crate::severity::{capped_root, rank, Ends, SHARES};

/// A bucket holds the ends with the same leading bit and the same eight bits after it; below 256 each number has its own.
const BUCKETS: usize = 56 * 256 + 256;

fn bucket(end: u64) -> usize {
    let shift = 55 - (end | 256).leading_zeros().min(55);
    ((shift as usize) << 8) + (end >> shift) as usize
}

/// The ends of the levels of one interval, and how many are in each bucket.
pub struct Ranks {
    ends: Ends,
    counts: Vec<u32>,
}

/// The numbers of a bucket that holds ranks: these with their weights, counted from the greatest number of the bucket.
#[derive(Default)]
struct Holder {
    members: Vec<u64>,
    ranks: Vec<(usize, u128)>,
}

impl Holder {
    /// The weighted sum: the numbers of the last rank first, each of the others among the numbers above it.
    fn sum(&mut self) -> u128 {
        let (mut above, mut sum) = (self.members.as_mut_slice(), 0);
        for (rank, weight) in self.ranks.iter().rev() {
            let place = above.len() - rank;
            let (_, end, rest) = above.select_nth_unstable(place);
            sum += weight * u128::from(*end);
            above = rest;
        }
        sum
    }
}

impl Ranks {
    /// Room for so many ends.
    pub fn with_capacity(n: usize) -> Ranks {
        Ranks { ends: Ends::with_capacity(n), counts: vec![0; BUCKETS] }
    }

    pub fn len(&self) -> usize {
        self.ends.len()
    }

    pub fn is_empty(&self) -> bool {
        self.len() == 0
    }

    /// Adds an end of any size.
    pub fn push(&mut self, end: i128) {
        if let Ok(narrow) = u64::try_from(end) {
            self.counts[bucket(narrow)] += 1;
        }
        self.ends.push(end);
    }

    /// Adds ends below 2^64.
    pub fn extend(&mut self, ends: impl Iterator<Item = u64> + Clone) {
        self.ends.narrow.extend(ends.clone());
        for end in ends {
            self.counts[bucket(end)] += 1;
        }
    }

    /// The buckets that hold the ranks, each with its number. Greater ends have no lesser bucket: so with `above` ends in greater buckets, a
    /// bucket of c holds the ranks from `above + 1` to `above + c`, and rank r of all is its rank `r - above`.
    fn holders(&self) -> Vec<(usize, Holder)> {
        let (mut holders, mut above, mut place): (Vec<(usize, Holder)>, _, _) = (Vec::new(), 0, BUCKETS);
        let mut count = 0;
        for (tenths, weight) in SHARES {
            let rank = rank(tenths, self.len());
            while rank > above + count {
                above += count;
                place -= 1;
                count = self.counts[place] as usize;
            }
            if holders.last().is_none_or(|(last, _)| *last != place) {
                holders.push((place, Holder { members: Vec::with_capacity(count), ranks: Vec::new() }));
            }
            holders.last_mut().unwrap().1.ranks.push((rank - above, weight));
        }
        holders
    }

    /// The weighted sum where all are below 2^64: one pass collects what the holders hold.
    fn sum(&self) -> u128 {
        let mut holders = self.holders();
        let mut wanted = vec![0u8; BUCKETS];
        for (i, (place, _)) in holders.iter().enumerate() {
            wanted[*place] = i as u8 + 1;
        }
        for end in &self.ends.narrow {
            let place = wanted[bucket(*end)];
            if place != 0 {
                holders[usize::from(place) - 1].1.members.push(*end);
            }
        }
        holders.iter_mut().map(|(_, holder)| holder.sum()).sum()
    }

    /// Their severity. They are let go.
    pub fn severity(&mut self) -> u64 {
        let severity = if self.ends.wide.is_empty() { capped_root(self.sum()) } else { self.ends.severity() };
        self.ends.narrow.clear();
        self.ends.wide.clear();
        self.counts.fill(0);
        severity
    }
}
