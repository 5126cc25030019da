//! One channel of a recording, from its samples to its quantities.

use crate::cascade::Cascade;
use crate::changes::{changes, flag_of, Flag, Interval, Outcome};
use crate::configuration::Config;
use crate::cutter::Cutter;
use crate::front::Front;
use crate::job::Job;
use crate::scale::{Scale, Unmatched};
use crate::severity::{Ends, long_term};
use crate::smooth::Smooth;
use std::thread;

/// What a channel comes to.
pub struct Quantities {
    pub halves: usize,
    pub doubtful: usize,
    pub changes: Outcome,
    pub pst: Vec<Interval>,
    pub plt: Option<Interval>,
}

/// The long-term severity, where there are twelve short-term ones.
pub(crate) fn long_term_of(pst: &[Interval]) -> Option<Interval> {
    let end = |end: fn(&Interval) -> i64| long_term(pst.iter().map(|v| end(v) as u64)) as i64;
    (pst.len() == 12).then(|| Interval { lo: end(|v| v.lo), hi: end(|v| v.hi) })
}

/// Works the samples of one channel.
pub struct Phase {
    scale: Scale,
    taken: u32,
    /// The first record that is over range, from 1.
    pub over: Option<u32>,
    cutter: Cutter,
    window: usize,
    halves: Vec<Interval>,
    flags: Vec<Flag>,
    front: Front,
    cascade: Cascade,
    smooth: Smooth,
    run_in: u32,
    interval: usize,
    intervals: usize,
    lows: Ends,
    highs: Ends,
    pst: Vec<Interval>,
}

impl Phase {
    /// Of a channel, from 1.
    pub fn new(job: &Job, config: &Config, channel: usize) -> Result<Phase, Unmatched> {
        let interval = (config.rate * job.interval_s) as usize;
        Ok(Phase {
            scale: Scale::new(config, channel - 1, job.nominal_mv.into(), job.uncertainty_uv.into())?,
            taken: 0,
            over: None,
            cutter: Cutter::new((config.rate / (2 * job.hertz)) as usize),
            window: 2 * job.hertz as usize,
            halves: Vec::new(),
            flags: Vec::new(),
            front: Front::new(config.rate),
            cascade: Cascade::new(job.hertz, config.rate),
            smooth: Smooth::new(config.rate),
            run_in: config.rate * job.run_in_s,
            interval,
            intervals: job.intervals(config),
            lows: Ends::with_capacity(interval),
            highs: Ends::with_capacity(interval),
            pst: Vec::new(),
        })
    }

    fn add_level(&mut self, lo: i128, hi: i128) {
        if self.run_in > 0 {
            self.run_in -= 1;
            return;
        }
        if self.pst.len() == self.intervals {
            return;
        }
        self.lows.push(lo);
        self.highs.push(hi);
        if self.lows.len() == self.interval {
            let (lo, hi) = (self.lows.severity() as i64, self.highs.severity() as i64);
            self.pst.push(Interval { lo, hi });
        }
    }

    fn sample(&mut self, negative: bool, lo: i64, hi: i64) {
        if let Some((lo, hi)) = self.cutter.push(negative, lo, hi) {
            self.halves.push(Interval { lo: lo as i64, hi: hi as i64 });
            self.flags.push(flag_of(&self.halves, self.window));
        }
        let (mid, radius) = self.front.push(lo, hi);
        let (mid, radius) = self.cascade.step(mid.into(), radius.into());
        let (lo, hi) = self.smooth.step(mid as i64, radius as i64);
        self.add_level(lo, hi);
    }

    /// Takes samples up to the first one over range, and none after that one.
    fn take(&mut self, column: &[i32]) {
        if self.over.is_some() {
            return;
        }
        for x in column {
            self.taken += 1;
            match self.scale.voltage(*x) {
                Some((negative, lo, hi)) => self.sample(negative, lo, hi),
                None => {
                    self.over = Some(self.taken);
                    return;
                }
            }
        }
    }

    pub fn end(&self) -> Quantities {
        let (changes, doubtful) = changes(&self.halves, &self.flags, self.window);
        Quantities {
            halves: self.halves.len(),
            doubtful,
            changes,
            pst: self.pst.clone(),
            plt: long_term_of(&self.pst),
        }
    }
}

fn work_part(part: &mut [(Phase, Vec<i32>)]) {
    for (phase, column) in part {
        phase.take(column);
        column.clear();
    }
}

/// Each phase takes its column, in as many parts side by side as there are workers.
pub fn work(phases: &mut [(Phase, Vec<i32>)], workers: usize) {
    let size = phases.len().div_ceil(workers);
    thread::scope(|scope| {
        let (first, others) = phases.split_at_mut(size);
        for part in others.chunks_mut(size) {
            scope.spawn(|| work_part(part));
        }
        work_part(first);
    });
}
