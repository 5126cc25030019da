//! One channel of a recording, from its samples to its quantities.

use super::adaptor::Adaptor;
use super::changes::changes;
use super::flags::flags_of;
use super::halves::Halves;
use super::ranks::Ranks;
use super::sections::Sections;
use super::smooth::{Levels, Smoother};
use super::source::Source;
use super::voltage::Voltage;
use super::BLOCK;
use crate::changes::Interval;
use crate::configuration::Config;
use crate::data::Stop;
use crate::job::Job;
use crate::phase::{long_term_of, Quantities};
use crate::scale::{Scale, Unmatched};
use std::thread;

/// The severities of the intervals behind the run-in.
struct Severities {
    run_in: usize,
    interval: usize,
    intervals: usize,
    lows: Ranks,
    highs: Ranks,
    pst: Vec<Interval>,
}

impl Severities {
    /// How many levels are taken before an interval ends, of so many. Those of the run-in and behind the last interval are left out.
    fn room(&mut self, count: usize) -> (usize, usize) {
        let left_out = if self.pst.len() == self.intervals { count } else { self.run_in.min(count) };
        self.run_in -= left_out.min(self.run_in);
        (left_out, (count - left_out).min(self.interval - self.lows.len()))
    }

    fn end_interval(&mut self) {
        if self.lows.len() == self.interval {
            self.pst.push(Interval { lo: self.lows.severity() as i64, hi: self.highs.severity() as i64 });
        }
    }

    fn add(&mut self, mut low: &[i64], mut high: &[u64]) {
        while !low.is_empty() {
            let (left_out, count) = self.room(low.len());
            self.lows.extend(low[left_out..][..count].iter().map(|end| *end as u64));
            self.highs.extend(high[left_out..][..count].iter().copied());
            self.end_interval();
            (low, high) = (&low[left_out + count..], &high[left_out + count..]);
        }
    }

    fn add_wide(&mut self, levels: &[(i128, i128)]) {
        for (low, high) in levels {
            if let (0, 1) = self.room(1) {
                self.lows.push(*low);
                self.highs.push(*high);
                self.end_interval();
            }
        }
    }
}

/// Works the samples of one channel.
pub struct Phase {
    voltage: Voltage,
    taken: u32,
    /// The first record that is over range, from 1.
    pub over: Option<u32>,
    halves: Halves,
    window: usize,
    adaptor: Adaptor,
    sections: Sections,
    smoother: Smoother,
    severities: Severities,
    /// From stage to stage: least squares, mids, low ends of levels; and greatest squares, radii, high ends.
    first: [u64; BLOCK],
    second: [u64; BLOCK],
    signal: [i64; BLOCK],
}

impl Phase {
    /// Of a channel, from 1.
    pub fn new(job: &Job, config: &Config, channel: usize) -> Result<Phase, Unmatched> {
        let scale = Scale::new(config, channel - 1, job.nominal_mv.into(), job.uncertainty_uv.into())?;
        let interval = (config.rate * job.interval_s) as usize;
        Ok(Phase {
            voltage: Voltage::new(&scale),
            taken: 0,
            over: None,
            halves: Halves::new((config.rate / (2 * job.hertz)) as usize),
            window: 2 * job.hertz as usize,
            adaptor: Adaptor::new(config.rate),
            sections: Sections::new(job.hertz, config.rate),
            smoother: Smoother::new(config.rate),
            severities: Severities {
                run_in: (config.rate * job.run_in_s) as usize,
                interval,
                intervals: job.intervals(config),
                lows: Ranks::with_capacity(interval),
                highs: Ranks::with_capacity(interval),
                pst: Vec::new(),
            },
            first: [0; BLOCK],
            second: [0; BLOCK],
            signal: [0; BLOCK],
        })
    }

    /// Takes samples in range, at most a block.
    fn block(&mut self, samples: &[i32]) {
        let (first, second) = (&mut self.first[..samples.len()], &mut self.second[..samples.len()]);
        let signal = &mut self.signal[..samples.len()];
        self.voltage.squares(samples, &mut self.halves, first, second);
        self.adaptor.points(first, second);
        for (signal, mid) in signal.iter_mut().zip(first) {
            *signal = *mid as i64;
        }
        self.sections.filter(signal);
        self.sections.radii(second);
        match self.smoother.levels(signal, second) {
            Levels::Narrow => self.severities.add(signal, second),
            Levels::Wide(levels) => self.severities.add_wide(&levels),
        }
    }

    /// Takes samples up to the first one over range, and none after that one.
    fn take(&mut self, column: &[i32]) {
        for samples in column.chunks(BLOCK) {
            if self.over.is_some() {
                return;
            }
            let count = self.voltage.in_range(samples);
            self.block(&samples[..count]);
            self.taken += count as u32;
            if count < samples.len() {
                self.over = Some(self.taken + 1);
            }
        }
    }

    pub fn end(&self) -> Quantities {
        let halves = &self.halves.values;
        let (changes, doubtful) = changes(halves, &flags_of(halves, self.window), self.window);
        let pst = self.severities.pst.clone();
        Quantities { halves: halves.len(), doubtful, changes, plt: long_term_of(&pst), pst }
    }
}

fn work_part(phases: &mut [Phase], columns: &[Vec<i32>]) {
    for (phase, column) in phases.iter_mut().zip(columns) {
        phase.take(column);
    }
}

/// Each phase takes its column, in as many parts side by side as there are workers, while the next columns are read.
fn work_beside(phases: &mut [Phase], columns: &[Vec<i32>], workers: usize, read: impl FnOnce() -> Result<bool, Stop>) -> Result<bool, Stop> {
    let size = phases.len().div_ceil(workers);
    thread::scope(|scope| {
        for (phases, columns) in phases.chunks_mut(size).zip(columns.chunks(size)) {
            scope.spawn(|| work_part(phases, columns));
        }
        read()
    })
}

/// The records that are read at a time by one worker, and by several.
const ROWS: (usize, usize) = (2048, 32_768);

/// Reads the data, and works the phases block by block, up to the end or the first fault.
pub fn work_data(source: &mut Source, phases: &mut [Phase], workers: usize) -> Result<(), Stop> {
    let rows = if workers == 1 { ROWS.0 } else { ROWS.1 };
    let mut columns = vec![Vec::with_capacity(rows); phases.len()];
    let mut next = columns.clone();
    let mut more = source.read(&mut columns, rows);
    while let Ok(true) = more {
        next.iter_mut().for_each(Vec::clear);
        if workers == 1 {
            work_part(phases, &columns);
        }
        if phases.iter().any(|phase| phase.over.is_some()) {
            return Ok(());
        }
        more = if workers == 1 {
            source.read(&mut next, rows)
        } else {
            work_beside(phases, &columns, workers, || source.read(&mut next, rows))
        };
        std::mem::swap(&mut columns, &mut next);
    }
    work_part(phases, &columns);
    more.map(|_| ())
}
