//! The command `report` in double precision, as a laboratory's program would compute it: plain numbers, without intervals and without exactness. It
//! stands beside the others in `bench/report.py` for its time alone.
//!
//!     double report JOB CFG DAT WORKERS

use plain::cascade::filter_of;
use plain::command::{end_at_fault, matched, read_files, Words};
use plain::configuration::Config;
use plain::data::{read_data, Stop};
use plain::job::Job;
use plain::scale::{Scale, Unmatched};
use std::thread;

/// The records that are worked at a time.
const ROWS: usize = 65_536;

const TEN_TO_24: f64 = 1e24;
const STEADY_LIMIT: f64 = 0.004;
const EXCESS_LIMIT: f64 = 0.033;

/// The formula of the short-term severity: percentiles in tenths of a percent, and their weights.
const SHARES: [(usize, f64); 15] = [
    (1, 942.0),
    (7, 525.0),
    (10, 525.0),
    (15, 525.0),
    (22, 657.0),
    (30, 657.0),
    (40, 657.0),
    (60, 1680.0),
    (80, 1680.0),
    (100, 1680.0),
    (130, 1680.0),
    (170, 1680.0),
    (300, 800.0),
    (500, 800.0),
    (800, 800.0),
];

/// A section's coefficients and states.
struct Section {
    k: [f64; 5],
    s1: f64,
    s2: f64,
}

impl Section {
    fn step(&mut self, x: f64) -> f64 {
        let [b0, b1, b2, a1, a2] = self.k;
        let y = b0 * x + self.s1;
        self.s1 = b1 * x - a1 * y + self.s2;
        self.s2 = b2 * x - a2 * y;
        y
    }
}

/// The half-periods of a channel: their values, and the squares of the one that runs.
struct Halves {
    half: usize,
    since: usize,
    negative: bool,
    sum: f64,
    values: Vec<f64>,
}

impl Halves {
    fn push(&mut self, u: f64) {
        let negative = u < 0.0;
        if self.since == 2 * self.half || (self.half <= 2 * self.since && negative != self.negative) {
            self.values.push((self.sum / self.half as f64).sqrt());
            (self.since, self.sum) = (0, 0.0);
        }
        self.since += 1;
        self.negative = negative;
        self.sum += u * u;
    }
}

/// Works the samples of one channel.
struct Channel {
    scale: f64,
    offset: f64,
    halves: Halves,
    window: usize,
    mean: f64,
    part: f64,
    sections: [Section; 7],
    level: f64,
    share: f64,
    run_in: usize,
    interval: usize,
    intervals: usize,
    levels: Vec<f64>,
    pst: Vec<f64>,
}

/// The root of the weighted percentiles.
fn severity(levels: &mut [f64]) -> f64 {
    levels.sort_unstable_by(f64::total_cmp);
    let level = |tenths: usize| levels[levels.len() - (tenths * levels.len()).div_ceil(1000)];
    (SHARES.iter().map(|(tenths, weight)| weight * level(*tenths)).sum::<f64>() / 30_000.0).sqrt()
}

impl Channel {
    fn new(job: &Job, config: &Config, channel: usize) -> Result<Channel, Unmatched> {
        Scale::new(config, channel - 1, job.nominal_mv.into(), job.uncertainty_uv.into())?;
        let (texts, values, _) = &config.analog[channel - 1];
        let volts = if texts[3].eq_ignore_ascii_case(b"kv") { 1000.0 } else { 1.0 };
        let nominal = job.nominal_mv as f64 / 1000.0 * TEN_TO_24 / volts;
        let coefficients = filter_of(job.hertz, config.rate).sections;
        let mut sections = coefficients.map(|k| Section { k: k.map(|b| b as f64 / 4_294_967_296.0), s1: 0.0, s2: 0.0 });
        sections[0].s1 = -sections[0].k[0];
        let interval = (config.rate * job.interval_s) as usize;
        Ok(Channel {
            scale: values[0] as f64 / nominal,
            offset: values[1] as f64 / nominal,
            halves: Halves {
                half: (config.rate / (2 * job.hertz)) as usize,
                since: 0,
                negative: false,
                sum: 0.0,
                values: Vec::new(),
            },
            window: 2 * job.hertz as usize,
            mean: 1.0,
            part: 2400.0 / 65_536.0 / f64::from(config.rate),
            sections,
            level: 0.0,
            share: 1.0 / (0.3 * f64::from(config.rate)),
            run_in: (config.rate * job.run_in_s) as usize,
            interval,
            intervals: job.intervals(config),
            levels: Vec::with_capacity(interval),
            pst: Vec::new(),
        })
    }

    fn add_level(&mut self) {
        if self.run_in > 0 {
            self.run_in -= 1;
        } else if self.pst.len() < self.intervals {
            self.levels.push(self.level);
            if self.levels.len() == self.interval {
                self.pst.push(severity(&mut self.levels));
                self.levels.clear();
            }
        }
    }

    fn take(&mut self, column: &[i32]) {
        for x in column {
            let u = self.scale * f64::from(*x) + self.offset;
            self.halves.push(u);
            let y = u * u / self.mean.max(0.25);
            self.mean += self.part * (u * u - self.mean);
            let w = self.sections.iter_mut().fold(y, |x, section| section.step(x));
            self.level += self.share * (310_700.0 * w * w - self.level);
            self.add_level();
        }
    }

    /// dc, dmax and Tmax, this one in half-periods.
    fn changes(&self) -> (f64, f64, usize) {
        let (halves, window) = (&self.halves.values, self.window);
        let (mut dc, mut dmax, mut most) = (0.0f64, 0.0f64, 0);
        let (mut last, mut before) = (0, 1.0);
        let mut look = |from: usize, to: usize, before: f64| {
            let part = halves.get(from..to).unwrap_or(&[]).iter().map(|half| (half - before).abs());
            dmax = part.clone().fold(dmax, f64::max);
            most = most.max(part.filter(|away| *away > EXCESS_LIMIT).count());
        };
        for (i, values) in halves.windows(window).enumerate() {
            let (least, greatest) = values.iter().fold((f64::MAX, f64::MIN), |(a, b), v| (v.min(a), v.max(b)));
            if greatest - least > STEADY_LIMIT {
                continue;
            }
            let level = values.iter().sum::<f64>() / window as f64;
            if last != 0 && i + window > last + 1 {
                look(last, i, before);
                dc = dc.max((level - before).abs());
            }
            (last, before) = (i + window, level);
        }
        look(last, halves.len(), before);
        (dc, dmax.max(dc), most)
    }

    fn print(&self, number: usize) {
        let (dc, dmax, t) = self.changes();
        println!("channel {number}\nhalf-periods {}\ndc {dc:.9}\ndmax {dmax:.9}\nt {t}", self.halves.values.len());
        for (i, pst) in self.pst.iter().enumerate() {
            println!("pst {} {pst:.9}", i + 1);
        }
        if self.pst.len() == 12 {
            println!("plt {:.9}", (self.pst.iter().map(|pst| pst.powi(3)).sum::<f64>() / 12.0).cbrt());
        }
    }
}

/// Each channel takes its column, in as many parts side by side as there are workers.
fn work(channels: &mut [(Channel, Vec<i32>)], workers: usize) {
    let size = channels.len().div_ceil(workers);
    thread::scope(|scope| {
        for part in channels.chunks_mut(size) {
            let take = || {
                for (channel, column) in part {
                    channel.take(column);
                    column.clear();
                }
            };
            if workers == 1 {
                take();
            } else {
                scope.spawn(take);
            }
        }
    });
}

fn work_data(name: &str, job: &Job, config: &Config, channels: &mut [(Channel, Vec<i32>)], workers: usize) -> Result<(), Stop> {
    let places: Vec<usize> = job.channels.iter().map(|channel| channel - 1).collect();
    let read = read_data(name, config, &places, |record| {
        for (place, (_, column)) in places.iter().zip(&mut *channels) {
            column.push(record.analog[*place]);
        }
        if channels[0].1.len() == ROWS {
            work(channels, workers);
        }
        true
    });
    work(channels, workers);
    read
}

fn main() {
    let words = Words::of_command();
    let (job, config) = read_files(&words);
    let channels = matched(&job, &config, Channel::new);
    let mut channels: Vec<_> = channels.into_iter().map(|channel| (channel, Vec::with_capacity(ROWS))).collect();
    let read = work_data(&words.data, &job, &config, &mut channels, words.workers);
    end_at_fault(&job, std::iter::empty(), read);
    println!("report");
    for (number, (channel, _)) in job.channels.iter().zip(&channels) {
        channel.print(*number);
    }
}
