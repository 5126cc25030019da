//! Times each stage of the command `report` by itself, on the samples of a recording: the stage as specified beside the fast one.
//!
//!     stages ASCII_CFG ASCII_DAT BINARY_CFG BINARY_DAT RUNS
//!
//! The recordings have the same samples of a lamp of 230 V and 50 Hz. Each channel is worked in pieces; the time of a stage is the sum over
//! the pieces of the least time that one took in all runs, in nanoseconds a sample and channel. Both must come to the same numbers.

use plain::cascade::Cascade;
use plain::changes::{changes, flag_of, Flag, Interval};
use plain::configuration::{read_configuration, Config};
use plain::cutter::Cutter;
use plain::data::read_data;
use plain::fast;
use plain::front::Front;
use plain::scale::Scale;
use plain::severity::Ends;
use plain::smooth::Smooth;
use std::time::Instant;
use std::{env, fs};

const PIECE: usize = 2048;
const RATE: u32 = 2400;
const HERTZ: u32 = 50;
const WINDOW: usize = 100;
const HALF: usize = 24;

/// The least times of the pieces of one stage.
struct Watch {
    least: Vec<f64>,
    piece: usize,
    start: Instant,
}

impl Watch {
    fn new() -> Watch {
        Watch { least: Vec::new(), piece: 0, start: Instant::now() }
    }

    fn begin(&mut self) {
        self.piece = 0;
        self.start = Instant::now();
    }

    /// Ends a piece, and begins the next one.
    fn lap(&mut self) {
        let time = self.start.elapsed().as_secs_f64();
        if self.piece == self.least.len() {
            self.least.push(f64::INFINITY);
        }
        let least = &mut self.least[self.piece];
        *least = least.min(time);
        self.piece += 1;
        self.start = Instant::now();
    }

    fn nanoseconds(&self, count: usize) -> f64 {
        1e9 * self.least.iter().sum::<f64>() / count as f64
    }
}

/// A stage done twice: what the runs of each take, and what they come to.
struct Stage {
    name: &'static str,
    plain: Watch,
    fast: Watch,
    count: usize,
}

impl Stage {
    fn new(name: &'static str, count: usize) -> Stage {
        Stage { name, plain: Watch::new(), fast: Watch::new(), count }
    }

    /// Runs both in turn, and answers what the last ones came to.
    fn run<P, F>(&mut self, runs: usize, plain: impl Fn(&mut Watch) -> P, fast: impl Fn(&mut Watch) -> F) -> (P, F) {
        let mut last = None;
        for _ in 0..runs {
            self.plain.begin();
            let p = plain(&mut self.plain);
            self.fast.begin();
            last = Some((p, fast(&mut self.fast)));
        }
        let (a, b) = (self.plain.nanoseconds(self.count), self.fast.nanoseconds(self.count));
        println!("{:<30} {a:8.2} {b:8.2} {:6.1}", self.name, a / b);
        last.unwrap()
    }
}

fn configuration(name: &str) -> Config {
    read_configuration(&fs::read(name).unwrap()).unwrap_or_else(|_| panic!("a fault of {name}"))
}

/// Ends the piece of a watch, and moves what was read in it to all that was read; that takes no time of the watch.
fn keep(watch: &mut Watch, piece: &mut [Vec<i32>], all: &mut [Vec<i32>]) {
    watch.lap();
    for (column, all) in piece.iter_mut().zip(all) {
        all.append(column);
    }
    watch.start = Instant::now();
}

fn read_plain(watch: &mut Watch, data: &str, config: &Config) -> Vec<Vec<i32>> {
    let mut all = vec![Vec::with_capacity(config.endsamp as usize); config.analog.len()];
    let mut piece = vec![Vec::with_capacity(PIECE); all.len()];
    let places: Vec<usize> = (0..all.len()).collect();
    watch.begin();
    let read = read_data(data, config, &places, |record| {
        for (column, value) in piece.iter_mut().zip(record.analog) {
            column.push(*value);
        }
        if piece[0].len() == PIECE {
            keep(watch, &mut piece, &mut all);
        }
        true
    });
    assert!(read.is_ok());
    keep(watch, &mut piece, &mut all);
    all
}

fn read_fast(watch: &mut Watch, data: &str, config: &Config) -> Vec<Vec<i32>> {
    let mut all = vec![Vec::with_capacity(config.endsamp as usize); config.analog.len()];
    let mut piece = vec![Vec::with_capacity(PIECE); all.len()];
    let places: Vec<usize> = (0..all.len()).collect();
    watch.begin();
    let mut source = fast::source::Source::open(data, config, &places).ok().unwrap();
    while source.read(&mut piece, PIECE).ok().unwrap() {
        keep(watch, &mut piece, &mut all);
    }
    keep(watch, &mut piece, &mut all);
    all
}

/// Two columns of numbers, a piece of which goes through a stage at a time: from buffers to buffers in the nearest cache.
type Columns = (Vec<u64>, Vec<u64>);

/// Takes samples through the stage of the voltages.
fn from_samples(watch: &mut Watch, samples: &[i32], mut stage: impl FnMut(&[i32], &mut [u64], &mut [u64])) -> Columns {
    let (mut first, mut second) = (vec![0; samples.len()], vec![0; samples.len()]);
    let (mut input, mut low, mut high) = ([0; PIECE], [0; PIECE], [0; PIECE]);
    for ((samples, first), second) in samples.chunks(PIECE).zip(first.chunks_mut(PIECE)).zip(second.chunks_mut(PIECE)) {
        let count = samples.len();
        input[..count].copy_from_slice(samples);
        watch.start = Instant::now();
        stage(&input[..count], &mut low[..count], &mut high[..count]);
        watch.lap();
        first.copy_from_slice(&low[..count]);
        second.copy_from_slice(&high[..count]);
    }
    (first, second)
}

/// Takes columns through another stage, in their places.
fn through(watch: &mut Watch, (first, second): &Columns, mut stage: impl FnMut(&mut [u64], &mut [u64])) -> Columns {
    let (mut first, mut second) = (first.clone(), second.clone());
    let (mut a, mut b) = ([0; PIECE], [0; PIECE]);
    for (first, second) in first.chunks_mut(PIECE).zip(second.chunks_mut(PIECE)) {
        let count = first.len();
        a[..count].copy_from_slice(first);
        b[..count].copy_from_slice(second);
        watch.start = Instant::now();
        for (a, b) in a[..count].chunks_mut(fast::BLOCK).zip(b[..count].chunks_mut(fast::BLOCK)) {
            stage(a, b);
        }
        watch.lap();
        first.copy_from_slice(&a[..count]);
        second.copy_from_slice(&b[..count]);
    }
    (first, second)
}

fn halves_plain(watch: &mut Watch, scale: &Scale, samples: &[i32]) -> (Vec<Interval>, Columns) {
    let (mut cutter, mut halves) = (Cutter::new(HALF), Vec::new());
    let intervals = from_samples(watch, samples, |samples, lows, highs| {
        for ((x, low), high) in samples.iter().zip(lows).zip(highs) {
            let (negative, lo, hi) = scale.voltage(*x).unwrap();
            (*low, *high) = (lo as u64, hi as u64);
            if let Some((lo, hi)) = cutter.push(negative, lo, hi) {
                halves.push(Interval { lo: lo as i64, hi: hi as i64 });
            }
        }
    });
    (halves, intervals)
}

fn halves_fast(watch: &mut Watch, scale: &Scale, samples: &[i32]) -> (Vec<Interval>, Columns) {
    let (mut halves, voltage) = (fast::halves::Halves::new(HALF), fast::voltage::Voltage::new(scale));
    let squares = from_samples(watch, samples, |samples, least, greatest| {
        assert_eq!(voltage.in_range(samples), samples.len());
        voltage.squares(samples, &mut halves, least, greatest);
    });
    (halves.values, squares)
}

fn adaptor_plain(watch: &mut Watch, intervals: &Columns) -> Columns {
    let mut front = Front::new(RATE);
    through(watch, intervals, |lows, highs| {
        for (low, high) in lows.iter_mut().zip(highs) {
            (*low, *high) = front.push(*low as i64, *high as i64);
        }
    })
}

/// Signals of a column of numbers.
fn signals(column: &[u64]) -> [i64; fast::BLOCK] {
    let mut signals = [0; fast::BLOCK];
    for (signal, number) in signals.iter_mut().zip(column) {
        *signal = *number as i64;
    }
    signals
}

fn put(column: &mut [u64], signals: &[i64]) {
    for (number, signal) in column.iter_mut().zip(signals) {
        *number = *signal as u64;
    }
}

fn sections_plain(watch: &mut Watch, points: &Columns) -> Columns {
    let mut cascade = Cascade::new(HERTZ, RATE);
    through(watch, points, |mids, radii| {
        for (mid, radius) in mids.iter_mut().zip(radii) {
            let (m, r) = cascade.step(i128::from(*mid), i128::from(*radius));
            (*mid, *radius) = (m as u64, r as u64);
        }
    })
}

fn sections_fast(watch: &mut Watch, points: &Columns) -> Columns {
    let mut sections = fast::sections::Sections::new(HERTZ, RATE);
    through(watch, points, |mids, radii| {
        let mut signal = signals(mids);
        sections.filter(&mut signal[..mids.len()]);
        put(mids, &signal);
        sections.radii(radii);
    })
}

fn smooth_plain(watch: &mut Watch, points: &Columns) -> Columns {
    let mut smooth = Smooth::new(RATE);
    through(watch, points, |mids, radii| {
        for (mid, radius) in mids.iter_mut().zip(radii) {
            let (lo, hi) = smooth.step(*mid as i64, *radius as i64);
            (*mid, *radius) = (lo as u64, hi as u64);
        }
    })
}

fn smooth_fast(watch: &mut Watch, points: &Columns) -> Columns {
    let mut smoother = fast::smooth::Smoother::new(RATE);
    through(watch, points, |mids, radii| {
        let mut signal = signals(mids);
        assert!(smoother.levels(&mut signal[..mids.len()], radii) == fast::smooth::Levels::Narrow);
        put(mids, &signal);
    })
}

fn ranks_plain(watch: &mut Watch, (low, high): &Columns) -> (u64, u64) {
    let (mut lows, mut highs) = (Ends::with_capacity(low.len()), Ends::with_capacity(low.len()));
    watch.begin();
    for (low, high) in low.chunks(PIECE).zip(high.chunks(PIECE)) {
        for (low, high) in low.iter().zip(high) {
            lows.push(i128::from(*low));
            highs.push(i128::from(*high));
        }
        watch.lap();
    }
    let severity = (lows.severity(), highs.severity());
    watch.lap();
    severity
}

fn ranks_fast(watch: &mut Watch, (low, high): &Columns) -> (u64, u64) {
    let (mut lows, mut highs) = (fast::ranks::Ranks::with_capacity(low.len()), fast::ranks::Ranks::with_capacity(low.len()));
    watch.begin();
    for (low, high) in low.chunks(PIECE).zip(high.chunks(PIECE)) {
        for (low, high) in low.chunks(fast::BLOCK).zip(high.chunks(fast::BLOCK)) {
            lows.extend(low.iter().copied());
            highs.extend(high.iter().copied());
        }
        watch.lap();
    }
    let severity = (lows.severity(), highs.severity());
    watch.lap();
    severity
}

fn flags_plain(watch: &mut Watch, halves: &[Interval]) -> Vec<Flag> {
    let flags = (1..=halves.len()).map(|count| flag_of(&halves[..count], WINDOW)).collect();
    watch.lap();
    flags
}

fn lapped<T>(watch: &mut Watch, answer: T) -> T {
    watch.lap();
    answer
}

fn same(p: &Interval, q: &Interval) -> bool {
    (p.lo, p.hi) == (q.lo, q.hi)
}

fn main() {
    let words: Vec<String> = env::args().skip(1).collect();
    let runs: usize = words[4].parse().unwrap();
    let (text, binary) = (configuration(&words[0]), configuration(&words[2]));
    let count = text.endsamp as usize;
    println!("{:<30} {:>8} {:>8} {:>6}", "stage", "plain", "fast", "ratio");
    let all = count * text.analog.len();
    let (a, b) = Stage::new("reading, ASCII", all).run(runs, |w| read_plain(w, &words[1], &text), |w| read_fast(w, &words[1], &text));
    let (c, d) = Stage::new("reading, BINARY", all).run(runs, |w| read_plain(w, &words[3], &binary), |w| read_fast(w, &words[3], &binary));
    assert!(a == b && b == c && c == d);
    let scale = Scale::new(&text, 0, 230_000, 6250).unwrap();
    let ((halves, intervals), (other, squares)) =
        Stage::new("voltage, with half-periods", count).run(runs, |w| halves_plain(w, &scale, &a[0]), |w| halves_fast(w, &scale, &a[0]));
    assert!(halves.len() == other.len() && halves.iter().zip(&other).all(|(p, q)| same(p, q)));
    let points = Stage::new("adaptor", count).run(runs, |w| adaptor_plain(w, &intervals), |w| {
        let mut adaptor = fast::adaptor::Adaptor::new(RATE);
        through(w, &squares, |least, greatest| adaptor.points(least, greatest))
    });
    assert!(points.0 == points.1);
    let signals = Stage::new("sections", count).run(runs, |w| sections_plain(w, &points.0), |w| sections_fast(w, &points.0));
    assert!(signals.0 == signals.1);
    let levels = Stage::new("smoothing", count).run(runs, |w| smooth_plain(w, &signals.0), |w| smooth_fast(w, &signals.0));
    assert!(levels.0 == levels.1);
    let severities = Stage::new("ranks", count).run(runs, |w| ranks_plain(w, &levels.0), |w| ranks_fast(w, &levels.0));
    assert!(severities.0 == severities.1);
    let flags = Stage::new("flags", count).run(runs, |w| flags_plain(w, &halves), |w| lapped(w, fast::flags::flags_of(&halves, WINDOW)));
    assert!(flags.0 == flags.1);
    let outcomes = Stage::new("changes", count).run(
        runs,
        |w| lapped(w, changes(&halves, &flags.0, WINDOW)),
        |w| lapped(w, fast::changes::changes(&halves, &flags.0, WINDOW)),
    );
    assert!(same(&outcomes.0 .0.dmax, &outcomes.1 .0.dmax) && same(&outcomes.0 .0.dc, &outcomes.1 .0.dc));
}
