//! dc, dmax and Tmax of pseudo-random half-periods, in plain Rust with the same integer arithmetic: the yardstick of
//! `bench/changes.py`. It takes the number of half-periods and that of a window, and prints the answers and the processor
//! time for the flags and of the function `changes`.

use plain::changes::{changes, Flag, Interval};
use std::collections::VecDeque;
use std::env;

const STEADY_LIMIT: i64 = 4_000_000;

/// The greatest of the newest values, by those that are greater than every later one.
struct Extreme {
    kept: VecDeque<(usize, i64)>,
}

impl Extreme {
    fn new(window: usize) -> Extreme {
        Extreme { kept: VecDeque::with_capacity(window) }
    }

    /// Takes the value at a place, and answers the greatest of the values from `begin` to it.
    fn push(&mut self, place: usize, begin: usize, value: i64) -> i64 {
        if self.kept.front().is_some_and(|first| first.0 < begin) {
            self.kept.pop_front();
        }
        while self.kept.back().is_some_and(|last| last.1 <= value) {
            self.kept.pop_back();
        }
        self.kept.push_back((place, value));
        self.kept[0].1
    }
}

fn flags_of(halves: &[Interval], window: usize) -> Vec<Flag> {
    let mut ends: [Extreme; 4] = std::array::from_fn(|_| Extreme::new(window));
    let mut flags = Vec::new();
    for (i, half) in halves.iter().enumerate() {
        let begin = (i + 1).saturating_sub(window);
        let least_low = -ends[0].push(i, begin, -half.lo);
        let greatest_low = ends[1].push(i, begin, half.lo);
        let least_high = -ends[2].push(i, begin, -half.hi);
        let greatest_high = ends[3].push(i, begin, half.hi);
        flags.push(if i + 1 < window {
            Flag::Early
        } else if greatest_high - least_low <= STEADY_LIMIT {
            Flag::Sure
        } else if greatest_low - least_high > STEADY_LIMIT {
            Flag::Not
        } else {
            Flag::Doubtful
        });
    }
    flags
}

fn next(state: u32) -> u32 {
    state.wrapping_mul(1_664_525).wrapping_add(1_013_904_223)
}

fn half_periods(count: u32, doubt: bool) -> Vec<Interval> {
    let (mut state, mut level, mut steady, mut doubtful) = (1, 0, true, false);
    let mut halves = Vec::new();
    for i in 0..count {
        let (block, place) = (i / 1000, i % 1000);
        if place == 0 {
            state = next(state);
            level = 919_000_000 + 10_000_000 * ((state >> 16) % 9);
            state = next(state);
            doubtful = doubt && block % 300 == 150 && block / 300 < 6;
            steady = doubtful || (state >> 16) % 4 != 0;
        }
        state = next(state);
        let swing = if steady { 20_000_000 } else { 10_000_000 * ((state >> 16) % 5) };
        state = next(state);
        let noise = match place {
            400 if doubtful => 0,
            499 if doubtful => 4_000_000,
            _ => 1_000_000 + (state >> 8) % 2_000_001,
        };
        let value = i64::from(level + swing + noise);
        halves.push(Interval { lo: value - 10, hi: value + 10 });
    }
    halves
}

extern "C" {
    fn clock_gettime(clock: i32, time: *mut [i64; 2]) -> i32;
}

/// The processor time that the process has used, in nanoseconds.
fn processor_time() -> i64 {
    const PROCESS: i32 = 2;
    let mut time = [0; 2];
    // it writes a time of two numbers of 64 bits
    let status = unsafe { clock_gettime(PROCESS, &mut time) };
    assert_eq!(status, 0);
    1_000_000_000 * time[0] + time[1]
}

fn main() {
    let words: Vec<String> = env::args().skip(1).collect();
    let (count, window) = (words[0].parse().unwrap(), words[1].parse().unwrap());
    for doubt in [false, true] {
        let halves = half_periods(count, doubt);
        let begin = processor_time();
        let flags = flags_of(&halves, window);
        let start = processor_time();
        let (o, doubtful) = changes(&halves, &flags, window);
        let end = processor_time();
        println!("dc {} {} dmax {} {}", o.dc.lo, o.dc.hi, o.dmax.lo, o.dmax.hi);
        println!("t {} {} doubtful {doubtful}", o.t.lo, o.t.hi);
        println!("nanoseconds {} {}", start - begin, end - start);
    }
}
