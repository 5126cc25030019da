#!/usr/bin/env python3
"""Times `Scale::voltage` with `Cutter::push` of the crates flk_scale and flk_half, `Front::push` of flk_front, `Cascade::step` of flk_section, and
`Smooth::step` and `Levels::end` of flk_stat, each beside a plain Rust program of the same integer arithmetic.

    bench/flickermeter.py [SAMPLES] [RUNS] [NAME..]

Builds a small program over each crate in a temporary folder by `rt run`, which proves it. The programs take SAMPLES pseudo-random samples
(10,000,000 where nothing is said) and print a checksum of all answers: the scale takes samples of a square wave whose half-periods have 24
samples, the front takes voltages with a mean square of about 1, as intervals of about 5e-11 of nominal, the cascade of the lamp 230/50 takes
points of up to 4 times nominal squared, the smoothing at 2400 samples a second points of up to a half, and the severity whole intervals of
1,440,000 levels of up to 1: as many as the samples make, at least one. Runs both programs RUNS times (5) in turn, compares what they print, and
prints for each the least processor time, and the ratio. With names (`voltage`, `front`, `cascade`, `smooth`, `severity`) only those. Before
that it times `whole_of`, which makes the bound of a whole cascade, for both lamps at both rates."""
import sys
import tempfile

import programs

VOLTAGE = """//! Takes pseudo-random samples of a square wave through a scale and a cutter, and prints a checksum of all answers.
#![tactic(auto)]

use flk_cfg::read_cfg;
use flk_half::Cutter;
use flk_scale::{Scale, Supply, match_channel};
use std::io;

const CONFIGURATION: &str = "LAB,DAQ,1999\\r\\n1,1A,0D\\r\\n1,U,A,,V,0.0125,0,0,-32767,32767,1,1,P\\r\\n50\\r\\n1\\r\\n\\
    2400,4800\\r\\n12/03/2021,09:15:00.000000\\r\\n12/03/2021,09:15:00.000000\\r\\nBINARY\\r\\n1\\r\\n";

fn step(scale: &Scale, cutter: &mut Cutter, x: i32) -> u64 {
    let Ok(v) = scale.voltage(x) else {
        return 0;
    };
    match cutter.push(scale.negative(x), v) {
        Some(half) => (half.lo as u64) ^ (half.hi as u64),
        None => (v.lo.unsigned_abs() as u64) ^ (v.hi.unsigned_abs() as u64),
    }
}

fn main(rt: HostRuntime) -> io::Result<()> {
    let Ok(config) = read_cfg(rt.alloc(), CONFIGURATION.as_bytes()) else {
        return Ok(());
    };
    let supply = Supply { nominal_mv: 230_000, uncertainty_uv: 6250 };
    let Ok(scale) = match_channel(1, &supply, &config) else {
        return Ok(());
    };
    let mut cutter = Cutter::new(24);
    let mut state: u32 = 1;
    let mut sum: u64 = 0;
    for k in 0..%du32 {
        state = state.wrapping_mul(1_664_525).wrapping_add(1_013_904_223);
        let size = (13_000 + (state >> 18) %% 16_384) as i32;
        let x = if k / 24 %% 2 == 0 { size } else { 0_i32.wrapping_sub(size) };
        sum = sum.wrapping_mul(31).wrapping_add(step(&scale, &mut cutter, x));
    }
    println!(rt; "{sum}")?;
    Ok(())
}
"""

FRONT = """//! Pushes pseudo-random voltages into a front, and prints a checksum of all points.
#![tactic(auto)]

use flk_front::Front;
use flk_num::Interval;
use std::io;

fn step(front: &mut Front, state: u32) -> u64 {
    let v = (i128::from(state) - 2_147_483_648) * 227_023;
    let p = front.push(Interval { lo: v - 7658, hi: v + 7658 });
    (p.mid as u64) ^ (p.radius as u64)
}

fn main(rt: HostRuntime) -> io::Result<()> {
    let mut front = Front::new();
    let mut state: u32 = 1;
    let mut sum: u64 = 0;
    for _ in 0..%du32 {
        state = state.wrapping_mul(1_664_525).wrapping_add(1_013_904_223);
        sum = sum.wrapping_mul(31).wrapping_add(step(&mut front, state));
    }
    println!(rt; "{sum}")?;
    Ok(())
}
"""

CASCADE = """//! Takes pseudo-random points through the cascade of a lamp, and prints a checksum of all answers.
#![tactic(auto)]

use flk_cert::{Coefs, Gain, check, make};
use flk_design::design;
use flk_front::Point;
use flk_num::Lamp;
use flk_section::{Cascade, Whole, fits, whole_of};
use std::alloc::Global;
use std::io;

fn gain_of(alloc: Global, k: &Coefs) -> Option<Gain> {
    match make(alloc, k) {
        Ok(cert) => check(k, &cert).ok(),
        Err(_) => None,
    }
}

fn gains_of(alloc: Global) -> Option<[Gain; 7]> {
    let sections = design(Lamp::L230);
    let mut gains = [gain_of(alloc, &sections[0])?; 7];
    for i in 1..7 {
        gains[i] = gain_of(alloc, &sections[i])?;
    }
    Some(gains)
}

fn bound_of(gains: &[Gain; 7]) -> Option<Whole> {
    if fits(gains) { whole_of(gains) } else { None }
}

fn step(cascade: &mut Cascade, state: u32) -> u64 {
    let p = cascade.step(Point { mid: i128::from(state) * 262_144, radius: i128::from(state >> 22) });
    (p.mid.unsigned_abs() as u64) ^ (p.radius as u64)
}

fn main(rt: HostRuntime) -> io::Result<()> {
    let Some(gains) = gains_of(rt.alloc()) else {
        return Ok(());
    };
    let Some(whole) = bound_of(&gains) else {
        return Ok(());
    };
    let mut cascade = Cascade::new(whole);
    let mut state: u32 = 1;
    let mut sum: u64 = 0;
    for _ in 0..%du32 {
        state = state.wrapping_mul(1_664_525).wrapping_add(1_013_904_223);
        sum = sum.wrapping_mul(31).wrapping_add(step(&mut cascade, state));
    }
    println!(rt; "{sum}")?;
    Ok(())
}
"""

SMOOTH = """//! Takes pseudo-random points through the smoothing, and prints a checksum of all levels.
#![tactic(auto)]

use flk_front::Point;
use flk_stat::Smooth;
use std::io;

fn step(smooth: &mut Smooth, state: u32) -> u64 {
    let v = smooth.step(Point { mid: (i128::from(state) - 2_147_483_648) * 65_536, radius: i128::from(state >> 22) });
    ((v.lo.unsigned_abs() ^ v.hi.unsigned_abs()) & u128::from(u64::MAX)) as u64
}

fn main(rt: HostRuntime) -> io::Result<()> {
    let mut smooth = Smooth::new();
    let mut state: u32 = 1;
    let mut sum: u64 = 0;
    for _ in 0..%du32 {
        state = state.wrapping_mul(1_664_525).wrapping_add(1_013_904_223);
        sum = sum.wrapping_mul(31).wrapping_add(step(&mut smooth, state));
    }
    println!(rt; "{sum}")?;
    Ok(())
}
"""

SEVERITY = """//! Ends intervals of pseudo-random levels, and prints a checksum of all severities.
#![tactic(auto)]

use flk_num::Interval;
use flk_stat::Levels;
use std::io;

fn add(levels: &mut Levels, state: u32) {
    if 0 < levels.room() {
        let lo = i128::from(state) * 65_536;
        levels.add(Interval { lo, hi: lo + i128::from(state >> 20) });
    }
}

fn end(levels: &mut Levels) -> u64 {
    if 0 < levels.room() {
        return 0;
    }
    let v = levels.end();
    (v.lo + v.hi) as u64
}

fn main(rt: HostRuntime) -> io::Result<()> {
    let Ok(mut levels) = Levels::new(rt.alloc(), 1_440_000) else {
        return Ok(());
    };
    let mut state: u32 = 1;
    let mut sum: u64 = 0;
    for _ in 0..%du32 {
        for _ in 0..1_440_000u32 {
            state = state.wrapping_mul(1_664_525).wrapping_add(1_013_904_223);
            add(&mut levels, state);
        }
        sum = sum.wrapping_mul(31).wrapping_add(end(&mut levels));
    }
    println!(rt; "{sum}")?;
    Ok(())
}
"""

WHOLE = """//! Makes the bound of a lamp's whole cascade many times, for both lamps at both rates, and prints a checksum.
#![tactic(auto)]

use flk_cert::{Coefs, Gain, check, make};
use flk_design::design_at;
use flk_num::{Lamp, Rate};
use flk_section::{fits, whole_of};
use std::alloc::Global;
use std::io;

fn gain_of(alloc: Global, k: &Coefs) -> Option<Gain> {
    match make(alloc, k) {
        Ok(cert) => check(k, &cert).ok(),
        Err(_) => None,
    }
}

fn gains_of(alloc: Global, lamp: Lamp, rate: Rate) -> Option<[Gain; 7]> {
    let sections = design_at(lamp, rate);
    let mut gains = [gain_of(alloc, &sections[0])?; 7];
    for i in 1..7 {
        gains[i] = gain_of(alloc, &sections[i])?;
    }
    Some(gains)
}

fn input_of(gains: &[Gain; 7]) -> u64 {
    if !fits(gains) {
        return 0;
    }
    match whole_of(gains) {
        Some(whole) => whole.input() as u64,
        None => 0,
    }
}

fn main(rt: HostRuntime) -> io::Result<()> {
    let mut sum: u64 = 0;
    for lamp in [Lamp::L230, Lamp::L120] {
        for rate in [Rate::R2400, Rate::R4800] {
            let Some(gains) = gains_of(rt.alloc(), lamp, rate) else {
                return Ok(());
            };
            for _ in 0..%du32 {
                sum = sum.wrapping_mul(31).wrapping_add(input_of(&gains));
            }
        }
    }
    println!(rt; "{sum}")?;
    Ok(())
}
"""

# How often `whole_of` is called for each lamp and rate.
CALLS = 25

# The crate that is timed, the program over it with the crates that it uses, the plain program, and the samples that it takes at a time.
TIMED = [
    ("flk_scale", VOLTAGE, ["flk_cfg", "flk_half", "flk_scale"], "voltage", 1),
    ("flk_front", FRONT, ["flk_num", "flk_front"], "front", 1),
    ("flk_section", CASCADE, ["flk_num", "flk_cert", "flk_design", "flk_front", "flk_section"], "cascade", 1),
    ("flk_stat", SMOOTH, ["flk_front", "flk_stat"], "smooth", 1),
    ("flk_stat", SEVERITY, ["flk_num", "flk_stat"], "severity", 1_440_000),
]


def compared(crate, both, samples, runs):
    """Runs both programs in turn, and prints their least times and the ratio."""
    best, texts = {}, set()
    for _ in range(runs):
        for name, words in both.items():
            seconds, _, out = programs.run(words)
            best[name] = min(best.get(name, seconds), seconds)
            texts.add(out)
    if len(texts) != 1 or texts == {b""}:
        sys.exit("the two programs print different texts, or nothing: %s" % texts)
    for name in both:
        print("%-11s %7.3f s  %6.1f ns a sample" % (name, best[name], 1e9 * best[name] / samples))
    print("ratio %.2f" % (best[crate] / best["plain Rust"]))


def main():
    samples = int(sys.argv[1]) if len(sys.argv) > 1 else 10_000_000
    runs = int(sys.argv[2]) if len(sys.argv) > 2 else 5
    with tempfile.TemporaryDirectory() as folder:
        program = programs.over_crates(folder, "bench_whole", ["flk_num", "flk_cert", "flk_design", "flk_section"], {"src/main.rt": WHOLE % CALLS})
        seconds = min(programs.run([program])[0] for _ in range(runs))
        print("whole_of     %7.2f ms a call, with its share of the certificates" % (1e3 * seconds / (4 * CALLS)))
    print("%d samples, best of %d runs" % (samples, runs))
    for crate, text, uses, plain, at_a_time in TIMED:
        if sys.argv[3:] and plain not in sys.argv[3:]:
            continue
        turns = max(1, samples // at_a_time)
        print("%s, %d samples:" % (plain, turns * at_a_time))
        with tempfile.TemporaryDirectory() as folder:
            program = programs.over_crates(folder, "bench_" + plain, uses, {"src/main.rt": text % turns})
            both = {crate: [program], "plain Rust": [programs.plain(folder, plain), str(turns)]}
            compared(crate, both, turns * at_a_time, runs)


if __name__ == "__main__":
    main()
