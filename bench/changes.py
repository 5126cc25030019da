#!/usr/bin/env python3
"""Times `Steady::push` and `changes` of the crate flk_change beside a plain Rust program of the same integer arithmetic.

    bench/changes.py [HALF_PERIODS] [RUNS]

Builds a small program over the crate in a temporary folder by `rt run`, which proves it. Both programs make HALF_PERIODS pseudo-random
half-periods (2,000,000 where nothing is said) of a window of 100, as intervals of 20 billionths: levels from 94 to 102 percent of
nominal, each over 1000 half-periods and one in four of them with swings of 1 and 2 percent, and a noise of 0.1 percent. This is done
once without doubt and once with six Doubtful flags, in six windows whose first and last value are about 4,000,000 billionths apart. Both
programs read the clock of the processor time that the process has used before and after what is timed: finding the flags, by a
`Steady::push` for each half-period, and the one call of `changes`; and what the plain program does for the same. So the time is that of the
calls alone, and other work on the machine counts little. The script runs both programs RUNS times (5) in turn, compares what they print,
and prints for each the least time, and the ratio."""
import sys
import tempfile

import programs

PROGRAM = """//! Times `changes` on pseudo-random half-periods.
#![tactic(auto)]

use flk_change::{ChangeSummary, Flag, OutOfMemory, Steady, changes};
use flk_num::Interval;
use std::alloc::Global;
use std::time::{CpuClock, Duration};
use std::{env, io};

fn next(state: u32) -> u32 {
    state.wrapping_mul(1_664_525).wrapping_add(1_013_904_223)
}

// The interval of a value that is a sum.
fn around(level: u32, swing: u32, noise: u32) -> Interval {
    let value = i128::from(level) + i128::from(swing) + i128::from(noise);
    Interval {
        lo: value - 10,
        hi: value + 10,
    }
}

// The level from a draw, less than it by the half of what swing and noise may add.
fn level_of(state: u32) -> u32 {
    919_000_000 + 10_000_000 * ((state >> 16) % 9)
}

fn swing_of(state: u32, steady: bool) -> u32 {
    if steady {
        20_000_000
    } else {
        10_000_000 * ((state >> 16) % 5)
    }
}

// The noise of one half-period, or what makes its window doubtful.
fn noise_of(state: u32, place: u32, doubtful: bool) -> u32 {
    if doubtful && place == 400 {
        return 0;
    }
    if doubtful && place == 499 {
        return 4_000_000;
    }
    1_000_000 + (state >> 8) % 2_000_001
}

fn halves(alloc: Global, count: u32, doubt: bool) -> Result<Vec<Interval>, OutOfMemory> {
    let mut halves = Vec::new(alloc);
    let mut state: u32 = 1;
    let mut level: u32 = 0;
    let mut steady = true;
    let mut doubtful = false;
    for i in 0..count {
        let block = i / 1000;
        if i % 1000 == 0 {
            state = next(state);
            level = level_of(state);
            state = next(state);
            doubtful = doubt && block % 300 == 150 && block / 300 < 6;
            steady = doubtful || (state >> 16) % 4 != 0;
        }
        state = next(state);
        let swing = swing_of(state, steady);
        state = next(state);
        halves.push(around(level, swing, noise_of(state, i % 1000, doubtful)))?;
    }
    Ok(halves)
}

// What `changes` answers for the half-periods, how long finding their flags takes, and how long `changes`.
#[derive(Drop)]
struct Times {
    summary: ChangeSummary,
    flags: Duration,
    changes: Duration,
}

// None where a half-period is out of range.
fn timed(rt: &HostRuntime, halves: &[Interval], window: usize) -> io::Result<Option<Times>> {
    if window < 1 || 240 < window || 4_294_967_295 <= halves.len() {
        return Ok(None);
    }
    let mut steady = Steady::new(rt.alloc(), window)?;
    let mut flags: Vec<Flag> = Vec::new(rt.alloc());
    let begin = rt.process_cpu_time()?;
    for half in halves {
        if half.lo < 0 || 10_000_000_000 < half.hi {
            return Ok(None);
        }
        flags.push(steady.push(*half))?;
    }
    let start = rt.process_cpu_time()?;
    let summary = changes(halves, &flags, window);
    let end = rt.process_cpu_time()?;
    Ok(Some(Times {
        summary,
        flags: start.saturating_sub(begin),
        changes: end.saturating_sub(start),
    }))
}

fn report(rt: &HostRuntime, count: u32, window: usize, doubt: bool) -> io::Result<()> {
    let halves = halves(rt.alloc(), count, doubt)?;
    let Some(t) = timed(rt, &halves, window)? else {
        return Ok(());
    };
    let s = t.summary;
    println!(rt;
        "dc {} {} dmax {} {}",
        s.dc.lo, s.dc.hi, s.dmax.lo, s.dmax.hi
    )?;
    println!(rt; "t {} {} doubtful {}", s.t.lo, s.t.hi, s.doubtful)?;
    println!(rt; "nanoseconds {} {}", t.flags.as_nanos(), t.changes.as_nanos())?;
    Ok(())
}

// The number that a word of the command line gives, 0 where it gives none.
fn number(rt: &HostRuntime, place: usize) -> io::Result<u32> {
    let Some(word) = env::args(rt)?.nth(place) else {
        return Ok(0);
    };
    Ok(word.parse::<u32>().unwrap_or(0))
}

fn main(rt: HostRuntime) -> io::Result<()> {
    let count = number(&rt, 1)?;
    let window = number(&rt, 2)? as usize;
    report(&rt, count, window, false)?;
    report(&rt, count, window, true)
}
"""

INVARIANTS = """use Rattle.std.proofs.Common.{◌≡◌, take}
use Rattle.std.specs.List.{All}
use Rattle.flk_num.specs.Values.{IsHalfPeriodRange}
use Rattle.flk_change.specs.Steady.{Stands, AreFlags, taken}
use Rattle.bench_changes.proofs.timed.Given as goal

-- the state stands for the half-periods so far, which have these flags
abbrev pub invariant-loop-half : goal.invariant-loop-half
invariant-loop-half l = record {
  taken : taken l.steady ≡ l.half-index;
  stands : Stands l.steady l.fn.window (take l.half-index l.halves);
  flags : AreFlags l.fn.window (take l.half-index l.halves) l.flags.items;
  range : All IsHalfPeriodRange (take l.half-index l.halves);
}
"""

ANSWERS = """use Rattle.std.proofs.Common.{arith, ◌≡◌, ◌+◌, ◌++◌, ◌∷◌, [], List, take, sym, ap, ◌∙◌, subst}
use Rattle.std.specs.List.{All}
use Rattle.std.proofs.lemmas.Int.{ints}
use Rattle.std.proofs.lemmas.List.{take_more, take_all}
use Rattle.std.proofs.lemmas.List.Elements.{All-nil, All-push}
use Rattle.flk_num.specs.declared.interval.Interval.{Interval}
use Rattle.flk_num.specs.Values.{IsHalfPeriodRange}
use Rattle.flk_change.specs.Steady.{AreFlags}
use Rattle.flk_change.proofs.FlagLemmas.{flags_none}
use Rattle.bench_changes.proofs.timed.Goals as goal

pub loop-half-init : goal.loop-half-init
loop-half-init c = record {
  taken = c.in_ok-steady.ensures.taken;
  stands = c.in_ok-steady.ensures.stands;
  flags = rw c.new-flags.ensures.items (flags_none c.args.window);
  range = All-nil IsHalfPeriodRange;
}

pub loop-half-preserved : goal.loop-half-preserved
loop-half-preserved c =
    let window = c.args.window in
    let halves = c.args.halves.now in
    let i = c.loop-half.half-index in
    let v = c.half-item.result in
    let front = take i halves in
    let more : take (i + 1) halves ≡ front ++ v ∷ [] = take_more halves i v c.loop-half-test.true ∙ ap (λ (u : Interval). front ++ u ∷ []) (sym c.half-item.is) in
    let inv = c.loop-half.invariant in
    record {
      taken = omega (arith, c.push.ensures.taken, inv.taken);
      stands = rw more (c.push.ensures.stands window front inv.stands);
      flags = rw (more, c.in_ok-push.ensures.items) (c.push.ensures.flags window front c.loop-half.flags.items inv.stands inv.flags);
      range = rw more (All-push IsHalfPeriodRange front v inv.range (record { low = omega (arith, ints, c.if-half-lt0.false); high = omega (arith, ints, c.if-half-gt10000000000.false) }));
    }

pub changes-summary-requires-clause-in_range : goal.changes-summary-requires-clause-in_range
changes-summary-requires-clause-in_range c =
    let whole = take_all c.loop-half.half-index c.args.halves.now c.loop-half-test.false in
    subst (All IsHalfPeriodRange) whole c.loop-half.invariant.range

pub changes-summary-requires-clause-flags : goal.changes-summary-requires-clause-flags
changes-summary-requires-clause-flags c =
    let whole = take_all c.loop-half.half-index c.args.halves.now c.loop-half-test.false in
    rw c.deref.ensures.value (subst (λ (hs : List Interval). AreFlags c.args.window hs c.loop-half.flags.items) whole c.loop-half.invariant.flags)
"""


def built(folder):
    """The path of the program over the crate, proved and built in a folder."""
    files = {
        "src/main.rt": PROGRAM,
        "proofs/timed/Invariants.antt": INVARIANTS,
        "proofs/timed/Answers.antt": ANSWERS,
    }
    return programs.over_crates(folder, "bench_changes", ["flk_num", "flk_change"], files)


def read(text):
    """What a program prints of the changes, and the seconds for the flags and for `changes`, without doubt and with it."""
    lines = text.decode().split("\n")
    times = [int(word) / 1e9 for line in lines if line.startswith("nanoseconds") for word in line.split()[1:]]
    return [line for line in lines if not line.startswith("nanoseconds")], times


def main():
    count = int(sys.argv[1]) if len(sys.argv) > 1 else 2_000_000
    runs = int(sys.argv[2]) if len(sys.argv) > 2 else 5
    with tempfile.TemporaryDirectory() as folder:
        words = [str(count), "100"]
        both = {"flk_change": [built(folder)] + words, "plain Rust": [programs.plain(folder, "changes")] + words}
        best, texts = {}, []
        for _ in range(runs):
            for name, words in both.items():
                text, times = read(programs.run(words)[2])
                best[name] = [min(pair) for pair in zip(best.get(name, times), times)]
                if text not in texts:
                    texts.append(text)
        if len(texts) != 1:
            sys.exit("the two programs print different texts: %s" % texts)
        print("%d half-periods, best of %d runs" % (count, runs))
        for name, (flags, calm, more, doubt) in best.items():
            print("%-10s flags %6.1f ns a half-period   changes: no doubt %8.4f s   six doubtful flags %7.3f s"
                  % (name, min(flags, more) / count * 1e9, calm, doubt))
        (f, a, g, b), (p, x, q, y) = best.values()
        print("ratio      flags %6.2f                    changes: no doubt %8.2f     six doubtful flags %7.2f"
              % (min(f, g) / min(p, q), a / x, b / y))


if __name__ == "__main__":
    main()
