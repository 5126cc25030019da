//! The short-term severity of intervals of pseudo-random levels, in plain Rust with the same integer arithmetic: the yardstick of
//! `bench/flickermeter.py`. It selects the percentiles of both lists of ends by `select_nth_unstable`, in 64 bits. It takes the number of
//! intervals, each of 1,440,000 levels, and prints a checksum of all severities.

use plain::severity::Ends;
use std::env;

const LEVELS: usize = 1_440_000;

fn main() {
    let intervals: u32 = env::args().nth(1).unwrap().parse().unwrap();
    let (mut lows, mut highs) = (Ends::with_capacity(LEVELS), Ends::with_capacity(LEVELS));
    let (mut state, mut sum) = (1u32, 0u64);
    for _ in 0..intervals {
        for _ in 0..LEVELS {
            state = state.wrapping_mul(1_664_525).wrapping_add(1_013_904_223);
            lows.push(i128::from(state) * 65_536);
            highs.push(i128::from(state) * 65_536 + i128::from(state >> 20));
        }
        let (low, high) = (lows.severity(), highs.severity());
        sum = sum.wrapping_mul(31).wrapping_add(low + high);
    }
    println!("{sum}");
}
