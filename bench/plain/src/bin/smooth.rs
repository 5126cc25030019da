//! The squaring and smoothing of pseudo-random points at 2400 samples a second, in plain Rust with the same integer arithmetic: the
//! yardstick of `bench/flickermeter.py`. It takes the number of samples, and prints a checksum of all levels.

use plain::smooth::Smooth;
use std::env;

fn main() {
    let samples: u32 = env::args().nth(1).unwrap().parse().unwrap();
    let mut smooth = Smooth::new(2400);
    let (mut state, mut sum) = (1u32, 0u64);
    for _ in 0..samples {
        state = state.wrapping_mul(1_664_525).wrapping_add(1_013_904_223);
        let (low, high) = smooth.step((i64::from(state) - (1 << 31)) * 65_536, i64::from(state >> 22));
        sum = sum.wrapping_mul(31).wrapping_add(low as u64 ^ high as u64);
    }
    println!("{sum}");
}
