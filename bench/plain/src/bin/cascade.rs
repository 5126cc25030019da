//! The seven sections of the lamp 230/50 in a row at 2400 samples a second, over pseudo-random points, in plain Rust with the same integer
//! arithmetic: the yardstick of `bench/flickermeter.py`. It takes the number of samples, and prints a checksum of all answers.

use plain::cascade::Cascade;
use std::env;

fn main() {
    let samples: u32 = env::args().nth(1).unwrap().parse().unwrap();
    let mut cascade = Cascade::new(50, 2400);
    let (mut state, mut sum) = (1u32, 0u64);
    for _ in 0..samples {
        state = state.wrapping_mul(1_664_525).wrapping_add(1_013_904_223);
        let (mid, radius) = cascade.step(i128::from(state) * 262_144, i128::from(state >> 22));
        sum = sum.wrapping_mul(31).wrapping_add(mid.unsigned_abs() as u64 ^ radius as u64);
    }
    println!("{sum}");
}
