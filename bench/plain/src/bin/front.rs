//! The adaptor and the squaring of pseudo-random voltages at 2400 samples a second, in plain Rust with the same integer arithmetic: the
//! yardstick of `bench/flickermeter.py`. It takes the number of samples, and prints a checksum of all points.

use plain::front::Front;
use std::env;

fn main() {
    let samples: u32 = env::args().nth(1).unwrap().parse().unwrap();
    let mut front = Front::new(2400);
    let (mut state, mut sum) = (1u32, 0u64);
    for _ in 0..samples {
        state = state.wrapping_mul(1_664_525).wrapping_add(1_013_904_223);
        let v = (i64::from(state) - (1 << 31)) * 227_023;
        let (mid, radius) = front.push(v - 7658, v + 7658);
        sum = sum.wrapping_mul(31).wrapping_add(mid ^ radius);
    }
    println!("{sum}");
}
