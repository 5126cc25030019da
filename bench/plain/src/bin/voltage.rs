//! The voltages and the half-periods of a pseudo-random square wave, in plain Rust with the same integer arithmetic: the
//! yardstick of `bench/flickermeter.py`. It takes the number of samples, and prints a checksum of all answers.

use plain::configuration::read_configuration;
use plain::cutter::Cutter;
use plain::scale::Scale;
use std::env;

const CONFIGURATION: &str = "LAB,DAQ,1999\r\n1,1A,0D\r\n1,U,A,,V,0.0125,0,0,-32767,32767,1,1,P\r\n50\r\n1\r\n\
    2400,4800\r\n12/03/2021,09:15:00.000000\r\n12/03/2021,09:15:00.000000\r\nBINARY\r\n1\r\n";

fn main() {
    let samples: u32 = env::args().nth(1).unwrap().parse().unwrap();
    let config = read_configuration(CONFIGURATION.as_bytes()).unwrap();
    let Ok(scale) = Scale::new(&config, 0, 230_000, 6250) else { panic!() };
    let mut cutter = Cutter::new(24);
    let (mut state, mut sum) = (1u32, 0u64);
    for k in 0..samples {
        state = state.wrapping_mul(1_664_525).wrapping_add(1_013_904_223);
        let size = 13_000 + (state >> 18) as i32;
        let (negative, lo, hi) = scale.voltage(if k / 24 % 2 == 0 { size } else { -size }).unwrap();
        let answer = match cutter.push(negative, lo, hi) {
            Some((lo, hi)) => lo ^ hi,
            None => (lo.unsigned_abs() ^ hi.unsigned_abs()) as u64,
        };
        sum = sum.wrapping_mul(31).wrapping_add(answer);
    }
    println!("{sum}");
}
