//! The reading of a configuration, in plain Rust: the yardstick of `bench/configuration.py`. It reads the file whole, makes the
//! configuration's value and prints its first fault, or that the unit of channel 1 is no voltage where the configuration is accepted.

use plain::configuration::read_configuration;
use std::{env, fs, process};

fn main() {
    let bytes = fs::read(env::args().nth(1).unwrap()).unwrap();
    match std::hint::black_box(read_configuration(&bytes)) {
        Err((line, field, kind)) => println!("fault configuration {line} {field} {kind}"),
        Ok(_) => println!("fault match 2 1 0"),
    }
    process::exit(2)
}
