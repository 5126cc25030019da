//! The commands `levels` and `check` on any recording, in plain Rust with the same integer arithmetic: the yardstick of
//! `bench/recordings.py`.
//!
//!     recordings levels CFG DAT CHANNEL NOMINAL_MV UNCERTAINTY_UV
//!     recordings check CFG DAT

use plain::configuration::{read_configuration, Config};
use plain::cutter::Cutter;
use plain::data::{read_data, Stop};
use plain::scale::Scale;
use plain::text::billionths;
use std::{env, fs, process};

fn end(status: i32, line: String) -> ! {
    println!("{line}");
    process::exit(status)
}

fn end_at(stop: Stop, channel: &str) -> ! {
    match stop {
        Stop::Read => end(4, "fault read".to_string()),
        Stop::Fault(record, field, kind) => end(2, format!("fault data {record} {field} {kind}")),
        Stop::Refused(record) => end(2, format!("fault range {record} {channel}")),
    }
}

fn levels(config: &Config, data: &str, words: &[String]) {
    let channel: usize = words[0].parse().unwrap();
    let matched = Scale::new(config, channel.wrapping_sub(1), words[1].parse().unwrap(), words[2].parse().unwrap())
        .and_then(|scale| Ok((scale, config.hertz().ok_or_else(|| (4, "0".to_string(), config.frequency()))?)));
    let (scale, hertz) = matched.unwrap_or_else(|(kind, p, q)| end(2, format!("fault match {kind} {p} {q}")));
    let mut cutter = Cutter::new((config.rate / (2 * hertz)) as usize);
    let (mut count, mut extremes) = (0, None);
    let read = read_data(data, config, &[channel - 1], |record| match scale.voltage(record.analog[channel - 1]) {
        Some((negative, lo, hi)) => {
            if let Some((a, b)) = cutter.push(negative, lo, hi) {
                let e: [u64; 4] = extremes.unwrap_or([a, b, a, b]);
                extremes = Some([e[0].min(a), e[1].min(b), e[2].max(a), e[3].max(b)]);
                count += 1;
            }
            true
        }
        None => false,
    });
    read.unwrap_or_else(|stop| end_at(stop, &channel.to_string()));
    println!("levels channel {channel}\nhalf-periods {count}");
    match extremes {
        None => println!("least none\ngreatest none"),
        Some([a, b, c, d]) => {
            println!("least {} to {}", billionths(a), billionths(b));
            println!("greatest {} to {}", billionths(c), billionths(d));
        }
    }
}

fn check(config: &Config, data: &str) {
    let mut first = None;
    let read = read_data(data, config, &[], |record| {
        first.get_or_insert(record.number);
        true
    });
    read.unwrap_or_else(|stop| end_at(stop, ""));
    println!("check\nanalog {} digital {}", config.analog.len(), config.digital.len());
    println!("records {}\nfirst {}", config.endsamp, first.unwrap());
    println!("form {}", if config.binary { "BINARY" } else { "ASCII" });
}

fn main() {
    let words: Vec<String> = env::args().skip(1).collect();
    let bytes = fs::read(&words[1]).unwrap_or_else(|_| end(4, "fault read".to_string()));
    let config = read_configuration(&bytes)
        .unwrap_or_else(|(line, field, kind)| end(2, format!("fault configuration {line} {field} {kind}")));
    match words[0].as_str() {
        "levels" => levels(&config, &words[2], &words[3..]),
        _ => check(&config, &words[2]),
    }
}
