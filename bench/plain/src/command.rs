//! What the three programs of the command `report` have in common: its files, its faults and its end.

use crate::configuration::{read_configuration, Config};
use crate::data::Stop;
use crate::job::{read_job, Job};
use crate::scale::Unmatched;
use crate::text::Verdict;
use std::{env, fs, process};

/// The words of the command: the files' names and the number of workers.
pub struct Words {
    pub job: String,
    pub configuration: String,
    pub data: String,
    pub workers: usize,
}

impl Words {
    pub fn of_command() -> Words {
        let words: Vec<String> = env::args().skip(2).collect();
        let [job, configuration, data, workers] = words.try_into().unwrap();
        Words { job, configuration, data, workers: workers.parse().unwrap() }
    }
}

fn end(status: i32, line: String) -> ! {
    println!("{line}");
    process::exit(status)
}

fn read_file(name: &str) -> Vec<u8> {
    fs::read(name).unwrap_or_else(|_| end(4, "fault read".to_string()))
}

/// The job and the configuration of two files, or the end of the program at the first fault.
pub fn read_files(words: &Words) -> (Job, Config) {
    let job = read_job(&read_file(&words.job)).unwrap_or_else(|(key, kind)| end(2, format!("fault job {key} {kind}")));
    let config = read_configuration(&read_file(&words.configuration))
        .unwrap_or_else(|(line, field, kind)| end(2, format!("fault configuration {line} {field} {kind}")));
    (job, config)
}

/// The phases of a job's channels, each made by `phase`, where the recording has what the job asks for.
pub fn matched<P>(job: &Job, config: &Config, phase: fn(&Job, &Config, usize) -> Result<P, Unmatched>) -> Vec<P> {
    let unmatched = |(kind, p, q): Unmatched| end(2, format!("fault match {kind} {p} {q}"));
    let phases = job.channels.iter().map(|channel| phase(job, config, *channel).unwrap_or_else(unmatched)).collect();
    if config.hertz() != Some(job.hertz) {
        unmatched((4, job.hertz.to_string(), config.frequency()));
    }
    let (least, most) = (config.rate * (job.run_in_s + job.interval_s), 20_000_000 * (config.rate / 2400));
    if config.endsamp < i64::from(least) {
        unmatched((5, least.to_string(), config.endsamp.to_string()));
    }
    if config.endsamp > i64::from(most) {
        unmatched((6, most.to_string(), config.endsamp.to_string()));
    }
    phases
}

/// Ends the program at a fault of the data. `over` has the first record over range of each of the job's channels.
pub fn end_at_fault(job: &Job, over: impl Iterator<Item = Option<u32>>, read: Result<(), Stop>) {
    let over = job.channels.iter().zip(over).filter_map(|(channel, over)| Some((over?, channel)));
    if let Some((record, channel)) = over.min_by_key(|(record, _)| *record) {
        end(2, format!("fault range {record} {channel}"));
    }
    match read {
        Err(Stop::Fault(record, field, kind)) => end(2, format!("fault data {record} {field} {kind}")),
        Err(_) => end(4, "fault read".to_string()),
        Ok(()) => {}
    }
}

/// Prints a report, and ends with its verdict's status.
pub fn end_with(text: &str, verdict: Verdict) -> ! {
    print!("{text}");
    process::exit(match verdict {
        Verdict::Pass => 0,
        Verdict::Fail => 1,
        Verdict::Undecided => 3,
    })
}
