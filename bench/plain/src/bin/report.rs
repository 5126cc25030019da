//! The command `report` on any recording, in plain Rust with the same integer arithmetic: the yardstick of `bench/report.py`.
//!
//!     report report JOB CFG DAT WORKERS

use plain::command::{end_at_fault, end_with, matched, read_files, Words};
use plain::configuration::Config;
use plain::data::{read_data, Stop};
use plain::job::Job;
use plain::phase::{work, Phase};
use plain::text::report_text;

/// The records that are worked at a time.
const ROWS: usize = 65_536;

/// Reads the data, and works the phases block by block.
fn work_data(name: &str, job: &Job, config: &Config, phases: &mut [(Phase, Vec<i32>)], workers: usize) -> Result<(), Stop> {
    let places: Vec<usize> = job.channels.iter().map(|channel| channel - 1).collect();
    let read = read_data(name, config, &places, |record| {
        for (place, (_, column)) in places.iter().zip(&mut *phases) {
            column.push(record.analog[*place]);
        }
        if phases[0].1.len() < ROWS {
            return true;
        }
        work(phases, workers);
        phases.iter().all(|(phase, _)| phase.over.is_none())
    });
    work(phases, workers);
    read
}

fn main() {
    let words = Words::of_command();
    let (job, config) = read_files(&words);
    let phases = matched(&job, &config, Phase::new);
    let mut phases: Vec<_> = phases.into_iter().map(|phase| (phase, Vec::with_capacity(ROWS))).collect();
    let read = work_data(&words.data, &job, &config, &mut phases, words.workers);
    end_at_fault(&job, phases.iter().map(|(phase, _)| phase.over), read);
    let quantities: Vec<_> = phases.iter().map(|(phase, _)| phase.end()).collect();
    let (text, verdict) = report_text(&job, &config, &quantities);
    end_with(&text, verdict)
}
