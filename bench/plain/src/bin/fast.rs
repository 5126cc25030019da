//! The command `report` with the same digits, by faster arithmetic of whole numbers: a yardstick of `bench/report.py`.
//!
//!     fast report JOB CFG DAT WORKERS

use plain::command::{end_at_fault, end_with, matched, read_files, Words};
use plain::fast::phase::{work_data, Phase};
use plain::fast::source::Source;
use plain::text::report_text;

fn main() {
    let words = Words::of_command();
    let (job, config) = read_files(&words);
    let mut phases = matched(&job, &config, Phase::new);
    let places: Vec<usize> = job.channels.iter().map(|channel| channel - 1).collect();
    let read = Source::open(&words.data, &config, &places);
    let read = read.and_then(|mut source| work_data(&mut source, &mut phases, words.workers));
    end_at_fault(&job, phases.iter().map(|phase| phase.over), read);
    let quantities: Vec<_> = phases.iter().map(Phase::end).collect();
    let (text, verdict) = report_text(&job, &config, &quantities);
    end_with(&text, verdict)
}
