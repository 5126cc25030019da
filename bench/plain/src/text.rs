//! The text of a report, and its parts.

use crate::changes::Interval;
use crate::configuration::Config;
use crate::job::Job;
use crate::phase::Quantities;
use std::fmt;

/// A number of billionths.
pub fn billionths(n: u64) -> String {
    format!("{}.{:09}", n / 1_000_000_000, n % 1_000_000_000)
}

/// What an interval says against a limit, from the best to the worst.
#[derive(Clone, Copy, PartialEq, Eq, PartialOrd, Ord)]
pub enum Verdict {
    Pass,
    Undecided,
    Fail,
}

impl fmt::Display for Verdict {
    fn fmt(&self, f: &mut fmt::Formatter) -> fmt::Result {
        f.write_str(match self {
            Verdict::Pass => "pass",
            Verdict::Undecided => "undecided",
            Verdict::Fail => "fail",
        })
    }
}

fn judge(v: Interval, limit: i64) -> Verdict {
    if v.hi <= limit {
        Verdict::Pass
    } else if limit < v.lo {
        Verdict::Fail
    } else {
        Verdict::Undecided
    }
}

/// Judged lines, and their verdict.
struct Lines {
    text: String,
    verdict: Verdict,
}

impl Lines {
    fn judged(&mut self, name: &str, v: Interval, limit: i64, write: fn(u64) -> String) {
        let verdict = judge(v, limit);
        let [low, high, most] = [v.lo, v.hi, limit].map(|n| write(n as u64));
        self.text += &format!("{name} {low} to {high} limit {most} {verdict}\n");
        self.verdict = self.verdict.max(verdict);
    }

    fn channel(&mut self, job: &Job, number: usize, q: &Quantities) {
        self.text += &format!("channel {number}\nhalf-periods {}\ndoubtful {}\n", q.halves, q.doubtful);
        self.judged("dc", q.changes.dc, 33_000_000, billionths);
        self.judged("dmax", q.changes.dmax, 10_000_000 * job.dmax, billionths);
        self.judged("t", q.changes.t, i64::from(job.hertz), |n| n.to_string());
        for (i, severity) in q.pst.iter().enumerate() {
            self.judged(&format!("pst {}", i + 1), *severity, 1_000_000_000, billionths);
        }
        match q.plt {
            Some(severity) => self.judged("plt", severity, 650_000_000, billionths),
            None => self.text += "plt none\n",
        }
    }
}

/// The report of a job on a recording with the quantities of its channels, and the verdict.
pub fn report_text(job: &Job, config: &Config, quantities: &[Quantities]) -> (String, Verdict) {
    let form = if job.run_in_s == 60 && job.interval_s == 600 { "standard" } else { "informative" };
    let lamp = if job.hertz == 50 { "230/50" } else { "120/60" };
    let mut lines = Lines { text: String::new(), verdict: Verdict::Pass };
    lines.text += &format!("report\nprofile flicker-1\nform {form}\nlamp {lamp}\nrate {}\n", config.rate);
    lines.text += &format!("nominal-mv {}\nuncertainty-uv {}\n", job.nominal_mv, job.uncertainty_uv);
    lines.text += &format!("records {}\nintervals {}\n", config.endsamp, job.intervals(config));
    for (number, channel) in job.channels.iter().zip(quantities) {
        lines.channel(job, *number, channel);
    }
    lines.text += &format!("verdict {}\n", lines.verdict);
    (lines.text, lines.verdict)
}
