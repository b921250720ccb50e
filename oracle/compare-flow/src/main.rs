//! The differential run: `differential --seed S --count N`.

use compare_flow::report::Report;
use compare_flow::run_from;
use std::io::{self, IsTerminal, Write};
use std::process::ExitCode;
use std::time::{Duration, Instant};

const USAGE: &str = "usage: differential [--seed S] [--count N] [--from I]

Compares the port's flow check with the Rust on N sheets (100,000) that are drawn from
the seed S (1), beginning with sheet I (0); each call once more within limits that are
lowered, and some with slots added to the parameters. The exit status is 1 on a mismatch;
then the smallest failing sheet is printed in hexadecimal.";

struct Arguments {
    seed: u64,
    count: u64,
    from: u64,
}

fn main() -> ExitCode {
    let Some(arguments) = arguments() else {
        eprintln!("{USAGE}");
        return ExitCode::from(2);
    };
    let Arguments { seed, count, from } = arguments;
    let mut progress = Progress::new(count);
    let report = run_from(seed, from, count, |report| progress.show(report));
    progress.end();
    println!("seed {seed}, sheets {from} to {}", from + report.sheets);
    println!("{report}");
    match report.failure {
        None => {
            println!("no mismatch");
            ExitCode::SUCCESS
        }
        Some(failure) => {
            println!("{failure}");
            ExitCode::FAILURE
        }
    }
}

fn arguments() -> Option<Arguments> {
    let mut arguments = Arguments {
        seed: 1,
        count: 100_000,
        from: 0,
    };
    let mut left = std::env::args().skip(1);
    while let Some(name) = left.next() {
        let value = left.next()?.replace(['_', ','], "").parse().ok()?;
        match name.as_str() {
            "--seed" => arguments.seed = value,
            "--count" => arguments.count = value,
            "--from" => arguments.from = value,
            _ => return None,
        }
    }
    arguments.from.checked_add(arguments.count)?;
    Some(arguments)
}

/// A line on a terminal that is written over and over; elsewhere a line now and then.
struct Progress {
    count: u64,
    begun: Instant,
    shown: Instant,
    every: Duration,
    end_of_line: &'static str,
}

impl Progress {
    fn new(count: u64) -> Self {
        let terminal = io::stderr().is_terminal();
        Self {
            count,
            begun: Instant::now(),
            shown: Instant::now(),
            every: Duration::from_millis(if terminal { 200 } else { 10_000 }),
            end_of_line: if terminal { "\r" } else { "\n" },
        }
    }

    fn show(&mut self, report: &Report) {
        if self.shown.elapsed() < self.every {
            return;
        }
        self.shown = Instant::now();
        let seconds = self.begun.elapsed().as_secs();
        let Report { sheets, calls, .. } = report;
        let (count, end) = (self.count, self.end_of_line);
        eprint!("{sheets} of {count} sheets, {calls} calls, {seconds} s{end}");
        // A progress line that can't be shown is no reason to stop.
        let _ = io::stderr().flush();
    }

    fn end(&self) {
        if self.end_of_line == "\r" {
            eprintln!();
        }
    }
}
