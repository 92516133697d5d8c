//! Reads a swim log from standard input and writes its report to standard output.
//!
//! `reference --repeat N` reads one log, makes its report N times in this process and prints only the nanoseconds
//! that one report took.

mod constraint;
mod log;
mod net;
mod report;
mod survey;

use std::hint::black_box;
use std::io::{self, Read, Write};
use std::process::ExitCode;
use std::time::Instant;

use survey::Survey;

fn main() -> ExitCode {
    let repeat = match repetitions() {
        Ok(repeat) => repeat,
        Err(message) => {
            eprintln!("reference: {message}");
            return ExitCode::from(2);
        }
    };
    let done = match repeat {
        None => print_report(),
        Some(times) => print_time(times),
    };
    match done {
        Ok(()) => ExitCode::SUCCESS,
        Err(error) => {
            eprintln!("reference: {error}");
            ExitCode::FAILURE
        }
    }
}

/// The number behind `--repeat`, or nothing where the program was called without arguments.
fn repetitions() -> Result<Option<u32>, &'static str> {
    let mut arguments = std::env::args_os().skip(1);
    let Some(flag) = arguments.next() else {
        return Ok(None);
    };
    let count = arguments.next().and_then(|text| text.to_str()?.parse().ok());
    match (flag.to_str(), count, arguments.next()) {
        (Some("--repeat"), Some(times @ 1..), None) => Ok(Some(times)),
        _ => Err("the only arguments are --repeat N, N above 0"),
    }
}

/// One byte more than a legal log can have is enough to see that a log is too long, so no more is read.
fn read_log() -> io::Result<Vec<u8>> {
    let mut bytes = Vec::with_capacity(log::LONGEST + 1);
    io::stdin().lock().take(log::LONGEST as u64 + 1).read_to_end(&mut bytes)?;
    Ok(bytes)
}

fn print_report() -> io::Result<()> {
    let bytes = read_log()?;
    let mut out = Vec::with_capacity(report::LONGEST);
    Survey::new().report(&bytes, &mut out);
    let mut stdout = io::stdout().lock();
    stdout.write_all(&out)?;
    stdout.flush()
}

fn print_time(times: u32) -> io::Result<()> {
    let bytes = read_log()?;
    let mut out = Vec::with_capacity(report::LONGEST);
    let mut survey = Survey::new();
    let start = Instant::now();
    for _ in 0..times {
        out.clear();
        survey.report(black_box(&bytes), &mut out);
        black_box(&out);
    }
    let nanoseconds = start.elapsed().as_nanos() / u128::from(times);
    writeln!(io::stdout(), "{nanoseconds}")
}
