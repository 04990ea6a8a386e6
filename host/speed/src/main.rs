//! Measures the proved archive beside the straightforward Rust of the reference, on equal buffers.
//!
//! `speed [ROUNDS]` times both in one run; host/bench calls it. `speed count SERVICE JOB M S [FILES]` does one job once, for a tool
//! that counts the instructions of it; host/speed/counts calls that, and host/test fails when the archive takes too many.

#![forbid(unsafe_code)]

mod count;
mod jobs;
mod times;

use std::env;
use std::process::ExitCode;

const USAGE: &str = "usage: speed [ROUNDS]
       speed count proved|plain census|fill|read|load|store|write|format|repair M S
       speed count proved|plain census|open|repair M S FILES";

fn main() -> ExitCode {
    let words: Vec<String> = env::args().skip(1).collect();
    let words: Vec<&str> = words.iter().map(String::as_str).collect();
    if measured(&words).is_none() {
        eprintln!("{}", USAGE);
        return ExitCode::from(2);
    }
    ExitCode::SUCCESS
}

/// Does what the words ask for. None: they ask for nothing that is there.
fn measured(words: &[&str]) -> Option<()> {
    match words {
        [] => times::all(30),
        ["count", service, job, last, per, files @ ..] => count::one(service, job, last, per, files)?,
        [rounds] => times::all(rounds.parse().ok().filter(|&rounds| rounds > 0)?),
        _ => return None,
    }
    Some(())
}
