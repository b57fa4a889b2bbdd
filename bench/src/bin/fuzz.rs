//! Holds the library and the program against the Rust source on random inputs.

use std::env;
use std::process::ExitCode;

use bench::fuzz::fuzz;
use oracle::options::{Options, ended};

const USAGE: &str = "usage: bench/fuzz [--seconds N] [--seed S]";

fn main() -> ExitCode {
    ended(run(Options::new(env::args().skip(1))), USAGE)
}

/// Says whether nothing was different.
fn run(mut options: Options) -> Result<bool, String> {
    let seconds = options.number("--seconds", 60)?;
    let seed = options.number("--seed", 1)?;
    options.end()?;
    Ok(fuzz(seed, seconds))
}
