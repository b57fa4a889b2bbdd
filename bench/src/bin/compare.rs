//! Holds our hand entries against the Rust source on many hands.

use std::env;
use std::process::ExitCode;

use bench::compare::{Plan, compare};
use oracle::options::{Options, ended};

const USAGE: &str = "usage: bench/compare [--seed S] [--count N] [--search M] [--cache]";

fn main() -> ExitCode {
    ended(run(Options::new(env::args().skip(1))), USAGE)
}

/// Says whether nothing was different.
fn run(mut options: Options) -> Result<bool, String> {
    let plan = Plan {
        seed: options.number("--seed", 1)?,
        count: options.number("--count", 116_000)? as usize,
        search: options.number("--search", 1_000)? as usize,
        cache: options.flag("--cache"),
    };
    options.end()?;
    compare(&plan).map_err(|error| format!("bench/compare: {error}"))
}
