//! How fast the program is beside the Rust source, and how much memory it takes. What is asked
//! for comes first, then `--` and the words that start the program; the program of the Rust
//! source stands beside this one.

use std::env;
use std::process::ExitCode;

use bench::program::side::Sides;
use bench::program::{many, measure};
use oracle::options::{Options, ended};

const USAGE: &str = "usage: bench/program [--groups | --many] [--count N]";

fn main() -> ExitCode {
    ended(run(env::args().skip(1)), USAGE)
}

/// Says whether nothing was different.
fn run(mut words: impl Iterator<Item = String>) -> Result<bool, String> {
    let asked: Vec<String> = words.by_ref().take_while(|word| word != "--").collect();
    let mut options = Options::new(asked.into_iter());
    let groups_alone = options.flag("--groups");
    let many_alone = options.flag("--many");
    let count = options.number("--count", 10_000_000)? as usize;
    options.end()?;
    if groups_alone && many_alone {
        return Err("--groups or --many, and not both".into());
    }
    let sides = sides(&words.collect::<Vec<_>>())?;
    let failed = |error| format!("bench/program: {error}");
    let groups_same = many_alone || measure(&sides).map_err(failed)?;
    Ok(groups_same && (groups_alone || many::measure(&sides, count).map_err(failed)?))
}

fn sides(ours: &[String]) -> Result<Sides, String> {
    if ours.is_empty() {
        return Err("no program is given".into());
    }
    let here = env::current_exe().map_err(|error| error.to_string())?;
    let by_rust = here.with_file_name("by_rust");
    let by_rust = by_rust.to_string_lossy().into_owned();
    Ok(Sides::new(ours, &[by_rust]))
}
