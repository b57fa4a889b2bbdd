//! How fast ours is beside the Rust source: one suit, whole hands and their parts, or one of
//! these.

use std::env;
use std::process::ExitCode;

use bench::{hands, parts, suits};
use oracle::options::ended;

const USAGE: &str = "usage: bench/run [suits|hands|parts|plain|repeat [GROUP]]";

fn main() -> ExitCode {
    let words: Vec<String> = env::args().skip(1).collect();
    let words: Vec<&str> = words.iter().map(String::as_str).collect();
    ended(run(&words), USAGE)
}

/// Says whether nothing was different.
fn run(words: &[&str]) -> Result<bool, String> {
    Ok(match words {
        [] => suits::measure() && hands::measure() && parts::measure(),
        ["suits"] => suits::measure(),
        ["hands"] => hands::measure(),
        ["parts"] => parts::measure(),
        ["plain"] => hands::measure_plain(),
        ["repeat", name @ ..] if name.len() < 2 => {
            parts::repeat(name.first().unwrap_or(&""));
            true
        }
        _ => return Err(format!("not understood: {}", words.join(" "))),
    })
}
