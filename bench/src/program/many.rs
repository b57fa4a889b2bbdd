//! Ten million hand records through the program, file to file: records a second, the memory,
//! and all answers against the Rust source with its maps.

mod made;
mod same;
mod scratch;

use std::io;

use super::memory;
use super::side::Sides;
use crate::maps;
use crate::times::sorted;
use scratch::Scratch;

/// Odd, so that there is a middle one.
const ROUNDS: usize = 3;

/// Where nothing is kept, so that writing to a disk does not count.
const NOWHERE: &str = "/dev/null";

/// Says whether all answers were the same; if not, no rate is told.
pub fn measure(sides: &Sides, count: usize) -> io::Result<bool> {
    let Some(scratch) = Scratch::new(count)? else {
        return Ok(false);
    };
    maps::keep()?;
    made::make(&scratch.hands, count)?;
    let mut rounds = Vec::new();
    for round in 0..ROUNDS {
        rounds.push(seconds(sides, &scratch)?);
        if round == 0 && !same::all(&scratch, count)? {
            return Ok(false);
        }
    }
    print_rates(&rounds, count);
    memory::print(&sides.fast, &scratch.hands, &scratch.rust, count)
}

/// The order of the lines.
const NAMES: [&str; 3] = [
    "ours, file to file",
    "ours, file to nowhere",
    "Rust with maps, file to file",
];

/// What each takes; they take turns.
fn seconds(sides: &Sides, scratch: &Scratch) -> io::Result<[f64; NAMES.len()]> {
    Ok([
        sides.fast.seconds(&scratch.hands, &scratch.ours)?,
        sides.fast.seconds(&scratch.hands, NOWHERE)?,
        sides.maps.seconds(&scratch.hands, &scratch.rust)?,
    ])
}

fn print_rates(rounds: &[[f64; NAMES.len()]], count: usize) {
    println!("{count} records: the middle of {ROUNDS} rounds");
    for (side, name) in NAMES.iter().enumerate() {
        let seconds = sorted(rounds.iter().map(|round| round[side]));
        let middle = seconds[ROUNDS / 2];
        let (rate, each) = (count as f64 / middle, middle * 1e6 / count as f64);
        let (lowest, highest) = (seconds[0], seconds[ROUNDS - 1]);
        print!("{name:30}{middle:>8.2} s ({lowest:.2}-{highest:.2})");
        println!("{rate:>12.0} records a second, {each:.3} us a record");
    }
}
