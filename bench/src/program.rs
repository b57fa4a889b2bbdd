//! The program end to end: started, fed with a file, its answers written to a file. Beside it
//! the same by the Rust source.

mod files;
pub mod many;
mod memory;
pub mod side;
mod timed;

use std::io;

use oracle::record::ANSWER_RECORD;

use files::File;
use side::Sides;
use timed::{NAMES, ROUNDS, Timed};

/// Says whether all answers were the same; if not, nothing is measured.
pub fn measure(sides: &Sides) -> io::Result<bool> {
    let files = files::all();
    if !agree(&files, sides)? {
        return Ok(false);
    }
    println!("microseconds (us) a record and records a second (/s): the middle of {ROUNDS} rounds");
    print_head();
    for file in files.iter().filter(|file| file.is_searched) {
        print_times(file, &Timed::measure(file, sides)?);
    }
    for file in files.iter().filter(|file| !file.is_searched) {
        print_rates(file, &Timed::measure(file, sides)?);
    }
    Ok(true)
}

/// Byte for byte: times of different answers would say nothing.
fn agree(files: &[File], sides: &Sides) -> io::Result<bool> {
    let (mut bytes, mut different) = (0, 0);
    for file in files {
        let (few, many) = file.lay()?;
        let theirs = sides.rust.answers(few)?;
        let same = sides.search.answers(few)? == theirs
            && sides.fast.answers(many)? == theirs.repeat(file.times);
        bytes += theirs.len() * (1 + file.times);
        if !same || theirs.len() != ANSWER_RECORD * file.count() {
            println!("different: {}", file.name);
            different += 1;
        }
    }
    let count = files.len();
    println!("{count} files compared, {bytes} bytes of answers, {different} files different");
    Ok(different == 0)
}

fn print_head() {
    print!("{:33}{:>8}", "", "records");
    for unit in ["us", "/s"] {
        let names = NAMES.iter().map(|name| format!("{name} {unit}"));
        names.for_each(|name| print!("{name:>10}"));
    }
    println!("{:>10}{:>15}", "Rust/fast", "lowest-highest");
}

fn print_times(file: &File, timed: &Timed) {
    let count = file.count() as f64;
    let seconds: Vec<f64> = (0..NAMES.len()).map(|side| timed.seconds(side)).collect();
    print!("{:33}{:>8}", file.name, file.count());
    let micros = seconds.iter().map(|seconds| seconds * 1e6 / count);
    micros.for_each(|micros| print!("{micros:>10.2}"));
    let rates = seconds.iter().map(|seconds| count / seconds);
    rates.for_each(|rate| print!("{rate:>10.0}"));
    println!("{:>10.0}{:>15}", timed.ratio(), timed.spread());
}

/// What is not searched is limited by reading and writing.
fn print_rates(file: &File, timed: &Timed) {
    print!("{}: {} records", file.name, file.count());
    for (side, name) in NAMES.iter().enumerate() {
        let seconds = timed.seconds(side);
        print!(", {name} {:.1} ms", seconds * 1e3);
        if file.count() > 0 {
            print!(" ({:.0} MB/s)", file.megabytes() / seconds);
        }
    }
    println!();
}
