//! The words of suits by the search of the Rust source, put into its maps in memory: those of
//! the suits that are needed, or of all, which are kept in a file.

mod file;
mod search;
mod shared;
pub mod suits;

use std::io;

use oracle::mapped::Maps;
use oracle::words::Words;

pub use shared::{shared, threads};

/// Where the words of all suits are kept.
pub const FILE: &str = "bench/target/suits.words";

/// So many suits of a file are searched again before it is believed.
const AGAIN: usize = 200;

/// Searches these suits, given by their numbers.
pub fn fill(numbers: &[usize]) {
    lend(numbers, &search::told(numbers));
}

/// All suits, as `keep` has them.
pub fn fill_all() -> io::Result<()> {
    let words = keep()?;
    lend(&suits::all(), &words);
    Ok(())
}

/// The words of all suits: from the file, or, where it is not there or not right, searched and
/// written.
pub fn keep() -> io::Result<Vec<Words>> {
    let numbers = suits::all();
    if let Some(words) = kept(&numbers) {
        return Ok(words);
    }
    let words = search::told(&numbers);
    file::write(FILE, &words)?;
    Ok(words)
}

/// All suits from the file alone, which `keep` has looked at before.
pub fn fill_kept() -> io::Result<()> {
    let numbers = suits::all();
    let missing = || io::Error::other(format!("{FILE} is not there, or not whole"));
    let words = file::read(FILE, numbers.len()).ok_or_else(missing)?;
    lend(&numbers, &words);
    Ok(())
}

fn lend(numbers: &[usize], words: &[Words]) {
    let mut maps = Maps::default();
    for (&number, words) in numbers.iter().zip(words) {
        let (suit, counts) = suits::of(number);
        maps.put(suit, &counts[..suit.length()], words);
    }
    maps.lend();
}

fn kept(numbers: &[usize]) -> Option<Vec<Words>> {
    let words = file::read(FILE, numbers.len())?;
    let step = (numbers.len() / AGAIN).max(1);
    let mut again = numbers.iter().zip(&words).step_by(step);
    again
        .all(|(&number, words)| search::one(number) == *words)
        .then_some(words)
}
