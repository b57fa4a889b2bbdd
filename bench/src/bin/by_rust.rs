//! The program once more, by the Rust source: hand records from standard input, answer records
//! to standard output.
//!
//! Without a word each suit of a hand is searched once and its words are put where the entry
//! points look for them; then these are called. With `--maps` the words of all suits are read
//! from a file, and nothing is searched.

use std::env;
use std::io::{self, Read, Write};

use bench::maps::fill_kept;
use bench::ours::READ_AT_ONCE;
use oracle::hand::{HAND_RECORD, Hand};
use oracle::mapped;
use oracle::record::answers;
use oracle::refusal::refusal;

fn main() -> io::Result<()> {
    match env::args().nth(1).as_deref() {
        Some("--maps") => by_maps(),
        _ => by_search(),
    }
}

fn by_search() -> io::Result<()> {
    let mut input = Vec::new();
    io::stdin().read_to_end(&mut input)?;
    mapped::fill(&accepted(&input));
    io::stdout().write_all(&answers(&input, mapped::answer))
}

fn accepted(input: &[u8]) -> Vec<Hand> {
    let hands = input.chunks(HAND_RECORD).filter_map(Hand::read);
    hands
        .filter(|hand| refusal(&hand.question()).is_none())
        .collect()
}

/// As many records are read at once as our program reads.
fn by_maps() -> io::Result<()> {
    fill_kept()?;
    let (mut input, mut output) = (io::stdin().lock(), io::stdout().lock());
    let mut part = Vec::new();
    loop {
        part.clear();
        let most = (READ_AT_ONCE * HAND_RECORD) as u64;
        input.by_ref().take(most).read_to_end(&mut part)?;
        if part.is_empty() {
            return output.flush();
        }
        output.write_all(&answers(&part, mapped::answer))?;
    }
}
