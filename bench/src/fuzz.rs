//! Random inputs of every shape, for a bounded time: the library and the program against the
//! Rust source.

mod files;
mod goals;
mod hands;
mod hex;
pub mod inputs;
mod laid;
mod program;
mod records;
mod started;
mod suits;
mod tally;

use std::time::{Duration, Instant};

use oracle::random::Random;
use tally::Tally;

/// A part asks once more, and is called until its time is over.
type Ask = fn(&mut Random, &mut Tally);

const PARTS: [(&str, Ask); 7] = [
    ("library, lastavon_record", records::ask),
    ("library, lastavon_hand", hands::ask),
    ("library, lastavon_hand_search", hands::ask_search),
    ("library, one goal of a suit", suits::ask),
    ("library, ten goals of a suit", goals::ask),
    ("program", program::ask),
    ("program --search", program::ask_search),
];

/// Says whether nothing was different. Each part has the same share of the time, and inputs of
/// its own: how far one part came does not change what the next asks.
pub fn fuzz(seed: u64, seconds: u64) -> bool {
    println!("seed {seed}, {seconds} seconds");
    let share = Duration::from_secs(seconds) / PARTS.len() as u32;
    let mut clean = true;
    for (at, (name, ask)) in (1..).zip(PARTS) {
        let mut random = Random::new(Random::new(seed).word().wrapping_mul(2 * at + 1));
        let mut tally = Tally::default();
        let begun = Instant::now();
        while begun.elapsed() < share {
            ask(&mut random, &mut tally);
        }
        tally.print(name);
        clean &= tally.is_clean();
    }
    clean
}
