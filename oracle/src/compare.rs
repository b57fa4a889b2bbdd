//! Holds the Rust source against the second judge and against document 01.

mod hands;
mod packing;
mod suits;
mod tally;

use crate::random::Random;
use tally::Tally;

pub struct Sizes {
    pub seed: u64,
    pub suits: u64,
    pub hands: u64,
    pub all_suits: bool,
}

/// Prints a line for each thing compared; says whether nothing was different.
pub fn compare(sizes: &Sizes) -> bool {
    println!("seed {}", sizes.seed);
    Tally::print_head();
    let mut random = Random::new(sizes.seed);
    let mut tallies = Vec::new();
    tallies.extend(suits::ends());
    tallies.extend(suits::honours());
    tallies.extend(if sizes.all_suits {
        suits::all_ranks()
    } else {
        suits::random_ranks(&mut random, sizes.suits)
    });
    tallies.push(packing::published_map());
    tallies.push(packing::entry_zero());
    tallies.push(packing::any_words(&mut random, 100_000));
    tallies.push(hands::hands(&mut random, 3, sizes.hands));
    tallies.push(hands::hands(&mut random, 4, sizes.hands));
    tallies.iter().all(Tally::is_clean)
}
