//! The groups. They need no seed from outside: each run has the same suits.

use oracle::make::suits::sorts::{drawn, loose, part_of_a_hand};
use oracle::random::Random;
use oracle::standard::published;
use oracle::suit::Suit;

use super::Suits;
use super::sides::{Ends, Honours, Ranks, Sides};
use crate::group::Group;

/// So many suits of a random group.
const MANY: usize = 100;

pub fn groups() -> Vec<Box<dyn Group>> {
    let mut random = Random::new(1);
    let random = &mut random;
    vec![
        of::<Ranks>("nine ranks, random", many(|| loose(random, Suit::Ranks))),
        of::<Ranks>("nine ranks, empty", vec![[0; 9]]),
        of::<Ranks>(
            "nine ranks, 14 tiles",
            many(|| drawn(random, Suit::Ranks, 14)),
        ),
        of::<Ranks>("nine ranks, part of a hand", many(|| part(random))),
        of::<Honours>("honours, random", many(|| loose(random, Suit::Honours))),
        of::<Honours>("honours, empty", vec![[0; 7]]),
        of::<Ends>("1m/9m, all", ends()),
    ]
}

fn of<S: Sides + 'static>(name: &'static str, suits: Vec<S::Counts>) -> Box<dyn Group> {
    Box::new(Suits::<S> { name, suits })
}

fn many<const N: usize>(mut suit: impl FnMut() -> Vec<u8>) -> Vec<[u8; N]> {
    let counts = |suit: Vec<u8>| suit.try_into().expect("a count for each kind");
    (0..MANY).map(|_| counts(suit())).collect()
}

/// Three to five tiles, as most parts of 14 tiles have.
fn part(random: &mut Random) -> Vec<u8> {
    loop {
        let counts = part_of_a_hand(random, Suit::Ranks);
        if (3..=5).contains(&counts.iter().sum::<u8>()) {
            return counts;
        }
    }
}

fn ends() -> Vec<[u8; 9]> {
    (0..published::ENTRIES).map(published::counts).collect()
}
