//! The seeded generator of word questions. The same seed and count give the same questions.

mod any;
mod cases;
mod limits;
mod published;
mod refused;
mod suits;
mod value;

pub use any::drawn;

use super::once;
use crate::random::Random;
use crate::words::question::Question;
use crate::words::{Goals, Words};

/// The published entries, suits (of them `count` random ones each of nine ranks and of
/// honours), any words, goals that just fit, then what is refused.
pub fn words(seed: u64, count: usize) -> Vec<Question> {
    joined(&groups(seed, count))
}

/// One group after another, with nothing asked twice.
fn joined(groups: &[Vec<Question>; 5]) -> Vec<Question> {
    once(groups.concat(), Question::record)
}

fn groups(seed: u64, count: usize) -> [Vec<Question>; 5] {
    let mut random = Random::new(seed);
    [
        published::published(),
        suits::suits(&mut random, count),
        any::any(&mut random),
        limits::limits(&mut random),
        cases::questions(),
    ]
}

/// Words to be unpacked, and the goals that they are said to hold to be packed.
fn both_ways(words: Words, goals: Goals) -> [Question; 2] {
    [Question::Unpack(words), Question::Pack(goals)]
}

#[cfg(test)]
mod tests;
