//! The seeded generator of hand questions. The same seed and count give the same questions.

mod any;
mod cases;
mod faults;
mod few;
mod full;
mod lay;
mod one_suit;
mod outside;
mod refused;
pub mod sorts;

pub use any::any;

use super::{once, table};
use crate::hand::Hand;
use crate::hand::question::Question;
use crate::random::Random;

const GAMES: [u8; 2] = [3, 4];

/// Document 01's table, hands made by rule, random hands (of them `count` of any sort), then
/// what is refused.
pub fn questions(seed: u64, count: usize) -> Vec<Question> {
    joined(&groups(seed, count))
}

/// One group after another, with nothing asked twice.
fn joined(groups: &[Vec<Question>; 7]) -> Vec<Question> {
    once(groups.concat(), Question::record)
}

fn groups(seed: u64, count: usize) -> [Vec<Question>; 7] {
    let mut random = Random::new(seed);
    let made: [Vec<Hand>; 6] = [
        table(),
        few::few(),
        full::full(),
        one_suit::one_suit(),
        every_total(&mut random),
        drawn(&mut random, count),
    ];
    let [a, b, c, d, e, f] = made.map(|hands| hands.iter().map(Hand::question).collect());
    [a, b, c, d, e, f, cases::questions()]
}

/// Random tiles: a hand for each game, k and total.
fn every_total(random: &mut Random) -> Vec<Hand> {
    let mut hands = Vec::new();
    for game in GAMES {
        for k in 0..=4 {
            for total in 0..=14 {
                let counts = sorts::tiles(random, game, total);
                hands.push(Hand { counts, k, game });
            }
        }
    }
    hands
}

/// So many random hands, of either game in turn.
fn drawn(random: &mut Random, count: usize) -> Vec<Hand> {
    let games = GAMES.into_iter().cycle().take(count);
    games.map(|game| sorts::any(random, game)).collect()
}

#[cfg(test)]
mod tests;
