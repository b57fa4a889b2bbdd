//! Questions drawn one by one, right and wrong.

use super::{GAMES, sorts};
use crate::hand::Hand;
use crate::hand::question::{MOST_COUNTS, Question};
use crate::make::spoil::spoil;
use crate::random::Random;

/// A random hand, one in eight spoiled.
pub fn any(random: &mut Random) -> Question {
    let game = *random.pick(&GAMES);
    let hand = sorts::any(random, game);
    match random.below(8) {
        0 => spoiled(random, hand),
        _ => hand.question(),
    }
}

/// One fault or several, and one in four with another length; by chance there may be none.
fn spoiled(random: &mut Random, hand: Hand) -> Question {
    let mut question = spoil(random, hand).question();
    if random.below(4) == 0 {
        let length = random.below(MOST_COUNTS + 1);
        question.counts.resize(length, random.below(6) as u8);
    }
    question
}
