//! A hand's answer as the judge gives it.

use super::{Judge, WHOLE_FOUR, WHOLE_THREE};
use crate::answer::Answer;
use crate::hand::Hand;

/// The hand must be one that is not refused.
pub fn answer(hand: &Hand) -> Answer {
    let board = match hand.game {
        3 => &WHOLE_THREE,
        4 => &WHOLE_FOUR,
        other => unreachable!("game {other} is refused"),
    };
    let verdict = Judge::new(board).verdict(&hand.counts, 1, hand.k.into());
    verdict.answer()
}
