//! A suit's answer as the judge gives it.

use super::{Board, ENDS, HONOURS, Judge, RANKS};
use crate::answer::Answer;
use crate::suit::{Goal, Suit};

/// The suit must be one that is not refused.
pub fn suit_answer(suit: Suit, counts: &[u8], goal: Goal) -> Answer {
    let judge = Judge::new(board(suit));
    let verdict = judge.verdict(counts, goal.pairs.into(), goal.melds.into());
    verdict.answer()
}

/// The board that the suit's targets lie on.
pub fn board(suit: Suit) -> &'static Board {
    match suit {
        Suit::Ranks => &RANKS,
        Suit::Honours => &HONOURS,
        Suit::Ends => &ENDS,
    }
}
