//! Questions that are refused, each with the refusal that it was made for.

use super::{faults, refused};
use crate::suit::question::Question;
use crate::suit::refusal::{Refusal, refusal};
use crate::suit::{Goal, SUITS, Suit};

/// What is told comes from how the question was made, and not from the tests of `refusal`.
pub struct Case {
    pub question: Question,
    pub told: Refusal,
}

/// None is handed out that is not refused as told.
pub fn questions() -> Vec<Question> {
    let single = SUITS.into_iter().flat_map(refused::refused);
    let several = SUITS.into_iter().flat_map(faults::together);
    let checked = |case: Case| {
        assert_eq!(refusal(&case.question), Some(case.told));
        case.question
    };
    single.chain(several).map(checked).collect()
}

pub fn asked_once(suit: Suit, goal: Goal, counts: &[u8], told: Refusal) -> Case {
    let question = Question::one(suit, goal, counts);
    Case { question, told }
}

/// Counts that are at fault with any right goal: with the first, the last and all ten.
pub fn asked(suit: Suit, counts: &[u8], told: Refusal) -> [Case; 3] {
    let question = Question::all(suit, counts);
    [
        asked_once(suit, Goal::new(0, 0), counts, told),
        asked_once(suit, Goal::new(1, 4), counts, told),
        Case { question, told },
    ]
}
