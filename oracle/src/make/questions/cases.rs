//! Questions that are refused, each with the refusal that it was made for.

use super::{GAMES, faults, refused};
use crate::hand::question::Question;
use crate::refusal::{Refusal, refusal};

/// What is told comes from how the question was made, and not from the tests of `refusal`.
pub struct Case {
    pub question: Question,
    pub told: Refusal,
}

impl Case {
    pub fn new(counts: &[u8], k: u8, game: u8, told: Refusal) -> Self {
        let question = Question::new(counts, k, game);
        Case { question, told }
    }
}

/// None is handed out that is not refused as told.
pub fn questions() -> Vec<Question> {
    let cases = refused::refused().into_iter().chain(faults::together());
    let checked = |case: Case| {
        assert_eq!(refusal(&case.question), Some(case.told));
        case.question
    };
    cases.map(checked).collect()
}

/// Counts that are at fault in both games: with the least k in one, the greatest in the other.
pub fn in_both_games(counts: &[u8], told: Refusal) -> [Case; 2] {
    let [three, four] = GAMES;
    [
        Case::new(counts, 0, three, told),
        Case::new(counts, 4, four, told),
    ]
}
