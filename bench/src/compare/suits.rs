//! Which suits the questions have, so that each is searched once.

use oracle::refusal::refusal;

use super::asked::{Asked, Questions};
use crate::maps::shared;
use crate::maps::suits::{NUMBERS, of_hand};

/// Whether a suit is needed, by its number; empty where nothing was asked.
type Needed = Vec<bool>;

pub fn needed(questions: &Questions) -> Vec<usize> {
    let found = shared(questions.blocks(), |needed: &mut Needed, block| {
        needed.resize(NUMBERS, false);
        for (_, asked) in questions.block(block) {
            add(needed, &asked);
        }
    });
    let is_needed = |number: &usize| found.iter().any(|part| part.get(*number) == Some(&true));
    (0..NUMBERS).filter(is_needed).collect()
}

/// Of what is refused nothing is searched.
fn add(needed: &mut Needed, Asked { question, .. }: &Asked) {
    if refusal(question).is_some() {
        return;
    }
    let hand = question.hand().expect("another length is refused");
    of_hand(&hand).for_each(|number| needed[number] = true);
}
