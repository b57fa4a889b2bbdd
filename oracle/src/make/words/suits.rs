//! Suits of nine ranks and of honours, packed by the Rust source and searched goal by goal.

use super::both_ways;
use crate::make::suits::extremes::far_out;
use crate::make::suits::{DRAWN, sorts};
use crate::random::Random;
use crate::searched;
use crate::standard::search_suit;
use crate::suit::Suit;
use crate::words::question::Question;

/// The empty suits, those that lie far out, then so many random ones of each.
pub fn suits(random: &mut Random, count: usize) -> Vec<Question> {
    let mut questions = Vec::new();
    for suit in DRAWN {
        questions.extend(asked(suit, &vec![0; suit.length()]));
        questions.extend(far_out(suit).iter().flat_map(|counts| asked(suit, counts)));
    }
    for suit in DRAWN {
        questions.extend((0..count).flat_map(|_| asked(suit, &sorts::any(random, suit))));
    }
    questions
}

/// The words that `pack_values` gives, and what is searched goal by goal.
fn asked(suit: Suit, counts: &[u8]) -> [Question; 2] {
    both_ways(search_suit(suit, counts), searched::goals(suit, counts))
}
