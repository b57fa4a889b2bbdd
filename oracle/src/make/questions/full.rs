//! Hands of thirteen and fourteen tiles, and finished ones, made by rule and all accepted.

use super::GAMES;
use super::lay::fills;
use crate::hand::Hand;
use crate::make::corners::{complete, four_of_a_kind, pairs};
use crate::refusal::refusal;

/// The corners of hand records are of both games; what game 3 does not have is left out.
pub fn full() -> Vec<Hand> {
    let mut hands = [complete(), four_of_a_kind(), pairs()].concat();
    hands.retain(|hand| refusal(&hand.question()).is_none());
    hands.extend(filled());
    hands
}

/// As many tiles as are accepted, and one fewer.
fn filled() -> Vec<Hand> {
    let mut hands = Vec::new();
    for game in GAMES {
        for counts in [13, 14].into_iter().flat_map(|total| fills(game, total)) {
            hands.extend([0, 4].map(|k| Hand { counts, k, game }));
        }
    }
    hands
}
