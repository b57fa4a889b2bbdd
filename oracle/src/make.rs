//! The seeded generator of hand records, and below it those of hand questions, suit questions
//! and word questions. The same seed and count give the same hands.

mod corners;
mod deal;
pub mod questions;
mod sorts;
mod spoil;
pub mod suits;
mod table;
pub mod words;

pub use sorts::{accepted, suit};
pub use table::table;

use std::collections::HashSet;
use std::hash::Hash;

use crate::hand::Hand;
use crate::random::Random;

/// First the corners, which need no seed, then random hands, one in eight spoiled.
pub fn hands(seed: u64, count: usize) -> Vec<Hand> {
    let mut random = Random::new(seed);
    let mut hands = corners::corners();
    hands.resize_with(count.max(hands.len()), || any(&mut random));
    hands.truncate(count);
    hands
}

fn any(random: &mut Random) -> Hand {
    let game = *random.pick(&[3, 4]);
    let hand = accepted(random, game);
    match random.below(8) {
        0 => spoil::spoil(random, hand),
        _ => hand,
    }
}

/// What is made by several rules is asked once; two questions with the same record are one.
fn once<Q, R: Eq + Hash>(
    questions: impl IntoIterator<Item = Q>,
    record: impl Fn(&Q) -> R,
) -> Vec<Q> {
    let mut seen = HashSet::new();
    let new = |question: &Q| seen.insert(record(question));
    questions.into_iter().filter(new).collect()
}

#[cfg(test)]
mod tests {
    use super::*;
    use crate::refusal::refusal;

    #[test]
    fn every_number_a_record_can_have_is_made() {
        let hands = hands(1, 2_000);
        for number in [1, 2, 4, 5, 6] {
            let refused = hands.iter().filter_map(|hand| refusal(&hand.question()));
            assert!(refused.map(|reason| reason.number()).any(|n| n == number));
        }
        for (k, game) in [(0, 3), (4, 3), (0, 4), (4, 4)] {
            let accepted = hands
                .iter()
                .filter(|hand| refusal(&hand.question()).is_none());
            assert!(
                accepted
                    .filter(|hand| (hand.k, hand.game) == (k, game))
                    .count()
                    > 50
            );
        }
    }

    #[test]
    fn random_hands_are_accepted() {
        let mut random = Random::new(7);
        for _ in 0..2_000 {
            for game in [3, 4] {
                let hand = accepted(&mut random, game);
                assert_eq!(refusal(&hand.question()), None, "{hand:?}");
            }
        }
    }
}
