//! Hands that hold tiles of one suit only, made by rule and all accepted.

use super::lay::NONE;
use crate::hand::Hand;
use crate::make::suits::extremes::far_out;
use crate::suit::Suit;

/// Where a suit of nine ranks can stand, and in which game.
const RANKS: [(usize, u8); 5] = [(0, 4), (9, 4), (9, 3), (18, 4), (18, 3)];

const HONOURS: [(usize, u8); 2] = [(27, 4), (27, 3)];

/// The suits that lie far out, each at one of these places in turn.
pub fn one_suit() -> Vec<Hand> {
    let mut hands = placed(&far_out(Suit::Ranks), &RANKS);
    hands.extend(placed(&far_out(Suit::Honours), &HONOURS));
    hands
}

/// As many melds as the tiles are enough for, or one more, in turn.
fn placed(suits: &[Vec<u8>], places: &[(usize, u8)]) -> Vec<Hand> {
    let places = places.iter().cycle();
    let more = [0, 1].into_iter().cycle();
    let of = |((suit, &(offset, game)), more): ((&Vec<u8>, &(usize, u8)), u8)| {
        let mut counts = NONE;
        counts[offset..offset + suit.len()].copy_from_slice(suit);
        let k = (suit.iter().sum::<u8>() / 3 + more).min(4);
        Hand { counts, k, game }
    };
    suits.iter().zip(places).zip(more).map(of).collect()
}
