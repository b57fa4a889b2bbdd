//! Hands made wrong at random.

use crate::hand::Hand;
use crate::random::Random;

/// One or two faults; two show in which order they are tested. A fault may by chance
/// leave the hand as right as it was.
pub fn spoil(random: &mut Random, mut hand: Hand) -> Hand {
    for _ in 0..1 + random.below(2) {
        fault(random, &mut hand);
    }
    hand
}

fn fault(random: &mut Random, hand: &mut Hand) {
    let byte = random.below(256) as u8;
    let tile = random.below(34);
    match random.below(5) {
        0 => hand.game = byte,
        1 => hand.k = byte,
        2 => hand.counts[tile] = byte,
        3 => hand.counts[tile..]
            .iter_mut()
            .for_each(|count| *count = count.saturating_add(1)),
        _ => {
            hand.game = 3;
            hand.counts[1 + tile % 7] = 1;
        }
    }
}
