//! Sorts of suits that are accepted: spread, clumped, and as they come in a game.

use crate::judge::{WHOLE_FOUR, board};
use crate::make::sorts::{drifting, kinds, of, of_few_kinds};
use crate::random::Random;
use crate::suit::Suit;

/// Nine ranks or honours with a total of at most 14.
pub fn any(random: &mut Random, suit: Suit) -> Vec<u8> {
    match random.below(8) {
        0..2 => loose(random, suit),
        2 => even(random, suit),
        3 => clumped(random, suit, 3),
        4 => clumped(random, suit, 5),
        5..7 => near_a_target(random, suit),
        _ => part_of_a_hand(random, suit),
    }
}

/// So many tiles of the suit's own.
pub fn drawn(random: &mut Random, suit: Suit, tiles: usize) -> Vec<u8> {
    let counts = of(random, &kinds(board(suit)), tiles);
    counts[..suit.length()].to_vec()
}

/// Each total as often as any other.
pub fn loose(random: &mut Random, suit: Suit) -> Vec<u8> {
    let tiles = random.below(15);
    drawn(random, suit, tiles)
}

/// What 14 tiles of the whole game have of m or z.
pub fn part_of_a_hand(random: &mut Random, suit: Suit) -> Vec<u8> {
    let hand = of(random, &kinds(&WHOLE_FOUR), 14);
    match suit {
        Suit::Honours => hand[27..].to_vec(),
        _ => hand[..9].to_vec(),
    }
}

/// Each suit that is accepted as often as any other: chosen anew until it is.
fn even(random: &mut Random, suit: Suit) -> Vec<u8> {
    loop {
        let counts: Vec<u8> = (0..suit.length()).map(|_| random.below(5) as u8).collect();
        if counts.iter().sum::<u8>() <= 14 {
            return counts;
        }
    }
}

/// Many tiles of few kinds.
fn clumped(random: &mut Random, suit: Suit, least: usize) -> Vec<u8> {
    let counts = of_few_kinds(random, board(suit), least);
    counts[..suit.length()].to_vec()
}

/// Some target with a few tiles changed.
fn near_a_target(random: &mut Random, suit: Suit) -> Vec<u8> {
    let melds = random.below(5);
    let counts = drifting(random, board(suit), melds);
    counts[..suit.length()].to_vec()
}
