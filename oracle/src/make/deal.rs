//! Tiles drawn from a wall.

use crate::random::Random;

/// Puts so many tiles into the hand, drawn from what it leaves of four tiles of each of
/// the kinds; fewer if these run out.
pub fn deal(random: &mut Random, kinds: &[usize], tiles: usize, counts: &mut [u8; 34]) {
    let left = |kind: usize| usize::from(4 - counts[kind]);
    let mut wall: Vec<usize> = kinds
        .iter()
        .flat_map(|&kind| vec![kind; left(kind)])
        .collect();
    for _ in 0..tiles.min(wall.len()) {
        let drawn = wall.swap_remove(random.below(wall.len()));
        counts[drawn] += 1;
    }
}

/// Takes so many tiles out of the hand; all if it has not so many.
pub fn discard(random: &mut Random, tiles: usize, counts: &mut [u8; 34]) {
    let mut held: Vec<usize> = (0..34)
        .flat_map(|kind| vec![kind; counts[kind].into()])
        .collect();
    for _ in 0..tiles.min(held.len()) {
        let gone = held.swap_remove(random.below(held.len()));
        counts[gone] -= 1;
    }
}
