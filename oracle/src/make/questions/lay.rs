//! Counts laid on the 34 tiles by rule.

use crate::make::sorts::{board, kinds};
use crate::make::suits::fill;

pub const NONE: [u8; 34] = [0; 34];

/// These counts at their places and nothing else.
pub fn with(places: &[(usize, u8)]) -> [u8; 34] {
    let mut counts = NONE;
    for &(tile, count) in places {
        counts[tile] = count;
    }
    counts
}

/// The tiles that a hand of the game may hold.
pub fn tiles(game: u8) -> Vec<usize> {
    kinds(board(game))
}

/// So many tiles of the game: four of the first kind, four of the next, and so on; and one
/// of each kind in turn; both from either end.
pub fn fills(game: u8, total: usize) -> [[u8; 34]; 4] {
    let tiles = tiles(game);
    fill::fills(tiles.len(), total).map(|counts| {
        let places: Vec<_> = tiles.iter().copied().zip(counts).collect();
        with(&places)
    })
}
