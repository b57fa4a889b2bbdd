//! Tiles that game 3 does not have.

use super::lay::with;

/// Counts of at most 14 tiles, with the lowest tile that is outside: each of 2m to 8m once and
/// four times, from each of them on to 8m, with 1m and 9m, with p, s and z, and each two.
pub fn outside() -> Vec<(usize, [u8; 34])> {
    let mut held = Vec::new();
    for tile in 1..8 {
        let rest: Vec<_> = (tile..8).map(|tile| (tile, 1)).collect();
        let ends = [(0, 4), (tile, 1), (8, 4)];
        let others = [(tile, 1), (9, 3), (26, 3), (33, 3)];
        let two = (tile + 1..8).map(|second| vec![(tile, 1), (second, 2)]);
        let mut ways = vec![vec![(tile, 1)], vec![(tile, 4)], rest];
        ways.extend([ends.to_vec(), others.to_vec()]);
        ways.extend(two);
        held.extend(ways.iter().map(|places| (tile, with(places))));
    }
    held
}
