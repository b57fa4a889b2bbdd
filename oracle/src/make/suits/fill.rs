//! So many tiles laid into a suit by rule.

/// Four of the first kind, four of the next, and so on; and level, one of each kind in turn;
/// both from either end.
pub fn fills(length: usize, total: usize) -> [Vec<u8>; 4] {
    let heaped: Vec<u8> = (0..length).map(|kind| heap(kind, total)).collect();
    let level: Vec<u8> = (0..length).map(|kind| share(length, kind, total)).collect();
    let reversed = |counts: &[u8]| counts.iter().rev().copied().collect();
    [reversed(&heaped), reversed(&level), heaped, level]
}

fn heap(kind: usize, total: usize) -> u8 {
    total.saturating_sub(4 * kind).min(4) as u8
}

fn share(length: usize, kind: usize, total: usize) -> u8 {
    ((total + length - 1 - kind) / length) as u8
}

#[cfg(test)]
mod tests {
    use super::fills;

    #[test]
    fn fifteen_tiles_of_nine_ranks() {
        let [from_last, level_from_last, from_first, level_from_first] = fills(9, 15);
        assert_eq!(from_last, [0, 0, 0, 0, 0, 3, 4, 4, 4]);
        assert_eq!(level_from_last, [1, 1, 1, 2, 2, 2, 2, 2, 2]);
        assert_eq!(from_first, [4, 4, 4, 3, 0, 0, 0, 0, 0]);
        assert_eq!(level_from_first, [2, 2, 2, 2, 2, 2, 1, 1, 1]);
    }
}
