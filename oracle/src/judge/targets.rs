//! How many targets a board has.

use super::board::{BOARDS, Board};
use super::walk::{Pieces, Walk};

/// The distinct targets of a goal in rising order, each as its counts in base 8: the
/// count of kind i stands at bits 3i to 3i + 2.
pub fn targets(board: &Board, pairs: usize, melds: usize) -> Vec<u128> {
    let pieces = Pieces::new(board);
    let none = vec![0; board.kinds];
    let mut found = Vec::new();
    let visit = |target: &[u8]| found.push(digits(target));
    Walk::new(&pieces, &none, u32::MAX, visit).run(pairs, melds);
    found.sort_unstable();
    found.dedup();
    found
}

fn digits(target: &[u8]) -> u128 {
    let kinds = target.iter().rev();
    kinds.fold(0, |number, &count| number << 3 | u128::from(count))
}

/// The table of document 01's ten goals over the five boards.
pub fn print_counts() {
    print_row("goal", |board| board.name.into());
    for goal in 0..10 {
        let (pairs, melds) = (goal / 5, goal % 5);
        let count = |board: &Board| targets(board, pairs, melds).len().to_string();
        print_row(&format!("({pairs},{melds})"), count);
    }
}

fn print_row(name: &str, cell: impl Fn(&Board) -> String) {
    print!("{name:8}");
    for board in BOARDS {
        print!("{:>12}", cell(board));
    }
    println!();
}

#[cfg(test)]
mod tests {
    use super::*;
    use crate::judge::{ENDS, HONOURS, RANKS, WHOLE_FOUR, WHOLE_THREE};

    /// Goals of two suits side by side: the pairs and melds are shared out in all ways, and
    /// no counts come from two goals, as 3m and 3m + 2 tiles are all different.
    fn beside(a: [usize; 10], b: [usize; 10]) -> [usize; 10] {
        let mut both = [0; 10];
        for (i, x) in a.iter().enumerate() {
            for (j, y) in b.iter().enumerate() {
                if i / 5 + j / 5 < 2 && i % 5 + j % 5 < 5 {
                    both[i + j] += x * y;
                }
            }
        }
        both
    }

    fn counts(board: &Board) -> [usize; 10] {
        std::array::from_fn(|goal| targets(board, goal / 5, goal % 5).len())
    }

    #[test]
    fn a_whole_board_is_its_suits_side_by_side() {
        let ranks = counts(&RANKS);
        let honours = counts(&HONOURS);
        let four = beside(beside(beside(ranks, ranks), ranks), honours);
        let three = beside(beside(beside(counts(&ENDS), ranks), ranks), honours);
        for (goal, (pairs, melds)) in [(3, (0, 3)), (7, (1, 2))] {
            assert_eq!(targets(&WHOLE_FOUR, pairs, melds).len(), four[goal]);
            assert_eq!(targets(&WHOLE_THREE, pairs, melds).len(), three[goal]);
        }
    }

    #[test]
    fn goals_of_1m_9m_without_a_target() {
        let counts = counts(&ENDS);
        assert_eq!(counts, [1, 2, 1, 0, 0, 2, 2, 0, 0, 0]);
    }
}
