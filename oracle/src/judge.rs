//! The second judge: the answer from the definition of a target alone (document 01,
//! "What a target is" and "One suit"). It shares no code with the Rust source: it lists
//! every way to choose the pairs and melds and takes the least lack.

mod board;
mod hand;
mod suit;
mod targets;
mod walk;

pub use board::{BOARDS, Board, ENDS, HONOURS, RANKS, WHOLE_FOUR, WHOLE_THREE};
pub use hand::answer;
pub use suit::{board, suit_answer};
pub use targets::{print_counts, targets};

use crate::answer::Answer;
use walk::{Pieces, Walk};

/// The number a suit gives for a goal without a target (document 01, "One suit").
const NO_TARGET: u32 = 14;

/// Least lack, and the kinds of which some target of least lack holds more, or fewer.
#[derive(Clone, Copy, Debug, PartialEq, Eq)]
pub struct Verdict {
    pub number: u32,
    pub necessary: u64,
    pub unnecessary: u64,
}

impl Verdict {
    fn answer(&self) -> Answer {
        Answer {
            number: self.number as u8,
            necessary: self.necessary,
            unnecessary: self.unnecessary,
        }
    }
}

pub struct Judge {
    pieces: Pieces,
}

impl Judge {
    pub fn new(board: &Board) -> Self {
        Judge {
            pieces: Pieces::new(board),
        }
    }

    /// The bound rises from 0 until a target is in reach. Each target met then lacks exactly
    /// the bound, and none of that lack is missed: a branch is left only where its lack is
    /// greater than the bound, and the lack never falls along a branch.
    pub fn verdict(&self, hand: &[u8], pairs: usize, melds: usize) -> Verdict {
        assert_eq!(hand.len(), self.pieces.kinds);
        let all_tiles = (3 * melds + 2 * pairs) as u32;
        (0..=all_tiles)
            .find_map(|bound| self.within(bound, hand, pairs, melds))
            .unwrap_or(Verdict {
                number: NO_TARGET,
                necessary: 0,
                unnecessary: 0,
            })
    }

    /// The sets over the targets that lack at most the bound; none if there is no such target.
    fn within(&self, bound: u32, hand: &[u8], pairs: usize, melds: usize) -> Option<Verdict> {
        let mut found = None;
        let visit = |target: &[u8]| {
            let verdict = found.get_or_insert(Verdict {
                number: bound,
                necessary: 0,
                unnecessary: 0,
            });
            for (kind, (wanted, held)) in target.iter().zip(hand).enumerate() {
                verdict.necessary |= u64::from(wanted > held) << kind;
                verdict.unnecessary |= u64::from(wanted < held) << kind;
            }
        };
        Walk::new(&self.pieces, hand, bound, visit).run(pairs, melds);
        found
    }
}
