//! What a set holds and a refusal names: a tile of the 34, or a rank of one suit. They are types apart, so that rank 3
//! of a suit is never read as the third tile of a hand.

use std::fmt::{Debug, Display};

/// A tile of a hand or a rank of a suit: [`Tile`](crate::Tile) and [`Rank`](crate::Rank), and nothing else.
pub trait Place: Copy + Debug + Display + sealed::Kind {}

/// What sets and refusals need to know of a place. Only this crate can name it, so nobody else can add a place.
pub(crate) mod sealed {
    pub trait Kind: Sized {
        /// How many there are.
        const COUNT: usize;

        /// The letter of each suit; a rank stands in one suit, and has none.
        const SUITS: [&'static str; 4];

        // The words in which a refusal speaks of them.
        const NOUN: &'static str;
        const GOAL: &'static str;
        const LENGTH: &'static str;
        const BARRED: &'static str;

        /// The one with this index, counted from 0; `None` from `COUNT` on.
        fn at(index: usize) -> Option<Self>;

        fn place(self) -> usize;
    }
}
