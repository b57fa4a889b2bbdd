//! A tile of a hand.

use std::fmt;

use crate::place::{sealed::Kind, Place};

/// A tile, by its index: 0 to 8 are 1m to 9m, 9 to 17 1p to 9p, 18 to 26 1s to 9s, 27 to 33 1z to 7z. It is shown
/// as in "7m".
#[derive(Clone, Copy, Debug, PartialEq, Eq, PartialOrd, Ord, Hash)]
pub struct Tile(u8);

impl Tile {
    /// The tile with this index; `None` from 34 on.
    pub fn new(index: usize) -> Option<Self> {
        (index < Self::COUNT).then_some(Tile(index as u8))
    }

    /// 0 to 33.
    pub fn index(self) -> usize {
        self.0.into()
    }
}

impl fmt::Display for Tile {
    fn fmt(&self, out: &mut fmt::Formatter) -> fmt::Result {
        let suit = Self::SUITS[self.index() / 9];
        write!(out, "{}{suit}", self.index() % 9 + 1)
    }
}

impl Place for Tile {}

impl Kind for Tile {
    const COUNT: usize = 34;
    const SUITS: [&'static str; 4] = ["m", "p", "s", "z"];
    const NOUN: &'static str = "tile";
    const GOAL: &'static str = "k is over 4";
    const LENGTH: &'static str = "there are not 34 counts";
    const BARRED: &'static str = "is not in the three-player game";

    fn at(index: usize) -> Option<Self> {
        Tile::new(index)
    }

    fn place(self) -> usize {
        self.index()
    }
}
