//! The answer for an accepted hand, or for a goal of an accepted suit (document 01, "What a
//! target is" and "One suit").

use crate::hand::Hand;

#[derive(Clone, Copy, Debug, PartialEq, Eq)]
pub struct Answer {
    pub number: u8,
    pub necessary: u64,
    pub unnecessary: u64,
}

impl Answer {
    /// How many bits the necessary set has: at most 34.
    pub fn kinds(&self) -> u8 {
        self.necessary.count_ones() as u8
    }

    /// The sum of 4 minus the held count over the necessary set: at most 136.
    pub fn live(&self, hand: &Hand) -> u8 {
        let tiles = hand.counts.iter().enumerate();
        let needed = tiles.filter(|(tile, _)| self.necessary >> tile & 1 == 1);
        needed.map(|(_, &held)| 4 - held).sum()
    }
}
