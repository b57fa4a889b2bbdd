//! A rank of one suit.

use std::fmt;

use crate::place::{sealed::Kind, Place};

/// A rank of one suit, by its index: 0 is the first. It is shown counted from 1.
#[derive(Clone, Copy, Debug, PartialEq, Eq, PartialOrd, Ord, Hash)]
pub struct Rank(u8);

impl Rank {
    /// The rank with this index; `None` from 9 on.
    pub fn new(index: usize) -> Option<Self> {
        (index < Self::COUNT).then_some(Rank(index as u8))
    }

    /// 0 to 8; of the honours, 0 to 6.
    pub fn index(self) -> usize {
        self.0.into()
    }
}

impl fmt::Display for Rank {
    fn fmt(&self, out: &mut fmt::Formatter) -> fmt::Result {
        write!(out, "{}", self.0 + 1)
    }
}

impl Place for Rank {}

impl Kind for Rank {
    const COUNT: usize = 9;
    const SUITS: [&'static str; 4] = [""; 4];
    const NOUN: &'static str = "rank";
    const GOAL: &'static str = "more than one pair or more than four melds are wanted";
    const LENGTH: &'static str = "there are not as many counts as the suit has ranks";
    const BARRED: &'static str = "may not be held in 1m/9m";

    fn at(index: usize) -> Option<Self> {
        Rank::new(index)
    }

    fn place(self) -> usize {
        self.index()
    }
}
