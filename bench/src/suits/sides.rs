//! The three that are held against each other, for each kind of suit. Types and not values, so
//! that each call is known when the loops around it are compiled.

use std::fmt::Debug;

use oracle::searched::{self, Found};
use oracle::suit::Goal;

use crate::ours::{self, TEN, Word};

pub trait Sides {
    type Counts: Debug;

    /// The Rust source: its search with a fresh target and its own starting bound.
    fn theirs(counts: &Self::Counts, goal: Goal) -> Found;

    fn search(counts: &Self::Counts, goal: Goal) -> Word;

    /// All ten goals in one call.
    fn fast(counts: &Self::Counts) -> [Word; TEN];
}

pub struct Ranks;
pub struct Honours;
pub struct Ends;

impl Sides for Ranks {
    type Counts = [u8; 9];

    fn theirs(counts: &[u8; 9], goal: Goal) -> Found {
        searched::ranks(counts, goal)
    }

    fn search(counts: &[u8; 9], goal: Goal) -> Word {
        ours::ranks(counts, goal)
    }

    fn fast(counts: &[u8; 9]) -> [Word; TEN] {
        ours::ranks_goals(counts)
    }
}

impl Sides for Honours {
    type Counts = [u8; 7];

    fn theirs(counts: &[u8; 7], goal: Goal) -> Found {
        searched::honours(counts, goal)
    }

    fn search(counts: &[u8; 7], goal: Goal) -> Word {
        ours::honours(counts, goal)
    }

    fn fast(counts: &[u8; 7]) -> [Word; TEN] {
        ours::honours_goals(counts)
    }
}

impl Sides for Ends {
    type Counts = [u8; 9];

    fn theirs(counts: &[u8; 9], goal: Goal) -> Found {
        searched::ends(counts, goal)
    }

    fn search(counts: &[u8; 9], goal: Goal) -> Word {
        ours::ends(counts, goal)
    }

    fn fast(counts: &[u8; 9]) -> [Word; TEN] {
        ours::ends_goals(counts)
    }
}
