//! Why a hand or a suit is not answered.

use std::error::Error;
use std::fmt;

use crate::place::Place;
use crate::rank::Rank;
use crate::tile::Tile;

/// Why there is no answer. Of several faults it is the one with the smallest code. A hand's refusal names a tile, a
/// suit's (`Refusal<Rank>`) a rank: always the lowest at fault.
#[derive(Clone, Copy, Debug, PartialEq, Eq, Hash)]
pub enum Refusal<P: Place = Tile> {
    /// 1: the game is neither 3 nor 4. A suit has no game.
    Game,
    /// 2: k is over 4; of a suit, more than one pair or more than four melds are wanted.
    Goal,
    /// 3: there are not 34 counts; of a suit, not as many as it has ranks.
    Length,
    /// 4: more than four are held of one kind.
    Count(P),
    /// 5: more than 14 tiles are held.
    Sum,
    /// 6: one is held that the game does not have, or 1m/9m do not.
    Barred(P),
}

impl<P: Place> Refusal<P> {
    /// From what the archive gives, which is proved to be one of these.
    pub(crate) fn of(code: u8, index: usize) -> Self {
        match (code, P::at(index)) {
            (1, _) => Refusal::Game,
            (2, _) => Refusal::Goal,
            (3, _) => Refusal::Length,
            (4, Some(place)) => Refusal::Count(place),
            (5, _) => Refusal::Sum,
            (6, Some(place)) => Refusal::Barred(place),
            _ => unreachable!("the library never refuses with {code}, index {index}"),
        }
    }

    /// The number, 1 to 6, as an answer record and the C functions have it.
    pub fn code(self) -> u8 {
        match self {
            Refusal::Game => 1,
            Refusal::Goal => 2,
            Refusal::Length => 3,
            Refusal::Count(_) => 4,
            Refusal::Sum => 5,
            Refusal::Barred(_) => 6,
        }
    }

    fn place(self) -> Option<P> {
        match self {
            Refusal::Count(place) | Refusal::Barred(place) => Some(place),
            _ => None,
        }
    }
}

impl Refusal<Tile> {
    /// The tile that codes 4 and 6 name.
    pub fn tile(self) -> Option<Tile> {
        self.place()
    }
}

impl Refusal<Rank> {
    /// The rank that codes 4 and 6 name.
    pub fn rank(self) -> Option<Rank> {
        self.place()
    }
}

impl<P: Place> fmt::Display for Refusal<P> {
    fn fmt(&self, out: &mut fmt::Formatter) -> fmt::Result {
        match self {
            Refusal::Game => write!(out, "the game is neither 3 nor 4"),
            Refusal::Goal => write!(out, "{}", P::GOAL),
            Refusal::Length => write!(out, "{}", P::LENGTH),
            Refusal::Count(place) => write!(out, "more than four are held of {} {place}", P::NOUN),
            Refusal::Sum => write!(out, "more than 14 tiles are held"),
            Refusal::Barred(place) => write!(out, "{} {place} {}", P::NOUN, P::BARRED),
        }
    }
}

impl<P: Place> Error for Refusal<P> {}
