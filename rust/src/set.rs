//! Sets of tiles, and of ranks.

use std::fmt;
use std::marker::PhantomData;

use crate::place::Place;
use crate::rank::Rank;
use crate::tile::Tile;

/// A set of tiles.
pub type Tiles = Set<Tile>;

/// A set of ranks of one suit.
pub type Ranks = Set<Rank>;

/// A set, shown as in "19m1p", ranks of a suit before its letter; the empty one as "-".
#[derive(Clone, Copy, Debug, PartialEq, Eq, Hash)]
pub struct Set<P: Place> {
    bits: u64,
    of: PhantomData<P>,
}

impl<P: Place> Set<P> {
    /// Bits past the last place are not taken, so that every bit is a member.
    pub(crate) fn from_bits(bits: u64) -> Self {
        let (bits, of) = (bits & ((1 << P::COUNT) - 1), PhantomData);
        Set { bits, of }
    }

    /// Bit i stands for the member with index i.
    pub fn bits(self) -> u64 {
        self.bits
    }

    /// Whether it is a member.
    pub fn contains(self, place: P) -> bool {
        self.bits >> place.place() & 1 == 1
    }

    /// How many members there are.
    pub fn len(self) -> usize {
        self.bits.count_ones() as usize
    }

    /// Whether there is none.
    pub fn is_empty(self) -> bool {
        self.bits == 0
    }

    /// The members, lowest index first.
    pub fn iter(self) -> Iter<P> {
        Iter { rest: self }
    }
}

/// The members of a set that are still to come.
#[derive(Clone, Debug)]
pub struct Iter<P: Place> {
    rest: Set<P>,
}

impl<P: Place> Iterator for Iter<P> {
    type Item = P;

    fn next(&mut self) -> Option<P> {
        let lowest = P::at(self.rest.bits.trailing_zeros() as usize)?;
        self.rest.bits &= self.rest.bits - 1;
        Some(lowest)
    }

    fn size_hint(&self) -> (usize, Option<usize>) {
        (self.rest.len(), Some(self.rest.len()))
    }
}

impl<P: Place> ExactSizeIterator for Iter<P> {}

impl<P: Place> IntoIterator for Set<P> {
    type Item = P;
    type IntoIter = Iter<P>;

    fn into_iter(self) -> Iter<P> {
        self.iter()
    }
}

impl<P: Place> fmt::Display for Set<P> {
    fn fmt(&self, out: &mut fmt::Formatter) -> fmt::Result {
        if self.is_empty() {
            return write!(out, "-");
        }
        let mut rest = self.iter().peekable();
        while let Some(place) = rest.next() {
            let suit = place.place() / 9;
            write!(out, "{}", place.place() % 9 + 1)?;
            if rest.peek().map(|next| next.place() / 9) != Some(suit) {
                out.write_str(P::SUITS[suit])?;
            }
        }
        Ok(())
    }
}
