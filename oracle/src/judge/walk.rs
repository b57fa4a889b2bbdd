//! All ways to choose pairs and melds with no count over 4 and no lack over a bound.

use super::board::Board;

/// The pairs and melds of a board, in the fixed order in which they are chosen.
pub struct Pieces {
    pub kinds: usize,
    pairs: Vec<[usize; 2]>,
    melds: Vec<[usize; 3]>,
}

impl Pieces {
    pub fn new(board: &Board) -> Self {
        Pieces {
            kinds: board.kinds,
            pairs: board.pairs(),
            melds: board.melds(),
        }
    }
}

pub struct Walk<'a, V> {
    pieces: &'a Pieces,
    hand: &'a [u8],
    bound: u32,
    target: Vec<u8>,
    lack: u32,
    visit: V,
}

impl<'a, V: FnMut(&[u8])> Walk<'a, V> {
    /// `visit` is handed each target, once for every multiset of pieces that makes it.
    pub fn new(pieces: &'a Pieces, hand: &'a [u8], bound: u32, visit: V) -> Self {
        Walk {
            pieces,
            hand,
            bound,
            target: vec![0; pieces.kinds],
            lack: 0,
            visit,
        }
    }

    /// Chooses so many pairs and melds, each list in an order that never falls.
    pub fn run(&mut self, pairs: usize, melds: usize) {
        self.add_pairs(0, pairs, melds);
    }

    fn add_pairs(&mut self, first: usize, left: usize, melds: usize) {
        if left == 0 {
            return self.add_melds(0, melds);
        }
        for at in first..self.pieces.pairs.len() {
            let pair = self.pieces.pairs[at];
            if self.put(&pair) {
                self.add_pairs(at, left - 1, melds);
            }
            self.take(&pair);
        }
    }

    fn add_melds(&mut self, first: usize, left: usize) {
        if left == 0 {
            return (self.visit)(&self.target);
        }
        for at in first..self.pieces.melds.len() {
            let meld = self.pieces.melds[at];
            if self.put(&meld) {
                self.add_melds(at, left - 1);
            }
            self.take(&meld);
        }
    }

    /// Adds the tiles; says whether no count is over 4 and the lack not over the bound.
    fn put<const N: usize>(&mut self, piece: &[usize; N]) -> bool {
        for &kind in piece {
            self.target[kind] += 1;
            self.lack += u32::from(self.target[kind] > self.hand[kind]);
        }
        self.lack <= self.bound && piece.iter().all(|&kind| self.target[kind] <= 4)
    }

    fn take<const N: usize>(&mut self, piece: &[usize; N]) {
        for &kind in piece {
            self.lack -= u32::from(self.target[kind] > self.hand[kind]);
            self.target[kind] -= 1;
        }
    }
}
