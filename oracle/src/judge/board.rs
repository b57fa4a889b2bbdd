//! The boards a target can lie on: three kinds of suit and the two whole games.

/// Kinds are numbered from 0. `held` says which may be in a hand or a target, `starts`
/// at which a sequence may begin.
pub struct Board {
    pub name: &'static str,
    pub kinds: usize,
    pub held: fn(usize) -> bool,
    pub starts: fn(usize) -> bool,
}

pub const RANKS: Board = Board {
    name: "nine ranks",
    kinds: 9,
    held: |_| true,
    starts: |rank| rank < 7,
};

pub const HONOURS: Board = Board {
    name: "honours",
    kinds: 7,
    held: |_| true,
    starts: |_| false,
};

pub const ENDS: Board = Board {
    name: "1m/9m",
    kinds: 9,
    held: |rank| rank == 0 || rank == 8,
    starts: |_| false,
};

pub const WHOLE_FOUR: Board = Board {
    name: "game 4",
    kinds: 34,
    held: |_| true,
    starts: |tile| tile < 27 && tile % 9 < 7,
};

pub const WHOLE_THREE: Board = Board {
    name: "game 3",
    kinds: 34,
    held: |tile| tile == 0 || tile >= 8,
    starts: |tile| (9..27).contains(&tile) && tile % 9 < 7,
};

pub const BOARDS: [&Board; 5] = [&RANKS, &HONOURS, &ENDS, &WHOLE_FOUR, &WHOLE_THREE];

impl Board {
    /// All pairs, each once.
    pub fn pairs(&self) -> Vec<[usize; 2]> {
        self.kinds_held().map(|kind| [kind; 2]).collect()
    }

    /// All melds, each once: the triplets, then the sequences.
    pub fn melds(&self) -> Vec<[usize; 3]> {
        let triplets = self.kinds_held().map(|kind| [kind; 3]);
        let starts = (0..self.kinds).filter(|&kind| (self.starts)(kind));
        let sequences = starts.map(|kind| [kind, kind + 1, kind + 2]);
        triplets.chain(sequences).collect()
    }

    fn kinds_held(&self) -> impl Iterator<Item = usize> {
        (0..self.kinds).filter(|&kind| (self.held)(kind))
    }
}
