//! One suit, and what can be asked of it (document 01, "One suit").

pub mod question;
pub mod record;
pub mod refusal;

/// Nine ranks, honours, or 1m/9m; a question names them 0, 1 and 2.
#[derive(Clone, Copy, Debug, PartialEq, Eq)]
pub enum Suit {
    Ranks,
    Honours,
    Ends,
}

pub const SUITS: [Suit; 3] = [Suit::Ranks, Suit::Honours, Suit::Ends];

impl Suit {
    /// How many counts it has.
    pub fn length(self) -> usize {
        match self {
            Suit::Ranks | Suit::Ends => 9,
            Suit::Honours => 7,
        }
    }
}

/// So many pairs and melds, right or wrong.
#[derive(Clone, Copy, Debug, PartialEq, Eq)]
pub struct Goal {
    pub pairs: u8,
    pub melds: u8,
}

impl Goal {
    pub const fn new(pairs: u8, melds: u8) -> Self {
        Goal { pairs, melds }
    }
}

/// The ten goals, in the order of document 01.
pub const GOALS: [Goal; 10] = [
    Goal::new(0, 0),
    Goal::new(0, 1),
    Goal::new(0, 2),
    Goal::new(0, 3),
    Goal::new(0, 4),
    Goal::new(1, 0),
    Goal::new(1, 1),
    Goal::new(1, 2),
    Goal::new(1, 3),
    Goal::new(1, 4),
];
