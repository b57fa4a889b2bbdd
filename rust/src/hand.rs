//! A whole hand.

use crate::raw;
use crate::refusal::Refusal;
use crate::set::Tiles;

/// The answer for a hand: number and sets, by the nearest finished hands.
#[derive(Clone, Copy, Debug, PartialEq, Eq, Hash)]
pub struct Answer {
    number: u8,
    necessary: Tiles,
    unnecessary: Tiles,
    kinds: u8,
    live: u8,
}

/// Answers a hand: 34 `counts`, `k` melds (0 to 4) that are wanted beside a pair, and the `game`, 4, or 3 for the
/// three-player game, which has no 2m to 8m. Fewer tiles than a finished hand has are no fault.
pub fn answer(counts: &[u8], k: u8, game: u8) -> Result<Answer, Refusal> {
    told(raw::hand(counts, k, game))
}

/// The same answer as [`answer`] gives, in another way: the targets of each suit are tried one after the other. It takes
/// hundreds of times as long, and is here to be compared with.
pub fn answer_by_search(counts: &[u8], k: u8, game: u8) -> Result<Answer, Refusal> {
    told(raw::hand_search(counts, k, game))
}

/// What the code and the three words say.
fn told((code, [first, necessary, unnecessary]): (u8, [u64; 3])) -> Result<Answer, Refusal> {
    let [number, kinds, live, index, ..] = first.to_le_bytes();
    if code != 0 {
        return Err(Refusal::of(code, index.into()));
    }
    Ok(Answer {
        number,
        necessary: Tiles::from_bits(necessary),
        unnecessary: Tiles::from_bits(unnecessary),
        kinds,
        live,
    })
}

impl Answer {
    /// How many tiles the nearest finished hand still lacks.
    pub fn number(&self) -> u8 {
        self.number
    }

    /// The tiles of which some nearest finished hand holds more.
    pub fn necessary(&self) -> Tiles {
        self.necessary
    }

    /// The tiles of which some nearest finished hand holds fewer. A tile can be in both sets.
    pub fn unnecessary(&self) -> Tiles {
        self.unnecessary
    }

    /// How many tiles are necessary.
    pub fn kinds(&self) -> u8 {
        self.kinds
    }

    /// How many of the necessary tiles the hand does not hold, four of each being in the game.
    pub fn live(&self) -> u8 {
        self.live
    }
}
