//! One suit.

use crate::rank::Rank;
use crate::raw;
use crate::refusal::Refusal;
use crate::set::Ranks;

/// How many goals a suit has: 0 or 1 pairs with 0 to 4 melds.
pub const GOALS: usize = 10;

/// Which suit is asked.
#[derive(Clone, Copy, Debug, PartialEq, Eq, Hash)]
pub enum Suit {
    /// Nine ranks: m, p or s.
    Ranks,
    /// The seven honours.
    Honours,
    /// 1m/9m: nine ranks, of which only the first and the last may be held, as in the three-player game.
    Ends,
}

/// The answer for a suit, as `Answer` is for a hand.
#[derive(Clone, Copy, Debug, PartialEq, Eq, Hash)]
pub struct SuitAnswer {
    number: u8,
    necessary: Ranks,
    unnecessary: Ranks,
}

/// Answers a suit: its `counts`, and how many `pairs` (0 or 1) and `melds` (0 to 4) are wanted of it.
///
/// More than two pairs and melds cannot be made of 1m/9m. That is no fault: the number is 14 and both sets are empty.
///
/// This searches; where many goals or many suits are wanted, [`goals`] is far faster.
pub fn suit(suit: Suit, counts: &[u8], pairs: u8, melds: u8) -> Result<SuitAnswer, Refusal<Rank>> {
    told(match suit {
        Suit::Ranks => raw::ranks(counts, pairs, melds),
        Suit::Honours => raw::honours(counts, pairs, melds),
        Suit::Ends => raw::ends(counts, pairs, melds),
    })
}

/// Answers the ten goals of a suit at once: answer `5 * pairs + melds` is the one that [`suit`] gives for so many pairs
/// and melds. A suit that is refused is refused for all of them.
pub fn goals(suit: Suit, counts: &[u8]) -> Result<[SuitAnswer; GOALS], Refusal<Rank>> {
    let (_, words) = match suit {
        Suit::Ranks => raw::ranks_goals(counts),
        Suit::Honours => raw::honours_goals(counts),
        Suit::Ends => raw::ends_goals(counts),
    };
    // the code beside them is not needed: each word has it
    let mut answers = [told(words[0])?; GOALS];
    for (answer, word) in answers.iter_mut().zip(words) {
        *answer = told(word)?;
    }
    Ok(answers)
}

/// What a word says.
fn told(word: u64) -> Result<SuitAnswer, Refusal<Rank>> {
    let [number, low, high, few, many, index, code, _] = word.to_le_bytes();
    if code != 0 {
        return Err(Refusal::of(code, index.into()));
    }
    Ok(SuitAnswer {
        number,
        necessary: Ranks::from_bits(u16::from_le_bytes([low, high]).into()),
        unnecessary: Ranks::from_bits(u16::from_le_bytes([few, many]).into()),
    })
}

impl SuitAnswer {
    /// How many tiles are lacking.
    pub fn number(&self) -> u8 {
        self.number
    }

    /// The ranks of which some nearest target holds more.
    pub fn necessary(&self) -> Ranks {
        self.necessary
    }

    /// The ranks of which some nearest target holds fewer.
    pub fn unnecessary(&self) -> Ranks {
        self.unnecessary
    }
}
