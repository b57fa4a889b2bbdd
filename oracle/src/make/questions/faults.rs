//! Hands with two faults or more, so that the order of the tests shows.

use super::cases::Case;
use super::lay::NONE;
use crate::refusal::Refusal;

/// Which faults a question is to have; a count over 4 has its place.
#[derive(Clone, Copy)]
struct Faults {
    game: bool,
    melds: bool,
    length: bool,
    copies: Option<usize>,
    total: bool,
    outside: bool,
}

/// What is outside game 3 stands here.
const OUTSIDE: usize = 2;

/// A count over 4 stands before it, at it, after it in m, and at the last tile.
const COPIES: [usize; 4] = [0, OUTSIDE, 5, 33];

/// Every choice of two faults or more.
pub fn together() -> Vec<Case> {
    let mut chosen = Vec::new();
    for bits in 0u8..32 {
        chosen.push(Faults::from_bits(bits, None));
        let places = COPIES.into_iter();
        chosen.extend(places.map(|tile| Faults::from_bits(bits, Some(tile))));
    }
    chosen.retain(|faults| faults.in_order().len() > 1);
    chosen.iter().flat_map(Faults::cases).collect()
}

impl Faults {
    fn from_bits(bits: u8, copies: Option<usize>) -> Self {
        let bit = |at: u8| bits >> at & 1 == 1;
        Faults {
            game: bit(0),
            melds: bit(1),
            length: bit(2),
            copies,
            total: bit(3),
            outside: bit(4),
        }
    }

    fn in_order(&self) -> Vec<Refusal> {
        let all = [
            self.game.then_some(Refusal::Game),
            self.melds.then_some(Refusal::Melds),
            self.length.then_some(Refusal::Length),
            self.copies.map(Refusal::Copies),
            self.total.then_some(Refusal::Total),
            self.outside.then_some(Refusal::Outside(OUTSIDE)),
        ];
        all.into_iter().flatten().collect()
    }

    /// The first of them is told, with each game and k and both lengths that are wrong or
    /// right as chosen.
    fn cases(&self) -> Vec<Case> {
        let told = self.in_order()[0];
        let mut cases = Vec::new();
        for counts in self.counts() {
            for &k in self.k() {
                let games = self.games().iter();
                cases.extend(games.map(|&game| Case::new(&counts, k, game, told)));
            }
        }
        cases
    }

    /// Where 2m to 8m are to be a fault, the game must be 3 or itself at fault.
    fn games(&self) -> &'static [u8] {
        match (self.game, self.outside) {
            (true, _) => &[5, 20],
            (false, true) => &[3],
            (false, false) => &[3, 4],
        }
    }

    fn k(&self) -> &'static [u8] {
        if self.melds { &[5, 255] } else { &[4] }
    }

    /// The fifteen tiles are of p and s, which both games have. A wrong length is one too
    /// short or one too long.
    fn counts(&self) -> Vec<Vec<u8>> {
        let mut counts = NONE;
        if self.total {
            counts[16..20].copy_from_slice(&[4, 4, 4, 3]);
        }
        if self.outside {
            counts[OUTSIDE] = 1;
        }
        if let Some(tile) = self.copies {
            counts[tile] = 5;
        }
        match self.length {
            true => vec![counts[1..].to_vec(), [&[0], &counts[..]].concat()],
            false => vec![counts.to_vec()],
        }
    }
}
