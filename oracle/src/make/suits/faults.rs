//! Suits with two faults or more, so that the order of the tests shows.

use super::cases::{Case, asked_once};
use crate::suit::question::Question;
use crate::suit::refusal::Refusal;
use crate::suit::{Goal, Suit};

/// Which faults a question is to have.
#[derive(Clone, Copy)]
struct Faults {
    goal: bool,
    length: bool,
    copies: bool,
    total: bool,
    outside: bool,
}

/// Every choice of two faults or more, a wrong length being one too short or one too long.
pub fn together(suit: Suit) -> Vec<Case> {
    let several = (0u8..32).filter(|bits| bits.count_ones() > 1);
    let chosen = several.map(Faults::from_bits);
    let possible = chosen.filter(|faults| suit == Suit::Ends || !faults.outside);
    possible.flat_map(|faults| cases(suit, faults)).collect()
}

fn cases(suit: Suit, faults: Faults) -> Vec<Case> {
    let told = faults.told(suit);
    let mut cases = Vec::new();
    for counts in faults.counts(suit) {
        if faults.goal {
            let wrong = [Goal::new(0, 5), Goal::new(2, 0)];
            cases.extend(wrong.map(|goal| asked_once(suit, goal, &counts, told)));
        } else {
            let question = Question::all(suit, &counts);
            cases.push(asked_once(suit, Goal::new(1, 4), &counts, told));
            cases.push(Case { question, told });
        }
    }
    cases
}

impl Faults {
    fn from_bits(bits: u8) -> Self {
        let bit = |at: u8| bits >> at & 1 == 1;
        Faults {
            goal: bit(0),
            length: bit(1),
            copies: bit(2),
            total: bit(3),
            outside: bit(4),
        }
    }

    /// The first of them. The count over 4 is at the last place, after whatever is outside.
    fn told(&self, suit: Suit) -> Refusal {
        let last = suit.length() - 1;
        let in_order = [
            (self.goal, Refusal::Goal),
            (self.length, Refusal::Length),
            (self.copies, Refusal::Copies(last)),
            (self.total, Refusal::Total),
            (self.outside, Refusal::Outside(2)),
        ];
        let first = in_order.into_iter().find(|(chosen, _)| *chosen);
        first.expect("two faults or more").1
    }

    /// In 1m/9m a total over 14 cannot be had without what is outside, so there it is no
    /// matter whether that was chosen too.
    fn counts(&self, suit: Suit) -> Vec<Vec<u8>> {
        let mut counts = vec![0; suit.length()];
        if self.total {
            counts[..4].copy_from_slice(&[4, 4, 4, 3]);
        }
        if self.outside {
            counts[2] = 4;
        }
        if self.copies {
            counts[suit.length() - 1] = 5;
        }
        match self.length {
            true => vec![counts[1..].to_vec(), [&[0], &counts[..]].concat()],
            false => vec![counts],
        }
    }
}
