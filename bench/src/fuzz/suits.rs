//! The suit entries of the library, one goal to a call: any counts, any pairs and melds.

use oracle::answer::Answer;
use oracle::make::suits::sorts;
use oracle::random::Random;
use oracle::searched;
use oracle::suit::question::Question;
use oracle::suit::refusal::{Refusal, refusal};
use oracle::suit::{Goal, SUITS, Suit};

use super::hex::hex;
use super::inputs::{byte, damage, piece};
use super::laid::Laid;
use super::tally::Tally;
use crate::ours::{self, Word, word};

const MOST_COUNTS: usize = 20;

pub fn ask(random: &mut Random, tally: &mut Tally) {
    let suit = *random.pick(&SUITS);
    let (kind, counts) = counts(random, suit);
    let goal = goal(random);
    let laid = Laid::new(random, &counts, 0);
    tally.asked(kind);
    tally.met("lengths", counts.len());
    tally.met("offsets of the counts", laid.piece.start);
    let (code, wanted) = expected(suit, &counts, goal);
    tally.code(code);
    let ours = ours::suit(suit, &laid.bytes[laid.piece.clone()], goal);
    tally.hold(ours == wanted, || {
        let (pairs, melds) = (goal.pairs, goal.melds);
        let asked = format!("{suit:?} {} pairs {pairs} melds {melds}", hex(&counts));
        format!("{asked}: Rust {wanted:#x}; ours {ours:#x}")
    });
}

/// Half are suits that no refusal fits; the rest are cut from the pieces of the other parts.
pub fn counts(random: &mut Random, suit: Suit) -> (&'static str, Vec<u8>) {
    let mut counts = plausible(random, suit);
    match random.below(4) {
        0..2 => ("plausible", counts),
        2 => {
            damage(random, &mut counts);
            ("damaged", counts)
        }
        _ => {
            let bytes = piece(random, MOST_COUNTS).bytes;
            let length = random.below(MOST_COUNTS + 1).min(bytes.len());
            let from = random.below(bytes.len() - length + 1);
            ("cut from a piece", bytes[from..from + length].to_vec())
        }
    }
}

/// Of 1m/9m there are 25.
fn plausible(random: &mut Random, suit: Suit) -> Vec<u8> {
    if suit != Suit::Ends {
        return sorts::any(random, suit);
    }
    let mut counts = vec![0; 9];
    counts[0] = random.below(5) as u8;
    counts[8] = random.below(5) as u8;
    counts
}

fn goal(random: &mut Random) -> Goal {
    match random.below(8) {
        0 => Goal::new(byte(random), byte(random)),
        _ => Goal::new(random.below(2) as u8, random.below(5) as u8),
    }
}

/// The code, and the word that holds it and the rest.
pub fn expected(suit: Suit, counts: &[u8], goal: Goal) -> (u8, Word) {
    match refusal(&Question::one(suit, goal, counts)) {
        Some(reason) => (reason.number(), of_refusal(reason)),
        None => (0, of_answer(&searched::answer(suit, counts, goal))),
    }
}

fn of_answer(answer: &Answer) -> Word {
    word(answer.number, answer.necessary, answer.unnecessary)
}

fn of_refusal(reason: Refusal) -> Word {
    (reason.index() as Word) << 40 | Word::from(reason.number()) << 48
}

#[cfg(test)]
mod tests {
    use super::*;

    #[test]
    fn the_words_that_are_expected() {
        let meld = Goal::new(0, 1);
        let held = [1, 1, 0, 0, 0, 0, 0, 0, 1];
        let answered = 1 | 1 << (8 + 2) | 1 << (24 + 8);
        assert_eq!(expected(Suit::Ranks, &held, meld), (0, answered));
        let refused = 1 << 40 | 6 << 48;
        assert_eq!(expected(Suit::Ends, &held, meld), (6, refused));
    }
}
