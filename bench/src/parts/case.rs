//! A hand, and what is needed to ask for its parts.

use std::iter::zip;

use oracle::hand::{HAND_RECORD, Hand};
use oracle::mapped::merges::{self, Suits};
use oracle::merged;
use oracle::record::{ANSWER_RECORD, answers};
use oracle::show::written_hand;
use oracle::standard::{search_hand, unpack};
use oracle::suit::Suit;
use oracle::words::Goals;

use crate::ours::{self, TEN, Word, word};
use crate::reply::Reply;

pub struct Case {
    pub hand: Hand,
    pub record: [u8; HAND_RECORD],
    /// Refused by the last of all checks, after every count was looked at.
    pub refused: Hand,
    /// The same for each of its suits.
    pub refused_suits: Hand,
    /// The unpacked values of the Rust source.
    pub values: Suits,
}

/// So many answers are compared: hand, record, four suits, the merges of the Rust source, and
/// five refusals.
pub const ANSWERS: usize = 12;

/// A sum that is refused.
const TOO_MANY: u8 = 15;

impl Case {
    pub fn new(hand: &Hand) -> Self {
        Case {
            hand: *hand,
            record: hand.record(),
            refused: refused(hand),
            refused_suits: refused_suits(hand),
            values: search_hand(hand).map(|words| unpack(&words)),
        }
    }

    pub fn differences(&self) -> Vec<String> {
        let hand = &self.hand;
        let theirs = Reply::theirs(&hand.question());
        let mut record = [0; ANSWER_RECORD];
        ours::record(&self.record, &mut record);
        let same = [
            ("hand", Reply::ours(ours::hand, &hand.question()) == theirs),
            (
                "record",
                record == answers(&self.record, merged::answer)[..],
            ),
            (
                "merge",
                merges::answer(&self.values, hand.k) == merged::answer(hand),
            ),
            ("suits", self.suits_are_same()),
            ("refusals", self.is_refused()),
        ];
        let different = same.iter().filter(|(_, same)| !same);
        different
            .map(|(what, _)| format!("{what}, {}", written_hand(hand)))
            .collect()
    }

    fn suits_are_same(&self) -> bool {
        let suits = zip(self.hand.suits(), &self.values);
        suits.into_iter().all(|((suit, counts), values)| {
            let mut room = [Word::MAX; TEN];
            ours::goals(suit, counts, &mut room) == 0 && room == words(values)
        })
    }

    /// What is refused must be, and as it was made.
    fn is_refused(&self) -> bool {
        let code = |game| if game == 3 { 6 } else { 5 };
        let whole = ours::asked(ours::hand, &self.refused.question(), &mut [0; 3]);
        let mut suits = self.refused_suits.suits().into_iter();
        whole == code(self.hand.game)
            && suits.all(|(suit, counts)| {
                let refused = if suit == Suit::Ends { 6 } else { 5 };
                ours::goals(suit, counts, &mut [0; TEN]) == refused
            })
    }
}

/// Game 4: tiles are added until they are too many. Game 3: one tile is an 8m, and there are not
/// too many.
fn refused(hand: &Hand) -> Hand {
    let mut refused = *hand;
    let counts = &mut refused.counts;
    match hand.game {
        3 => {
            let held = counts.iter_mut().rev().find(|count| **count > 0);
            held.into_iter().for_each(|count| *count -= 1);
            counts[7] = 1;
        }
        _ => fill(counts),
    }
    refused
}

/// Each suit has too many tiles; 1m/9m, which cannot have so many, holds an 8m.
fn refused_suits(hand: &Hand) -> Hand {
    let mut refused = *hand;
    let [m, p, s, z] = [0..9, 9..18, 18..27, 27..34];
    match hand.game {
        3 => refused.counts[7] = 1,
        _ => fill(&mut refused.counts[m]),
    }
    for suit in [p, s, z] {
        fill(&mut refused.counts[suit]);
    }
    refused
}

fn fill(counts: &mut [u8]) {
    let mut sum: u8 = counts.iter().sum();
    for count in counts.iter_mut().rev() {
        while *count < 4 && sum < TOO_MANY {
            *count += 1;
            sum += 1;
        }
    }
}

/// As ours has them.
fn words(values: &Goals) -> [Word; TEN] {
    std::array::from_fn(|goal| {
        let (number, necessary, unnecessary) = values.at(goal);
        word(number, necessary, unnecessary)
    })
}
