//! A suit question, and the 16 bytes of its record: suit, pairs, melds, length, and the
//! counts in the other twelve.

use super::{GOALS, Goal, SUITS, Suit};

pub const QUESTION_RECORD: usize = 16;

/// The most counts a record has room for. No suit has so many: a length can be wrong.
pub const MOST_COUNTS: usize = 12;

/// Stands where the pairs stand when all ten goals are asked for.
const ALL_GOALS: u8 = 255;

#[derive(Clone, Copy, Debug, PartialEq, Eq)]
pub enum Wanted {
    One(Goal),
    All,
}

/// What a question record says, right or wrong.
#[derive(Clone, Debug, PartialEq, Eq)]
pub struct Question {
    pub suit: Suit,
    pub wanted: Wanted,
    pub counts: Vec<u8>,
}

impl Wanted {
    /// The goals to be answered, in this order.
    pub fn goals(&self) -> Vec<Goal> {
        match *self {
            Wanted::One(goal) => vec![goal],
            Wanted::All => GOALS.to_vec(),
        }
    }

    fn read(pairs: u8, melds: u8) -> Self {
        match pairs {
            ALL_GOALS => Wanted::All,
            _ => Wanted::One(Goal::new(pairs, melds)),
        }
    }

    fn bytes(&self) -> [u8; 2] {
        match *self {
            Wanted::One(goal) => [goal.pairs, goal.melds],
            Wanted::All => [ALL_GOALS, 0],
        }
    }
}

impl Question {
    pub fn one(suit: Suit, goal: Goal, counts: &[u8]) -> Self {
        Question {
            suit,
            wanted: Wanted::One(goal),
            counts: counts.to_vec(),
        }
    }

    pub fn all(suit: Suit, counts: &[u8]) -> Self {
        Question {
            suit,
            wanted: Wanted::All,
            counts: counts.to_vec(),
        }
    }

    /// None if the bytes are no question. A question has one record only: what it does not
    /// use is zero.
    pub fn read(piece: &[u8]) -> Option<Question> {
        let record: &[u8; QUESTION_RECORD] = piece.try_into().ok()?;
        let &[suit, pairs, melds, length, ..] = record;
        let question = Question {
            suit: *SUITS.get(usize::from(suit))?,
            wanted: Wanted::read(pairs, melds),
            counts: record[4..].get(..length.into())?.to_vec(),
        };
        (question.record() == *record).then_some(question)
    }

    pub fn record(&self) -> [u8; QUESTION_RECORD] {
        let length = self.counts.len();
        let mut record = [0; QUESTION_RECORD];
        record[0] = self.suit as u8;
        record[1..3].copy_from_slice(&self.wanted.bytes());
        record[3] = length as u8;
        record[4..4 + length].copy_from_slice(&self.counts);
        record
    }

    /// The number of tiles, in a width that counts of 255 cannot overflow.
    pub fn total(&self) -> u32 {
        self.counts.iter().copied().map(u32::from).sum()
    }
}

#[cfg(test)]
mod tests {
    use super::*;

    const HONOURS: [u8; 16] = [1, 0, 4, 7, 4, 0, 0, 0, 0, 0, 3, 0, 0, 0, 0, 0];
    const ALL_OF_NONE: [u8; 16] = [2, 255, 0, 0, 0, 0, 0, 0, 0, 0, 0, 0, 0, 0, 0, 0];

    #[test]
    fn reads_the_bytes() {
        let honours = Question::read(&HONOURS).expect("a question");
        assert_eq!(honours.suit, Suit::Honours);
        assert_eq!(honours.wanted, Wanted::One(Goal::new(0, 4)));
        assert_eq!(honours.counts, [4, 0, 0, 0, 0, 0, 3]);
        let all = Question::read(&ALL_OF_NONE).expect("a question");
        assert_eq!((all.suit, all.wanted), (Suit::Ends, Wanted::All));
        assert_eq!(all.counts, []);
    }

    #[test]
    fn bytes_that_are_no_question() {
        let changed = |record: [u8; 16], at: usize, byte: u8| {
            let mut record = record;
            record[at] = byte;
            Question::read(&record)
        };
        assert_eq!(changed(HONOURS, 0, 3), None);
        assert_eq!(changed(HONOURS, 3, 13), None);
        assert_eq!(changed(HONOURS, 11, 1), None);
        assert_eq!(changed(ALL_OF_NONE, 2, 1), None);
        assert_eq!(Question::read(&HONOURS[..15]), None);
    }
}
