//! A hand question, and the 40 bytes of its record: length, the counts in the next 36, k,
//! game, and zero.

use super::Hand;

pub const QUESTION_RECORD: usize = 40;

/// The most counts a record has room for. A hand has fewer: a length can be wrong.
pub const MOST_COUNTS: usize = 36;

/// What a question record says, right or wrong.
#[derive(Clone, Debug, PartialEq, Eq)]
pub struct Question {
    pub counts: Vec<u8>,
    pub k: u8,
    pub game: u8,
}

impl Question {
    pub fn new(counts: &[u8], k: u8, game: u8) -> Self {
        Question {
            counts: counts.to_vec(),
            k,
            game,
        }
    }

    /// None if the bytes are no question. A question has one record only: what it does not
    /// use is zero.
    pub fn read(piece: &[u8]) -> Option<Question> {
        let record: &[u8; QUESTION_RECORD] = piece.try_into().ok()?;
        let places = &record[1..=MOST_COUNTS];
        let question = Question {
            counts: places.get(..record[0].into())?.to_vec(),
            k: record[37],
            game: record[38],
        };
        (question.record() == *record).then_some(question)
    }

    pub fn record(&self) -> [u8; QUESTION_RECORD] {
        let length = self.counts.len();
        let mut record = [0; QUESTION_RECORD];
        record[0] = length as u8;
        record[1..=length].copy_from_slice(&self.counts);
        record[37] = self.k;
        record[38] = self.game;
        record
    }

    /// The hand, if there are as many counts as it has.
    pub fn hand(&self) -> Option<Hand> {
        Some(Hand {
            counts: self.counts[..].try_into().ok()?,
            k: self.k,
            game: self.game,
        })
    }

    /// The number of tiles, in a width that counts of 255 cannot overflow.
    pub fn total(&self) -> u32 {
        self.counts.iter().copied().map(u32::from).sum()
    }
}

#[cfg(test)]
mod tests {
    use super::*;

    /// Counts 1, 2, 3 and so on, then zeros; k 2 and game 3.
    fn counting(length: u8) -> [u8; 40] {
        let mut record = [0; 40];
        record[0] = length;
        (1..=length).for_each(|at| record[usize::from(at)] = at);
        record[37] = 2;
        record[38] = 3;
        record
    }

    #[test]
    fn reads_the_bytes() {
        for length in 0..=36 {
            let question = Question::read(&counting(length)).expect("a question");
            assert_eq!(question.counts, Vec::from_iter(1..=length));
            assert_eq!((question.k, question.game), (2, 3));
            assert_eq!(question.hand().is_some(), length == 34);
            assert_eq!(question.record(), counting(length));
        }
    }

    #[test]
    fn bytes_that_are_no_question() {
        let changed = |mut record: [u8; 40], at: usize, byte: u8| {
            record[at] = byte;
            Question::read(&record)
        };
        assert_eq!(changed(counting(36), 0, 37), None);
        assert_eq!(changed(counting(36), 0, 255), None);
        assert_eq!(changed(counting(36), 39, 1), None);
        for at in 35..37 {
            assert_eq!(changed(counting(34), at, 1), None);
        }
        assert_eq!(Question::read(&counting(34)[..39]), None);
        assert_eq!(Question::read(&[0; 41]), None);
    }
}
