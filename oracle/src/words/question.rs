//! A word question, and the 52 bytes of its record: what is asked, zero, then the goals or
//! the words.

use super::bytes::{goals_bytes, read_goals, read_words, words_bytes};
use super::{Goals, Words};

pub const QUESTION_RECORD: usize = 52;

/// What is asked; goals may be such as are refused.
#[derive(Clone, Debug, PartialEq, Eq)]
pub enum Question {
    Pack(Goals),
    Unpack(Words),
}

impl Question {
    /// None if the bytes are no question. A question has one record only: what it does not
    /// use is zero.
    pub fn read(piece: &[u8]) -> Option<Question> {
        let record: &[u8; QUESTION_RECORD] = piece.try_into().ok()?;
        let question = match record[0] {
            0 => Question::Pack(read_goals(&record[2..])),
            1 => Question::Unpack(read_words(&record[2..])),
            _ => return None,
        };
        (question.record() == *record).then_some(question)
    }

    pub fn record(&self) -> [u8; QUESTION_RECORD] {
        let (kind, bytes) = match self {
            Question::Pack(goals) => (0, goals_bytes(goals)),
            Question::Unpack(words) => (1, words_bytes(words)),
        };
        let mut record = [0; QUESTION_RECORD];
        record[0] = kind;
        record[2..2 + bytes.len()].copy_from_slice(&bytes);
        record
    }
}

#[cfg(test)]
mod tests {
    use super::*;

    fn counting(kind: u8, end: usize) -> [u8; 52] {
        let mut record = [0; 52];
        record[0] = kind;
        (2..end).for_each(|at| record[at] = at as u8);
        record
    }

    #[test]
    fn reads_the_bytes() {
        let Some(Question::Pack(goals)) = Question::read(&counting(0, 52)) else {
            panic!("goals to be packed");
        };
        assert_eq!(goals.at(0), (2, 0x0403, 0x0605));
        assert_eq!(goals.at(9), (47, 0x3130, 0x3332));
        let Some(Question::Unpack(words)) = Question::read(&counting(1, 30)) else {
            panic!("words to be unpacked");
        };
        assert_eq!(words.number, 0x0504_0302);
        assert_eq!(words.necessary[0], 0x0908_0706);
        assert_eq!(words.unnecessary[2], 0x1D1C_1B1A);
    }

    #[test]
    fn bytes_that_are_no_question() {
        let changed = |mut record: [u8; 52], at: usize, byte: u8| {
            record[at] = byte;
            Question::read(&record)
        };
        let (pack, unpack) = (counting(0, 52), counting(1, 30));
        for record in [pack, unpack] {
            for kind in [2, 128, 255] {
                assert_eq!(changed(record, 0, kind), None);
            }
            assert_eq!(changed(record, 1, 1), None);
            assert_eq!(Question::read(&record[..51]), None);
            assert_eq!(Question::read(&[&record[..], &[0]].concat()), None);
        }
        for at in 30..52 {
            assert_eq!(changed(unpack, at, 1), None);
        }
    }
}
