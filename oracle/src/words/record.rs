//! Word questions in, answers out. To goals: the code and the seven words, 29 bytes. To
//! words: the ten goals, 50 bytes.

use super::bytes::{goals_bytes, words_bytes};
use super::question::{QUESTION_RECORD, Question};
use super::refusal::{REFUSED, refused};
use super::{Goals, pack};
use crate::standard::unpack;

pub const PACKED_RECORD: usize = 29;

/// The answers for a whole input, which must be questions to its end.
pub fn answers(input: &[u8]) -> Result<Vec<u8>, String> {
    let mut records = Vec::new();
    for (at, piece) in input.chunks(QUESTION_RECORD).enumerate() {
        let question = Question::read(piece).ok_or(format!("record {at} is no word question"))?;
        records.extend(answer(&question));
    }
    Ok(records)
}

/// Packed as document 01 says, unpacked by the Rust source.
pub fn answer(question: &Question) -> Vec<u8> {
    match question {
        Question::Pack(goals) => packed(goals).to_vec(),
        Question::Unpack(words) => goals_bytes(&unpack(words)),
    }
}

fn packed(goals: &Goals) -> [u8; PACKED_RECORD] {
    let mut record = [0; PACKED_RECORD];
    if refused(goals) {
        record[0] = REFUSED;
    } else {
        record[1..].copy_from_slice(&words_bytes(&pack(goals)));
    }
    record
}

#[cfg(test)]
mod tests {
    use super::*;
    use crate::standard::published::{ENTRY_ZERO, words};

    #[test]
    fn the_numbers_of_entry_zero() {
        let goals = answer(&Question::Unpack(words(0)));
        assert_eq!(goals.len(), 50);
        let numbers: Vec<u32> = goals.into_iter().step_by(5).map(u32::from).collect();
        assert_eq!(numbers, ENTRY_ZERO.numbers);
    }

    #[test]
    fn the_number_word_of_entry_zero() {
        let goals = Goals::new(|goal| (ENTRY_ZERO.numbers[goal], 0, 0));
        let record = answer(&Question::Pack(goals));
        assert_eq!(record.len(), 29);
        assert_eq!(record[0], 0);
        assert_eq!(record[1..5], ENTRY_ZERO.word.to_le_bytes());
        assert_eq!(record[5..], [0; 24]);
    }

    #[test]
    fn the_bytes_of_a_refusal() {
        let mut refusal = [0; 29];
        refusal[0] = 9;
        let goals = Goals::new(|goal| (ENTRY_ZERO.numbers[goal], 0x1FF, 0x1FF));
        assert_eq!(answer(&Question::Pack(goals)), refusal);
    }

    #[test]
    fn input_must_be_questions() {
        assert_eq!(answers(&[]), Ok(vec![]));
        assert_eq!(answers(&[0; 104]), Ok(vec![0; 58]));
        assert!(answers(&[0; 53]).is_err());
        assert!(answers(&[0; 51]).is_err());
        assert!(answers(&[2; 52]).is_err());
    }
}
