//! Hand questions in, answers of 16 bytes out: the code, the index of a refusal, number,
//! kinds, live, zero, and the two sets in five bytes each, lowest first.

use super::Hand;
use super::asked::{Asked, answered};
use super::question::{QUESTION_RECORD, Question};
use crate::answer::Answer;
use crate::refusal::Refusal;

pub const ANSWER_RECORD: usize = 16;

/// The answers for a whole input, which must be questions to its end.
pub fn answers(input: &[u8], asked: Asked) -> Result<Vec<u8>, String> {
    let mut records = Vec::new();
    for (at, piece) in input.chunks(QUESTION_RECORD).enumerate() {
        let question = Question::read(piece).ok_or(format!("record {at} is no hand question"))?;
        records.extend(answer_record(&question, asked));
    }
    Ok(records)
}

pub fn answer_record(question: &Question, asked: Asked) -> [u8; ANSWER_RECORD] {
    match answered(question, asked) {
        Ok((hand, answer)) => write_answer(&hand, &answer),
        Err(reason) => write_refusal(reason),
    }
}

fn write_answer(hand: &Hand, answer: &Answer) -> [u8; ANSWER_RECORD] {
    let mut record = [0; ANSWER_RECORD];
    record[2] = answer.number;
    record[3] = answer.kinds();
    record[4] = answer.live(hand);
    record[6..11].copy_from_slice(&answer.necessary.to_le_bytes()[..5]);
    record[11..].copy_from_slice(&answer.unnecessary.to_le_bytes()[..5]);
    record
}

fn write_refusal(reason: Refusal) -> [u8; ANSWER_RECORD] {
    let mut record = [0; ANSWER_RECORD];
    record[0] = reason.number();
    record[1] = reason.index() as u8;
    record
}

#[cfg(test)]
mod tests {
    use super::*;
    use crate::merged;
    use crate::notation::counts;

    fn answered(question: Question) -> Vec<u8> {
        answers(&question.record(), merged::answer).expect("a question")
    }

    #[test]
    fn the_bytes_of_an_answer() {
        let seam = Question::new(&counts("89m1p11z"), 1, 4);
        let sets = [0x40, 0, 0, 0, 0, 0, 0x02, 0, 0, 0];
        assert_eq!(answered(seam), [&[0, 0, 1, 1, 4, 0], &sets[..]].concat());
        let none = Question::new(&[0; 34], 0, 4);
        let sets = [0xFF, 0xFF, 0xFF, 0xFF, 0x03, 0, 0, 0, 0, 0];
        assert_eq!(answered(none), [&[0, 0, 2, 34, 136, 0], &sets[..]].concat());
    }

    #[test]
    fn the_bytes_of_a_refusal() {
        let refused = |code, index| [&[code, index], &[0; 14][..]].concat();
        let inside = counts("1m5m8m");
        assert_eq!(answered(Question::new(&inside, 4, 3)), refused(6, 4));
        let short = &inside[..33];
        assert_eq!(answered(Question::new(short, 4, 3)), refused(3, 0));
        let mut many = inside;
        many[33] = 5;
        assert_eq!(answered(Question::new(&many, 4, 3)), refused(4, 33));
    }

    #[test]
    fn input_must_be_questions() {
        assert_eq!(answers(&[], merged::answer), Ok(vec![]));
        assert!(answers(&[0; 41], merged::answer).is_err());
        assert!(answers(&[0; 39], merged::answer).is_err());
        assert!(answers(&[37; 40], merged::answer).is_err());
    }
}
