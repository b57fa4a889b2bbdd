//! Suit questions in, suit answers out: eight bytes for each goal asked for, in its order.
//! They are the code, the index of a refusal, the number, zero, and the two sets in two
//! bytes each, lowest first.

use super::question::{QUESTION_RECORD, Question};
use super::refusal::{Refusal, refusal};
use super::{Goal, Suit};
use crate::answer::Answer;

pub const ANSWER_RECORD: usize = 8;

/// Who is asked for the answer of an accepted suit.
pub type Asked = fn(Suit, &[u8], Goal) -> Answer;

/// The answers for a whole input, which must be questions to its end.
pub fn answers(input: &[u8], asked: Asked) -> Result<Vec<u8>, String> {
    let mut records = Vec::new();
    for (at, piece) in input.chunks(QUESTION_RECORD).enumerate() {
        let question = Question::read(piece).ok_or(format!("record {at} is no suit question"))?;
        records.extend(answer_records(&question, asked));
    }
    Ok(records)
}

fn answer_records(question: &Question, asked: Asked) -> Vec<u8> {
    let refused = refusal(question);
    let record = |goal| match refused {
        Some(reason) => write_refusal(reason),
        None => write_answer(&asked(question.suit, &question.counts, goal)),
    };
    question
        .wanted
        .goals()
        .into_iter()
        .flat_map(record)
        .collect()
}

fn write_answer(answer: &Answer) -> [u8; ANSWER_RECORD] {
    let mut record = [0; ANSWER_RECORD];
    record[2] = answer.number;
    record[4..6].copy_from_slice(&set(answer.necessary));
    record[6..8].copy_from_slice(&set(answer.unnecessary));
    record
}

fn write_refusal(reason: Refusal) -> [u8; ANSWER_RECORD] {
    let mut record = [0; ANSWER_RECORD];
    record[0] = reason.number();
    record[1] = reason.index() as u8;
    record
}

/// A suit has at most nine kinds.
fn set(set: u64) -> [u8; 2] {
    u16::try_from(set).expect("nine bits").to_le_bytes()
}

#[cfg(test)]
mod tests {
    use super::*;
    use crate::searched;
    use crate::suit::GOALS;

    fn answered(question: Question) -> Vec<u8> {
        answers(&question.record(), searched::answer).expect("a question")
    }

    #[test]
    fn all_goals_are_the_ten_goals_in_order() {
        let counts = [1, 1, 0, 3, 0, 0, 0, 2, 4];
        let each = GOALS.map(|goal| answered(Question::one(Suit::Ranks, goal, &counts)));
        let all = answered(Question::all(Suit::Ranks, &counts));
        assert_eq!(all, each.concat());
    }

    #[test]
    fn the_bytes_of_an_answer() {
        let both_ends = [1, 0, 0, 0, 0, 0, 0, 0, 1];
        let answer = answered(Question::one(Suit::Ends, Goal::new(1, 0), &both_ends));
        assert_eq!(answer, [0, 0, 1, 0, 0x01, 0x01, 0x01, 0x01]);
    }

    #[test]
    fn the_bytes_of_a_refusal() {
        let inside = [4, 0, 0, 0, 0, 1, 0, 0, 4];
        let refusal = [6, 5, 0, 0, 0, 0, 0, 0];
        let one = answered(Question::one(Suit::Ends, GOALS[0], &inside));
        let all = answered(Question::all(Suit::Ends, &inside));
        assert_eq!((one, all), (refusal.to_vec(), refusal.repeat(10)));
    }

    #[test]
    fn input_must_be_questions() {
        assert_eq!(answers(&[], searched::answer), Ok(vec![]));
        assert!(answers(&[0; 17], searched::answer).is_err());
        assert!(answers(&[3; 16], searched::answer).is_err());
    }
}
