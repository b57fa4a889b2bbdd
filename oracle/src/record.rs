//! Hand records in, answer records out (document 01, "Records").

use crate::answer::Answer;
use crate::hand::asked::{Asked, answered};
use crate::hand::{HAND_RECORD, Hand};
use crate::refusal::Refusal;

pub const ANSWER_RECORD: usize = 16;

/// The answer records for a whole input, a broken last piece included.
pub fn answers(input: &[u8], asked: Asked) -> Vec<u8> {
    let pieces = input.chunks(HAND_RECORD);
    pieces
        .flat_map(|piece| answer_record(piece, asked))
        .collect()
}

fn answer_record(piece: &[u8], asked: Asked) -> [u8; ANSWER_RECORD] {
    match answer_piece(piece, asked) {
        Ok((hand, answer)) => write_answer(&hand, &answer),
        Err(reason) => write_refusal(reason),
    }
}

/// The hand and its answer, or the reason there is none.
pub fn answer_piece(piece: &[u8], asked: Asked) -> Result<(Hand, Answer), Refusal> {
    let hand = Hand::read(piece).ok_or(Refusal::Broken)?;
    answered(&hand.question(), asked)
}

fn write_answer(hand: &Hand, answer: &Answer) -> [u8; ANSWER_RECORD] {
    let mut record = [0; ANSWER_RECORD];
    record[1] = answer.number;
    record[2..7].copy_from_slice(&answer.necessary.to_le_bytes()[..5]);
    record[7..12].copy_from_slice(&answer.unnecessary.to_le_bytes()[..5]);
    record[12] = answer.kinds();
    record[13] = answer.live(hand);
    record
}

fn write_refusal(reason: Refusal) -> [u8; ANSWER_RECORD] {
    let mut record = [0; ANSWER_RECORD];
    record[0] = reason.number();
    record
}

#[cfg(test)]
mod tests {
    use super::*;
    use crate::merged;

    #[test]
    fn a_broken_last_piece_gives_one_record() {
        let mut code = [0; 16];
        code[0] = 7;
        for broken in 1..36 {
            assert_eq!(answers(&vec![0; broken], merged::answer), code);
        }
        assert_eq!(answers(&[], merged::answer), []);
    }
}
