//! Hand records and answer records, as bytes.

use crate::raw;

/// The bytes of a hand record: 34 counts, k, the game.
pub const HAND_RECORD: usize = 36;

/// The bytes of an answer record: the code; the number; the necessary set in five bytes, lowest first; the unnecessary
/// set in five; kinds; live; two zeros. Of a refusal, the code and fifteen zeros.
pub const ANSWER_RECORD: usize = 16;

/// Answers a hand record into `answer`, and gives its code: 0, or 1 to 6 as `Refusal::code`, or 7 where `hand` is not
/// 36 bytes. Where `answer` is not 16 bytes, nothing is written and the code is 8.
pub fn record(hand: &[u8], answer: &mut [u8]) -> u8 {
    raw::record(hand, answer)
}

/// The answer record of a hand record. Its first byte is the code, 0 to 7.
pub fn answer_record(hand: &[u8]) -> [u8; ANSWER_RECORD] {
    let mut answer = [0; ANSWER_RECORD];
    record(hand, &mut answer);
    answer
}
