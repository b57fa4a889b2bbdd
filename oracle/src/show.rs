//! One readable line for each hand record.

use crate::answer::Answer;
use crate::hand::{HAND_RECORD, Hand};
use crate::merged;
use crate::notation::{written, written_set};
use crate::record::answer_piece;

pub fn show(input: &[u8]) -> String {
    input.chunks(HAND_RECORD).map(line).collect()
}

fn line(piece: &[u8]) -> String {
    let hand = Hand::read(piece).map_or("(broken)".into(), |hand| written_hand(&hand));
    match answer_piece(piece, merged::answer) {
        Ok((held, answer)) => format!("{hand}  {}\n", written_answer(&held, &answer)),
        Err(reason) => format!("{hand}  refused: {} ({reason})\n", reason.number()),
    }
}

pub fn written_hand(hand: &Hand) -> String {
    format!(
        "{}  k {}  game {}",
        written(&hand.counts),
        hand.k,
        hand.game
    )
}

fn written_answer(hand: &Hand, answer: &Answer) -> String {
    format!(
        "number {}  necessary {}  unnecessary {}  kinds {}  live {}",
        answer.number,
        written_set(answer.necessary),
        written_set(answer.unnecessary),
        answer.kinds(),
        answer.live(hand),
    )
}
