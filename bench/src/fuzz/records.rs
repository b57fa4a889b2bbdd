//! The record entry of the library: any piece, any room, anywhere.

use std::ops::Range;

use oracle::hand::HAND_RECORD;
use oracle::merged;
use oracle::random::Random;
use oracle::record::{ANSWER_RECORD, answers};

use super::hex::hex;
use super::inputs::{Piece, piece};
use super::laid::Laid;
use super::tally::Tally;
use crate::ours::{self, WRONG_ROOM};

const MOST_BYTES: usize = 100;
const MOST_ROOM: usize = 40;

/// The number of a piece of another length (document 01, "Refusal numbers").
const BROKEN: u8 = 7;

pub fn ask(random: &mut Random, tally: &mut Tally) {
    let Piece { kind, bytes } = piece(random, MOST_BYTES);
    let room = match random.below(6) {
        0 => random.below(MOST_ROOM + 1),
        _ => ANSWER_RECORD,
    };
    let mut laid = Laid::new(random, &bytes, room);
    tally.asked(kind);
    tally.met("lengths", bytes.len());
    tally.met("rooms", room);
    tally.met("offsets of the piece", laid.piece.start);
    tally.met("guards before the room", laid.room.start - laid.piece.end);
    let (code, wanted) = expected(&bytes, &laid);
    tally.code(code);
    let (lent, lent_room) = laid.lend();
    let ours = ours::record(lent, lent_room);
    tally.hold(ours == code && laid.bytes == wanted, || {
        let (from, to) = (laid.piece.start, laid.room.clone());
        let asked = format!("piece {} at {from}, room {room}", hex(&bytes));
        let rust = format!("Rust {code} {}", hex(&wanted[to.clone()]));
        let guards = match differ_outside(&laid.bytes, &wanted, &to) {
            true => ", and beside the room",
            false => "",
        };
        format!(
            "{asked}: {rust}; ours {ours} {}{guards}",
            hex(&laid.bytes[to])
        )
    });
}

/// The code, and the whole buffer as it must be after the call.
fn expected(piece: &[u8], laid: &Laid) -> (u8, Vec<u8>) {
    let mut wanted = laid.bytes.clone();
    if laid.room.len() != ANSWER_RECORD {
        return (WRONG_ROOM, wanted);
    }
    let answer = answer(piece);
    wanted[laid.room.clone()].copy_from_slice(&answer);
    (answer[0], wanted)
}

/// The Rust source's record; a piece of another length, an empty or a longer one too, is broken.
fn answer(piece: &[u8]) -> Vec<u8> {
    match piece.len() {
        HAND_RECORD => answers(piece, merged::answer),
        _ => [&[BROKEN], &[0; 15][..]].concat(),
    }
}

fn differ_outside(bytes: &[u8], wanted: &[u8], room: &Range<usize>) -> bool {
    bytes[..room.start] != wanted[..room.start] || bytes[room.end..] != wanted[room.end..]
}

#[cfg(test)]
mod tests {
    use super::*;

    /// What a piece of so many bytes, each of them this, gets in a room of so many.
    fn code(byte: u8, length: usize, room: usize) -> u8 {
        let piece = vec![byte; length];
        let laid = Laid::new(&mut Random::new(1), &piece, room);
        let (code, wanted) = expected(&piece, &laid);
        assert_eq!(code != WRONG_ROOM, wanted != laid.bytes);
        assert!(!differ_outside(&laid.bytes, &wanted, &laid.room));
        code
    }

    #[test]
    fn the_room_is_tested_before_the_length() {
        assert_eq!(code(0, 35, 16), BROKEN);
        assert_eq!(code(0, 0, 16), BROKEN);
        assert_eq!(code(0, 37, 15), WRONG_ROOM);
        assert_eq!(code(0, 36, 17), WRONG_ROOM);
        assert_eq!(code(0, 36, 16), 1);
        assert_eq!(code(4, 36, 16), 5);
    }
}
