//! The hand entries of the library, by the fast form and by the search: any counts, any k and
//! game, any room of words.

use oracle::hand::question::Question;
use oracle::random::Random;

use super::hex::hex;
use super::inputs::{Piece, byte, piece};
use super::laid::Laid;
use super::tally::Tally;
use crate::ours::{self, Entry, WRONG_ROOM};
use crate::reply::Reply;

const MOST_COUNTS: usize = 80;
const MOST_WORDS: usize = 6;

/// The room stands in the middle of so many words.
const WORDS: usize = 12;

pub fn ask(random: &mut Random, tally: &mut Tally) {
    ask_entry(ours::hand, random, tally);
}

pub fn ask_search(random: &mut Random, tally: &mut Tally) {
    ask_entry(ours::hand_search, random, tally);
}

fn ask_entry(entry: Entry, random: &mut Random, tally: &mut Tally) {
    let (kind, question) = question(random);
    let places = match random.below(6) {
        0 => random.below(MOST_WORDS + 1),
        _ => 3,
    };
    let before: [u64; WORDS] = std::array::from_fn(|_| random.word());
    let from = 1 + random.below(WORDS - MOST_WORDS - 1);
    let laid = Laid::new(random, &question.counts, 0);
    tally.asked(kind);
    tally.met("lengths", question.counts.len());
    tally.met("rooms", places);
    tally.met("offsets of the counts", laid.piece.start);
    let (code, wanted) = expected(&question, before, from, places);
    tally.code(code);
    let counts = &laid.bytes[laid.piece.clone()];
    let mut words = before;
    let room = &mut words[from..from + places];
    let ours = entry(counts, question.k, question.game, room);
    tally.hold(ours == code && words == wanted, || {
        let (k, game) = (question.k, question.game);
        let asked = format!("counts {} k {k} game {game} room {places}", hex(counts));
        format!("{asked} at word {from}: Rust {code} {wanted:x?}; ours {ours} {words:x?}")
    });
}

/// The last two bytes of a piece are k and the game; where it has not so many they are any.
fn question(random: &mut Random) -> (&'static str, Question) {
    let Piece { kind, bytes } = piece(random, MOST_COUNTS + 2);
    let question = match &bytes[..] {
        [counts @ .., k, game] => Question::new(counts, *k, *game),
        counts => Question::new(counts, byte(random), byte(random)),
    };
    (kind, question)
}

/// The code, and all words as they must be after the call.
fn expected(
    question: &Question,
    before: [u64; WORDS],
    from: usize,
    places: usize,
) -> (u8, [u64; WORDS]) {
    if places != 3 {
        return (WRONG_ROOM, before);
    }
    let reply = Reply::theirs(question);
    let mut wanted = before;
    wanted[from..from + 3].copy_from_slice(&reply.words);
    (reply.code, wanted)
}
