//! The entries of the library for all ten goals of a suit: any counts, any room of words.

use oracle::random::Random;
use oracle::suit::{GOALS, SUITS, Suit};

use super::hex::hex;
use super::laid::Laid;
use super::suits::{counts, expected};
use super::tally::Tally;
use crate::ours::{self, TEN, WRONG_ROOM, Word};

const MOST_WORDS: usize = 14;

/// The room stands in the middle of so many words.
const WORDS: usize = 20;

pub fn ask(random: &mut Random, tally: &mut Tally) {
    let suit = *random.pick(&SUITS);
    let (kind, counts) = counts(random, suit);
    let places = match random.below(6) {
        0 => random.below(MOST_WORDS + 1),
        _ => TEN,
    };
    let before: [Word; WORDS] = std::array::from_fn(|_| random.word());
    let from = 1 + random.below(WORDS - MOST_WORDS - 1);
    let laid = Laid::new(random, &counts, 0);
    tally.asked(kind);
    tally.met("lengths", counts.len());
    tally.met("rooms", places);
    tally.met("offsets of the counts", laid.piece.start);
    let (code, wanted) = wanted(suit, &counts, before, from, places);
    tally.code(code);
    let mut words = before;
    let lent = &laid.bytes[laid.piece.clone()];
    let ours = ours::goals(suit, lent, &mut words[from..from + places]);
    tally.hold(ours == code && words == wanted, || {
        let asked = format!("{suit:?} {} room {places} at word {from}", hex(&counts));
        format!("{asked}: Rust {code} {wanted:x?}; ours {ours} {words:x?}")
    });
}

/// The code, and all words as they must be after the call: of a suit that is refused each goal's
/// word tells it.
fn wanted(
    suit: Suit,
    counts: &[u8],
    before: [Word; WORDS],
    from: usize,
    places: usize,
) -> (u8, [Word; WORDS]) {
    if places != TEN {
        return (WRONG_ROOM, before);
    }
    let (mut code, mut words) = (0, before);
    for (goal, word) in GOALS.into_iter().zip(&mut words[from..]) {
        (code, *word) = expected(suit, counts, goal);
    }
    (code, words)
}

#[cfg(test)]
mod tests {
    use super::*;

    #[test]
    fn ten_words_and_nothing_beside_them() {
        let before = [7; WORDS];
        let asked = |places| wanted(Suit::Honours, &[4; 7], before, 3, places);
        assert_eq!(asked(9), (WRONG_ROOM, before));
        let (code, words) = asked(TEN);
        assert_eq!(code, 5);
        assert_eq!(words[3..13], [5 << 48; TEN]);
        assert_eq!((&words[..3], &words[13..]), (&[7; 3][..], &[7; 7][..]));
    }
}
