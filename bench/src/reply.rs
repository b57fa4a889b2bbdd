//! What the hand entry gives back: a code and three words.

use std::fmt;

use oracle::answer::Answer;
use oracle::hand::Hand;
use oracle::hand::asked::{Asked, answered};
use oracle::hand::question::Question;
use oracle::merged;
use oracle::notation::written_set;
use oracle::refusal::Refusal;

use crate::ours::{self, Entry};

/// The first word has the number in bits 0 to 7, kinds in 8 to 15, live in 16 to 23, the index
/// of a refusal in 24 to 31, and nothing above; the others are the necessary and the
/// unnecessary set.
#[derive(Clone, Copy, Debug, PartialEq, Eq)]
pub struct Reply {
    pub code: u8,
    pub words: [u64; 3],
}

impl Reply {
    /// The Rust source's, which remembers the suits that it has searched.
    pub fn theirs(question: &Question) -> Self {
        Reply::by(merged::answer, question)
    }

    /// The Rust source's, by its search or by maps.
    pub fn by(asked: Asked, question: &Question) -> Self {
        match answered(question, asked) {
            Ok((hand, answer)) => Reply::of_answer(&hand, &answer),
            Err(reason) => Reply::of_refusal(reason),
        }
    }

    /// Ours, by the fast form or by the search; a word that is not written shows.
    pub fn ours(entry: Entry, question: &Question) -> Self {
        let mut words = [u64::MAX; 3];
        let code = ours::asked(entry, question, &mut words);
        Reply { code, words }
    }

    pub fn of_answer(hand: &Hand, answer: &Answer) -> Self {
        let bytes = [answer.number, answer.kinds(), answer.live(hand), 0];
        Reply {
            code: 0,
            words: [first_word(bytes), answer.necessary, answer.unnecessary],
        }
    }

    fn of_refusal(reason: Refusal) -> Self {
        Reply {
            code: reason.number(),
            words: [first_word([0, 0, 0, reason.index() as u8]), 0, 0],
        }
    }
}

fn first_word(bytes: [u8; 4]) -> u64 {
    u32::from_le_bytes(bytes).into()
}

impl fmt::Display for Reply {
    fn fmt(&self, out: &mut fmt::Formatter) -> fmt::Result {
        let [first, necessary, unnecessary] = self.words;
        let [number, kinds, live, index, rest @ ..] = first.to_le_bytes();
        write!(out, "code {} index {index} number {number} ", self.code)?;
        write!(out, "kinds {kinds} live {live} ")?;
        let bits = |set: u64| format!("{} ({set:#x})", written_set(set));
        write!(out, "necessary {} ", bits(necessary))?;
        write!(out, "unnecessary {}", bits(unnecessary))?;
        match rest {
            [0, 0, 0, 0] => Ok(()),
            rest => write!(out, " and above them {rest:?}"),
        }
    }
}

#[cfg(test)]
mod tests {
    use super::*;
    use oracle::notation::counts;

    #[test]
    fn the_words_of_an_answer() {
        let reply = Reply::theirs(&Question::new(&counts("89m1p11z"), 1, 4));
        let first = 1 + (1 << 8) + (4 << 16);
        assert_eq!((reply.code, reply.words), (0, [first, 1 << 6, 1 << 9]));
        let all = (1 << 34) - 1;
        let none = Reply::theirs(&Question::new(&[0; 34], 0, 4));
        assert_eq!(none.words, [2 + (34 << 8) + (136 << 16), all, 0]);
    }

    #[test]
    fn the_words_of_a_refusal() {
        let reply = |counts: &[u8]| Reply::theirs(&Question::new(counts, 4, 3));
        let outside = reply(&counts("5m8m"));
        assert_eq!((outside.code, outside.words), (6, [4 << 24, 0, 0]));
        let short = reply(&[5; 33]);
        assert_eq!((short.code, short.words), (3, [0; 3]));
    }
}
