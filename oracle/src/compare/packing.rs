//! The words by themselves.

use super::tally::Tally;
use crate::make::words::drawn;
use crate::random::Random;
use crate::standard::published::{self, ENTRY_ZERO};
use crate::standard::{search_suit, unpack};
use crate::suit::Suit;
use crate::words::{cleared, pack};

/// The published map of 1m/9m against the search, entry by entry, all seven words.
pub fn published_map() -> Tally {
    let mut tally = Tally::new("1m/9m, published map: entries of seven words");
    for entry in 0..published::ENTRIES {
        let searched = search_suit(Suit::Ends, &published::counts(entry));
        let same = published::words(entry) == searched;
        tally.check(same, || format!("entry {entry}"));
    }
    tally.print()
}

/// Document 01 names the numbers of entry 0, and the word they make.
pub fn entry_zero() -> Tally {
    let mut tally = Tally::new("1m/9m, entry 0: word and numbers of document 01");
    let words = published::words(0);
    let word = words.number;
    tally.check(word == ENTRY_ZERO.word, || format!("word {word}"));
    let numbers = unpack(&words).numbers.into_iter();
    let both = numbers.zip(ENTRY_ZERO.numbers).enumerate();
    for (goal, (number, told)) in both.skip(1) {
        tally.check(number == told, || format!("goal {goal}"));
    }
    tally.print()
}

/// Unpacking any words and packing gives them with the unused bits cleared.
pub fn any_words(random: &mut Random, count: u64) -> Tally {
    let mut tally = Tally::new("packing: random words unpacked and packed");
    for _ in 0..count {
        let words = drawn(random);
        let same = pack(&unpack(&words)) == cleared(&words);
        tally.check(same, || format!("{words:?}"));
    }
    tally.print()
}
