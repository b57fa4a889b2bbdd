//! Words whatever bits they have, the unused ones too.

use super::both_ways;
use crate::random::Random;
use crate::standard::{published, unpack};
use crate::words::question::Question;
use crate::words::{Words, cleared};

const RANDOM: usize = 300;

/// First words made by rule, then random ones, which are packed again too.
pub fn any(random: &mut Random) -> Vec<Question> {
    let rule = [whole(), spoiled(), single_bits()].concat();
    let mut questions: Vec<_> = rule.into_iter().map(Question::Unpack).collect();
    questions.extend((0..RANDOM).flat_map(|_| {
        let words = drawn(random);
        both_ways(words.clone(), unpack(&words))
    }));
    questions
}

/// No bit, all bits, all that are used, all that are not.
fn whole() -> Vec<Words> {
    let ones = Words::new([u32::MAX; 7]);
    vec![Words::new([0; 7]), ones.clone(), cleared(&ones), unused()]
}

fn unused() -> Words {
    let used = cleared(&Words::new([u32::MAX; 7]));
    Words::new(used.seven().map(|word| !word))
}

/// The published entries with all unused bits set.
fn spoiled() -> Vec<Words> {
    let of = |entry| {
        let (mut words, unused) = (published::words(entry).seven(), unused().seven());
        words
            .iter_mut()
            .zip(unused)
            .for_each(|(word, bits)| *word |= bits);
        Words::new(words)
    };
    (0..published::ENTRIES).map(of).collect()
}

/// Each bit of the seven words alone.
pub fn single_bits() -> Vec<Words> {
    let of = |bit: usize| {
        let mut words = [0; 7];
        words[bit / 32] = 1 << (bit % 32);
        Words::new(words)
    };
    (0..7 * 32).map(of).collect()
}

/// Seven random words.
pub fn drawn(random: &mut Random) -> Words {
    Words::new([0; 7].map(|_: u32| random.word() as u32))
}
