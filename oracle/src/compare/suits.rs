//! The search and the words of one suit against the judge, ten goals each.

use super::tally::Tally;
use crate::judge::{Board, ENDS, HONOURS, Judge, RANKS};
use crate::make;
use crate::random::Random;
use crate::standard::{search, unpack};
use crate::words::{Goals, pack};

/// 1m and 9m held 0 to 4 times each.
pub fn ends() -> [Tally; 2] {
    let mut suits = Suits::new(&ENDS, "all ways to hold them");
    for key in every::<2>() {
        suits.check(&key, &[key[0], 0, 0, 0, 0, 0, 0, 0, key[1]]);
    }
    suits.print()
}

/// All honours with a total of at most 14.
pub fn honours() -> [Tally; 2] {
    let mut suits = Suits::new(&HONOURS, "all with total <= 14");
    for counts in every::<7>() {
        suits.check(&counts, &counts);
    }
    suits.print()
}

/// All of nine ranks with a total of at most 14.
pub fn all_ranks() -> [Tally; 2] {
    let mut suits = Suits::new(&RANKS, "all with total <= 14");
    for counts in every::<9>() {
        suits.check(&counts, &counts);
    }
    suits.print()
}

/// So many random suits, and all in which every held rank is held equally often.
pub fn random_ranks(random: &mut Random, count: u64) -> [Tally; 2] {
    let mut suits = Suits::new(&RANKS, "random and extreme");
    let level = |counts: &[u8; 9]| {
        let most = counts.iter().max().expect("nine counts");
        counts.iter().all(|count| count == most || *count == 0)
    };
    for counts in every::<9>().filter(level) {
        suits.check(&counts, &counts);
    }
    for _ in 0..count {
        let counts = make::suit(random);
        suits.check(&counts, &counts);
    }
    suits.print()
}

/// All counts 0 to 4 with a total of at most 14.
fn every<const N: usize>() -> impl Iterator<Item = [u8; N]> {
    let digit = |number: usize, at: usize| (number / 5usize.pow(at as u32) % 5) as u8;
    (0..5usize.pow(N as u32))
        .map(move |number| std::array::from_fn(|at| digit(number, at)))
        .filter(|counts: &[u8; N]| counts.iter().sum::<u8>() <= 14)
}

struct Suits {
    judge: Judge,
    answers: Tally,
    words: Tally,
}

impl Suits {
    fn new(board: &Board, which: &str) -> Self {
        let name = board.name;
        Suits {
            judge: Judge::new(board),
            answers: Tally::new(&format!("{name}, {which}: answers")),
            words: Tally::new(&format!("{name}, {which}: words and back")),
        }
    }

    /// The key is what the Rust source is asked with, the counts what the judge sees.
    fn check<const N: usize>(&mut self, key: &[u8; N], counts: &[u8]) {
        let words = search(key);
        let theirs = unpack(&words);
        let ours = goals(&self.judge, counts);
        for goal in 0..10 {
            let same = ours.at(goal) == theirs.at(goal);
            let input = || format!("{counts:?} goal ({},{})", goal / 5, goal % 5);
            self.answers.check(same, input);
        }
        let packed = pack(&ours);
        let same = packed == words && unpack(&packed) == ours && pack(&theirs) == words;
        self.words.check(same, || format!("{counts:?}"));
    }

    fn print(self) -> [Tally; 2] {
        [self.answers.print(), self.words.print()]
    }
}

/// What the judge says of the ten goals.
fn goals(judge: &Judge, counts: &[u8]) -> Goals {
    Goals::new(|goal| {
        let verdict = judge.verdict(counts, goal / 5, goal % 5);
        let sets = [verdict.necessary, verdict.unnecessary].map(|set| set as u16);
        (verdict.number, sets[0], sets[1])
    })
}
