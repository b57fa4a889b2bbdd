//! What is asked: first what is made by rule, every refusal and every edge, then random hands
//! of several sorts. They are made in blocks, each of which has random numbers of its own, so
//! that they need not all be kept.

use oracle::hand::Hand;
use oracle::hand::question::Question;
use oracle::make::questions::sorts::{parts, tiles};
use oracle::make::questions::{any, questions as by_rule};
use oracle::random::Random;

/// So many questions to a block.
const BLOCK: usize = 1_000;

pub const SORTS: [&str; 6] = [
    "made by rule",
    "random tiles, any k",
    "parts of melds, any k",
    "in play, 13 or 14 tiles, k 4",
    "few tiles",
    "of any sort, one in eight spoiled",
];

pub struct Asked {
    pub question: Question,
    /// Its place in `SORTS`.
    pub sort: usize,
}

/// The same seed and count give the same questions.
pub struct Questions {
    seed: u64,
    count: usize,
    by_rule: Vec<Question>,
}

impl Questions {
    pub fn new(seed: u64, count: usize) -> Self {
        Questions {
            seed,
            count,
            by_rule: by_rule(seed, 0),
        }
    }

    pub fn blocks(&self) -> usize {
        self.count.div_ceil(BLOCK)
    }

    /// The questions of a block, each with its place among all.
    pub fn block(&self, block: usize) -> Vec<(usize, Asked)> {
        let first = block * BLOCK;
        let mut random = Random::new(Random::new(self.seed ^ (block as u64) << 32).word());
        let places = first..self.count.min(first + BLOCK);
        places.map(|at| (at, self.asked(&mut random, at))).collect()
    }

    fn asked(&self, random: &mut Random, at: usize) -> Asked {
        match self.by_rule.get(at) {
            Some(question) => Asked {
                question: question.clone(),
                sort: 0,
            },
            None => drawn(random),
        }
    }
}

fn drawn(random: &mut Random) -> Asked {
    let game = *random.pick(&[3, 4]);
    let sort = 1 + random.below(8).min(4);
    let (counts, k) = match sort {
        1 => {
            let held = random.below(15);
            (tiles(random, game, held), random.below(5))
        }
        2 => {
            let held = 1 + random.below(14);
            (parts(random, game, held), random.below(5))
        }
        3 => {
            let held = 13 + random.below(2);
            (parts(random, game, held), 4)
        }
        4 => {
            let held = random.below(6);
            (tiles(random, game, held), random.below(5))
        }
        _ => {
            let question = any(random);
            return Asked { question, sort };
        }
    };
    let k = k as u8;
    let question = Hand { counts, k, game }.question();
    Asked { question, sort }
}

#[cfg(test)]
mod tests {
    use super::*;
    use oracle::refusal::refusal;
    use std::collections::BTreeSet;

    fn all(questions: &Questions) -> Vec<(usize, Asked)> {
        let blocks = 0..questions.blocks();
        blocks.flat_map(|block| questions.block(block)).collect()
    }

    #[test]
    fn every_sort_and_every_number_in_random_questions() {
        let mut questions = Questions::new(1, 20_500);
        questions.by_rule.clear();
        let asked = all(&questions);
        assert!(asked.iter().map(|(at, _)| *at).eq(0..20_500));
        let sorts: BTreeSet<usize> = asked.iter().map(|(_, asked)| asked.sort).collect();
        assert_eq!(sorts, (1..SORTS.len()).collect());
        let numbers: BTreeSet<u8> = asked
            .iter()
            .filter_map(|(_, asked)| refusal(&asked.question))
            .map(|reason| reason.number())
            .collect();
        assert_eq!(numbers, (1..=6).collect());
    }

    #[test]
    fn the_seed_changes_all_but_what_is_made_by_rule() {
        let made = |seed| {
            let mut questions = Questions::new(seed, 2_000);
            questions.by_rule.truncate(10);
            let asked = all(&questions).into_iter();
            asked
                .map(|(_, asked)| asked.question)
                .collect::<Vec<Question>>()
        };
        assert_eq!(made(1), made(1));
        assert_eq!(made(1)[..10], made(2)[..10]);
        assert_ne!(made(1)[10..1_000], made(2)[10..1_000]);
        assert_ne!(made(1)[10..1_000], made(1)[1_010..]);
    }
}
