//! Many hands, answered by the Rust source and through the library: by the fast form, and some
//! of them by our search as well.

mod asked;
mod cells;
mod suits;
mod tally;

use std::io;
use std::time::Instant;

use crate::maps::{self, shared, threads};
use asked::Questions;
use tally::Tally;

/// What is asked.
pub struct Plan {
    pub seed: u64,
    pub count: usize,
    /// Of the questions so many, evenly spread, are asked of the search too.
    pub search: usize,
    /// Whether the words of all suits are kept in a file.
    pub cache: bool,
}

/// So many questions are asked of the search to tell how long it will take.
const TRIED: usize = 10;

/// Says whether nothing was different.
pub fn compare(plan: &Plan) -> io::Result<bool> {
    let begun = Instant::now();
    println!("seed {}", plan.seed);
    let questions = Questions::new(plan.seed, plan.count);
    match plan.cache {
        true => maps::fill_all()?,
        false => maps::fill(&suits::needed(&questions)),
    }
    print_estimate(&questions, plan);
    let tally = all(&questions, plan);
    tally.print();
    println!("{:.0} seconds", begun.elapsed().as_secs_f64());
    Ok(tally.is_clean())
}

impl Plan {
    /// How many questions are searched: no more than there are.
    fn searched(&self) -> usize {
        self.search.min(self.count)
    }

    /// Whether the question at this place is: as many as there are to be, evenly spread, the
    /// first of all among them.
    fn is_searched(&self, at: usize) -> bool {
        let before = |at| (at as u128 * self.searched() as u128).div_ceil(self.count as u128);
        before(at) < before(at + 1)
    }
}

fn all(questions: &Questions, plan: &Plan) -> Tally {
    let tallies = shared(questions.blocks(), |tally: &mut Tally, block| {
        for (at, asked) in questions.block(block) {
            tally.ask(at, &asked);
            if plan.is_searched(at) {
                tally.ask_search(at, &asked);
            }
        }
    });
    tallies.into_iter().fold(Tally::default(), Tally::with)
}

/// From one block of questions, of which a few are searched.
fn print_estimate(questions: &Questions, plan: &Plan) {
    let mut tally = Tally::default();
    let begun = Instant::now();
    let block = questions.block(questions.blocks().saturating_sub(1));
    block.iter().for_each(|(at, asked)| tally.ask(*at, asked));
    let one = begun.elapsed().as_secs_f64() / block.len().max(1) as f64;
    let begun = Instant::now();
    let tried = block.iter().take(TRIED);
    tried.for_each(|(at, asked)| tally.ask_search(*at, asked));
    let one_search = begun.elapsed().as_secs_f64() / TRIED as f64;
    let searched = plan.searched();
    let work = one * plan.count as f64 + one_search * searched as f64;
    let (count, threads) = (plan.count, threads());
    print!("{count} questions, {searched} of them asked of the search as well, ");
    println!(
        "threads {threads}: about {:.0} seconds",
        work / threads as f64
    );
}

#[cfg(test)]
mod tests {
    use super::*;

    /// The places that are searched.
    fn places(count: usize, search: usize) -> Vec<usize> {
        let plan = Plan {
            seed: 1,
            count,
            search,
            cache: false,
        };
        (0..count).filter(|&at| plan.is_searched(at)).collect()
    }

    #[test]
    fn as_many_as_the_plan_says_evenly_spread() {
        for (count, search) in [
            (1_999, 1_000),
            (116_000, 1_000),
            (1_001, 7),
            (10, 10),
            (9, 1),
        ] {
            let places = places(count, search);
            assert_eq!((places[0], places.len()), (0, search));
            let ends = places[1..].iter().chain([&count]);
            let (least, most) = (count / search, count.div_ceil(search));
            for (at, next) in places.iter().zip(ends) {
                assert!(
                    (least..=most).contains(&(next - at)),
                    "{count} {search} {at}"
                );
            }
        }
        assert_eq!(places(5, 8), [0, 1, 2, 3, 4]);
        assert_eq!(places(5, 0), []);
        assert_eq!(places(0, 8), []);
    }
}
