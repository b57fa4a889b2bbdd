//! One suit, all ten goals: our fast form and our search beside the search of the Rust source.

mod groups;
mod sides;

use std::hint::black_box;
use std::ops::Range;

use oracle::suit::GOALS;

use crate::clock::ROUNDS;
use crate::group::{Group, agree};
use crate::ours::word;
use crate::times::Times;
use sides::Sides;

/// The order of the columns.
const RUST: usize = 0;
const SEARCH: usize = 1;
const FAST: usize = 2;

/// Says whether all answers were the same; if not, nothing is measured.
pub fn measure() -> bool {
    let groups = groups::groups();
    if !agree(&groups, 2 * GOALS.len()) {
        return false;
    }
    println!("microseconds a suit, all ten goals: the middle of {ROUNDS} rounds");
    print!("{:28}{:>6}", "", "suits");
    for name in [
        "Rust",
        "search",
        "fast",
        "search/Rust",
        "fast/Rust",
        "Rust/fast",
    ] {
        print!("{name:>12}");
    }
    println!("{:>16}", "lowest-highest");
    for group in &groups {
        print(&Times::measure(group.as_ref()));
    }
    true
}

fn print(times: &Times) {
    print!("{:28}{:>6}", times.name, times.size);
    [RUST, SEARCH, FAST]
        .iter()
        .for_each(|&side| print!("{:>12.3}", times.micros(side)));
    print!("{:>12.2}", times.ratio(SEARCH, RUST));
    print!("{:>12.4}", times.ratio(FAST, RUST));
    print!("{:>12.1}", times.ratio(RUST, FAST));
    println!("{:>16}", times.spread(RUST, FAST, 1));
}

/// Suits of one kind.
struct Suits<S: Sides> {
    name: &'static str,
    suits: Vec<S::Counts>,
}

impl<S: Sides> Group for Suits<S> {
    fn name(&self) -> &'static str {
        self.name
    }

    fn size(&self) -> usize {
        self.suits.len()
    }

    fn sides(&self) -> usize {
        3
    }

    fn differences(&self) -> Vec<String> {
        let mut different = Vec::new();
        for counts in &self.suits {
            for (goal, fast) in GOALS.into_iter().zip(S::fast(counts)) {
                let (number, necessary, unnecessary) = S::theirs(counts, goal);
                let theirs = word(number, necessary, unnecessary);
                let search = S::search(counts, goal);
                if theirs != search || theirs != fast {
                    let asked = format!("{}, {counts:?}, {goal:?}", self.name);
                    let ours = format!("search {search:#x}, fast {fast:#x}");
                    different.push(format!("{asked}: Rust {theirs:#x}, {ours}"));
                }
            }
        }
        different
    }

    fn ask(&self, side: usize, part: Range<usize>) {
        match side {
            RUST => self.ask_theirs(part),
            SEARCH => self.ask_search(part),
            _ => self.ask_fast(part),
        }
    }
}

impl<S: Sides> Suits<S> {
    fn ask_theirs(&self, part: Range<usize>) {
        for counts in &self.suits[part] {
            for goal in GOALS {
                black_box(S::theirs(black_box(counts), goal));
            }
        }
    }

    fn ask_search(&self, part: Range<usize>) {
        for counts in &self.suits[part] {
            for goal in GOALS {
                black_box(S::search(black_box(counts), goal));
            }
        }
    }

    fn ask_fast(&self, part: Range<usize>) {
        for counts in &self.suits[part] {
            black_box(S::fast(black_box(counts)));
        }
    }
}
