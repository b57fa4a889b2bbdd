//! Where the time of a fast hand goes: its suits, its checks and the rest, which is the merge and
//! little beside it; and the merge of the Rust source alone.

mod case;
mod sides;
mod tables;

use std::ops::Range;
use std::time::{Duration, Instant};

use crate::group::{Group, agree, boxed, names};
use crate::hands::groups::{Named, all, groups};
use crate::times::print_micros;
use case::Case;
use sides::SIDES;

/// Of a column.
const WIDTH: usize = 12;

/// So long a profiler looks on.
const LONG: Duration = Duration::from_secs(5);

/// Asks the fast form for the hands of all groups, or of those whose name begins so, again and
/// again, for a profiler (`bench/profile`).
pub fn repeat(name: &str) {
    let mut groups = groups();
    groups.retain(|group| group.name.starts_with(name));
    let hands = all(&groups);
    let (start, mut rounds) = (Instant::now(), 0);
    while start.elapsed() < LONG {
        hands.iter().for_each(sides::ask_hand);
        rounds += 1;
    }
    let micros = start.elapsed().as_secs_f64() * 1e6;
    println!(
        "{:.3} microseconds a hand",
        micros / (rounds * hands.len()) as f64
    );
}

/// Says whether all answers were the same; if not, nothing is measured.
pub fn measure() -> bool {
    let groups = boxed(groups().into_iter().map(Parts::new));
    if !agree(&groups, case::ANSWERS) {
        return false;
    }
    let what = "microseconds a hand, the fast form";
    let times = print_micros(&groups, what, &names(&SIDES), WIDTH);
    tables::print_left(&times);
    true
}

struct Parts {
    name: &'static str,
    cases: Vec<Case>,
}

impl Parts {
    fn new(named: Named) -> Self {
        Parts {
            name: named.name,
            cases: named.hands.iter().map(Case::new).collect(),
        }
    }
}

impl Group for Parts {
    fn name(&self) -> &'static str {
        self.name
    }

    fn size(&self) -> usize {
        self.cases.len()
    }

    fn sides(&self) -> usize {
        SIDES.len()
    }

    fn differences(&self) -> Vec<String> {
        self.cases.iter().flat_map(Case::differences).collect()
    }

    fn ask(&self, side: usize, part: Range<usize>) {
        SIDES[side].ask_each(&self.cases[part]);
    }
}
