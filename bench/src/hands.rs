//! Whole hands: ours by the fast form and by the search, beside the Rust source without maps
//! and with them.

pub mod groups;
mod plain;
mod sides;
mod tables;

use std::ops::Range;

use oracle::hand::Hand;
use oracle::mapped;
use oracle::show::written_hand;

use crate::group::{Group, Side, agree, boxed, names};
use crate::ours;
use crate::reply::Reply;
use crate::times::print_micros;
use groups::Named;
pub use plain::measure as measure_plain;
use sides::SIDES;
use tables::WIDTH;

const MICROS: &str = "microseconds a hand";

/// Says whether all answers were the same; if not, nothing is measured.
pub fn measure() -> bool {
    let groups = groups::groups();
    mapped::fill(&groups::all(&groups));
    let groups = boxed(groups.into_iter().map(|group| Hands::new(group, &SIDES)));
    if !agree(&groups, 3) {
        return false;
    }
    let times = print_micros(&groups, MICROS, &names(&SIDES), WIDTH);
    tables::print_ratios(&times);
    tables::print_rates(&times);
    true
}

/// Hands that are measured together, and who is asked for them.
struct Hands {
    named: Named,
    sides: &'static [Side<Hand>],
}

impl Hands {
    fn new(named: Named, sides: &'static [Side<Hand>]) -> Self {
        Hands { named, sides }
    }
}

impl Group for Hands {
    fn name(&self) -> &'static str {
        self.named.name
    }

    fn size(&self) -> usize {
        self.named.hands.len()
    }

    fn sides(&self) -> usize {
        self.sides.len()
    }

    /// Ours and what the maps give, each against the search of the Rust source.
    fn differences(&self) -> Vec<String> {
        self.named.hands.iter().filter_map(difference).collect()
    }

    fn ask(&self, side: usize, part: Range<usize>) {
        self.sides[side].ask_each(&self.named.hands[part]);
    }
}

fn difference(hand: &Hand) -> Option<String> {
    let question = hand.question();
    let theirs = Reply::theirs(&question);
    let others = [
        ("search", Reply::ours(ours::hand_search, &question)),
        ("fast", Reply::ours(ours::hand, &question)),
        ("maps", Reply::by(mapped::answer, &question)),
    ];
    let (name, other) = others.into_iter().find(|(_, other)| *other != theirs)?;
    let asked = written_hand(hand);
    Some(format!("{asked}: Rust {theirs}; {name} {other}"))
}
