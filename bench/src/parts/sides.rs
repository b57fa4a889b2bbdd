//! The parts that are asked for one by one.

use std::hint::black_box;

use oracle::hand::Hand;
use oracle::mapped::merges;
use oracle::record::ANSWER_RECORD;

use super::case::Case;
use crate::group::{Side, side};
use crate::ours;

/// In the order of the columns.
pub const SIDES: [Side<Case>; 7] = [
    side("hand", hand),
    side("record", record),
    side("suits", suits),
    side("checks", checks),
    side("suit checks", suit_checks),
    side("Rust merge", merge),
    side("Rust sets", sets),
];

pub const HAND: usize = 0;
pub const SUITS: usize = 2;
pub const CHECKS: usize = 3;
pub const SUIT_CHECKS: usize = 4;
pub const MERGE: usize = 5;

fn hand(case: &Case) {
    ask_hand(&case.hand);
}

/// The checks alone: a hand that the last of them refuses.
fn checks(case: &Case) {
    ask_hand(&case.refused);
}

#[inline(always)]
pub fn ask_hand(hand: &Hand) {
    let mut room = [0; 3];
    black_box(ours::hand(&hand.counts, hand.k, hand.game, &mut room));
    black_box(room);
}

fn record(case: &Case) {
    let mut room = [0; ANSWER_RECORD];
    black_box(ours::record(&case.record, &mut room));
    black_box(room);
}

fn suits(case: &Case) {
    ask_suits(&case.hand);
}

/// The same of the suits.
fn suit_checks(case: &Case) {
    ask_suits(&case.refused_suits);
}

#[inline(always)]
fn ask_suits(hand: &Hand) {
    let counts = &hand.counts;
    let nine = |from: usize| counts[from..].first_chunk().expect("nine counts");
    match hand.game {
        3 => black_box(ours::ends_goals(nine(0))),
        _ => black_box(ours::ranks_goals(nine(0))),
    };
    black_box(ours::ranks_goals(nine(9)));
    black_box(ours::ranks_goals(nine(18)));
    let honours = counts[27..].first_chunk().expect("seven counts");
    black_box(ours::honours_goals(honours));
}

/// Number and both sets, from the unpacked values.
fn merge(case: &Case) {
    black_box(merges::answer(&case.values, case.hand.k));
}

/// The two sets, each with its number.
fn sets(case: &Case) {
    black_box(merges::sets(&case.values, case.hand.k));
}
