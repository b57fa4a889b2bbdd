//! Who is asked for a hand, for number, necessary and unnecessary set.

use std::hint::black_box;

use oracle::hand::Hand;
use oracle::standard::{remember, search_hand};
use oracle::{mapped, merged};

use crate::group::{Side, side};
use crate::ours::{self, Entry};

/// In the order of the columns.
pub const SIDES: [Side<Hand>; 4] = [
    side("Rust", once),
    side("search", search),
    side("fast", fast),
    side("maps", maps),
];

pub const RUST: usize = 0;
pub const SEARCH: usize = 1;
pub const FAST: usize = 2;
pub const MAPS: usize = 3;

/// Those of the Rust source alone that search.
pub const PLAIN: [Side<Hand>; 2] = [side("Rust, plain", plain), side("Rust", once)];

/// The three entry points of the Rust source, each of their twenty lookups a search.
fn plain(hand: &Hand) {
    remember(false);
    black_box(merged::answer(hand));
    remember(true);
}

/// Each of the four suits searched once; then the three entry points, which find the same
/// words in the maps.
fn once(hand: &Hand) {
    black_box(search_hand(hand));
    black_box(mapped::answer(hand));
}

/// Everything in one call, with the checks, kinds and live.
fn search(hand: &Hand) {
    call(ours::hand_search, hand);
}

/// The same by the fast form.
fn fast(hand: &Hand) {
    call(ours::hand, hand);
}

#[inline(always)]
fn call(entry: Entry, hand: &Hand) {
    let mut room = [0; 3];
    black_box(entry(&hand.counts, hand.k, hand.game, &mut room));
    black_box(room);
}

/// The three entry points with maps in memory: nothing is searched.
fn maps(hand: &Hand) {
    black_box(mapped::answer(hand));
}
