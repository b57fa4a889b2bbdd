//! What the entry points of the Rust source take if every lookup is a search: twenty searches
//! a hand, so it is measured apart and with few hands.

use oracle::mapped;

use super::sides::PLAIN;
use super::tables::WIDTH;
use super::{Hands, MICROS, groups};
use crate::group::{agree, boxed, names};
use crate::times::print_micros;

/// So many hands of a group.
const FEW: usize = 10;

/// Says whether all answers were the same; if not, nothing is measured.
pub fn measure() -> bool {
    let mut groups = groups::groups();
    groups
        .iter_mut()
        .for_each(|group| group.hands.truncate(FEW));
    mapped::fill(&groups::all(&groups));
    let groups = boxed(groups.into_iter().map(|group| Hands::new(group, &PLAIN)));
    if !agree(&groups, 3) {
        return false;
    }
    print_micros(&groups, MICROS, &names(&PLAIN), WIDTH);
    true
}
