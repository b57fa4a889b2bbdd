//! All ways to hold 1m and 9m.

use super::both_ways;
use crate::standard::published::{ENTRIES, counts};
use crate::suit::Suit;
use crate::suit::question::Question;

/// In the order of the published map.
pub fn ends() -> Vec<Question> {
    let of = |entry| both_ways(Suit::Ends, &counts(entry));
    (0..ENTRIES).flat_map(of).collect()
}
