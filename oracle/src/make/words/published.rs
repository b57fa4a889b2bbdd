//! The entries of the published map of 1m/9m.

use super::both_ways;
use crate::searched;
use crate::standard::published::{ENTRIES, counts, words};
use crate::suit::Suit;
use crate::words::question::Question;

/// Each entry as it is published, and what is searched for the same tiles, goal by goal.
pub fn published() -> Vec<Question> {
    let of = |entry| both_ways(words(entry), searched::goals(Suit::Ends, &counts(entry)));
    (0..ENTRIES).flat_map(of).collect()
}
