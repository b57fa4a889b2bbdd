//! Stands a second time where the Rust source has its module `standard`, for measurements:
//! with its own hashes and with maps in memory, so that a lookup is what it is there. The
//! published map of 1m/9m is among the sources. Those of nine ranks and of honours are not:
//! they are as large as published and hold the suits that they were filled with.

// The merges are compiled once more, since they name the maps that stand beside them.
#![allow(clippy::duplicate_mod)]

use crate::answer::Answer;
use crate::bingpai::{Bingpai, FourPlayer, PlayerRule, ThreePlayer};
use crate::hand::Hand;
use crate::merged::joined;
use crate::standard::core;
use crate::tile::TileCounts;

#[path = "../verbatim/src/standard/common.rs"]
#[rustfmt::skip]
mod common;
#[path = "../verbatim/src/standard/hash.rs"]
#[rustfmt::skip]
mod hash;
#[path = "../verbatim/src/standard/necessary_tiles.rs"]
#[rustfmt::skip]
mod necessary_tiles;
#[path = "../verbatim/src/standard/replacement_number.rs"]
#[rustfmt::skip]
mod replacement_number;
#[path = "../verbatim/src/standard/shupai_table.rs"]
#[rustfmt::skip]
mod shupai_table;
#[path = "../verbatim/src/standard/unnecessary_tiles.rs"]
#[rustfmt::skip]
mod unnecessary_tiles;
#[path = "../verbatim/src/standard/unpack.rs"]
#[rustfmt::skip]
mod unpack;
#[path = "../verbatim/src/standard/wanzi_19_map.rs"]
#[rustfmt::skip]
mod wanzi_19_map;
#[path = "../verbatim/src/standard/wanzi_19_table.rs"]
#[rustfmt::skip]
mod wanzi_19_table;
#[path = "../verbatim/src/standard/zipai_table.rs"]
#[rustfmt::skip]
mod zipai_table;

// Stand-ins for the two maps that are not among the sources.
mod map;
mod shupai_map;
mod zipai_map;

mod fill;
pub mod merges;

pub use fill::{Maps, fill};

/// As `merged::answer`, from the maps. The suits of the hand must be in them.
pub fn answer(hand: &Hand) -> Answer {
    match hand.game {
        3 => merged::<ThreePlayer>(&hand.counts, hand.k),
        4 => merged::<FourPlayer>(&hand.counts, hand.k),
        other => unreachable!("game {other} is refused"),
    }
}

fn merged<R: PlayerRule>(counts: &TileCounts, k: u8) -> Answer {
    let bingpai = Bingpai::<R>::with_melds(counts, k);
    joined(
        replacement_number::calculate_replacement_number(&bingpai),
        necessary_tiles::calculate_necessary_tiles(&bingpai),
        unnecessary_tiles::calculate_unnecessary_tiles(&bingpai),
    )
}

#[cfg(test)]
mod tests {
    use super::*;
    use crate::random::Random;
    use crate::standard::published;
    use crate::{make, merged};

    #[test]
    fn the_maps_answer_as_the_search_does() {
        let mut random = Random::new(1);
        let games = [3, 4].into_iter().cycle().take(400);
        let hands: Vec<Hand> = games
            .map(|game| make::accepted(&mut random, game))
            .collect();
        fill(&hands);
        for hand in &hands {
            assert_eq!(answer(hand), merged::answer(hand), "{hand:?}");
        }
    }

    /// Document 01: entry 5 times 1m plus 9m.
    #[test]
    fn the_places_of_1m_9m() {
        for entry in 0..published::ENTRIES {
            assert_eq!(hash::hash_19m(&published::counts(entry)), entry);
        }
    }
}
