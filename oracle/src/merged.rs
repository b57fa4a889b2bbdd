//! A hand's answer as the Rust source gives it: its search, its words, its merges.

use crate::answer::Answer;
use crate::bingpai::{Bingpai, FourPlayer, PlayerRule, ThreePlayer};
use crate::hand::Hand;
use crate::standard::necessary_tiles::calculate_necessary_tiles;
use crate::standard::replacement_number::calculate_replacement_number;
use crate::standard::unnecessary_tiles::calculate_unnecessary_tiles;
use crate::tile::{TileCounts, TileFlags};

/// The hand must be one that is not refused.
pub fn answer(hand: &Hand) -> Answer {
    match hand.game {
        3 => merged::<ThreePlayer>(&hand.counts, hand.k),
        4 => merged::<FourPlayer>(&hand.counts, hand.k),
        other => unreachable!("game {other} is refused"),
    }
}

fn merged<R: PlayerRule>(counts: &TileCounts, k: u8) -> Answer {
    let bingpai = Bingpai::<R>::with_melds(counts, k);
    joined(
        calculate_replacement_number(&bingpai),
        calculate_necessary_tiles(&bingpai),
        calculate_unnecessary_tiles(&bingpai),
    )
}

/// Each merge finds the number for itself; they must agree.
pub fn joined(
    number: u8,
    (beside_necessary, necessary): (u8, TileFlags),
    (beside_unnecessary, unnecessary): (u8, TileFlags),
) -> Answer {
    assert_eq!(number, beside_necessary);
    assert_eq!(number, beside_unnecessary);
    Answer {
        number,
        necessary,
        unnecessary,
    }
}
