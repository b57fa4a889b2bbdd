//! Puts the words of suits where the merges look for them.

use std::iter::zip;

use super::hash::{hash_shupai, hash_zipai};
use super::map::Filling;
use super::shupai_map::{
    SHUPAI_NECESSARY_TILES_MAP, SHUPAI_REPLACEMENT_NUMBER_MAP, SHUPAI_UNNECESSARY_TILES_MAP,
};
use super::shupai_table::SHUPAI_SIZE;
use super::zipai_map::{
    ZIPAI_NECESSARY_TILES_MAP, ZIPAI_REPLACEMENT_NUMBER_MAP, ZIPAI_UNNECESSARY_TILES_MAP,
};
use super::zipai_table::ZIPAI_SIZE;
use crate::hand::Hand;
use crate::standard::search_hand;
use crate::suit::Suit;
use crate::words::Words;

/// Searches the suits of these hands.
pub fn fill(hands: &[Hand]) {
    let mut maps = Maps::default();
    for hand in hands {
        for ((suit, counts), words) in zip(hand.suits(), search_hand(hand)) {
            maps.put(suit, counts, &words);
        }
    }
    maps.lend();
}

/// The maps while they are filled.
pub struct Maps {
    ranks: Filling,
    honours: Filling,
}

impl Default for Maps {
    fn default() -> Self {
        Maps {
            ranks: Filling::new(SHUPAI_SIZE),
            honours: Filling::new(ZIPAI_SIZE),
        }
    }
}

impl Maps {
    /// What is published of 1m/9m is there already.
    pub fn put(&mut self, suit: Suit, counts: &[u8], words: &Words) {
        match suit {
            Suit::Ranks => self.ranks.put(hash_shupai(counts), words),
            Suit::Honours => self.honours.put(hash_zipai(counts), words),
            Suit::Ends => (),
        }
    }

    /// It can be done once only, as the maps do not change while they are looked up.
    pub fn lend(self) {
        self.ranks.lend(
            &SHUPAI_REPLACEMENT_NUMBER_MAP,
            &SHUPAI_NECESSARY_TILES_MAP,
            &SHUPAI_UNNECESSARY_TILES_MAP,
        );
        self.honours.lend(
            &ZIPAI_REPLACEMENT_NUMBER_MAP,
            &ZIPAI_NECESSARY_TILES_MAP,
            &ZIPAI_UNNECESSARY_TILES_MAP,
        );
    }
}
