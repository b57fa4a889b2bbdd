//! The published map of 1m/9m: its entries, and what document 01 says of the first.

use super::published_19_map::{
    WANZI_19_NECESSARY_TILES_MAP, WANZI_19_REPLACEMENT_NUMBER_MAP, WANZI_19_UNNECESSARY_TILES_MAP,
};
use super::wanzi_19_table::WANZI_19_SIZE;
use crate::words::Words;

/// How many entries the map has.
pub const ENTRIES: usize = WANZI_19_SIZE;

/// A number word, and the numbers of the ten goals that are read from it.
pub struct NumberWord {
    pub word: u32,
    pub numbers: [u32; 10],
}

/// Entry 0 as document 01 has it. Goal 0 is not stored, and its number reads 0.
pub const ENTRY_ZERO: NumberWord = NumberWord {
    word: 1_002_102_235,
    numbers: [0, 3, 6, 14, 14, 2, 5, 14, 14, 14],
};

/// The counts that an entry is for: it is 5 times 1m plus 9m.
pub fn counts(entry: usize) -> [u8; 9] {
    let [first, last] = [entry / 5, entry % 5].map(|count| count as u8);
    [first, 0, 0, 0, 0, 0, 0, 0, last]
}

/// The words of an entry.
pub fn words(entry: usize) -> Words {
    Words {
        number: WANZI_19_REPLACEMENT_NUMBER_MAP[entry],
        necessary: WANZI_19_NECESSARY_TILES_MAP[entry],
        unnecessary: WANZI_19_UNNECESSARY_TILES_MAP[entry],
    }
}
