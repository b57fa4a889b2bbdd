//! Stands where the Rust source has its module `standard`: the unchanged merges and
//! unpacking, and in place of the hashes and maps stand-ins that search.

use crate::build_map::{MapValue, pack_values};
use crate::hand::Hand;
use crate::suit::Suit;
use crate::words::{Goals, Words};

#[path = "../verbatim/src/standard/core.rs"]
#[rustfmt::skip]
pub mod core;

#[path = "../verbatim/src/standard/common.rs"]
#[rustfmt::skip]
mod common;
#[path = "../verbatim/src/standard/necessary_tiles.rs"]
#[rustfmt::skip]
pub(crate) mod necessary_tiles;
#[path = "../verbatim/src/standard/replacement_number.rs"]
#[rustfmt::skip]
pub(crate) mod replacement_number;
#[path = "../verbatim/src/standard/unnecessary_tiles.rs"]
#[rustfmt::skip]
pub(crate) mod unnecessary_tiles;
#[path = "../verbatim/src/standard/unpack.rs"]
#[rustfmt::skip]
mod unpack;

// Stand-ins: the merges ask these as they ask the maps.
mod hash;
mod lookup;
mod shupai_map;
mod wanzi_19_map;
mod zipai_map;

// The published map of 1m/9m under another name, to compare with and to ask for.
#[path = "../verbatim/src/standard/wanzi_19_map.rs"]
#[rustfmt::skip]
mod published_19_map;
// Of this file the size is needed, the hash table is not.
#[allow(dead_code)]
#[path = "../verbatim/src/standard/wanzi_19_table.rs"]
#[rustfmt::skip]
mod wanzi_19_table;

pub mod published;

pub use lookup::{forget, remember};

/// The words of a suit, searched afresh. N is 9 for nine ranks, 7 for honours, 2 for 1m/9m.
pub fn search<const N: usize>(counts: &[u8; N]) -> Words {
    words(&pack_values(counts))
}

/// The same for a suit by its own counts, which of 1m/9m are nine as well.
pub fn search_suit(suit: Suit, counts: &[u8]) -> Words {
    match suit {
        Suit::Ranks => search(counts.first_chunk::<9>().expect("nine counts")),
        Suit::Honours => search(counts.first_chunk::<7>().expect("seven counts")),
        Suit::Ends => search(&[counts[0], counts[8]]),
    }
}

/// The words of a hand's suits, each of the four searched afresh.
pub fn search_hand(hand: &Hand) -> [Words; 4] {
    hand.suits().map(|(suit, counts)| search_suit(suit, counts))
}

/// The ten goals that the Rust source reads from the words.
pub fn unpack(words: &Words) -> Goals {
    Goals {
        numbers: unpack::unpack_replacement_number(words.number),
        necessary: unpack::unpack_necessary_tiles(&words.necessary),
        unnecessary: unpack::unpack_unnecessary_tiles(&words.unnecessary),
    }
}

fn words(value: &MapValue) -> Words {
    Words {
        number: value.replacement_number,
        necessary: value.necessary_tiles,
        unnecessary: value.unnecessary_tiles,
    }
}
