// SPDX-FileCopyrightText: 2024 Apricot S.
// SPDX-License-Identifier: MIT
// This file is part of https://github.com/Apricot-S/xiangting

// changed: the path says where the unchanged search stands.
#[path = "../verbatim/xtask/src/build_map/replacement_number.rs"]
mod replacement_number;
// changed: added, so that the search can be asked for one goal with nothing packed.
#[path = "../src/searched.rs"]
pub mod searched;

// changed: the imports of what writes the maps are gone (File, io, Path, process).

use xiangting::standard::core::{
    NecessaryTilesMapValue, ReplacementNumberMapValue, UnnecessaryTilesMapValue,
};
// changed: the imports of the hashes and the map sizes are gone.

use self::replacement_number::{
    get_19m_replacement_number, get_shupai_replacement_number, get_zipai_replacement_number,
};

const MAX_REPLACEMENT_NUMBER: u8 = 14;

// changed: `pub(crate)` on the struct and its fields; `Map` is gone.
#[derive(Default)]
pub(crate) struct MapValue {
    pub(crate) replacement_number: ReplacementNumberMapValue,
    pub(crate) necessary_tiles: NecessaryTilesMapValue,
    pub(crate) unnecessary_tiles: UnnecessaryTilesMapValue,
}

// changed: `pub(crate)`.
#[allow(clippy::too_many_lines)]
pub(crate) fn pack_values<const N: usize>(hand: &[u8; N]) -> MapValue {
    debug_assert!([9, 7, 2].contains(&N));

    let mut pack = MapValue::default();

    for num_pair in 0..=1 {
        for num_meld in 0..=4 {
            let (replacement_number, necessary_tiles, unnecessary_tiles) = match N {
                9 => {
                    let hand9 = hand.first_chunk::<9>().unwrap();
                    let mut initial_target_hand: [u8; 9] = [0u8; 9];
                    get_shupai_replacement_number(
                        hand9,
                        num_meld,
                        num_pair,
                        0,
                        0,
                        0,
                        &mut initial_target_hand,
                        MAX_REPLACEMENT_NUMBER,
                        0,
                        0,
                    )
                }
                7 => {
                    let hand7 = hand.first_chunk::<7>().unwrap();
                    let mut initial_target_hand: [u8; 7] = [0u8; 7];
                    get_zipai_replacement_number(
                        hand7,
                        num_meld,
                        num_pair,
                        0,
                        0,
                        0,
                        &mut initial_target_hand,
                        MAX_REPLACEMENT_NUMBER,
                        0,
                        0,
                    )
                }
                2 => {
                    let full_hand = [hand[0], 0, 0, 0, 0, 0, 0, 0, hand[1]];
                    let mut initial_target_hand: [u8; 9] = [0u8; 9];
                    get_19m_replacement_number(
                        &full_hand,
                        num_meld,
                        num_pair,
                        0,
                        0,
                        0,
                        &mut initial_target_hand,
                        MAX_REPLACEMENT_NUMBER,
                        0,
                        0,
                    )
                }
                _ => unreachable!(),
            };
            let replacement_number = u32::from(replacement_number);
            let necessary_tiles = u32::from(necessary_tiles);
            let unnecessary_tiles = u32::from(unnecessary_tiles);

            match (num_pair, num_meld) {
                (0, 0) => (),
                (0, 1) => pack.replacement_number |= replacement_number,
                (0, 2) => pack.replacement_number |= replacement_number << 2,
                (0, 3) => pack.replacement_number |= replacement_number << 5,
                (0, 4) => pack.replacement_number |= replacement_number << 9,
                (1, 0) => pack.replacement_number |= replacement_number << 13,
                (1, 1) => pack.replacement_number |= replacement_number << 15,
                (1, 2) => pack.replacement_number |= replacement_number << 18,
                (1, 3) => pack.replacement_number |= replacement_number << 22,
                (1, 4) => pack.replacement_number |= replacement_number << 26,
                _ => unreachable!(),
            }

            match (num_pair, num_meld) {
                (0, 0) => (),
                (0, 1) => pack.necessary_tiles[0] |= necessary_tiles,
                (0, 2) => pack.necessary_tiles[0] |= necessary_tiles << 9,
                (0, 3) => pack.necessary_tiles[0] |= necessary_tiles << (9 * 2),
                (0, 4) => pack.necessary_tiles[1] |= necessary_tiles,
                (1, 0) => pack.necessary_tiles[1] |= necessary_tiles << 9,
                (1, 1) => pack.necessary_tiles[1] |= necessary_tiles << (9 * 2),
                (1, 2) => pack.necessary_tiles[2] |= necessary_tiles,
                (1, 3) => pack.necessary_tiles[2] |= necessary_tiles << 9,
                (1, 4) => pack.necessary_tiles[2] |= necessary_tiles << (9 * 2),
                _ => unreachable!(),
            }

            match (num_pair, num_meld) {
                (0, 0) => pack.unnecessary_tiles[0] |= unnecessary_tiles,
                (0, 1) => pack.unnecessary_tiles[0] |= unnecessary_tiles << 9,
                (0, 2) => pack.unnecessary_tiles[0] |= unnecessary_tiles << (9 * 2),
                (0, 3) => {
                    pack.unnecessary_tiles[0] |= (unnecessary_tiles & 0x01F0) << (9 * 3 - 4);
                    pack.unnecessary_tiles[1] |= unnecessary_tiles & 0x0F;
                }
                (0, 4) => pack.unnecessary_tiles[1] |= unnecessary_tiles << 4,
                (1, 0) => pack.unnecessary_tiles[1] |= unnecessary_tiles << (4 + 9),
                (1, 1) => pack.unnecessary_tiles[1] |= unnecessary_tiles << (4 + 9 * 2),
                (1, 2) => pack.unnecessary_tiles[2] |= unnecessary_tiles,
                (1, 3) => pack.unnecessary_tiles[2] |= unnecessary_tiles << 9,
                (1, 4) => pack.unnecessary_tiles[2] |= unnecessary_tiles << (9 * 2),
                _ => unreachable!(),
            }
        }
    }

    pack
}

// changed: what follows `pack_values` (filling, dumping and timing the maps) is gone.
