// SPDX-FileCopyrightText: 2024 Apricot S.
// SPDX-License-Identifier: MIT
// This file is part of https://github.com/Apricot-S/xiangting

use core::marker::PhantomData;

// changed: `use thiserror::Error;` is gone, there is no outside crate.

use crate::tile::{Tile, TileCounts};

const MAX_TILE_COPIES: u8 = 4;
const MAX_NUM_BINGPAI: u8 = 14;

pub(crate) trait PlayerRule {
    const IS_THREE_PLAYER: bool;

    fn validate(tile_counts: &TileCounts) -> Result<(), BingpaiError>;
}

pub(crate) enum FourPlayer {}

pub(crate) enum ThreePlayer {}

impl PlayerRule for FourPlayer {
    const IS_THREE_PLAYER: bool = false;

    #[inline]
    fn validate(_tile_counts: &TileCounts) -> Result<(), BingpaiError> {
        Ok(())
    }
}

impl PlayerRule for ThreePlayer {
    const IS_THREE_PLAYER: bool = true;

    #[inline]
    fn validate(tile_counts: &TileCounts) -> Result<(), BingpaiError> {
        if let Some(i) = tile_counts[1..=7].iter().position(|&count| count != 0) {
            let tile = Tile::try_from(i + 1).expect("three-player tile index must fit in u8");
            return Err(BingpaiError::InvalidTileForThreePlayer(tile));
        }

        Ok(())
    }
}

pub(crate) struct Bingpai<'a, R: PlayerRule> {
    tile_counts: &'a TileCounts,
    num_required_bingpai_mianzi: u8,
    rule: PhantomData<fn() -> R>,
}

/// Errors that occur when an invalid pure hand (純手牌) is provided.
// changed: no `Error` derived, and so no `#[error(..)]` text on the cases.
#[derive(Debug)]
pub enum BingpaiError {
    /// A specific tile count in the pure hand exceeds 4.
    TooManyCopies {
        /// The tile that appears too many times.
        tile: Tile,
        /// The actual number of copies found in the pure hand.
        count: u8,
    },
    /// Total tile count in the pure hand exceeds 14.
    TooManyTiles(u8),
    /// Total tile count in the pure hand is not of the form 3n+1 or 3n+2.
    InvalidTileCount(u8),
    /// The pure hand contains tiles that are not used in three-player mahjong (2m-8m).
    InvalidTileForThreePlayer(Tile),
}

fn validate_tile_counts(tile_counts: &TileCounts) -> Result<u8, BingpaiError> {
    tile_counts
        .iter()
        .enumerate()
        .find(|(_, c)| **c > MAX_TILE_COPIES)
        .map(|(i, &c)| BingpaiError::TooManyCopies {
            tile: Tile::try_from(i).expect("tile index must fit in u8"),
            count: c,
        })
        .map_or(Ok(()), Err)?;

    let num_bingpai: u8 = tile_counts.iter().sum();
    match num_bingpai {
        n if n > MAX_NUM_BINGPAI => Err(BingpaiError::TooManyTiles(n)),
        n if n % 3 == 0 => Err(BingpaiError::InvalidTileCount(n)),
        n => Ok(n),
    }
}

impl<'a, R: PlayerRule> Bingpai<'a, R> {
    pub(crate) fn new(tile_counts: &'a TileCounts) -> Result<Self, BingpaiError> {
        R::validate(tile_counts)?;
        let num_bingpai = validate_tile_counts(tile_counts)?;
        let num_required_bingpai_mianzi = num_bingpai / 3;

        Ok(Self {
            tile_counts,
            num_required_bingpai_mianzi,
            rule: PhantomData,
        })
    }

    // changed: added, because document 01 lets k be given and makes its own checks before.
    pub(crate) fn with_melds(tile_counts: &'a TileCounts, melds: u8) -> Self {
        Self {
            tile_counts,
            num_required_bingpai_mianzi: melds,
            rule: PhantomData,
        }
    }

    #[inline]
    #[must_use]
    pub(crate) fn tile_counts(&self) -> &'a TileCounts {
        self.tile_counts
    }

    #[inline]
    #[must_use]
    pub(crate) fn num_required_bingpai_mianzi(&self) -> u8 {
        self.num_required_bingpai_mianzi
    }
}
