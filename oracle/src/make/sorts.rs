//! Sorts of hands that are accepted: as they come in a game, and far from it.

use super::deal::{deal, discard};
use crate::hand::Hand;
use crate::judge::{Board, RANKS, WHOLE_FOUR, WHOLE_THREE};
use crate::random::Random;

/// A hand of the game that no refusal fits. Half are as in play; few have a k far above
/// their tiles, since these cost the judge most.
pub fn accepted(random: &mut Random, game: u8) -> Hand {
    let board = board(game);
    let k = random.below(5);
    let counts = match random.below(16) {
        0..4 => dealt(random, board, k),
        4..8 => drifting(random, board, k),
        8..10 => from_one_suit(random, board),
        10..12 => of_few_kinds(random, board, 2),
        12 => of_few_kinds(random, board, 5),
        13 => pairs(random, board),
        14 => outer(random, board),
        _ => loose(random, board),
    };
    Hand {
        counts,
        k: k as u8,
        game,
    }
}

/// Nine counts of one suit with a total of at most 14.
pub fn suit(random: &mut Random) -> [u8; 9] {
    let k = random.below(5);
    let counts = match random.below(8) {
        0..4 => loose(random, &RANKS),
        4..6 => drifting(random, &RANKS, k),
        _ => of_few_kinds(random, &RANKS, 3),
    };
    *counts.first_chunk().expect("nine of 34")
}

pub(super) fn board(game: u8) -> &'static Board {
    if game == 3 { &WHOLE_THREE } else { &WHOLE_FOUR }
}

pub(super) fn kinds(board: &Board) -> Vec<usize> {
    board.pairs().iter().map(|pair| pair[0]).collect()
}

pub(super) fn of(random: &mut Random, kinds: &[usize], tiles: usize) -> [u8; 34] {
    let mut counts = [0; 34];
    deal(random, kinds, tiles, &mut counts);
    counts
}

/// As many tiles as k asks for, before or after a draw.
pub(super) fn dealt(random: &mut Random, board: &Board, k: usize) -> [u8; 34] {
    let tiles = 3 * k + 1 + random.below(2);
    of(random, &kinds(board), tiles)
}

/// Any number of tiles, whatever k is.
pub(super) fn loose(random: &mut Random, board: &Board) -> [u8; 34] {
    let tiles = random.below(15);
    of(random, &kinds(board), tiles)
}

/// A complete hand with a few tiles changed, and half of the time one tile short.
pub(super) fn drifting(random: &mut Random, board: &Board, k: usize) -> [u8; 34] {
    let mut counts = complete(random, board, k);
    let changed = random.below(6).min(3 * k + 2);
    let short = random.below(2);
    discard(random, changed + short, &mut counts);
    deal(random, &kinds(board), changed, &mut counts);
    counts
}

/// Some target for k melds: chosen anew until no count is over 4.
pub(super) fn complete(random: &mut Random, board: &Board, k: usize) -> [u8; 34] {
    let (pairs, melds) = (board.pairs(), board.melds());
    loop {
        let mut counts = [0; 34];
        let pair = random.pick(&pairs).to_vec();
        let rest = (0..k).flat_map(|_| *random.pick(&melds));
        for kind in pair.into_iter().chain(rest) {
            counts[kind] += 1;
        }
        if counts.iter().all(|&count| count <= 4) {
            return counts;
        }
    }
}

/// Tiles of m, p, s or z alone.
pub(super) fn from_one_suit(random: &mut Random, board: &Board) -> [u8; 34] {
    let first = 9 * random.below(4);
    let suit = first..first + 9;
    let kinds: Vec<usize> = kinds(board)
        .into_iter()
        .filter(|kind| suit.contains(kind))
        .collect();
    let tiles = 1 + random.below(14);
    of(random, &kinds, tiles)
}

/// Tiles of a few kinds only, so that many are held three or four times.
pub(super) fn of_few_kinds(random: &mut Random, board: &Board, least: usize) -> [u8; 34] {
    let kinds = kinds(board);
    let mut few: Vec<usize> = (0..least + random.below(5))
        .map(|_| *random.pick(&kinds))
        .collect();
    few.sort_unstable();
    few.dedup();
    let tiles = 6 + random.below(9);
    of(random, &few, tiles)
}

/// Kinds held twice; one that was drawn again is held four times.
pub(super) fn pairs(random: &mut Random, board: &Board) -> [u8; 34] {
    let tiles = 1 + random.below(7);
    of(random, &kinds(board), tiles).map(|count| count.min(2) * 2)
}

/// Ones, nines and honours.
pub(super) fn outer(random: &mut Random, board: &Board) -> [u8; 34] {
    let mut kinds = kinds(board);
    kinds.retain(|&kind| kind >= 27 || kind % 9 % 8 == 0);
    let tiles = 9 + random.below(6);
    of(random, &kinds, tiles)
}
