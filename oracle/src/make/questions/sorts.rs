//! Sorts of hands that are drawn: as they come in a game, finished or nearly so, and far
//! from it. All are accepted.

use crate::hand::Hand;
use crate::judge::{Board, HONOURS, RANKS};
use crate::make::deal::{deal, discard};
use crate::make::sorts::{
    board, complete, dealt, drifting, from_one_suit, kinds, loose, of, of_few_kinds, outer, pairs,
};
use crate::random::Random;

/// A hand of the game, of any sort.
pub fn any(random: &mut Random, game: u8) -> Hand {
    let board = board(game);
    let k = random.below(5);
    let counts = match random.below(20) {
        0..2 => dealt(random, board, k),
        2..4 => loose(random, board),
        4..7 => any_parts(random, game),
        7..10 => drifting(random, board, k),
        10 => complete(random, board, k),
        11 => finished_and_more(random, board, k),
        12..15 => idle(random, game, k),
        15 => from_one_suit(random, board),
        16 => of_few_kinds(random, board, 2),
        17 => copies(random, board),
        18 => pairs(random, board),
        _ => outer(random, board),
    };
    Hand {
        counts,
        k: k as u8,
        game,
    }
}

/// So many tiles of the game at random.
pub fn tiles(random: &mut Random, game: u8, tiles: usize) -> [u8; 34] {
    of(random, &kinds(board(game)), tiles)
}

/// So many tiles of the game in melds and parts of melds: a meld without one of its tiles is
/// two neighbours, two with a gap, or a pair, and without two of them a single tile.
pub fn parts(random: &mut Random, game: u8, tiles: usize) -> [u8; 34] {
    let melds = board(game).melds();
    let mut counts = [0; 34];
    let mut left = tiles;
    while left > 0 {
        let mut part = random.pick(&melds).to_vec();
        for _ in 0..random.below(3) {
            part.swap_remove(random.below(part.len()));
        }
        let mut more = counts;
        part.iter().for_each(|&kind| more[kind] += 1);
        if part.len() <= left && more.iter().all(|&count| count <= 4) {
            counts = more;
            left -= part.len();
        }
    }
    counts
}

fn any_parts(random: &mut Random, game: u8) -> [u8; 34] {
    let tiles = 1 + random.below(14);
    parts(random, game, tiles)
}

/// A target for k melds, and other tiles beside it: number 0 with tiles too many.
fn finished_and_more(random: &mut Random, board: &Board, k: usize) -> [u8; 34] {
    let mut counts = complete(random, board, k);
    let room = 14 - (3 * k + 2);
    let more = random.below(room + 1);
    deal(random, &kinds(board), more, &mut counts);
    counts
}

/// One suit holds a target, or all but a tile or two of it; the others, which need give
/// nothing to it, hold the rest of up to fourteen tiles.
fn idle(random: &mut Random, game: u8, k: usize) -> [u8; 34] {
    let places: &[usize] = if game == 3 {
        &[9, 18, 27]
    } else {
        &[0, 9, 18, 27]
    };
    let offset = *random.pick(places);
    let suit = if offset == 27 { &HONOURS } else { &RANKS };
    let own = offset..offset + suit.kinds;
    let mut target = complete(random, suit, k);
    let short = random.below(3);
    discard(random, short, &mut target);
    let mut counts = [0; 34];
    counts[own.clone()].copy_from_slice(&target[..suit.kinds]);
    let mut others = kinds(board(game));
    others.retain(|kind| !own.contains(kind));
    let held: u8 = counts.iter().sum();
    let more = random.below(15 - usize::from(held));
    deal(random, &others, more, &mut counts);
    counts
}

/// Kinds held three and four times, as many as there is room for, then other tiles.
fn copies(random: &mut Random, board: &Board) -> [u8; 34] {
    let kinds = kinds(board);
    let most = 3 + random.below(12);
    let mut counts = [0; 34];
    loop {
        let held = usize::from(counts.iter().sum::<u8>());
        let count = 3 + random.below(2);
        if held + count > most {
            deal(random, &kinds, most - held, &mut counts);
            return counts;
        }
        counts[*random.pick(&kinds)] = count as u8;
    }
}
