//! Hands of few tiles, made by rule and all accepted.

use super::GAMES;
use super::lay::{NONE, tiles, with};
use super::outside::outside;
use crate::hand::Hand;
use crate::standard::published;

pub fn few() -> Vec<Hand> {
    [empty(), single(), ends(), four_of_one(), middle_ranks()].concat()
}

/// With every k in both games.
fn empty() -> Vec<Hand> {
    GAMES
        .into_iter()
        .flat_map(|game| each_k(NONE, game))
        .collect()
}

fn each_k(counts: [u8; 34], game: u8) -> [Hand; 5] {
    [0, 1, 2, 3, 4].map(|k| Hand { counts, k, game })
}

/// Each tile alone, for a pair and for a meld and a pair.
fn single() -> Vec<Hand> {
    let of = |(game, tile)| {
        let counts = with(&[(tile, 1)]);
        [0, 1].map(|k| Hand { counts, k, game })
    };
    each_tile().flat_map(of).collect()
}

/// 1m and 9m held in all ways in game 3, with every k.
fn ends() -> Vec<Hand> {
    let of = |entry| {
        let suit = published::counts(entry);
        each_k(with(&[(0, suit[0]), (8, suit[8])]), 3)
    };
    (0..published::ENTRIES).flat_map(of).collect()
}

/// Each tile four times: more than any meld has.
fn four_of_one() -> Vec<Hand> {
    let of = |(game, tile)| Hand {
        counts: with(&[(tile, 4)]),
        k: 1,
        game,
    };
    each_tile().map(of).collect()
}

fn each_tile() -> impl Iterator<Item = (u8, usize)> {
    let of = |game| tiles(game).into_iter().map(move |tile| (game, tile));
    GAMES.into_iter().flat_map(of)
}

/// In game 4 what game 3 refuses.
fn middle_ranks() -> Vec<Hand> {
    let of = |(_, counts)| Hand {
        counts,
        k: 2,
        game: 4,
    };
    outside().into_iter().map(of).collect()
}
