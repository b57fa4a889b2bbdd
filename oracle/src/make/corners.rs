//! Hands at the edges of what is accepted, and hands that lie far out.

use crate::hand::Hand;
use crate::notation::counts;

const GAMES: [u8; 2] = [3, 4];
const NONE: [u8; 34] = [0; 34];

/// First and last index of m, p, s and z.
const SUIT_ENDS: [usize; 8] = [0, 8, 9, 17, 18, 26, 27, 33];

pub fn corners() -> Vec<Hand> {
    let mut hands = empty();
    hands.extend(wrong_games());
    hands.extend(wrong_melds());
    hands.extend(wrong_counts());
    hands.extend(totals());
    hands.extend(ranks_outside());
    hands.extend(faults_together());
    hands.extend(complete());
    hands.extend(four_of_a_kind());
    hands.extend(pairs());
    hands
}

fn hand(counts: [u8; 34], k: u8, game: u8) -> Hand {
    Hand { counts, k, game }
}

fn with(tile: usize, count: u8) -> [u8; 34] {
    let mut counts = NONE;
    counts[tile] = count;
    counts
}

/// Each of the counts with every k in both games.
fn everywhere(counts: &[[u8; 34]]) -> Vec<Hand> {
    let of = |&tiles: &[u8; 34]| GAMES.map(|game| [0, 1, 2, 3, 4].map(|k| hand(tiles, k, game)));
    counts.iter().flat_map(of).flatten().collect()
}

fn empty() -> Vec<Hand> {
    everywhere(&[NONE])
}

fn wrong_games() -> Vec<Hand> {
    [0, 1, 2, 5, 6, 19, 20, 35, 36, 127, 128, 131, 132, 255]
        .map(|game| hand(NONE, 0, game))
        .to_vec()
}

fn wrong_melds() -> Vec<Hand> {
    let of = |k| GAMES.map(|game| hand(NONE, k, game));
    [5, 6, 9, 127, 128, 255].into_iter().flat_map(of).collect()
}

/// A count of 4 is right, a greater one is not; 34 counts of 128 sum to 0 in a byte.
fn wrong_counts() -> Vec<Hand> {
    let of = |tile| [4, 5, 8, 64, 128, 255].map(|count| with(tile, count));
    let mut counts: Vec<_> = SUIT_ENDS.into_iter().flat_map(of).collect();
    counts.extend([5, 8, 128, 255].map(|count| [count; 34]));
    counts
        .iter()
        .flat_map(|&counts| GAMES.map(|game| hand(counts, 2, game)))
        .collect()
}

/// Totals 13, 14 and 15 in several shapes, and every tile of the wall.
fn totals() -> Vec<Hand> {
    let shapes = [
        "1111m2222p33334z",
        "1111m2222p333344z",
        "1111m2222p3333444z",
        "19m19p19s1234567z",
        "119m19p19s1234567z",
        "1199m19p19s1234567z",
        "1111222233334p",
        "11112222333344p",
        "111122223333444p",
        "123456789s12345p",
        "123456789s123456p",
    ];
    let mut hands = everywhere(&shapes.map(counts));
    hands.extend(everywhere(&[[1; 34], [4; 34]]));
    hands
}

/// In game 3 each of 1m to 9m held once and four times; 1m and 9m are accepted.
fn ranks_outside() -> Vec<Hand> {
    let of = |tile| [1, 4].map(|count| with(tile, count));
    let counts: Vec<_> = (0..9).flat_map(of).collect();
    let three = |counts: &[u8; 34]| [0, 4].map(|k| hand(*counts, k, 3));
    counts.iter().flat_map(three).collect()
}

/// Every choice of faults at once, so that the order of the tests shows.
fn faults_together() -> Vec<Hand> {
    let texts = ["1p", "11111p", "123456789s123456p", "123456789s111111p"];
    let mut hands = Vec::new();
    for text in texts {
        for inside in ["", "2m", "8m"] {
            let tiles = counts(&format!("{text}{inside}"));
            for k in [4, 9] {
                hands.extend([3, 4, 5].map(|game| hand(tiles, k, game)));
            }
        }
    }
    hands
}

pub(super) fn complete() -> Vec<Hand> {
    everywhere(&[
        counts("11z"),
        counts("999p11z"),
        counts("123p55577z"),
        counts("123p456s111999m22z"),
        counts("123p456p789p11199s"),
        counts("111222333p444s55z"),
        counts("11122233344455p"),
        counts("22334455667788s"),
        counts("11123456789999p"),
        counts("11133355577722z"),
    ])
}

/// Four each of three neighbouring kinds and two of the next, from every index on.
pub(super) fn four_of_a_kind() -> Vec<Hand> {
    let of = |first: usize| {
        let mut counts = NONE;
        for (kind, count) in [4, 4, 4, 2].into_iter().enumerate() {
            counts[(first + kind) % 34] = count;
        }
        GAMES.map(|game| hand(counts, 4, game))
    };
    (0..34).flat_map(of).collect()
}

/// Seven kinds twice each, at every distance from one another.
pub(super) fn pairs() -> Vec<Hand> {
    let of = |step: usize| {
        let mut counts = NONE;
        for pair in 0..7 {
            counts[(8 + step * pair) % 34] = 2;
        }
        GAMES.map(|game| hand(counts, 4, game))
    };
    (1..17).flat_map(of).collect()
}
