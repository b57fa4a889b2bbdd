//! What is refused, one number after the other.

use super::GAMES;
use super::cases::{Case, in_both_games};
use super::lay::{NONE, fills, tiles, with};
use super::outside::outside;
use crate::hand::KINDS;
use crate::hand::question::MOST_COUNTS;
use crate::notation::counts;
use crate::refusal::Refusal;

/// Near 3 and 4, and those with one bit more.
const WRONG_GAMES: [u8; 14] = [0, 1, 2, 5, 6, 19, 20, 35, 36, 127, 128, 131, 132, 255];

/// By little, with one bit more than a right one, and so that a byte's sign would wrap.
const WRONG_MELDS: [u8; 7] = [5, 6, 9, 127, 128, 132, 255];

pub fn refused() -> Vec<Case> {
    let mut cases = wrong_games();
    cases.extend(wrong_melds());
    cases.extend(wrong_lengths());
    cases.extend(wrong_counts());
    cases.extend(two_wrong_counts());
    cases.extend(wrong_totals());
    cases.extend(outside_game_3());
    cases
}

/// 34 counts that are right in both games.
fn finished() -> [u8; 34] {
    counts("111m456p789s11122z")
}

/// With any k, right and wrong, and nothing held; and with a finished hand.
fn wrong_games() -> Vec<Case> {
    let mut cases = Vec::new();
    for game in WRONG_GAMES {
        let k = [0, 1, 2, 3, 4, 5, 9, 255];
        cases.extend(k.map(|k| Case::new(&NONE, k, game, Refusal::Game)));
        cases.push(Case::new(&finished(), 4, game, Refusal::Game));
    }
    cases
}

fn wrong_melds() -> Vec<Case> {
    let mut cases = Vec::new();
    for k in WRONG_MELDS {
        for counts in [NONE, finished()] {
            cases.extend(GAMES.map(|game| Case::new(&counts, k, game, Refusal::Melds)));
        }
    }
    cases
}

/// Every length but the right one, whatever the counts are; and a finished hand of which the
/// first or the last count is missing, or that has a zero too many.
fn wrong_lengths() -> Vec<Case> {
    let wrong = (0..=MOST_COUNTS).filter(|&length| length != KINDS);
    let filled = wrong.flat_map(|length| [0, 1, 4, 255].map(|count| vec![count; length]));
    let hand = finished();
    let near = [
        hand[1..].to_vec(),
        hand[..33].to_vec(),
        [&[0], &hand[..]].concat(),
        [&hand[..], &[0]].concat(),
    ];
    filled
        .chain(near)
        .flat_map(|counts| in_both_games(&counts, Refusal::Length))
        .collect()
}

/// A count over 4 at each of the tiles, and at all of them.
fn wrong_counts() -> Vec<Case> {
    let mut cases = Vec::new();
    for count in [5, 255] {
        for tile in 0..KINDS {
            let counts = with(&[(tile, count)]);
            cases.extend(in_both_games(&counts, Refusal::Copies(tile)));
        }
    }
    let all = [5, 8, 128, 255].map(|count| [count; KINDS]);
    cases.extend(
        all.iter()
            .flat_map(|counts| in_both_games(counts, Refusal::Copies(0))),
    );
    cases
}

/// At two places the lower one is told, whichever count is greater. The last two choices
/// sum to 0 in a byte.
fn two_wrong_counts() -> Vec<Case> {
    let places = [
        (0, 1),
        (0, 33),
        (1, 7),
        (8, 9),
        (17, 18),
        (26, 27),
        (32, 33),
    ];
    let mut cases = Vec::new();
    for (count, other) in [(5, 5), (5, 255), (255, 5), (128, 128), (255, 1)] {
        for (tile, second) in places {
            let counts = with(&[(tile, count), (second, other)]);
            cases.extend(in_both_games(&counts, Refusal::Copies(tile)));
        }
    }
    cases
}

/// Totals over 14, up to four of each tile of the game.
fn wrong_totals() -> Vec<Case> {
    let mut cases = Vec::new();
    for game in GAMES {
        let all = 4 * tiles(game).len();
        for total in [15, 16, 17, 20, 34, all - 1, all] {
            for counts in fills(game, total) {
                cases.extend([0, 4].map(|k| Case::new(&counts, k, game, Refusal::Total)));
            }
        }
    }
    cases
}

fn outside_game_3() -> Vec<Case> {
    let of = |(tile, counts): (usize, [u8; 34])| {
        [0, 4].map(|k| Case::new(&counts, k, 3, Refusal::Outside(tile)))
    };
    outside().into_iter().flat_map(of).collect()
}
