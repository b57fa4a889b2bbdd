//! The groups. They need no seed from outside: each run has the same hands.

use oracle::hand::Hand;
use oracle::make::questions::sorts::{parts, tiles};
use oracle::random::Random;

/// So many hands of a random group.
const MANY: usize = 200;

pub struct Named {
    pub name: &'static str,
    pub hands: Vec<Hand>,
}

pub fn groups() -> Vec<Named> {
    let mut random = Random::new(1);
    let random = &mut random;
    vec![
        of("random, 14 tiles, game 4", |_| {
            whole(tiles(random, 4, 14), 4)
        }),
        of("random, 14 tiles, game 3", |_| {
            whole(tiles(random, 3, 14), 3)
        }),
        of("parts of melds, 13 or 14, game 4", |at| {
            whole(parts(random, 4, 13 + at % 2), 4)
        }),
        of("parts of melds, 13 or 14, game 3", |at| {
            whole(parts(random, 3, 13 + at % 2), 3)
        }),
        of("few tiles, game 4", |at| few(random, at, 4)),
        of("few tiles, game 3", |at| few(random, at, 3)),
        empty("no tile, k 4, game 4", 4),
        empty("no tile, k 4, game 3", 3),
    ]
}

/// The hands of all groups.
pub fn all(groups: &[Named]) -> Vec<Hand> {
    let hands = groups.iter().flat_map(|group| &group.hands);
    hands.copied().collect()
}

fn of(name: &'static str, hand: impl FnMut(usize) -> Hand) -> Named {
    Named {
        name,
        hands: (0..MANY).map(hand).collect(),
    }
}

/// Four melds and a pair are wanted.
fn whole(counts: [u8; 34], game: u8) -> Hand {
    Hand { counts, k: 4, game }
}

/// As after three or four open melds: 4 or 5 tiles for one more, 1 or 2 for the pair.
fn few(random: &mut Random, at: usize, game: u8) -> Hand {
    let (held, k) = [(1, 0), (2, 0), (4, 1), (5, 1)][at % 4];
    Hand {
        counts: parts(random, game, held),
        k,
        game,
    }
}

fn empty(name: &'static str, game: u8) -> Named {
    Named {
        name,
        hands: vec![whole([0; 34], game)],
    }
}
