//! Each refusal of a hand, with its code, its tile and its words.

use lastavon::{Refusal, Tile};

const NONE: [u8; 34] = [0; 34];

/// A hand with these counts at these tiles.
fn hand(held: &[(usize, u8)]) -> [u8; 34] {
    let mut counts = NONE;
    for &(tile, count) in held {
        counts[tile] = count;
    }
    counts
}

fn refused(counts: &[u8], k: u8, game: u8) -> (u8, Option<usize>, String) {
    let refusal = lastavon::answer(counts, k, game).expect_err("no hand");
    (
        refusal.code(),
        refusal.tile().map(Tile::index),
        refusal.to_string(),
    )
}

#[test]
fn without_a_tile() {
    let told = |code, words: &str| (code, None, words.to_string());
    assert_eq!(refused(&NONE, 4, 5), told(1, "the game is neither 3 nor 4"));
    assert_eq!(refused(&NONE, 5, 4), told(2, "k is over 4"));
    assert_eq!(
        refused(&NONE[..33], 4, 4),
        told(3, "there are not 34 counts")
    );
    assert_eq!(refused(&[], 4, 4), told(3, "there are not 34 counts"));
    let fifteen = hand(&[(0, 4), (9, 4), (18, 4), (27, 3)]);
    assert_eq!(
        refused(&fifteen, 4, 4),
        told(5, "more than 14 tiles are held")
    );
}

#[test]
fn with_the_lowest_tile() {
    let told = |code, index, words: &str| (code, Some(index), words.to_string());
    let over = hand(&[(33, 5), (30, 255)]);
    assert_eq!(
        refused(&over, 4, 4),
        told(4, 30, "more than four are held of tile 4z")
    );
    let barred = hand(&[(7, 1), (3, 1), (8, 1)]);
    assert_eq!(
        refused(&barred, 4, 3),
        told(6, 3, "tile 4m is not in the three-player game")
    );
    assert!(lastavon::answer(&barred, 4, 4).is_ok());
}

#[test]
fn the_first_of_several() {
    let spoiled = hand(&[(1, 5), (2, 200)]);
    assert_eq!(lastavon::answer(&spoiled, 9, 5), Err(Refusal::Game));
    assert_eq!(lastavon::answer(&spoiled, 9, 3), Err(Refusal::Goal));
    assert_eq!(lastavon::answer(&spoiled[..9], 4, 3), Err(Refusal::Length));
    assert_eq!(
        lastavon::answer(&spoiled, 4, 3),
        Err(Refusal::Count(Tile::new(1).unwrap()))
    );
}

#[test]
fn a_refusal_is_an_error() {
    let asked = || -> Result<u8, Box<dyn std::error::Error>> {
        Ok(lastavon::answer(&NONE, 4, 0)?.number())
    };
    assert_eq!(
        asked().unwrap_err().to_string(),
        "the game is neither 3 nor 4"
    );
}
