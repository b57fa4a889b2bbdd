//! Sets of tiles: their members, their order, and how they are shown.

use lastavon::{Answer, Tile, Tiles};

fn tile(index: usize) -> Tile {
    Tile::new(index).expect("one of the 34")
}

fn answered(held: &[(usize, u8)], k: u8, game: u8) -> Answer {
    let mut counts = [0; 34];
    for &(tile, count) in held {
        counts[tile] = count;
    }
    lastavon::answer(&counts, k, game).expect("a hand")
}

#[test]
fn tiles_are_shown_by_rank_and_suit() {
    let shown = |index| tile(index).to_string();
    assert_eq!([0, 8, 9, 17].map(shown), ["1m", "9m", "1p", "9p"]);
    assert_eq!([18, 26, 27, 33].map(shown), ["1s", "9s", "1z", "7z"]);
    assert_eq!(Tile::new(34), None);
}

#[test]
fn both_sets_may_hold_a_tile() {
    let answer = answered(&[(0, 1), (8, 1)], 0, 4);
    let both: Tiles = answer.necessary();
    assert_eq!(both, answer.unnecessary());
    assert_eq!(both.iter().collect::<Vec<_>>(), [tile(0), tile(8)]);
    assert_eq!(
        (both.len(), both.is_empty(), both.bits()),
        (2, false, 1 | 1 << 8)
    );
    assert!(both.contains(tile(8)) && !both.contains(tile(7)));
    assert_eq!(both.to_string(), "19m");
}

#[test]
fn a_set_counts_what_is_left() {
    let mut left = answered(&[], 0, 4).necessary().iter();
    assert_eq!((left.len(), left.next()), (34, Some(tile(0))));
    assert_eq!((left.len(), left.next()), (33, Some(tile(1))));
    assert_eq!((left.clone().last(), left.count()), (Some(tile(33)), 32));
}

#[test]
fn an_empty_set() {
    let finished = answered(&[(0, 3), (27, 2)], 1, 3);
    assert_eq!(finished.number(), 0);
    let none = finished.necessary();
    assert_eq!(
        (none.len(), none.is_empty(), none.to_string().as_str()),
        (0, true, "-")
    );
    assert_eq!(none.into_iter().next(), None);
}
